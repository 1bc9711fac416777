//! Races of decoding confidences by profile.

use crate::area::Area;
use crate::decoding::library;
use crate::decoding::opponent;
use crate::race::{race, Runner};
use check::blocks::codeword;
use check::channel::{plus, received};
use check::random::Random;
use opponent::{plain, profile, Profile};

#[derive(Clone, Copy)]
enum Noise {
    None,
    /// A channel that turns about half the distance of signs.
    HalfDistance,
    /// Nothing of the codeword is left.
    Small,
}

/// What the blocks of a race are, by name.
const KINDS: [(&str, Noise); 3] =
    [("clean, 1,000", Noise::None), ("half the distance", Noise::HalfDistance), ("-3 to 3", Noise::Small)];

/// The noise's deviation, at amplitude 600, that turns 1 sign in 2^(r + 1): half the distance of the places of an order r.
const DEVIATIONS: [i64; 4] = [0, 890, 522, 391];

fn block(random: &mut Random, p: Profile, noise: Noise) -> Vec<i16> {
    let sent = codeword(random, p.m, p.r);
    match noise {
        Noise::None => plus(&vec![1_000; 1 << p.m], &sent),
        Noise::HalfDistance => received(random, &sent, 600, DEVIATIONS[p.r]),
        Noise::Small => sent.iter().map(|_| random.below(7) as i16 - 3).collect(),
    }
}

fn races_of(number: usize) -> Result<(), String> {
    let p = profile(number).expect("a profile of the table");
    let mut random = Random::new(600 + number as u64);
    KINDS.into_iter().try_for_each(|(kind, noise)| {
        let count = if number == 4 { 2 } else { 64 };
        let blocks: Vec<Vec<i16>> = (0..count).map(|_| block(&mut random, p, noise)).collect();
        let mut work = plain::SoftWorkspace::default();
        let mut area = Area::new(p.m);
        let area = area.numbers();
        let runners: Vec<Box<dyn Runner<i16> + '_>> = vec![
            library("library", p.m, |values, out| calls::decode_confidences_profile(number, values, out, area)),
            opponent("plain", p.m, |values, out| plain::decode_confidences_profile(number, values, out, &mut work)),
        ];
        race(&format!("confidences, profile {number}, {kind}"), runners, &blocks)
    })
}

pub fn races() -> Result<(), String> {
    (0..5).try_for_each(races_of)
}
