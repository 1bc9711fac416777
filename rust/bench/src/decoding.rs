//! Races of decoding by profile.

use crate::area::Area;
use crate::race::{race, Given, Runner};
use check::random::Random;
use opponent::{plain, profile, Profile, Workspace};

/// A function that decodes a block into a buffer; its answer is read after the clock.
struct Decoding<F, A> {
    name: &'static str,
    decode: F,
    out: Vec<u8>,
    answer: A,
    read: fn(A) -> (u64, u64, u64),
}

impl<T, A: Copy, F: FnMut(&[T], &mut [u8]) -> A> Runner<T> for Decoding<F, A> {
    fn name(&self) -> &'static str {
        self.name
    }

    fn run(&mut self, block: &[T]) {
        self.answer = (self.decode)(block, &mut self.out);
    }

    /// A refusal leaves the output of an earlier block.
    fn given(&self) -> Given {
        let (refusal, rounds, leaves) = (self.read)(self.answer);
        (refusal, rounds, leaves, if refusal == 0 { self.out.clone() } else { Vec::new() })
    }
}

pub fn library<'a, T: 'a>(
    name: &'static str,
    m: usize,
    decode: impl FnMut(&[T], &mut [u8]) -> calls::Answer + 'a,
) -> Box<dyn Runner<T> + 'a> {
    let read = |a: calls::Answer| (a.refusal as u64, a.rounds as u64, a.leaves as u64);
    Box::new(Decoding { name, decode, out: vec![0; 1 << m], answer: calls::Answer::default(), read })
}

pub fn opponent<'a, T: 'a>(
    name: &'static str,
    m: usize,
    decode: impl FnMut(&[T], &mut [u8]) -> opponent::Answer + 'a,
) -> Box<dyn Runner<T> + 'a> {
    let read = |a: opponent::Answer| (a.refusal as u64, a.rounds as u64, a.leaves as u64);
    Box::new(Decoding { name, decode, out: vec![0; 1 << m], answer: opponent::Answer::default(), read })
}

#[derive(Clone, Copy)]
enum Noise {
    None,
    /// Just under half the distance.
    HalfDistance,
    /// Half the places hold bits by chance.
    HalfRandom,
}

/// What the blocks of a race are, by name.
const KINDS: [(&str, Noise); 3] =
    [("clean", Noise::None), ("half the distance", Noise::HalfDistance), ("half random", Noise::HalfRandom)];

fn block(random: &mut Random, p: Profile, noise: Noise) -> Vec<u8> {
    let n = 1 << p.m;
    let word = check::blocks::codeword(random, p.m, p.r);
    let noise = match noise {
        Noise::None => vec![0; n],
        Noise::HalfDistance => random.noise(n, (1 << (p.m - p.r)) / 2 - 1),
        Noise::HalfRandom => random.noise(n, n / 2).iter().map(|place| place * random.below(2) as u8).collect(),
    };
    word.iter().zip(noise).map(|(a, b)| a ^ b).collect()
}

/// The blocks of one race, and what they are raced under.
pub struct Race {
    number: usize,
    profile: Profile,
    kind: &'static str,
    pub blocks: Vec<Vec<u8>>,
}

/// Each profile with each kind of blocks.
pub const RACES: usize = 5 * KINDS.len();

impl Race {
    pub fn new(index: usize) -> Race {
        let (number, (kind, noise)) = (index / KINDS.len(), KINDS[index % KINDS.len()]);
        let profile = profile(number).expect("a profile of the table");
        let mut random = Random::new(100 + number as u64);
        let blocks = if number == 4 { 4 } else { 64 };
        let blocks = (0..blocks).map(|_| block(&mut random, profile, noise)).collect();
        Race { number, profile, kind, blocks }
    }

    pub fn title(&self) -> String {
        format!("profile {} (m {}, r {}), {}", self.number, self.profile.m, self.profile.r, self.kind)
    }

    /// Hands over the runners, the library first.
    pub fn with_runners<T>(&self, then: impl FnOnce(Vec<Box<dyn Runner + '_>>) -> T) -> T {
        let (number, m) = (self.number, self.profile.m);
        let mut area = Area::new(m);
        let area = area.numbers();
        let (mut plain_work, mut packed_work) = (plain::Workspace::default(), Workspace::default());
        then(vec![
            library("library", m, |word, out| calls::decode_profile(number, word, out, area)),
            opponent("plain", m, |word, out| plain::decode_profile(number, word, out, &mut plain_work)),
            opponent("packed", m, |word, out| opponent::decode_profile(number, word, out, &mut packed_work)),
        ])
    }

    /// The gateway's call, which has working numbers of its own, and the library's, which is lent as many as the profile needs.
    fn with_gateway<T>(&self, then: impl FnOnce(Vec<Box<dyn Runner + '_>>) -> T) -> T {
        let (number, m) = (self.number, self.profile.m);
        let mut area = Area::new(m);
        let area = area.numbers();
        then(vec![
            library("gateway", m, |word, out| calls::Answer::unpacked(gateway::decode(number, word, out))),
            library("library", m, |word, out| calls::decode_profile(number, word, out, area)),
        ])
    }
}

pub fn gateway_races() -> Result<(), String> {
    (0..RACES).map(Race::new).try_for_each(|r| r.with_gateway(|runners| race(&r.title(), runners, &r.blocks)))
}

pub fn races() -> Result<(), String> {
    (0..RACES).map(Race::new).try_for_each(|r| r.with_runners(|runners| race(&r.title(), runners, &r.blocks)))
}
