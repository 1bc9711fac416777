//! How near the leaf counts of the profiles come to their limits.

use check::blocks::noisy;
use check::call::Call;
use check::decoders::Faulty;
use check::random::Random;
use second::{profiles, Fault};

/// The greatest leaf count among blocks with half the places wrong.
fn most_leaves(number: usize, blocks: usize) -> usize {
    let p = profiles::profile(number).expect("a profile of the table");
    let (mut random, mut right) = (Random::new(number as u64), Faulty::new(Fault::None));
    let counts = (0..blocks).map(|_| {
        let word = noisy(&mut random, p.m, p.r, 1 << (p.m - 1));
        Call::decode_profile(number, &word).run(&mut right).answer.leaves as usize
    });
    counts.max().expect("some blocks")
}

/// All four rounds are made, so that no smaller limit would do.
#[test]
fn profiles_0_to_3_meet_their_limits() {
    for number in 0..=3 {
        assert_eq!(Some(most_leaves(number, 20)), profiles::profile(number).map(|p| p.leaves), "profile {number}");
    }
}
