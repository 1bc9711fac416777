//! Demand 3: two blocks that differ by a codeword get the same refusal, or words that differ by it, and equal counts.

use crate::blocks::{codeword, noisy, MOST_LEAVES};
use crate::call::{digits, Call, Effects};
use crate::compare::{Comparison, Disagreement};
use crate::random::Random;
use second::{code, profiles};

/// A call with another word and a longer area.
fn with_word(call: &Call, other: Vec<u8>) -> Call {
    let mut call = call.clone();
    match &mut call {
        Call::Decode { word, area, .. }
        | Call::DecodeProfile { word, area, .. }
        | Call::DecodeTable { word, area, .. }
        | Call::DecodeArray { word, area, .. } => {
            *word = other;
            *area += 3;
        }
        _ => panic!("no decoding: {call}"),
    }
    call
}

fn alike(a: &Effects, b: &Effects, codeword: &[u8]) -> bool {
    let (Some(out_a), Some(out_b)) = (&a.out, &b.out) else {
        return false;
    };
    a.answer == b.answer && (a.answer.refusal != 0 || code::sum(out_a, codeword) == *out_b)
}

/// Both calls on the candidate alone.
pub fn pair(c: &mut Comparison, call: &Call, codeword: &[u8]) -> Result<(), Disagreement> {
    let other = with_word(call, code::sum(call.input(), codeword));
    let (a, b) = (call.run(c.candidate), other.run(c.candidate));
    c.pairs += 1;
    if alike(&a, &b, codeword) {
        return Ok(());
    }
    let text = format!("not alike: {call}\n  with {}\n  {:?}\n  {:?}", digits(codeword), a.answer, b.answer);
    Err(Disagreement(text))
}

/// Pairs at one exponent and order; some limits lie outside their ranges.
pub fn sampled(c: &mut Comparison, seed: u64, m: usize, r: usize, pairs: usize) -> Result<(), Disagreement> {
    let mut random = Random::new(seed);
    for _ in 0..pairs {
        let wrong = random.below((1 << (m - 1)) + 1);
        let word = noisy(&mut random, m, r, wrong);
        let added = codeword(&mut random, m, r);
        let rounds = random.one_of(&[1, 1, 2, 2, 3, 4, 4, 4, 16, 0, 17]);
        let leaves = random.one_of(&[MOST_LEAVES, MOST_LEAVES, 1, 7, 15, 30, 63, 200, 1_395, 0, 1_000_001]);
        pair(c, &Call::decode(m, r, rounds, leaves, &word), &added)?;
    }
    Ok(())
}

pub fn by_profile(c: &mut Comparison, seed: u64, number: usize, pairs: usize) -> Result<(), Disagreement> {
    let mut random = Random::new(seed);
    let profile = profiles::profile(number).expect("a profile of the table");
    for _ in 0..pairs {
        let wrong = random.below((1 << (profile.m - 1)) + 1);
        let word = noisy(&mut random, profile.m, profile.r, wrong);
        let added = codeword(&mut random, profile.m, profile.r);
        pair(c, &Call::decode_profile(number, &word), &added)?;
    }
    Ok(())
}
