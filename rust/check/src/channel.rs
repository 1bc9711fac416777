//! Confidences as a receiver gives them: a sent word through a noisy channel, in whole numbers alone, so that every machine draws the same.

use crate::random::Random;

const GREATEST: i64 = 2_047;

/// Near to normal around 0, with that deviation: the sum of twelve even draws from 0 to 65,535, whose deviation is 65,536, scaled.
fn noise(random: &mut Random, deviation: i64) -> i64 {
    let sum: i64 = (0..12).map(|_| random.below(1 << 16) as i64).sum();
    ((sum - 6 * 65_535) * deviation + 32_768) >> 16
}

/// Each place's amplitude, negative where its bit is 1, with noise, and cut to the range of confidences.
pub fn received(random: &mut Random, sent: &[u8], amplitude: i64, deviation: i64) -> Vec<i16> {
    let mut value = |bit: &u8| {
        let clean = if *bit == 1 { -amplitude } else { amplitude };
        (clean + noise(random, deviation)).clamp(-GREATEST, GREATEST) as i16
    };
    sent.iter().map(&mut value).collect()
}

/// The signs as bits; 0 is bit 0.
pub fn signs(values: &[i16]) -> Vec<u8> {
    values.iter().map(|value| (*value < 0) as u8).collect()
}

/// "adding a codeword means negating the values where it is 1"
pub fn plus(values: &[i16], codeword: &[u8]) -> Vec<i16> {
    values.iter().zip(codeword).map(|(value, bit)| if *bit == 1 { -value } else { *value }).collect()
}
