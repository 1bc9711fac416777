//! The decoder of confidences with one number for each place and loops that follow the rule step by step.

use super::codes::is_codeword;
use super::soft_cosets::{project, share};
use super::soft_leaf;
use crate::call::{check_decoding, Answer};
use crate::profiles::profile;

const GREATEST: i32 = 2_047;

/// What the reading at one depth keeps. Where it is accepted, the values are its word: -1 where a bit is 1, 0 elsewhere.
struct Level {
    values: [i32; 1024],
    sums: [i32; 1024],
}

pub struct SoftWorkspace {
    levels: Vec<Level>,
}

impl Default for SoftWorkspace {
    fn default() -> SoftWorkspace {
        let level = || Level { values: [0; 1024], sums: [0; 1024] };
        SoftWorkspace { levels: (0..11).map(|_| level()).collect() }
    }
}

/// Why a reading gives no word.
enum Failure {
    Tie,
    Zero(usize),
    NoCodeword,
    AboveLimit,
}

/// The limits and the count of one call.
struct Reader {
    round_limit: usize,
    leaf_limit: usize,
    leaves: usize,
    /// Whether the values that order 1 readings are made from have a 0: where none is, no projection has one.
    zeros: bool,
}

impl Reader {
    /// Reads the first level's values in place.
    fn reading(&mut self, m: usize, r: usize, levels: &mut [Level]) -> Result<(), Failure> {
        let values = &mut levels[0].values[..1 << m];
        match r {
            0 => order_zero(values),
            1 => self.order_one(values),
            _ => self.rounds(m, r, levels),
        }
    }

    /// Counted one by one, and stopped at the leaf limit.
    #[inline]
    fn order_one(&mut self, values: &mut [i32]) -> Result<(), Failure> {
        if self.leaves == self.leaf_limit {
            return Err(Failure::AboveLimit);
        }
        self.leaves += 1;
        if soft_leaf::nearest(values, self.zeros) {
            return Ok(());
        }
        Err(Failure::Tie)
    }

    fn rounds(&mut self, m: usize, r: usize, levels: &mut [Level]) -> Result<(), Failure> {
        let n = 1 << m;
        for _ in 0..self.round_limit {
            levels[0].sums[..n].fill(0);
            self.zeros = has_zero(&levels[0].values[..n]);
            let mut cast = false;
            for b in 1..n {
                cast |= self.direction(m, r, b, levels)?;
            }
            if cast {
                let Level { values, sums } = &mut levels[0];
                for (value, sum) in values[..n].iter_mut().zip(&*sums) {
                    *value = (*sum).clamp(-GREATEST, GREATEST);
                }
            }
        }
        ended(m, r, &mut levels[0].values[..n])
    }

    /// Reads one direction's projection and adds its shares; false where it abstained.
    fn direction(&mut self, m: usize, r: usize, b: usize, levels: &mut [Level]) -> Result<bool, Failure> {
        let (level, inner) = levels.split_first_mut().expect("a level for each order");
        let n = 1 << m;
        project(b, &level.values[..n], &mut inner[0].values[..n / 2]);
        match self.reading(m - 1, r - 1, inner) {
            Err(Failure::AboveLimit) => return Err(Failure::AboveLimit),
            Err(_) => return Ok(false),
            Ok(()) => {}
        }
        share(b, &inner[0].values[..n / 2], &level.values[..n], &mut level.sums[..n]);
        Ok(true)
    }
}

fn has_zero(values: &[i32]) -> bool {
    values.iter().fold(false, |any, value| any | (*value == 0))
}

fn order_zero(values: &mut [i32]) -> Result<(), Failure> {
    match values.iter().sum::<i32>() {
        0 => Err(Failure::Tie),
        sum => {
            values.fill(sum >> 31);
            Ok(())
        }
    }
}

/// The signs after the last round.
fn ended(m: usize, r: usize, values: &mut [i32]) -> Result<(), Failure> {
    if let Some(place) = values.iter().position(|value| *value == 0) {
        return Err(Failure::Zero(place));
    }
    let mut word = [0; 1024];
    let word = &mut word[..values.len()];
    for (bit, value) in word.iter_mut().zip(values) {
        *value >>= 31;
        *bit = *value as u8 & 1;
    }
    if is_codeword(m, r, word).rounds == 1 {
        return Ok(());
    }
    Err(Failure::NoCodeword)
}

/// Writes the word, and counts the places where it differs from the signs as received.
fn written(values: &[i16], word: &[i32], out: &mut [u8]) -> usize {
    let mut mended = 0;
    for ((value, sign), bit) in values.iter().zip(word).zip(out) {
        *bit = *sign as u8 & 1;
        mended += ((*value < 0) as u8 ^ *bit) as usize;
    }
    mended
}

/// Decodes confidences under these limits. There is no area, so 7 cannot occur.
pub fn decode_confidences(
    m: usize,
    r: usize,
    rounds: usize,
    leaves: usize,
    values: &[i16],
    out: &mut [u8],
    work: &mut SoftWorkspace,
) -> Answer {
    match check_decoding(m, r, rounds, leaves, values, out) {
        0 => {}
        refusal => return Answer::refused(refusal),
    }
    let outside = |value: &i16| value.unsigned_abs() > GREATEST as u16;
    if values.iter().fold(false, |any, value| any | outside(value)) {
        let place = values.iter().position(outside).unwrap_or(0);
        return Answer { place, ..Answer::refused(18) };
    }
    let zeros = values.iter().fold(false, |any, value| any | (*value == 0));
    for (to, from) in work.levels[0].values.iter_mut().zip(values) {
        *to = *from as i32;
    }
    let mut reader = Reader { round_limit: rounds, leaf_limit: leaves, leaves: 0, zeros };
    let reading = reader.reading(m, r, &mut work.levels);
    let counts = Answer { rounds: if r > 1 { rounds } else { 0 }, leaves: reader.leaves, ..Answer::default() };
    match reading {
        Ok(()) => Answer { mended: written(values, &work.levels[0].values, out), ..counts },
        Err(Failure::Tie) => Answer { refusal: 9, ..counts },
        Err(Failure::Zero(place)) => Answer { refusal: 17, place, ..counts },
        Err(Failure::NoCodeword) => Answer { refusal: 11, ..counts },
        Err(Failure::AboveLimit) => Answer { leaves, ..Answer::refused(12) },
    }
}

/// Decodes confidences under a profile.
pub fn decode_confidences_profile(number: usize, values: &[i16], out: &mut [u8], work: &mut SoftWorkspace) -> Answer {
    match profile(number) {
        None => Answer::refused(14),
        Some(p) => decode_confidences(p.m, p.r, p.rounds, p.leaves, values, out, work),
    }
}
