//! A reading of confidences (document 02, request 2; the projection is source document 000's formula 9).

use crate::code;
use crate::direction::Numbering;
use crate::leaves::{AboveLimit, Leaves};
use crate::reading::Lists;
use crate::Fault;

/// "−2,047 to 2,047"
pub const GREATEST: i16 = 2_047;

/// Why a reading gives no codeword.
#[derive(Clone, PartialEq, Eq, Debug)]
pub enum Failure {
    /// 9
    Tie,
    /// 17, by the values after the last round.
    Zero(Vec<i16>),
    /// 11
    NoCodeword,
}

pub type Reading = Result<Vec<u8>, Failure>;

/// "positive meaning bit 0"; 0 gives bit 0, which is right only where the places mended are counted.
pub fn bit(value: i16) -> u8 {
    (value < 0) as u8
}

fn bits(values: &[i16]) -> Vec<u8> {
    values.iter().map(|value| bit(*value)).collect()
}

/// The sum over the places, negated where mask AND place has an odd number of ones.
fn correlation(signs: &[i16], values: &[i16]) -> i32 {
    signs.iter().zip(values).map(|(sign, value)| *sign as i32 * *value as i32).sum()
}

/// What stays the same in all readings of one call.
pub struct SoftReader<'a> {
    pub lists: &'a mut Lists,
    pub round_limit: usize,
    pub leaves: Leaves,
    pub fault: Fault,
}

impl SoftReader<'_> {
    /// `depth` is 0 for the reading asked for.
    pub fn reading(&mut self, m: usize, r: usize, values: &[i16], depth: usize) -> Result<Reading, AboveLimit> {
        match r {
            0 => Ok(self.order_zero(values)),
            1 => self.order_one(m, values),
            _ => self.order_two_and_above(m, r, values, depth),
        }
    }

    /// "Order 0 takes the sign of the sum, and sum 0 is a tie."
    fn order_zero(&self, values: &[i16]) -> Reading {
        let sum: i32 = values.iter().map(|value| *value as i32).sum();
        if sum == 0 && self.fault != Fault::SumZeroGivesZeros {
            return Err(Failure::Tie);
        }
        Ok(vec![(sum < 0) as u8; values.len()])
    }

    /// "Order 1 takes the mask of greatest absolute correlation, values in place of +1 and −1, and equal is a tie." Every mask is tried.
    fn order_one(&mut self, m: usize, values: &[i16]) -> Result<Reading, AboveLimit> {
        self.leaves.add(1)?;
        let signs = self.lists.signs(m);
        let correlations: Vec<i32> = signs.iter().map(|signs| correlation(signs, values)).collect();
        let greatest = correlations.iter().map(|c| c.abs()).max().unwrap();
        let masks: Vec<usize> = (0..correlations.len()).filter(|u| correlations[*u].abs() == greatest).collect();
        let tie = masks.len() > 1 && self.fault != Fault::LowerMaskOfValues;
        if tie {
            return Ok(Err(Failure::Tie));
        }
        let turned = (correlations[masks[0]] < 0) as u8;
        Ok(Ok(signs[masks[0]].iter().map(|sign| bit(*sign) ^ turned).collect()))
    }

    /// "From order 2 on exactly the round limit of rounds is made."
    fn order_two_and_above(&mut self, m: usize, r: usize, values: &[i16], depth: usize) -> Result<Reading, AboveLimit> {
        let mut values = values.to_vec();
        let rounds = if self.fault == Fault::OneInnerRound && depth > 0 { 1 } else { self.round_limit };
        for _ in 0..rounds {
            let new = self.round(m, r, &values, depth)?;
            if self.fault == Fault::StopsUnchanged && new == values {
                break;
            }
            values = new;
        }
        Ok(self.ended(r, values))
    }

    /// "Signs then give the word, which must be a codeword"; 17 is "tested before 11".
    fn ended(&self, r: usize, values: Vec<i16>) -> Reading {
        let word = bits(&values);
        let codeword = code::is_codeword(r, &word);
        if !codeword && self.fault == Fault::ElevenBefore17 {
            return Err(Failure::NoCodeword);
        }
        if values.contains(&0) {
            return Err(Failure::Zero(values));
        }
        if codeword || self.fault == Fault::SignsUntested {
            return Ok(word);
        }
        Err(Failure::NoCodeword)
    }

    /// The values after one round, all made from the old ones.
    fn round(&mut self, m: usize, r: usize, values: &[i16], depth: usize) -> Result<Vec<i16>, AboveLimit> {
        let directions = self.lists.cosets(m, Numbering::Highest);
        let mut old = values.to_vec();
        let mut sums = vec![0; values.len()];
        if self.fault == Fault::OwnValueAdded {
            sums = values.iter().map(|value| *value as i64).collect();
        }
        let mut cast = 0;
        for cosets in directions.iter() {
            let projected: Vec<i16> = cosets.iter().map(|(p, q)| self.joint(old[*p], old[*q])).collect();
            let reading = self.reading(m - 1, r - 1, &projected, depth + 1)?;
            let Some(decoded) = self.voted(reading, projected.len()) else {
                continue;
            };
            cast += 1;
            self.add(cosets, &projected, &decoded, &old, &mut sums);
            if self.fault == Fault::NewValuesSeen {
                old = self.ended_round(values, &sums);
            }
        }
        // "If all abstained, p keeps its value."
        if cast == 0 && self.fault != Fault::AllAbstainedGivesZeros {
            return Ok(values.to_vec());
        }
        Ok(self.ended_round(values, &sums))
    }

    /// "Projection takes the product of the signs and the smaller magnitude"
    fn joint(&self, x: i16, y: i16) -> i16 {
        let magnitude = match self.fault {
            Fault::GreaterMagnitude => x.abs().max(y.abs()),
            _ => x.abs().min(y.abs()),
        };
        x.signum() * y.signum() * magnitude
    }

    /// What a direction decoded; none where it abstained.
    fn voted(&self, reading: Reading, length: usize) -> Option<Vec<u8>> {
        match (reading, self.fault) {
            (Ok(decoded), _) => Some(decoded),
            (Err(Failure::Zero(values)), Fault::Inner17Votes) => Some(bits(&values)),
            (Err(_), Fault::AbstainerAddsValues) => Some(vec![0; length]),
            (Err(_), _) => None,
        }
    }

    /// "the old value at p XOR b, negated where the decoded bit of p's coset is 1"
    fn add(&self, cosets: &[(usize, usize)], projected: &[i16], decoded: &[u8], old: &[i16], sums: &mut [i64]) {
        for (number, (p, q)) in cosets.iter().enumerate() {
            let negated = match self.fault {
                Fault::NegatedWhereChanged => decoded[number] != bit(projected[number]),
                _ => decoded[number] == 1,
            };
            let sign = if negated { -1 } else { 1 };
            for (to, from) in [(*p, *q), (*q, *p)] {
                sums[to] += sign * old[from] as i64;
                if self.fault == Fault::CutWhileAdding {
                    sums[to] = sums[to].clamp(-2_047, 2_047);
                }
            }
        }
    }

    /// "cut to ±2,047"
    fn ended_round(&self, values: &[i16], sums: &[i64]) -> Vec<i16> {
        let least = if self.fault == Fault::CutTo2048 { -2_048 } else { -2_047 };
        let cut = |(value, sum): (&i16, &i64)| match self.fault {
            Fault::SumZeroKeepsValue if *sum == 0 => *value,
            _ => (*sum).clamp(least, 2_047) as i16,
        };
        values.iter().zip(sums).map(cut).collect()
    }
}
