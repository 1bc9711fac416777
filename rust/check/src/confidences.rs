//! Confidences (document 02, requests 2 and 3): small codes whole, larger ones by chance, bad arguments, and blocks that differ by a codeword.

use crate::bad_calls::Chooser;
use crate::blocks::{codeword, MOST_LEAVES};
use crate::call::{digits, Call, Effects};
use crate::channel::{plus, received};
use crate::compare::{met_just, Comparison, Disagreement, REFUSALS};
use crate::random::Random;
use second::{code, profiles};

const ROUND_LIMITS: [usize; 4] = [1, 2, 4, 16];

/// What the values of a block are like.
#[derive(Clone, Copy, Debug)]
pub enum Kind {
    /// A codeword, every place 1,000.
    Clean,
    /// A codeword through a channel of any noise.
    Noisy,
    /// Anything in the range.
    Even,
    /// -3 to 3.
    Small,
    /// A codeword with wrong places, all near the ends of the range or half of it, so that sums are cut and new values are equal.
    Strong,
    /// A codeword with silent places.
    Silent,
}

const KINDS: [Kind; 6] = [Kind::Clean, Kind::Noisy, Kind::Even, Kind::Small, Kind::Strong, Kind::Silent];

pub fn values(random: &mut Random, kind: Kind, m: usize, r: usize) -> Vec<i16> {
    let sent = codeword(random, m, r);
    let mut each = |value: fn(&mut Random) -> i16| (0..1 << m).map(|_| value(random)).collect::<Vec<i16>>();
    match kind {
        Kind::Clean => plus(&vec![1_000; 1 << m], &sent),
        Kind::Even => each(|random| random.below(4_095) as i16 - 2_047),
        Kind::Small => each(|random| random.below(7) as i16 - 3),
        Kind::Strong => {
            plus(&each(|random| random.one_of(&[2_047, 2_047, 2_046, 1_024, 1_023, -1_023, -2_046])), &sent)
        }
        Kind::Silent => plus(&each(|random| random.one_of(&[0, 1_000, 1_000, 999])), &sent),
        Kind::Noisy => {
            let deviation = 100 + random.below(900) as i64;
            received(random, &sent, 600, deviation)
        }
    }
}

/// The full leaf count, which all blocks of a code have: rounds^(r − 1) × the product of 2^j − 1 for j from m down to m − r + 2.
fn full_count(m: usize, r: usize, rounds: usize) -> u128 {
    (2..=r).map(|i| rounds as u128 * ((1 << (m - r + i)) - 1)).product::<u128>() * (r > 0) as u128
}

/// Whether the second decoder makes a whole reading in well under a second: every leaf tries each of its masks on each of its places.
fn is_quick(m: usize, r: usize, rounds: usize) -> bool {
    let leaf = 64 + (1 << (2 * (m + 1 - r.clamp(1, m))));
    full_count(m, r, rounds) * leaf <= if r <= 2 { 270_000_000 } else { 9_000_000 }
}

/// The calls, and the answers that they met.
struct Soft<'a, 'b> {
    c: &'a mut Comparison<'b>,
    random: Random,
    met: [u64; REFUSALS],
}

impl<'a, 'b> Soft<'a, 'b> {
    fn new(c: &'a mut Comparison<'b>, seed: u64) -> Soft<'a, 'b> {
        Soft { c, random: Random::new(seed), met: [0; REFUSALS] }
    }

    fn call(&mut self, call: &Call) -> Result<Effects, Disagreement> {
        let effects = self.c.call(call)?;
        self.met[effects.answer.refusal as usize] += 1;
        Ok(effects)
    }

    /// One block under the greatest leaf limit, in an area as long as needed or longer, then with the limit at, above and below its count.
    fn block(&mut self, m: usize, r: usize, rounds: usize, values: &[i16]) -> Result<(), Disagreement> {
        let area = (8 << m) + self.random.one_of(&[0, 0, 1, 5, 300]);
        let count = full_count(m, r, rounds) as usize;
        for leaves in [MOST_LEAVES, count, count + 1, count.saturating_sub(1)] {
            let effects = self.call(&Call::decode_confidences(m, r, rounds, leaves, values).with_area(area))?;
            let counted = matches!(effects.answer.refusal, 0 | 9 | 11 | 17);
            if counted && effects.answer.leaves != count as u64 {
                return Err(Disagreement(format!("m {m} r {r} rounds {rounds}: {count} is not the full leaf count")));
            }
        }
        Ok(())
    }

    /// Every block with values up to that size, under every order.
    fn every(&mut self, m: usize, size: i16) -> Result<(), Disagreement> {
        let (n, choices) = (1 << m, 2 * size as usize + 1);
        for r in 0..=m {
            for number in 0..choices.pow(n) {
                let digit = |p: u32| (number / choices.pow(p) % choices) as i16 - size;
                let values: Vec<i16> = (0..n).map(digit).collect();
                for rounds in ROUND_LIMITS {
                    self.block(m, r, rounds, &values)?;
                }
            }
        }
        Ok(())
    }

    /// So many blocks of each kind; where a whole reading takes long, under leaf limits that are soon passed.
    fn sampled(&mut self, m: usize, r: usize, times: usize) -> Result<(), Disagreement> {
        for (i, kind) in (0..times).flat_map(|i| KINDS.map(|kind| (i, kind))) {
            let values = values(&mut self.random, kind, m, r);
            let rounds = ROUND_LIMITS[i % ROUND_LIMITS.len()];
            if is_quick(m, r, rounds) {
                self.block(m, r, rounds, &values)?;
            } else {
                let leaves = self.random.one_of(&[1, 200, 0, MOST_LEAVES + 1]);
                self.call(&Call::decode_confidences(m, r, rounds, leaves, &values))?;
            }
        }
        Ok(())
    }

    fn by_profile(&mut self, number: usize, times: usize) -> Result<(), Disagreement> {
        let p = profiles::profile(number).expect("a profile of the table");
        for (_, kind) in (0..times).flat_map(|i| KINDS.map(|kind| (i, kind))) {
            let values = values(&mut self.random, kind, p.m, p.r);
            let area = (8 << p.m) + self.random.below(4);
            let effects = self.call(&Call::decode_confidences_profile(number, &values).with_area(area))?;
            if effects.answer.refusal == 12 || effects.answer.leaves != p.leaves as u64 {
                return Err(Disagreement(format!("profile {number} does not just meet its leaf limit")));
            }
        }
        Ok(())
    }

    /// Values outside the range at the first, the last and several places; and none outside, at the range's ends.
    fn ranges(&mut self, m: usize) -> Result<(), Disagreement> {
        let n = 1usize << m;
        let numbers: Vec<usize> =
            (0..5).filter(|number| profiles::profile(*number).is_some_and(|p| p.m == m)).collect();
        for outside in [2_047, -2_047, 2_048, -2_048, 4_095, 32_767, -32_767, -32_768] {
            for places in
                [vec![0], vec![n - 1], vec![0, n - 1], vec![n / 2, n - 1], vec![n / 3, n / 2], (0..n).collect()]
            {
                let mut values = values(&mut self.random, Kind::Even, m, 1);
                places.iter().for_each(|place| values[*place] = outside);
                for r in [0, 1, m] {
                    self.call(&Call::decode_confidences(m, r, 1, 1, &values))?;
                }
                if outside.unsigned_abs() > 2_047 {
                    for number in &numbers {
                        self.call(&Call::decode_confidences_profile(*number, &values))?;
                    }
                }
            }
        }
        Ok(())
    }

    /// Lengths that are one off, alone and with all that is checked after them.
    fn lengths(&mut self, m: usize) -> Result<(), Disagreement> {
        let n = 1 << m;
        for off in [0, n - 1, n + 1, 2 * n] {
            for area in [0, 8 * n - 1, 8 * n] {
                for (length, out) in [(off, n), (off, off), (n, off), (n, n)] {
                    for value in [0, -2_048] {
                        let values = vec![value; length];
                        self.call(&Call::DecodeConfidences { m, r: m, rounds: 1, leaves: 1, values, out, area })?;
                    }
                }
            }
        }
        Ok(())
    }

    fn bad(&mut self, seed: u64, calls: usize) -> Result<(), Disagreement> {
        for rarity in [3, 8] {
            let mut chooser = Chooser { random: Random::new(seed + rarity as u64), rarity };
            for i in 0..calls {
                let call = if i % 4 == 3 { chooser.soft_profile_call() } else { chooser.soft_call() };
                self.call(&call)?;
            }
        }
        Ok(())
    }

    /// Pairs at one exponent and order, of each kind; some limits lie outside their ranges, and some values.
    fn pairs(&mut self, m: usize, r: usize, times: usize) -> Result<(), Disagreement> {
        for (_, kind) in (0..times).flat_map(|i| KINDS.map(|kind| (i, kind))) {
            let mut values = values(&mut self.random, kind, m, r);
            if self.random.once_in(20) {
                values[self.random.below(1 << m)] = self.random.one_of(&[2_048, -2_048, 32_767, -32_767]);
            }
            let rounds = self.random.one_of(&[1, 1, 2, 2, 4, 4, 4, 16, 0, 17]);
            let many = if is_quick(m, r, rounds) { MOST_LEAVES } else { 300 };
            let leaves = self.random.one_of(&[many, many, many, many, 1, 7, 30, 0, 1_000_001]);
            let added = codeword(&mut self.random, m, r);
            pair(self.c, &Call::decode_confidences(m, r, rounds, leaves, &values), &added)?;
        }
        Ok(())
    }

    fn pairs_by_profile(&mut self, number: usize, times: usize) -> Result<(), Disagreement> {
        let p = profiles::profile(number).expect("a profile of the table");
        for (_, kind) in (0..times).flat_map(|i| KINDS.map(|kind| (i, kind))) {
            let values = values(&mut self.random, kind, p.m, p.r);
            let added = codeword(&mut self.random, p.m, p.r);
            pair(self.c, &Call::decode_confidences_profile(number, &values), &added)?;
        }
        Ok(())
    }
}

/// The same call with the values negated where a codeword is 1, and a longer area.
fn negated(call: &Call, codeword: &[u8]) -> Call {
    let mut other = call.clone();
    match &mut other {
        Call::DecodeConfidences { values, area, .. } | Call::DecodeConfidencesProfile { values, area, .. } => {
            *values = plus(values, codeword);
            *area += 3;
        }
        _ => panic!("no call on confidences: {call}"),
    }
    other
}

/// "the same likeness of answers"; mended places are equal "where none is 0".
fn alike(a: &Effects, b: &Effects, values: &[i16], codeword: &[u8]) -> bool {
    let (Some(out_a), Some(out_b)) = (&a.out, &b.out) else {
        return false;
    };
    let numbers = |e: &Effects| (e.answer.refusal, e.answer.rounds, e.answer.leaves, e.answer.place);
    let mended = values.contains(&0) || a.answer.mended == b.answer.mended;
    numbers(a) == numbers(b) && mended && (a.answer.refusal != 0 || code::sum(out_a, codeword) == *out_b)
}

/// Both calls on the candidate alone.
pub fn pair(c: &mut Comparison, call: &Call, codeword: &[u8]) -> Result<(), Disagreement> {
    let (a, b) = (call.run(c.candidate), negated(call, codeword).run(c.candidate));
    c.pairs += 1;
    if alike(&a, &b, call.values(), codeword) {
        return Ok(());
    }
    let text = format!("not alike: {call}\n  with {}\n  {:?}\n  {:?}", digits(codeword), a.answer, b.answer);
    Err(Disagreement(text))
}

/// The answers that calls on confidences can have; 10 and 8 are none of them.
const DUE: [usize; 14] = [0, 1, 2, 3, 4, 5, 6, 7, 9, 11, 12, 14, 17, 18];

/// A sum that is cut only when it is finished: document 02's rule against one that cuts after each addition.
fn telling(soft: &mut Soft) -> Result<(), Disagreement> {
    let mut values = vec![1_300; 16];
    (values[14], values[15]) = (-1_200, -1_200);
    soft.block(4, 2, 1, &values)
}

/// Few blocks that still show every fault.
pub fn directed(c: &mut Comparison, seed: u64) -> Result<(), Disagreement> {
    let mut soft = Soft::new(c, seed);
    telling(&mut soft)?;
    soft.every(1, 2)?;
    soft.every(2, 1)?;
    for (m, r) in [(2, 2), (3, 2), (3, 3), (4, 2), (4, 3), (5, 2)] {
        soft.sampled(m, r, 12)?;
        soft.pairs(m, r, 4)?;
    }
    soft.by_profile(0, 2)?;
    soft.by_profile(1, 1)?;
    soft.ranges(2)?;
    soft.lengths(2)?;
    soft.bad(seed, 400)?;
    met_just("calls on confidences", &soft.met, &DUE)
}

/// Small codes: m 1 and 2 whole with values to 2, m 3 by chance.
pub fn small(c: &mut Comparison, seed: u64) -> Result<(), Disagreement> {
    let mut soft = Soft::new(c, seed);
    soft.every(1, 5)?;
    soft.every(2, 2)?;
    (0..=3).try_for_each(|r| soft.sampled(3, r, 400))?;
    met_just("small blocks of confidences", &soft.met, &[0, 4, 9, 11, 12, 17])
}

/// Every exponent and order.
pub fn large(c: &mut Comparison, seed: u64) -> Result<(), Disagreement> {
    let mut soft = Soft::new(c, seed);
    for m in 4..=10 {
        for r in 0..=m {
            let times = match m {
                4..=5 => 16,
                6..=7 => 8,
                _ => 4,
            };
            soft.sampled(m, r, times)?;
        }
    }
    met_just("larger blocks of confidences", &soft.met, &[0, 4, 9, 11, 12, 17])
}

pub fn profile_blocks(c: &mut Comparison, seed: u64) -> Result<(), Disagreement> {
    let mut soft = Soft::new(c, seed);
    for (number, times) in [500, 100, 50, 15].into_iter().enumerate() {
        soft.by_profile(number, times)?;
    }
    met_just("confidences by profile", &soft.met, &[0, 9, 11, 17])
}

/// Profile 4 alone: a block takes the second decoder about a second.
pub fn slow_profile_blocks(c: &mut Comparison, seed: u64) -> Result<(), Disagreement> {
    Soft::new(c, seed).by_profile(4, 1)
}

/// Arguments outside their ranges, alone and together.
pub fn bad(c: &mut Comparison, seed: u64, calls: usize) -> Result<(), Disagreement> {
    let mut soft = Soft::new(c, seed);
    (1..=10).try_for_each(|m| soft.ranges(m))?;
    (1..=10).try_for_each(|m| soft.lengths(m))?;
    soft.bad(seed, calls)?;
    met_just("bad calls on confidences", &soft.met, &DUE)
}

/// Pairs at one exponent and order, so many of each kind.
pub fn sampled_pairs(c: &mut Comparison, seed: u64, m: usize, r: usize, times: usize) -> Result<(), Disagreement> {
    Soft::new(c, seed).pairs(m, r, times)
}

pub fn pairs(c: &mut Comparison, seed: u64) -> Result<(), Disagreement> {
    let mut soft = Soft::new(c, seed);
    for m in 1..=10 {
        for r in 0..=m {
            soft.pairs(m, r, if m <= 5 { 60 } else { 10 })?;
        }
    }
    [300, 60, 30, 10, 1].into_iter().enumerate().try_for_each(|(number, times)| soft.pairs_by_profile(number, times))
}
