//! Calls with arguments outside their ranges, alone and together, so that the order of the checks shows.

use crate::call::Call;
use crate::compare::{Comparison, Disagreement};
use crate::random::Random;
use second::array::{Side, Sides};
use second::message_bits;
use second::profiles;

/// Arguments by chance; each is bad one time in `rarity`.
pub struct Chooser {
    pub random: Random,
    pub rarity: usize,
}

impl Chooser {
    fn number(&mut self, good: usize, bad: &[usize]) -> usize {
        if self.random.once_in(self.rarity) {
            return self.random.one_of(bad);
        }
        good
    }

    fn exponent(&mut self) -> usize {
        let good = 1 + self.random.below(5);
        self.number(good, &[0, 11, 12, 32, 63, 64, 65, 1 << 32, (1 << 32) + 2, usize::MAX])
    }

    fn order(&mut self, m: usize) -> usize {
        let good = self.random.below(m.min(10) + 1);
        self.number(good, &[m.wrapping_add(1), 11, 64, 1 << 32, usize::MAX])
    }

    fn rounds(&mut self) -> usize {
        let good = 1 + self.random.below(16);
        self.number(good, &[0, 17, 256, 1 << 32, (1 << 32) + 1, usize::MAX])
    }

    fn leaves(&mut self) -> usize {
        let good = self.random.one_of(&[1, 3, 7, 15, 100, 1_000_000]);
        self.number(good, &[0, 1_000_001, 1 << 32, (1 << 32) + 1, usize::MAX])
    }

    fn length(&mut self, right: usize) -> usize {
        self.number(right, &[right - 1, right + 1, 0, 2 * right])
    }

    fn area(&mut self, n: usize) -> usize {
        let good = 8 * n + self.random.below(9);
        self.number(good, &[8 * n - 1, 7 * n, 0])
    }

    /// Bits of that length; bad ones have a few bytes above 1.
    fn bytes(&mut self, length: usize) -> Vec<u8> {
        let mut bytes = self.random.bits(length);
        if length > 0 && self.random.once_in(self.rarity) {
            for _ in 0..1 + self.random.below(3) {
                let place = self.random.below(length);
                bytes[place] = self.random.one_of(&[2, 3, 4, 16, 128, 254, 255]);
            }
        }
        bytes
    }

    /// Exponent, order, and the two sizes that fit them.
    fn code(&mut self) -> (usize, usize, usize, usize) {
        let m = self.exponent();
        let r = self.order(m);
        let size = m.clamp(1, 5);
        (m, r, 1 << size, message_bits(size, r.min(size)))
    }

    fn bytes_of(&mut self, right: usize) -> Vec<u8> {
        let length = self.length(right);
        self.bytes(length)
    }

    fn code_call(&mut self, which: usize) -> Call {
        let (m, r, n, k) = self.code();
        match which {
            0 => Call::Encode { m, r, message: self.bytes_of(k), out: self.length(n) },
            1 => Call::ReadMessage { m, r, word: self.bytes_of(n), out: self.length(k) },
            _ => Call::IsCodeword { m, r, word: self.bytes_of(n) },
        }
    }

    fn decode_call(&mut self) -> Call {
        let (m, r, n, _) = self.code();
        let (rounds, leaves) = (self.rounds(), self.leaves());
        Call::Decode { m, r, rounds, leaves, word: self.bytes_of(n), out: self.length(n), area: self.area(n) }
    }

    pub fn gap_call(&mut self) -> Call {
        let m = self.exponent();
        let n = 1 << m.clamp(1, 5);
        Call::Gap { m, word: self.bytes_of(n), area: self.area(n) }
    }

    /// Exponent and order of one side of an array.
    fn side(&mut self) -> Side {
        let good = 1 + self.random.below(3);
        let m = self.number(good, &[0, 7, 8, 10, 11, 12, 64, (1 << 32) + 2, usize::MAX]);
        Side { m, r: self.order(m) }
    }

    pub fn array_call(&mut self) -> Call {
        let (row, column, rounds, leaves) = (self.side(), self.side(), self.rounds(), self.leaves());
        let (a, b) = (row.m.clamp(1, 3), column.m.clamp(1, 3));
        let n = 1 << (a + b);
        let (word, out, area) = (self.bytes_of(n), self.length(n), self.area(1 << a.max(b)));
        Call::DecodeArray { sides: Sides { row, column, rounds, leaves }, word, out, area }
    }

    /// Confidences of that length; bad ones have a few outside the range.
    fn values(&mut self, length: usize) -> Vec<i16> {
        let mut values: Vec<i16> = (0..length).map(|_| self.random.below(41) as i16 - 20).collect();
        if length > 0 && self.random.once_in(self.rarity) {
            for _ in 0..1 + self.random.below(3) {
                let place = self.random.below(length);
                values[place] = self.random.one_of(&[2_048, -2_048, 4_095, 32_767, -32_767, -32_768]);
            }
        }
        values
    }

    fn values_of(&mut self, right: usize) -> Vec<i16> {
        let length = self.length(right);
        self.values(length)
    }

    pub fn soft_call(&mut self) -> Call {
        let (m, r, n, _) = self.code();
        let (rounds, leaves) = (self.rounds(), self.leaves());
        // all rounds are made at every depth: the counts of greater orders are not read to their end
        let leaves = if r > 2 { leaves.min(1_000_001) % 999_000 } else { leaves };
        let (values, out, area) = (self.values_of(n), self.length(n), self.area(n));
        Call::DecodeConfidences { m, r, rounds, leaves, values, out, area }
    }

    pub fn soft_profile_call(&mut self) -> Call {
        let good = self.random.below(5);
        let profile = self.number(good, &[5, 6, 8, 255, 256, 260, 1 << 32, usize::MAX]);
        let n = 1 << profiles::profile(profile).map_or(5, |p| p.m);
        loop {
            let (values, out, area) = (self.values_of(n), self.length(n), self.area(n));
            let read =
                values.len() == n && out == n && area >= 8 * n && values.iter().all(|v| (-2_047..=2_047).contains(v));
            if profile != 4 || !read {
                return Call::DecodeConfidencesProfile { profile, values, out, area };
            }
        }
    }

    fn profile_call(&mut self) -> Call {
        let good = self.random.below(5);
        let profile = self.number(good, &[5, 6, 8, 255, 256, 260, 1 << 32, usize::MAX]);
        let n = 1 << profiles::profile(profile).map_or(5, |p| p.m);
        loop {
            let (word, out, area) = (self.bytes_of(n), self.length(n), self.area(n));
            // a block of profile 4 takes the second decoder long: here it comes with something wrong
            let read = word.len() == n && out == n && area >= 8 * n && word.iter().all(|byte| *byte < 2);
            if profile != 4 || !read {
                return Call::DecodeProfile { profile, word, out, area };
            }
        }
    }
}

pub fn many(c: &mut Comparison, seed: u64, calls: usize) -> Result<(), Disagreement> {
    for rarity in [3, 8] {
        let mut chooser = Chooser { random: Random::new(seed + rarity as u64), rarity };
        for i in 0..calls {
            let call = match i % 8 {
                which @ 0..=2 => chooser.code_call(which),
                3 => chooser.profile_call(),
                _ => chooser.decode_call(),
            };
            c.call(&call)?;
        }
    }
    Ok(())
}

/// The same of encoder, message reader and decoder by profile alone.
pub fn by_profile(c: &mut Comparison, seed: u64, calls: usize) -> Result<(), Disagreement> {
    for rarity in [3, 8] {
        let mut chooser = Chooser { random: Random::new(seed + rarity as u64), rarity };
        for i in 0..calls {
            c.call(&if i % 3 == 2 { chooser.profile_call() } else { chooser.code_call(i % 3) })?;
        }
    }
    Ok(())
}

/// The calls on a word with bad bytes; at order m a message is as long as a word.
fn every_call(c: &mut Comparison, m: usize, word: &[u8]) -> Result<(), Disagreement> {
    c.call(&Call::decode(m, m.min(2), 1, 1, word))?;
    c.call(&Call::gap(m, word))?;
    c.call(&Call::IsCodeword { m, r: 1, word: word.to_vec() })?;
    c.call(&Call::ReadMessage { m, r: m, word: word.to_vec(), out: word.len() })?;
    c.call(&Call::Encode { m, r: m, message: word.to_vec(), out: word.len() })?;
    for profile in (0..5).filter(|number| profiles::profile(*number).is_some_and(|p| p.m == m)) {
        c.call(&Call::decode_profile(profile, word))?;
    }
    Ok(())
}

/// One bad byte at each place of the input, at every exponent.
pub fn each_bad_byte(c: &mut Comparison, m: usize) -> Result<(), Disagreement> {
    let n = 1usize << m;
    let step = (n / 64).max(1);
    for place in (0..n).step_by(step).chain([n - 1]) {
        let mut word = vec![0; n];
        word[place] = 2;
        every_call(c, m, &word)?;
    }
    Ok(())
}

/// For each profile a bad byte and lengths that are one off, alone and with all that is checked after them.
pub fn each_profile(c: &mut Comparison, profile: usize) -> Result<(), Disagreement> {
    let n = 1 << profiles::profile(profile).expect("a profile of the table").m;
    let bad_byte = |length: usize| (0..length).map(|place| 2 * (place == n / 2) as u8).collect::<Vec<u8>>();
    for off in [n - 1, n + 1] {
        for (word, out, area) in
            [(off, n, 8 * n), (off, n - 1, 0), (n, off, 8 * n), (n, off, 8 * n - 1), (n, n, 8 * n - 1)]
        {
            c.call(&Call::DecodeProfile { profile, word: vec![0; word], out, area })?;
            c.call(&Call::DecodeProfile { profile, word: bad_byte(word), out, area })?;
        }
    }
    c.call(&Call::decode_profile(profile, &bad_byte(n))).map(|_| ())
}

/// Several bad bytes in one input, each as small as 2 and as large as 255: the lowest at every place in turn, the last one bad too, all bad.
pub fn several_bad_bytes(c: &mut Comparison, seed: u64, m: usize) -> Result<(), Disagreement> {
    let n = 1usize << m;
    let mut random = Random::new(seed);
    for place in (0..n).step_by((n / 32).max(1)) {
        let mut word = random.bits(n);
        word[n - 1] = 255;
        word[place] = random.one_of(&[2, 255]);
        for later in place + 1..n {
            if random.once_in(4) {
                word[later] = random.one_of(&[2, 3, 128, 255]);
            }
        }
        every_call(c, m, &word)?;
    }
    every_call(c, m, &vec![255; n])
}

/// Lengths that are one off, at every exponent.
pub fn each_length(c: &mut Comparison, m: usize, r: usize) -> Result<(), Disagreement> {
    let (n, k) = (1 << m, message_bits(m, r));
    for (more_in, more_out, area) in [(0, 1, 8 * n), (2, 1, 8 * n), (1, 0, 8 * n), (1, 2, 8 * n), (1, 1, 8 * n - 1)] {
        let (word, message) = (vec![0; n + more_in - 1], vec![0; k + more_in - 1]);
        c.call(&Call::IsCodeword { m, r, word: word.clone() })?;
        c.call(&Call::ReadMessage { m, r, word: word.clone(), out: k + more_out - 1 })?;
        c.call(&Call::Encode { m, r, message, out: n + more_out - 1 })?;
        c.call(&Call::Gap { m, word: word.clone(), area })?;
        c.call(&Call::Decode { m, r, rounds: 1, leaves: 1, word, out: n + more_out - 1, area })?;
    }
    Ok(())
}
