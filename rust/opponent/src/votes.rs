//! Votes of all places at once, counted in binary: one packed word for each digit.

use crate::word::Word;

/// digits[i] has digit i of every place's votes.
#[derive(Clone)]
pub struct Votes {
    digits: [Word; 10],
}

impl Votes {
    pub const fn new() -> Votes {
        Votes { digits: [[0; 16]; 10] }
    }

    /// No votes, for words of exponent m in that many numbers.
    pub fn clear(&mut self, m: usize, numbers: usize) {
        for digit in &mut self.digits[..m] {
            digit[..numbers].fill(0);
        }
    }

    /// One vote for each place of `vote`, from digit `first` on.
    #[inline(always)]
    fn add_from(&mut self, m: usize, first: usize, j: usize, vote: u64) {
        let mut carry = vote;
        for digit in &mut self.digits[first..m] {
            let both = digit[j] & carry;
            digit[j] ^= carry;
            carry = both;
        }
    }

    pub fn add(&mut self, m: usize, numbers: usize, vote: &Word) {
        for (j, vote) in vote[..numbers].iter().enumerate() {
            self.add_from(m, 0, j, *vote);
        }
    }

    /// Eight votes together, m at least 3.
    #[inline(always)]
    pub fn add_eight<const W: usize>(&mut self, m: usize, votes: &[[u64; W]; 8]) {
        for j in 0..W {
            let v = votes.each_ref().map(|vote| vote[j]);
            let (one, two, four) = (self.digits[0][j], self.digits[1][j], self.digits[2][j]);
            let (one, a) = full(one, v[0], v[1]);
            let (one, b) = full(one, v[2], v[3]);
            let (two, c) = full(two, a, b);
            let (one, a) = full(one, v[4], v[5]);
            let (one, b) = full(one, v[6], v[7]);
            let (two, d) = full(two, a, b);
            let (four, eight) = full(four, c, d);
            (self.digits[0][j], self.digits[1][j], self.digits[2][j]) = (one, two, four);
            self.add_from(m, 3, j, eight);
        }
    }

    /// The places of number j that flip. 2 × votes > voters exactly when votes > voters / 2, compared from digit 0 up.
    #[inline(always)]
    pub fn flips(&self, m: usize, j: usize, voters: usize) -> u64 {
        let half = voters / 2;
        self.digits[..m].iter().enumerate().fold(0, |more, (i, digit)| match half >> i & 1 {
            0 => more | digit[j],
            _ => more & digit[j],
        })
    }
}

/// The sum of three digits: its low and its high digit.
#[inline(always)]
fn full(a: u64, b: u64, c: u64) -> (u64, u64) {
    let ab = a ^ b;
    (ab ^ c, a & b | ab & c)
}
