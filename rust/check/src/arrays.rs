//! Blocks in rows and columns (document 02, request 12): small arrays whole, larger ones by chance, bad arguments, and arrays that differ by
//! an array of codewords.

use crate::alike;
use crate::bad_calls::Chooser;
use crate::blocks::{codeword, MOST_LEAVES, ROUND_LIMITS};
use crate::call::{Call, Effects};
use crate::compare::{met_just, Comparison, Disagreement, REFUSALS};
use crate::random::Random;
use crate::small::word_of;
use second::array::{Side, Sides};
use second::{code, message_bits, Fault};

/// An array of codewords by chance: each column is the codeword of a message, and the messages' rows are codewords.
pub fn codewords(random: &mut Random, row: Side, column: Side) -> Vec<u8> {
    let bits = message_bits(column.m, column.r);
    let messages: Vec<Vec<u8>> = (0..bits).map(|_| codeword(random, row.m, row.r)).collect();
    let message = |j: usize| messages.iter().map(|row| row[j]).collect::<Vec<u8>>();
    let columns: Vec<Vec<u8>> =
        (0..1 << row.m).map(|j| code::codeword(column.m, column.r, &message(j), Fault::None)).collect();
    (0..1 << column.m).flat_map(|i| columns.iter().map(move |column| column[i])).collect()
}

/// Wrong places by chance, or a whole row and a whole column by chance.
fn noise(random: &mut Random, row: Side, column: Side, wrong: usize) -> Vec<u8> {
    let (a, b) = (1 << row.m, 1 << column.m);
    let mut noise = random.noise(a * b, wrong);
    if random.once_in(3) {
        let (i, j) = (random.below(b), random.below(a));
        (0..a).for_each(|x| noise[i * a + x] = random.below(2) as u8);
        (0..b).for_each(|y| noise[y * a + j] = random.below(2) as u8);
    }
    noise
}

/// Every order of both codes.
fn orders(row_m: usize, column_m: usize) -> impl Iterator<Item = (Side, Side)> {
    let column = move |r| Side { m: column_m, r };
    (0..=row_m).flat_map(move |r| (0..=column_m).map(move |s| (Side { m: row_m, r }, column(s))))
}

/// The calls, and the answers that they met.
struct Arrays<'a, 'b> {
    c: &'a mut Comparison<'b>,
    random: Random,
    met: [u64; REFUSALS],
}

impl<'a, 'b> Arrays<'a, 'b> {
    fn new(c: &'a mut Comparison<'b>, seed: u64) -> Arrays<'a, 'b> {
        Arrays { c, random: Random::new(seed), met: [0; REFUSALS] }
    }

    fn call(&mut self, call: &Call) -> Result<Effects, Disagreement> {
        let effects = self.c.call(call)?;
        self.met[effects.answer.refusal as usize] += 1;
        Ok(effects)
    }

    /// In an area as long as needed, or longer.
    fn array(&mut self, sides: Sides, word: &[u8]) -> Result<Effects, Disagreement> {
        let area = (8 << sides.row.m.max(sides.column.m)) + self.random.one_of(&[0, 0, 1, 5, 300]);
        self.call(&Call::decode_array(sides, word).with_area(area))
    }

    /// Every array of these exponents under every order; the leaf limits let some readings meet 12.
    fn every(&mut self, row_m: usize, column_m: usize, limits: &[(usize, usize)]) -> Result<(), Disagreement> {
        for (row, column) in orders(row_m, column_m) {
            for &(rounds, leaves) in limits {
                for number in 0..1 << (1 << (row_m + column_m)) {
                    self.array(Sides { row, column, rounds, leaves }, &word_of(row_m + column_m, number))?;
                }
            }
        }
        Ok(())
    }

    /// Arrays of codewords with noise from none to a quarter of the places.
    fn sampled(&mut self, row: Side, column: Side, leaves: &[usize], times: usize) -> Result<(), Disagreement> {
        let most = (1 << (row.m + column.m)) / 4;
        for i in 0..times {
            let clean = codewords(&mut self.random, row, column);
            let noise = noise(&mut self.random, row, column, i * most / (times - 1).max(1));
            let (rounds, leaves) = (self.random.one_of(&ROUND_LIMITS), self.random.one_of(leaves));
            let sides = Sides { row, column, rounds, leaves };
            let effects = self.array(sides, &clean)?;
            if effects.answer.refusal != 0 || effects.out.as_ref() != Some(&clean) {
                return Err(Disagreement(format!("a clean array is not accepted as it came: {sides:?}")));
            }
            self.array(sides, &code::sum(&clean, &noise))?;
        }
        Ok(())
    }

    /// Two arrays that differ by an array of codewords; some limits lie outside their ranges.
    fn pairs(&mut self, row: Side, column: Side, times: usize) -> Result<(), Disagreement> {
        for _ in 0..times {
            let wrong = self.random.below((1 << (row.m + column.m)) / 4 + 1);
            let noise = noise(&mut self.random, row, column, wrong);
            let word = code::sum(&codewords(&mut self.random, row, column), &noise);
            let rounds = self.random.one_of(&[1, 2, 4, 4, 16, 0, 17]);
            let leaves = self.random.one_of(&[MOST_LEAVES, MOST_LEAVES, 1, 3, 7, 30, 0, 1_000_001]);
            let added = codewords(&mut self.random, row, column);
            alike::pair(self.c, &Call::decode_array(Sides { row, column, rounds, leaves }, &word), &added)?;
        }
        Ok(())
    }

    /// Exponents and orders at their limits and beyond, so that the order of the checks shows; then 3 and 4, and the buffers.
    fn at_the_limits(&mut self) -> Result<(), Disagreement> {
        let exponents = [0, 1, 2, 6, 7, 10, 11, 64, usize::MAX];
        let sides: Vec<Side> =
            exponents.iter().flat_map(|m| [0, *m, m.wrapping_add(1), usize::MAX].map(|r| Side { m: *m, r })).collect();
        for row in &sides {
            for column in &sides {
                for (rounds, leaves) in [(1, 1), (0, 0), (17, 1), (16, 1_000_001), (usize::MAX, usize::MAX)] {
                    let sides = Sides { row: *row, column: *column, rounds, leaves };
                    self.call(&Call::DecodeArray { sides, word: vec![0; 4], out: 4, area: 16 })?;
                }
            }
        }
        Ok(())
    }

    /// Lengths that are one off, alone and with all that is checked after them; the area by the longer of row and column.
    fn lengths(&mut self, row_m: usize, column_m: usize) -> Result<(), Disagreement> {
        let (row, column) = (Side { m: row_m, r: 0 }, Side { m: column_m, r: column_m });
        let sides = Sides { row, column, rounds: 1, leaves: 1 };
        let (n, least) = (1 << (row_m + column_m), 8 << row_m.max(column_m));
        for off in [0, n - 1, n + 1, 2 * n] {
            for area in [0, least - 1, least] {
                for (word, out) in [(off, n), (off, off), (n, off), (n, n)] {
                    self.call(&Call::DecodeArray { sides, word: vec![0; word], out, area })?;
                    self.call(&Call::DecodeArray { sides, word: vec![2; word], out, area })?;
                }
            }
        }
        Ok(())
    }

    /// A bad byte at places of every row, later ones bad too: 8 names the lowest, by its number in the whole array.
    fn bad_bytes(&mut self, row_m: usize, column_m: usize) -> Result<(), Disagreement> {
        let (row, column) = (Side { m: row_m, r: row_m }, Side { m: column_m, r: 0 });
        let sides = Sides { row, column, rounds: 16, leaves: MOST_LEAVES };
        let n: usize = 1 << (row_m + column_m);
        for place in (0..n).step_by((n / 64).max(1)).chain([n - 1]) {
            let mut word = self.random.bits(n);
            word[place] = self.random.one_of(&[2, 255]);
            (place + 1..n).for_each(|later| word[later] = self.random.one_of(&[0, 1, 2, 128]));
            self.call(&Call::decode_array(sides, &word))?;
        }
        Ok(())
    }
}

/// A refused row and a refused column that stand in each other's way, orders of rows and columns that matter, and readings that meet 12.
fn telling(arrays: &mut Arrays) -> Result<(), Disagreement> {
    let side = |m, r| Side { m, r };
    for (row, column, leaves, word) in [
        (side(2, 0), side(2, 0), MOST_LEAVES, "0001100110000000"),
        (side(2, 1), side(1, 0), MOST_LEAVES, "10000000"),
        (side(1, 0), side(2, 0), MOST_LEAVES, "01000000"),
        (side(2, 2), side(1, 1), 2, "10110100"),
        (side(2, 2), side(2, 2), 1, "1011010011100001"),
    ] {
        let word: Vec<u8> = word.bytes().map(|digit| digit - b'0').collect();
        arrays.array(Sides { row, column, rounds: 4, leaves }, &word)?;
    }
    Ok(())
}

/// Few arrays that still show every fault.
pub fn directed(c: &mut Comparison, seed: u64) -> Result<(), Disagreement> {
    let mut arrays = Arrays::new(c, seed);
    telling(&mut arrays)?;
    arrays.every(1, 1, &[(1, 1), (16, MOST_LEAVES)])?;
    arrays.at_the_limits()?;
    arrays.lengths(1, 2)?;
    arrays.lengths(2, 1)?;
    arrays.bad_bytes(2, 1)?;
    for (row, column) in orders(2, 2).chain(orders(3, 2)) {
        arrays.sampled(row, column, &[1, 3, MOST_LEAVES], 6)?;
        arrays.pairs(row, column, 2)?;
    }
    met_just("an array's calls", &arrays.met, &[0, 1, 2, 3, 4, 5, 6, 7, 8, 27, 28])
}

/// Small arrays whole.
pub fn small(c: &mut Comparison) -> Result<(), Disagreement> {
    let mut arrays = Arrays::new(c, 0);
    arrays.every(1, 1, &[(1, 1), (2, 2), (4, MOST_LEAVES), (16, MOST_LEAVES)])?;
    for (row_m, column_m) in [(1, 2), (2, 1)] {
        arrays.every(row_m, column_m, &[(1, 1), (1, 2), (4, 3), (2, MOST_LEAVES), (16, MOST_LEAVES)])?;
    }
    met_just("small arrays", &arrays.met, &[0, 28])
}

/// Larger ones by chance, all orders: those whose leaf counts are great under small leaf limits.
pub fn large(c: &mut Comparison, seed: u64) -> Result<(), Disagreement> {
    let mut arrays = Arrays::new(c, seed);
    for (row_m, column_m) in [(2, 2), (1, 3), (3, 1), (2, 3), (3, 2), (3, 3), (1, 4), (4, 2), (3, 4), (4, 4)] {
        for (row, column) in orders(row_m, column_m) {
            arrays.sampled(row, column, &[1, 3, 7, 15, 30, 100, MOST_LEAVES, MOST_LEAVES], 40)?;
        }
    }
    for (row_m, column_m) in [(5, 5), (6, 6), (6, 1), (1, 6), (6, 3), (4, 6), (5, 2)] {
        for (row, column) in orders(row_m, column_m) {
            let few = row.r.max(column.r) <= 2;
            let (leaves, times) =
                if few { (&[1, 31, 63, MOST_LEAVES, MOST_LEAVES][..], 8) } else { (&[1, 63, 500][..], 1) };
            arrays.sampled(row, column, leaves, times)?;
        }
    }
    met_just("larger arrays", &arrays.met, &[0, 28])
}

/// Arguments outside their ranges, alone and together.
pub fn bad(c: &mut Comparison, seed: u64, calls: usize) -> Result<(), Disagreement> {
    let mut arrays = Arrays::new(c, seed);
    arrays.at_the_limits()?;
    for (row_m, column_m) in [(1, 1), (1, 3), (3, 1), (4, 2), (2, 6), (6, 1), (6, 6)] {
        arrays.lengths(row_m, column_m)?;
        arrays.bad_bytes(row_m, column_m)?;
    }
    for rarity in [3, 10] {
        let mut chooser = Chooser { random: Random::new(seed + rarity as u64), rarity };
        for _ in 0..calls {
            arrays.call(&chooser.array_call())?;
        }
    }
    met_just("bad calls on arrays", &arrays.met, &[0, 1, 2, 3, 4, 5, 6, 7, 8, 27, 28])
}

/// Pairs that differ by an array of codewords.
pub fn pairs(c: &mut Comparison, seed: u64) -> Result<(), Disagreement> {
    let mut arrays = Arrays::new(c, seed);
    for (row_m, column_m) in [(1, 1), (2, 1), (1, 2), (2, 2), (3, 2), (2, 3), (3, 3), (4, 3)] {
        for (row, column) in orders(row_m, column_m) {
            arrays.pairs(row, column, 40)?;
        }
    }
    for (row, column) in orders(6, 6).chain(orders(5, 6)).filter(|(row, column)| row.r.max(column.r) <= 2) {
        arrays.pairs(row, column, 20)?;
    }
    Ok(())
}
