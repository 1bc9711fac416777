//! Races of the gap: against plain Rust of the same, and beside the library's decoding at order 1.

use crate::area::Area;
use crate::race::{race, side_by_side, Given, Runner};
use check::blocks;
use check::random::Random;
use opponent::plain;

/// A function of the block that gives refusal and gap.
struct Measuring<F> {
    name: &'static str,
    call: F,
    answer: (u64, u64),
}

impl<F: FnMut(&[u8]) -> (u64, u64)> Runner for Measuring<F> {
    fn name(&self) -> &'static str {
        self.name
    }

    fn run(&mut self, block: &[u8]) {
        self.answer = (self.call)(block);
    }

    fn given(&self) -> Given {
        (self.answer.0, 0, self.answer.1, Vec::new())
    }
}

fn runner<'a>(name: &'static str, call: impl FnMut(&[u8]) -> (u64, u64) + 'a) -> Box<dyn Runner + 'a> {
    Box::new(Measuring { name, call, answer: (0, 0) })
}

fn numbers(answer: calls::Answer) -> (u64, u64) {
    (answer.refusal as u64, answer.leaves as u64)
}

/// A word by chance of that exponent.
type Word = fn(&mut Random, usize) -> Vec<u8>;

const KINDS: [(&str, Word); 3] = [
    ("clean", |random, m| blocks::codeword(random, m, 1)),
    ("half the distance", |random, m| blocks::noisy(random, m, 1, (1 << (m - 1)) / 2 - 1)),
    ("by chance", |random, m| random.bits(1 << m)),
];

fn races_at(m: usize) -> Result<(), String> {
    let mut random = Random::new(400 + m as u64);
    KINDS.into_iter().try_for_each(|(kind, word)| {
        let words: Vec<Vec<u8>> = (0..64).map(|_| word(&mut random, m)).collect();
        let mut areas = [Area::new(m), Area::new(m), Area::new(m)];
        let [area, area_beside, area_decoding] = areas.each_mut().map(Area::numbers);
        let mut out = vec![0; 1 << m];
        let plain = |word: &[u8]| {
            let answer = plain::gap(m, word);
            (answer.refusal as u64, answer.leaves as u64)
        };
        let runners = vec![runner("library", |word| numbers(calls::gap(m, word, area))), runner("plain", plain)];
        race(&format!("gap (m {m}), {kind}"), runners, &words)?;
        let beside = vec![
            runner("library", |word| numbers(calls::gap(m, word, area_beside))),
            runner("decode", |word| numbers(calls::decode(m, 1, 1, 1, word, &mut out, area_decoding))),
        ];
        side_by_side(&format!("gap (m {m}), {kind}"), beside, &words);
        Ok(())
    })
}

pub fn races() -> Result<(), String> {
    (4..=10).try_for_each(races_at)
}
