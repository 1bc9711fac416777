//! Races of arrays: against plain Rust that decodes each row and each column by itself.

use crate::area::Area;
use crate::race::{race, Given, Runner};
use check::arrays::codewords;
use check::random::Random;
use opponent::plain;
use second::array::Side;

/// A function that decodes an array into a buffer.
struct Decoding<F> {
    name: &'static str,
    decode: F,
    out: Vec<u8>,
    answer: (u64, u64),
}

impl<F: FnMut(&[u8], &mut [u8]) -> (u64, u64)> Runner for Decoding<F> {
    fn name(&self) -> &'static str {
        self.name
    }

    fn run(&mut self, block: &[u8]) {
        self.answer = (self.decode)(block, &mut self.out);
    }

    /// A refusal leaves the output of an earlier array.
    fn given(&self) -> Given {
        let (refusal, leaves) = self.answer;
        (refusal, 0, leaves, if refusal == 0 { self.out.clone() } else { Vec::new() })
    }
}

fn runner<'a>(
    name: &'static str,
    places: usize,
    decode: impl FnMut(&[u8], &mut [u8]) -> (u64, u64) + 'a,
) -> Box<dyn Runner + 'a> {
    Box::new(Decoding { name, decode, out: vec![0; places], answer: (0, 0) })
}

const LIMITS: [usize; 2] = [4, 1_000_000];

/// What the arrays of a race are, by the part of the places that is wrong.
const KINDS: [(&str, usize); 3] = [("clean", 0), ("1 place in 32 wrong", 32), ("1 in 8", 8)];

fn races_of(m: usize, r: usize) -> Result<(), String> {
    let (side, places) = (Side { m, r }, 1 << (2 * m));
    let mut random = Random::new(500 + (10 * m + r) as u64);
    KINDS.into_iter().try_for_each(|(kind, one_in)| {
        let wrong = if one_in == 0 { 0 } else { places / one_in };
        let mut array = || {
            let (clean, noise) = (codewords(&mut random, side, side), random.noise(places, wrong));
            clean.iter().zip(noise).map(|(bit, wrong)| bit ^ wrong).collect()
        };
        let arrays: Vec<Vec<u8>> = (0..16).map(|_| array()).collect();
        let (mut area, mut work) = (Area::new(m), plain::Workspace::default());
        let area = area.numbers();
        let runners = vec![
            runner("library", places, |word, out| {
                let answer = calls::decode_array([m, r, m, r], LIMITS, word, out, area);
                (answer.refusal as u64, answer.leaves)
            }),
            runner("plain", places, |word, out| {
                let answer = plain::decode_array([m, r, m, r], LIMITS, word, out, &mut work);
                (answer.refusal as u64, answer.leaves as u64)
            }),
        ];
        race(&format!("array (m {m} and {m}, r {r}), {kind}"), runners, &arrays)
    })
}

pub fn races() -> Result<(), String> {
    [3, 5, 6].into_iter().try_for_each(|m| [1, 2].into_iter().try_for_each(|r| races_of(m, r)))
}
