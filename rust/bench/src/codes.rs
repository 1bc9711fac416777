//! Races of encoder, message reader and codeword test at m 10.

use crate::race::{race, Given, Runner};
use check::blocks;
use check::random::Random;
use opponent::plain;

const M: usize = 10;

/// A function of the block that fills the output and gives refusal and rounds.
struct Coding<F> {
    name: &'static str,
    call: F,
    out: Vec<u8>,
    answer: (u64, u64),
}

impl<F: FnMut(&[u8], &mut [u8]) -> (u64, u64)> Runner for Coding<F> {
    fn name(&self) -> &'static str {
        self.name
    }

    fn run(&mut self, block: &[u8]) {
        self.answer = (self.call)(block, &mut self.out);
    }

    fn given(&self) -> Given {
        (self.answer.0, self.answer.1, 0, self.out.clone())
    }
}

fn runner<'a>(
    name: &'static str,
    length: usize,
    call: impl FnMut(&[u8], &mut [u8]) -> (u64, u64) + 'a,
) -> Box<dyn Runner + 'a> {
    Box::new(Coding { name, call, out: vec![0; length], answer: (0, 0) })
}

fn library<'a>(length: usize, mut call: impl FnMut(&[u8], &mut [u8]) -> calls::Answer + 'a) -> Box<dyn Runner + 'a> {
    runner("library", length, move |block, out| {
        let answer = call(block, out);
        (answer.refusal as u64, answer.rounds as u64)
    })
}

fn opponent<'a>(
    name: &'static str,
    length: usize,
    mut call: impl FnMut(&[u8], &mut [u8]) -> opponent::Answer + 'a,
) -> Box<dyn Runner + 'a> {
    runner(name, length, move |block, out| {
        let answer = call(block, out);
        (answer.refusal as u64, answer.rounds as u64)
    })
}

fn order_races(r: usize) -> Result<(), String> {
    let (n, k) = (1 << M, message_bits(r));
    let mut random = Random::new(200 + r as u64);
    let words: Vec<Vec<u8>> = (0..16).map(|_| blocks::codeword(&mut random, M, r)).collect();
    let messages: Vec<Vec<u8>> = (0..16).map(|_| random.bits(k)).collect();
    let encoders = vec![
        library(n, |message, out| calls::encode(M, r, message, out)),
        opponent("plain", n, |message, out| plain::encode(M, r, message, out)),
        opponent("packed", n, |message, out| opponent::encode(M, r, message, out)),
    ];
    race(&format!("encode (m {M}, r {r})"), encoders, &messages)?;
    let readers = vec![
        library(k, |word, out| calls::read_message(M, r, word, out)),
        opponent("plain", k, |word, out| plain::read_message(M, r, word, out)),
        opponent("packed", k, |word, out| opponent::read_message(M, r, word, out)),
    ];
    race(&format!("read a message (m {M}, r {r})"), readers, &words)
}

/// A word by chance for the codeword test at order r.
type Word = fn(&mut Random, usize) -> Vec<u8>;

const TESTED: [(&str, Word); 3] = [
    ("a codeword", |random, r| blocks::codeword(random, M, r)),
    ("one wrong place", |random, r| blocks::noisy(random, M, r, 1)),
    ("a word by chance", |random, _| random.bits(1 << M)),
];

fn test_races(r: usize) -> Result<(), String> {
    let mut random = Random::new(300 + r as u64);
    TESTED.into_iter().try_for_each(|(kind, word)| {
        let words: Vec<Vec<u8>> = (0..16).map(|_| word(&mut random, r)).collect();
        let tests = vec![
            library(0, |word, _| calls::is_codeword(M, r, word)),
            opponent("plain", 0, |word, _| plain::is_codeword(M, r, word)),
            opponent("packed", 0, |word, _| opponent::is_codeword(M, r, word)),
        ];
        race(&format!("test {kind} (m {M}, r {r})"), tests, &words)
    })
}

pub fn races() -> Result<(), String> {
    [2, 5, 8].into_iter().try_for_each(order_races)?;
    (1..=8).try_for_each(test_races)
}

/// The number of masks of degree at most r.
fn message_bits(r: usize) -> usize {
    (0..1usize << M).filter(|mask| mask.count_ones() as usize <= r).count()
}
