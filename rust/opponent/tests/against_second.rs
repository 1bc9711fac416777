//! The decoder written for speed, and both forms of the codes, against the second one.

use opponent::{plain, Answer, Workspace};
use second::message_bits;
use second::{code, load, profiles, Fault, Second};

struct Random(u64);

impl Random {
    fn below(&mut self, end: usize) -> usize {
        self.0 ^= self.0 << 13;
        self.0 ^= self.0 >> 7;
        self.0 ^= self.0 << 17;
        (self.0 >> 33) as usize % end
    }

    fn bits(&mut self, length: usize) -> Vec<u8> {
        (0..length).map(|_| self.below(2) as u8).collect()
    }
}

struct Both {
    right: Second,
    work: Workspace,
    random: Random,
}

impl Both {
    fn new(seed: u64) -> Both {
        Both { right: Second::new(Fault::None), work: Workspace::new(), random: Random(seed) }
    }

    fn decode(&mut self, m: usize, r: usize, rounds: usize, leaves: usize, word: &[u8]) -> usize {
        let (mut out, mut right_out, mut area) = (vec![7; 1 << m], vec![7; 1 << m], vec![1; 8 << m]);
        let found = opponent::decode(m, r, rounds, leaves, word, &mut out, &mut self.work);
        let right = self.right.decode(m, r, rounds, leaves, word, &mut right_out, &mut area);
        let place = (found.refusal, found.rounds, found.leaves, found.place);
        assert_eq!(
            place,
            (right.refusal, right.rounds, right.leaves, right.place),
            "{m} {r} {rounds} {leaves} {word:?}"
        );
        assert_eq!(out, right_out, "{m} {r} {rounds} {leaves} {word:?}");
        right.leaves
    }

    /// A codeword with up to half its places wrong, under a round limit by chance.
    fn block(&mut self, m: usize, r: usize) {
        let mut word = code::codeword(m, r, &self.random.bits(message_bits(m, r)), Fault::None);
        for _ in 0..self.random.below(1 << (m - 1)) {
            word[self.random.below(1 << m)] ^= 1;
        }
        let rounds = [1, 2, 3, 4, 16][self.random.below(5)];
        let count = self.decode(m, r, rounds, 1_000_000, &word);
        for limit in [count, count + 1, count.saturating_sub(1)] {
            self.decode(m, r, rounds, limit, &word);
        }
    }
}

#[test]
fn decoding() {
    let mut both = Both::new(11);
    for (m, orders, blocks) in [(1, 2, 50), (2, 3, 100), (3, 4, 300), (4, 5, 300), (5, 6, 40), (6, 4, 20), (7, 3, 40)] {
        for r in 0..orders {
            (0..blocks).for_each(|_| both.block(m, r));
        }
    }
    for (m, r, blocks) in [(7, 3, 3), (8, 2, 20), (8, 3, 1), (9, 2, 3), (10, 1, 5), (10, 2, 2)] {
        (0..blocks).for_each(|_| both.block(m, r));
    }
}

type Call = fn(usize, usize, &[u8], &mut [u8]) -> Answer;
type Test = fn(usize, usize, &[u8]) -> Answer;

/// A message there and back, and its codeword with one place wrong, at every exponent and order.
fn codes_of(encode: Call, read_message: Call, is_codeword: Test) {
    let mut both = Both::new(12);
    for m in 1..=10 {
        for r in 0..=m {
            let k = message_bits(m, r);
            let message = both.random.bits(k);
            let (mut word, mut read) = (vec![7; 1 << m], vec![7; k]);
            assert_eq!(encode(m, r, &message, &mut word).refusal, 0);
            assert_eq!(word, code::codeword(m, r, &message, Fault::None));
            assert_eq!(read_message(m, r, &word, &mut read).refusal, 0);
            assert_eq!(read, message);
            assert_eq!(is_codeword(m, r, &word).rounds, 1);
            word[both.random.below(1 << m)] ^= 1;
            assert_eq!(is_codeword(m, r, &word).rounds, (r == m) as usize);
            assert_eq!(read_message(m, r, &word, &mut read).refusal, if r == m { 0 } else { 13 });
        }
    }
}

#[test]
fn codes() {
    codes_of(opponent::encode, opponent::read_message, opponent::is_codeword);
}

#[test]
fn plain_codes() {
    codes_of(plain::encode, plain::read_message, plain::is_codeword);
}

/// Blocks of loads, each from the state after the one before, and the refusals.
#[test]
fn loads() {
    for profile in 0..6 {
        let n = 1usize << profiles::profile(profile).map_or(5, |p| p.m);
        for (wrong, room) in [(0, n), (3, n), (n / 2, n), (n, n), (n + 1, n), (usize::MAX, n), (3, n - 1), (3, n + 1)] {
            for start in [0, 1, u32::MAX] {
                let mut state = start;
                for _ in 0..50 {
                    let (mut word, mut right_word) = (vec![7; room], vec![7; room]);
                    let found = plain::load_block(profile, state, wrong, &mut word);
                    let right = load::block(profile, state, wrong, &mut right_word, Fault::None);
                    assert_eq!((found.refusal, found.short, found.state), (right.refusal, right.short, right.state));
                    assert_eq!(word, right_word, "{profile} {state} {wrong}");
                    state = right.state;
                }
            }
        }
    }
}
