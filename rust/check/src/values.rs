//! Calls with known answers: document 01's bench values, and blocks that show a fault or document 02's vote.
//! The bench's cosets and projections cannot be seen from outside; the tests of `second` hold them.

use crate::blocks::MOST_LEAVES;
use crate::call::{digits, Call};
use crate::compare::{Comparison, Disagreement};
use crate::decoder::Answer;

/// A call, its answer (refusal, rounds, leaf count), and its output where it is accepted.
pub struct Value {
    pub name: &'static str,
    call: Call,
    answer: (u64, u64, u64),
    out: Option<Vec<u8>>,
}

impl Value {
    /// The places where the word that a decoding accepts differs from its block.
    fn mended(&self) -> u64 {
        match (&self.call, &self.out) {
            (Call::Decode { word, .. }, Some(out)) => word.iter().zip(out).filter(|(a, b)| a != b).count() as u64,
            _ => 0,
        }
    }
}

fn bits(text: &str) -> Vec<u8> {
    text.bytes().map(|c| c - b'0').collect()
}

/// Zeros with ones at these places.
fn wrong(m: usize, places: &[usize]) -> Vec<u8> {
    (0..1 << m).map(|p| places.contains(&p) as u8).collect()
}

fn encoded(name: &'static str, m: usize, r: usize, message: &str, out: &str) -> Value {
    let call = Call::Encode { m, r, message: bits(message), out: 1 << m };
    Value { name, call, answer: (0, 0, 0), out: Some(bits(out)) }
}

fn accepted(name: &'static str, call: Call, rounds: u64, leaves: u64, out: Vec<u8>) -> Value {
    Value { name, call, answer: (0, rounds, leaves), out: Some(out) }
}

fn refused(name: &'static str, call: Call, answer: (u64, u64, u64)) -> Value {
    Value { name, call, answer, out: None }
}

/// A decoding call under the bench's limits.
fn decode(m: usize, r: usize, word: &[u8]) -> Call {
    Call::decode(m, r, 4, MOST_LEAVES, word)
}

/// Document 01, "Meter bench values".
fn bench_values() -> Vec<Value> {
    let mut values = vec![
        encoded("m 2, r 1: message 101", 2, 1, "101", "1100"),
        encoded("m 3, r 2: message 0001000", 3, 2, "0001000", "00010001"),
        accepted("m 1, r 1: 01 accepted", decode(1, 1, &bits("01")), 0, 1, bits("01")),
        refused("m 2, r 1: 1000 refused 9", decode(2, 1, &bits("1000")), (9, 0, 1)),
        accepted("m 2, r 0: 0111 gives 1111", decode(2, 0, &bits("0111")), 0, 0, bits("1111")),
        refused("m 2, r 0: 0011 refused 9", decode(2, 0, &bits("0011")), (9, 0, 0)),
        refused("m 0 refused 1", Call::decode(0, 0, 4, MOST_LEAVES, &[0]), (1, 0, 0)),
        refused("m 11 refused 1", decode(11, 2, &[0; 2048]), (1, 0, 0)),
    ];
    for number in 0..16 {
        let word: Vec<u8> = (0..4).map(|p| number >> p & 1).collect();
        values.push(accepted("m 2, r 2: any word accepted", decode(2, 2, &word), 1, 3, word.clone()));
    }
    values
}

fn bench_values_of_order_2() -> Vec<Value> {
    let at_3 = |leaves| Call::decode(3, 2, 4, leaves, &bits("10000000"));
    let at_4 = |rounds, leaves| Call::decode(4, 2, rounds, leaves, &wrong(4, &[0]));
    let codeword = bits("0001000100010001");
    let sum: Vec<u8> = codeword.iter().zip(wrong(4, &[0])).map(|(a, b)| a ^ b).collect();
    let plus = |rounds| Call::decode(4, 2, rounds, MOST_LEAVES, &sum);
    vec![
        refused("m 3, r 2: 10000000 refused 11", at_3(MOST_LEAVES), (11, 1, 7)),
        refused("the same, leaf limit 7 suffices", at_3(7), (11, 1, 7)),
        refused("the same, leaf limit 6 gives 12", at_3(6), (12, 0, 6)),
        accepted("m 4, r 2, place 0 wrong, round limit 2", at_4(2, MOST_LEAVES), 2, 30, vec![0; 16]),
        refused("the same, leaf limit 29 gives 12", at_4(2, 29), (12, 0, 29)),
        refused("the same, round limit 4", at_4(4, 29), (12, 0, 29)),
        refused("the same, round limit 1 gives 10 at leaf limit 15", at_4(1, 15), (10, 1, 15)),
        refused("the same, round limit 1 gives 12 at leaf limit 14", at_4(1, 14), (12, 0, 14)),
        accepted("the same block plus 0001000100010001, round limit 2", plus(2), 2, 30, codeword.clone()),
        accepted("the same, round limit 4", plus(4), 2, 30, codeword),
        refused("m 4, r 2, places 0 and 1 wrong: refused 11", decode(4, 2, &wrong(4, &[0, 1])), (11, 1, 15)),
    ]
}

/// Blocks that show a fault which the bench does not.
fn further_values() -> Vec<Value> {
    let at_5 = |rounds, leaves| Call::decode(5, 3, rounds, leaves, &wrong(5, &[0]));
    let three_rounds = wrong(6, &THREE_ROUNDS);
    vec![
        refused("m 1, r 0: 10 refused 9", decode(1, 0, &bits("10")), (9, 0, 0)),
        accepted("m 4, r 2, place 2 wrong", decode(4, 2, &wrong(4, &[2])), 2, 30, vec![0; 16]),
        accepted("m 5, r 3, place 0 wrong", at_5(4, MOST_LEAVES), 2, 1_395, vec![0; 32]),
        accepted("the same, leaf limit 1,395 suffices", at_5(4, 1_395), 2, 1_395, vec![0; 32]),
        refused("the same, leaf limit 1,394 gives 12", at_5(4, 1_394), (12, 0, 1_394)),
        refused("the same, round limit 1 gives 11", at_5(1, MOST_LEAVES), (11, 1, 465)),
        accepted("m 6, r 2, three rounds", decode(6, 2, &three_rounds), 3, 189, vec![0; 64]),
        refused("m 5, r 2, half of the votes cast", decode(5, 2, &wrong(5, &[0, 1, 2, 4])), (11, 1, 31)),
        accepted("m 6, r 2, more than half of those cast", decode(6, 2, &wrong(6, &NINE)), 2, 126, vec![0; 64]),
    ]
}

/// Wrong places that take three rounds to mend at m 6, r 2.
const THREE_ROUNDS: [usize; 11] = [11, 15, 16, 17, 25, 29, 30, 35, 46, 50, 61];

/// Wrong places with more than half of the votes cast, but not of all directions: by document 01's vote refused 11.
const NINE: [usize; 9] = [2, 10, 11, 16, 17, 39, 43, 45, 54];

pub fn list() -> Vec<Value> {
    bench_values().into_iter().chain(bench_values_of_order_2()).chain(further_values()).collect()
}

/// Each value against the candidate and against the second decoder.
pub fn all(c: &mut Comparison) -> Result<(), Disagreement> {
    for value in list() {
        let effects = c.call(&value.call)?;
        let (refusal, rounds, leaves) = value.answer;
        let right = effects.answer == Answer { mended: value.mended(), ..Answer::numbers(refusal, rounds, leaves) };
        if !right || value.out.is_some() && effects.out != value.out {
            let shown = effects.out.map(|out| digits(&out));
            return Err(Disagreement(format!("{}: {:?}, output {shown:?}", value.name, effects.answer)));
        }
    }
    Ok(())
}
