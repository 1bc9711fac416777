//! Document 01's "Meter bench values" on the second encoder and decoder, and values beyond them.

use second::{Answer, Fault, Second};

const MOST_LEAVES: usize = 1_000_000;

fn bits(text: &str) -> Vec<u8> {
    text.bytes().map(|c| c - b'0').collect()
}

fn encoded(m: usize, r: usize, message: &str) -> Vec<u8> {
    let mut out = vec![7; 1 << m];
    assert_eq!(Second::new(Fault::None).encode(m, r, &bits(message), &mut out), Answer::default());
    out
}

/// The answer's numbers, and the decoded word where it is accepted.
fn decoded(m: usize, r: usize, rounds: usize, leaves: usize, word: &[u8]) -> ((u8, usize, usize), Option<Vec<u8>>) {
    let mut out = vec![7; word.len()];
    let mut area = vec![-3; 8 * word.len() + 2];
    let answer = Second::new(Fault::None).decode(m, r, rounds, leaves, word, &mut out, &mut area);
    assert!(area.iter().all(|x| *x == 0));
    assert!(answer.refusal == 0 || out.iter().all(|x| *x == 7));
    ((answer.refusal, answer.rounds, answer.leaves), (answer.refusal == 0).then_some(out))
}

fn wrong(m: usize, places: &[usize]) -> Vec<u8> {
    (0..1 << m).map(|p| places.contains(&p) as u8).collect()
}

#[test]
fn messages() {
    assert_eq!(encoded(2, 1, "101"), bits("1100"));
    assert_eq!(encoded(3, 2, "0001000"), bits("00010001"));
}

#[test]
fn orders_0_and_1() {
    assert_eq!(decoded(1, 1, 4, MOST_LEAVES, &bits("01")), ((0, 0, 1), Some(bits("01"))));
    assert_eq!(decoded(2, 1, 4, MOST_LEAVES, &bits("1000")), ((9, 0, 1), None));
    assert_eq!(decoded(2, 0, 4, MOST_LEAVES, &bits("0111")), ((0, 0, 0), Some(bits("1111"))));
    assert_eq!(decoded(2, 0, 4, MOST_LEAVES, &bits("0011")), ((9, 0, 0), None));
}

#[test]
fn every_word_of_order_2_at_m_2() {
    for number in 0..16 {
        let word: Vec<u8> = (0..4).map(|p| number >> p & 1).collect();
        assert_eq!(decoded(2, 2, 4, MOST_LEAVES, &word), ((0, 1, 3), Some(word.clone())));
    }
}

#[test]
fn order_2_at_m_3() {
    let word = bits("10000000");
    assert_eq!(decoded(3, 2, 4, MOST_LEAVES, &word), ((11, 1, 7), None));
    assert_eq!(decoded(3, 2, 4, 7, &word), ((11, 1, 7), None));
    assert_eq!(decoded(3, 2, 4, 6, &word), ((12, 0, 6), None));
}

#[test]
fn order_2_at_m_4() {
    let word = wrong(4, &[0]);
    assert_eq!(decoded(4, 2, 2, MOST_LEAVES, &word), ((0, 2, 30), Some(vec![0; 16])));
    assert_eq!(decoded(4, 2, 2, 29, &word), ((12, 0, 29), None));
    assert_eq!(decoded(4, 2, 4, 29, &word), ((12, 0, 29), None));
    assert_eq!(decoded(4, 2, 1, 15, &word), ((10, 1, 15), None));
    assert_eq!(decoded(4, 2, 1, 14, &word), ((12, 0, 14), None));
    let codeword = bits("0001000100010001");
    let sum: Vec<u8> = word.iter().zip(&codeword).map(|(a, b)| a ^ b).collect();
    for rounds in [2, 4] {
        assert_eq!(decoded(4, 2, rounds, MOST_LEAVES, &sum), ((0, 2, 30), Some(codeword.clone())));
    }
    assert_eq!(decoded(4, 2, 4, MOST_LEAVES, &wrong(4, &[0, 1])), ((11, 1, 15), None));
}

#[test]
fn exponents_out_of_range() {
    for m in [0, 11, 64, usize::MAX] {
        let answer = Second::new(Fault::None).decode(m, 0, 4, 1, &[0], &mut [7], &mut [-3; 8]);
        assert_eq!(answer, Answer { refusal: 1, ..Answer::default() });
    }
}

/// Beyond the bench: the first block that needs inner rounds.
#[test]
fn order_3_at_m_5() {
    let word = wrong(5, &[0]);
    assert_eq!(decoded(5, 3, 4, 1_395, &word), ((0, 2, 1_395), Some(vec![0; 32])));
    assert_eq!(decoded(5, 3, 4, 1_394, &word), ((12, 0, 1_394), None));
    assert_eq!(decoded(5, 3, 1, MOST_LEAVES, &word), ((11, 1, 465), None));
}

/// Document 02, request 5. Directions 1 to 6, each from one wrong place to another, find zeros nearest; the other 25
/// tie. A wrong place has the votes of the 3 between the other three, just half of the 6.
#[test]
fn equality_leaves_the_bit() {
    assert_eq!(decoded(5, 2, 4, MOST_LEAVES, &wrong(5, &[0, 1, 2, 4])), ((11, 1, 31), None));
}

/// By document 01's vote this one is refused 11 after one round.
#[test]
fn more_than_half_of_the_votes_cast() {
    let word = wrong(6, &[2, 10, 11, 16, 17, 39, 43, 45, 54]);
    assert_eq!(decoded(6, 2, 4, MOST_LEAVES, &word), ((0, 2, 126), Some(vec![0; 64])));
}
