//! Arrays whose answers were found by hand.

use second::array::{Side, Sides};
use second::{Fault, Second};

fn bits(text: &str) -> Vec<u8> {
    text.bytes().map(|digit| digit - b'0').collect()
}

/// Exponent and order of the row code, then of the column code; refusal, leaf sum, and the output where it is accepted.
fn decoded([a, r, b, s]: [usize; 4], leaves: usize, text: &str) -> (u8, usize, Option<Vec<u8>>) {
    let word = bits(text);
    let (mut out, mut area) = (vec![2; word.len()], vec![1; 8 << a.max(b)]);
    let sides = Sides { row: Side { m: a, r }, column: Side { m: b, r: s }, rounds: 4, leaves };
    let answer = Second::new(Fault::None).decode_array(sides, &word, &mut out, &mut area);
    (answer.refusal, answer.leaves, (answer.refusal == 0).then_some(out))
}

fn accepted(leaves: usize, text: &str) -> (u8, usize, Option<Vec<u8>>) {
    (0, leaves, Some(bits(text)))
}

#[test]
fn one_wrong_place_is_mended_by_its_row() {
    assert_eq!(decoded([2, 0, 1, 1], 1_000_000, "00011111"), accepted(4, "00001111"));
}

#[test]
fn a_tie_in_a_row_and_in_its_column_stays() {
    assert_eq!(decoded([2, 1, 1, 0], 1_000_000, "10000000"), (28, 2, None));
}

#[test]
fn a_tie_in_a_row_is_mended_by_its_columns() {
    assert_eq!(decoded([1, 0, 2, 0], 1_000_000, "01000000"), accepted(0, "00000000"));
}

/// Two columns would be ties as received.
#[test]
fn rows_come_first() {
    assert_eq!(decoded([2, 0, 2, 0], 1_000_000, "0001100110000000"), accepted(0, "0000000000000000"));
}

#[test]
fn readings_refused_12_count_the_limit_and_end_nothing() {
    assert_eq!(decoded([2, 2, 1, 1], 2, "10110100"), accepted(8, "10110100"));
}
