//! Gaps worked by hand from the correlations of each mask.

use second::gap::gap;
use second::Fault;

fn of(text: &str) -> usize {
    let word: Vec<u8> = text.bytes().map(|c| c - b'0').collect();
    gap(&word, Fault::None)
}

#[test]
fn by_hand() {
    // 2, 0 and 0, 2: every word of two places is a codeword
    assert_eq!(of("00"), 2);
    assert_eq!(of("01"), 2);
    // -4 at mask 3 alone
    assert_eq!(of("1001"), 4);
    // 2, -2, -2, -2: a tie
    assert_eq!(of("1000"), 0);
    // 6, then -2 seven times
    assert_eq!(of("10000000"), 4);
    // 4, 0, 0, -4, 0, -4, 0, 0 and so on: two places wrong of eight
    assert_eq!(of("10010000"), 0);
}

#[test]
fn one_place_of_sixteen() {
    // 14, then -2
    assert_eq!(of("1000000000000000"), 12);
    // 12, then 4 or 0
    assert_eq!(of("1100000000000000"), 8);
}
