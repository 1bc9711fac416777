//! The codeword test by the steps of document 02, request 8: words worked by hand, and the coefficients' answer.

use second::{code, steps, Fault};

fn bits(text: &str) -> Vec<u8> {
    text.bytes().map(|c| c - b'0').collect()
}

fn passes(m: usize, r: usize, text: &str) -> bool {
    steps::passes(m, r, &bits(text), Fault::None)
}

#[test]
fn ends() {
    assert!(passes(2, 0, "1111"));
    assert!(!passes(2, 0, "1101"));
    assert!(passes(1, 1, "01"));
    assert!(passes(2, 2, "1000"));
}

#[test]
fn halves() {
    // 01 + 01 = 00 has equal places, and at exponent 1 order 1 takes every first half
    assert!(passes(2, 1, "0101"));
    // 10 + 00 = 10 has not
    assert!(!passes(2, 1, "1000"));
    // 1000 + 1000 = 0000 has equal places, and the first half is the word before
    assert!(!passes(3, 1, "10001000"));
    // 0001 + 0001 = 0000 passes at order 1, and 0001 at order 2
    assert!(passes(3, 2, "00010001"));
    // 0001 + 0000 = 0001 does not pass at order 1: 00 + 01 = 01 has not equal places
    assert!(!passes(3, 2, "00010000"));
}

#[test]
fn as_the_coefficients_say() {
    for m in 1..=4 {
        for r in 0..=m {
            for number in 0..1 << (1 << m) {
                let word: Vec<u8> = (0..1 << m).map(|p| (number >> p & 1) as u8).collect();
                assert_eq!(steps::passes(m, r, &word, Fault::None), code::is_codeword(r, &word), "{m} {r} {word:?}");
            }
        }
    }
}
