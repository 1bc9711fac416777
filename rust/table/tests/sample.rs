//! The sample is the program's own, and the library takes it.

use check::blocks::noisy;
use check::random::Random;

const LINES: &str = include_str!("../../../samples/own.txt");
const FILE: &[u8] = include_bytes!("../../../samples/own.wmt");

#[test]
fn the_sample_is_made_from_its_lines() {
    assert_eq!(table::file(LINES).as_deref(), Ok(FILE));
}

/// The answer to a block of a code with so many wrong places, under an entry of the sample.
fn decoded(number: usize, m: usize, r: usize, wrong: usize) -> calls::Answer {
    let word = noisy(&mut Random::new(1), m, r, wrong);
    let (mut out, mut area) = (vec![0; 1 << m], vec![0; 8 << m]);
    calls::decode_table(FILE, number, &word, &mut out, &mut area)
}

#[test]
fn the_library_decodes_under_it() {
    for (number, m, r) in [(0, 4, 1), (1, 6, 2), (2, 9, 2)] {
        let answer = decoded(number, m, r, 1);
        assert_eq!((answer.refusal, answer.mended), (0, 1), "entry {number}");
    }
    // its leaf limit is that of a clean block
    assert_eq!(decoded(3, 8, 3, 0).refusal, 0);
    assert_eq!(decoded(3, 8, 3, 1).refusal, 12);
    assert_eq!(decoded(4, 4, 1, 0).refusal, 14);
}

#[test]
fn lines_that_make_no_table() {
    for (lines, text) in [
        ("", "refused 19: 1 to 32 entries are asked, not 0"),
        (&"5 1 4 1\n".repeat(33), "refused 19: 1 to 32 entries are asked, not 33"),
        (&"5 1 4 1\n".repeat(256), "more than 32 entries"),
        ("5 1 4 1\n\n# the next has m 2\n2 1 4 1\n5 9 4 1\n", "refused 20, entry 1: 2 1 4 1"),
        ("5 1 4 0\n", "refused 20, entry 0: 5 1 4 0"),
        ("5 1 4\n", "not \"m r rounds leaves\": 5 1 4"),
        ("5 1 256 1\n", "not \"m r rounds leaves\": 5 1 256 1"),
        ("5 1 4 4294967296\n", "not \"m r rounds leaves\": 5 1 4 4294967296"),
    ] {
        assert_eq!(table::file(lines), Err(text.to_string()));
    }
}
