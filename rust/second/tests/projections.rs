//! Document 01's values for cosets and projections. The decoder's answers do not depend on how cosets are numbered,
//! as long as projection and vote number them alike: only these tests see the numbering itself.

use second::direction::{cosets, projection, Numbering};

fn projected(m: usize, b: usize, numbering: Numbering, word: &str) -> String {
    let word: Vec<u8> = word.bytes().map(|c| c - b'0').collect();
    projection(&word, &cosets(m, b, numbering)).iter().map(|bit| bit.to_string()).collect()
}

#[test]
fn cosets_of_direction_3() {
    assert_eq!(cosets(3, 3, Numbering::Highest), [(0, 3), (1, 2), (4, 7), (5, 6)]);
}

#[test]
fn projections() {
    for (b, expected) in [(1, "0101"), (3, "1010"), (4, "0000")] {
        assert_eq!(projected(3, b, Numbering::Highest, "00010001"), expected);
    }
}

#[test]
fn lowest_one_is_noticed_at_direction_5() {
    assert_eq!(projected(3, 5, Numbering::Highest, "01000000"), "0100");
    assert_eq!(projected(3, 5, Numbering::Lowest, "01000000"), "0010");
}
