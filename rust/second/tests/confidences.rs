//! Answers on confidences that were worked by hand from document 02's requests 2 and 3.

use second::{Answer, Fault, Second};

const MOST_LEAVES: usize = 1_000_000;

/// The answer, and the decoded word where it is accepted; output and area are looked at.
fn decoded(code: [usize; 2], rounds: usize, leaves: usize, values: &[i16]) -> (Answer, String) {
    let (mut out, mut area) = (vec![7; values.len()], vec![-3; 8 * values.len() + 2]);
    let [m, r] = code;
    let answer = Second::new(Fault::None).decode_confidences(m, r, rounds, leaves, values, &mut out, &mut area);
    assert!(area.iter().all(|x| *x == if answer.refusal == 18 { -3 } else { 0 }));
    if answer.refusal != 0 {
        assert!(out.iter().all(|x| *x == 7));
        return (answer, String::new());
    }
    (answer, out.iter().map(|bit| bit.to_string()).collect())
}

fn accepted(rounds: usize, leaves: usize, mended: usize, word: &str) -> (Answer, String) {
    (Answer { rounds, leaves, mended, ..Answer::default() }, word.to_string())
}

fn refused(refusal: u8, rounds: usize, leaves: usize, place: usize) -> (Answer, String) {
    (Answer { refusal, rounds, leaves, place, ..Answer::default() }, String::new())
}

#[test]
fn order_0_is_the_sign_of_the_sum() {
    let of = |values: [i16; 4]| decoded([2, 0], 4, MOST_LEAVES, &values);
    assert_eq!(of([3, -1, -1, 0]), accepted(0, 0, 2, "0000"));
    // one place outweighs three
    assert_eq!(of([-5, 1, 1, 1]), accepted(0, 0, 3, "1111"));
    assert_eq!(of([1, -1, 2, -2]), refused(9, 0, 0, 0));
    assert_eq!(of([0, 0, 0, 0]), refused(9, 0, 0, 0));
}

#[test]
fn order_1_is_the_mask_of_greatest_correlation() {
    let of = |values: [i16; 4]| decoded([2, 1], 4, MOST_LEAVES, &values);
    // 6, -2, 4, 4
    assert_eq!(of([3, 2, -1, 2]), accepted(0, 1, 1, "0000"));
    // 0, -8, 2, -2
    assert_eq!(of([-3, 2, -1, 2]), accepted(0, 1, 0, "1010"));
    // 5, -1, 3, 5
    assert_eq!(of([3, 1, -1, 2]), refused(9, 0, 1, 0));
    // 5, -5, -5, 5
    assert_eq!(of([0, 0, 0, 5]), refused(9, 0, 1, 0));
    // the greatest is 0, at all four masks
    assert_eq!(of([0, 0, 0, 0]), refused(9, 0, 1, 0));
    // 5, -5: two places, one of them silent
    assert_eq!(decoded([1, 1], 4, MOST_LEAVES, &[0, 5]), refused(9, 0, 1, 0));
}

/// 7, -9, 1, -1: the accepted bit of the silent place 0 is 1, its received one counts as 0.
#[test]
fn a_confidence_of_0_counts_as_bit_0_in_mended() {
    assert_eq!(decoded([2, 1], 4, MOST_LEAVES, &[0, 4, -1, 4]), accepted(0, 1, 1, "1010"));
    assert_eq!(decoded([2, 1], 4, MOST_LEAVES, &[0, -4, 1, -4]), accepted(0, 1, 0, "0101"));
    assert_eq!(decoded([2, 0], 4, MOST_LEAVES, &[0, 0, 0, -1]), accepted(0, 0, 3, "1111"));
}

/// Two projected values of which none is 0 are their own codeword of order 1, so every place gets the magnitudes of all others under its own
/// sign.
#[test]
fn order_2_at_m_2() {
    let values = [4, -1, 2, -3];
    assert_eq!(decoded([2, 2], 1, MOST_LEAVES, &values), accepted(1, 3, 0, "0101"));
    assert_eq!(decoded([2, 2], 16, MOST_LEAVES, &values), accepted(16, 48, 0, "0101"));
    assert_eq!(decoded([2, 2], 2, 6, &values), accepted(2, 6, 0, "0101"));
    assert_eq!(decoded([2, 2], 2, 5, &values), refused(12, 0, 5, 0));
}

/// One silent place makes a tie in each of the three directions: all abstain, and the values stay as they are. An order equal to m is no
/// acceptance.
#[test]
fn all_abstained_keeps_the_values() {
    assert_eq!(decoded([2, 2], 1, MOST_LEAVES, &[4, -1, 0, -3]), refused(17, 1, 3, 2));
    assert_eq!(decoded([2, 2], 4, MOST_LEAVES, &[4, 0, 0, -3]), refused(17, 4, 12, 1));
    // 12 comes before 17
    assert_eq!(decoded([2, 2], 4, 11, &[4, 0, 0, -3]), refused(12, 0, 11, 0));
}

/// In every direction one projected value is negative and three are not: with equal magnitudes a tie, with a weak one no.
#[test]
fn order_2_at_m_3() {
    let with_first = |first: i16| [first, 9, 9, 9, 9, 9, 9, 9];
    assert_eq!(decoded([3, 2], 2, MOST_LEAVES, &with_first(-9)), refused(11, 2, 14, 0));
    assert_eq!(decoded([3, 2], 1, MOST_LEAVES, &with_first(-8)), accepted(1, 7, 1, "00000000"));
    assert_eq!(decoded([3, 2], 2, 14, &with_first(-8)), accepted(2, 14, 1, "00000000"));
    // a stronger one is no stronger than the weaker of two
    assert_eq!(decoded([3, 2], 2, MOST_LEAVES, &with_first(-99)), refused(11, 2, 14, 0));
}

/// All projections are 0, so all directions abstain; the signs alone would be no codeword.
#[test]
fn seventeen_before_eleven() {
    assert_eq!(decoded([3, 2], 1, MOST_LEAVES, &[-5, 0, 0, 0, 0, 0, 0, 0]), refused(17, 1, 7, 1));
    assert_eq!(decoded([3, 2], 4, MOST_LEAVES, &[0, 0, 0, 0, 0, 0, 0, -5]), refused(17, 4, 28, 0));
}

/// A silent place is read by its neighbours: every direction has 0, 9, 9, 9, whose correlations are 27, -9, -9, -9.
#[test]
fn a_silent_place_is_read() {
    assert_eq!(decoded([3, 2], 1, MOST_LEAVES, &[0, 9, 9, 9, 9, 9, 9, 9]), accepted(1, 7, 0, "00000000"));
    // negated where the codeword 00010001 is 1, and the silent one at place 3
    assert_eq!(decoded([3, 2], 1, MOST_LEAVES, &[9, 9, 9, 0, 9, 9, 9, -9]), accepted(1, 7, 1, "00010001"));
}

/// Every direction decodes zeros: six projected values of 1,300 and two of -1,200 have correlations 5,400 and at most 5,000, or all are
/// positive. Place 0 gets 13 × 1,300 - 2 × 1,200; cut after each addition it would end with 2,047 - 2,400.
#[test]
fn only_the_finished_sum_is_cut() {
    let mut values = [1_300; 16];
    (values[14], values[15]) = (-1_200, -1_200);
    assert_eq!(decoded([4, 2], 1, MOST_LEAVES, &values), accepted(1, 15, 2, "0000000000000000"));
}

/// Two rounds of 7 directions, in each of which two rounds of 3 directions are made.
#[test]
fn the_full_count_of_order_3() {
    let values = [1; 8];
    assert_eq!(decoded([3, 3], 2, MOST_LEAVES, &values), accepted(2, 2 * 7 * 2 * 3, 0, "00000000"));
    assert_eq!(decoded([3, 3], 2, 83, &values), refused(12, 0, 83, 0));
}

#[test]
fn the_range() {
    for outside in [-2_048, 2_048, -32_767, 32_767, -32_768] {
        assert_eq!(decoded([2, 1], 4, MOST_LEAVES, &[1, 2, outside, 3]), refused(18, 0, 0, 2));
        assert_eq!(decoded([2, 2], 1, 1, &[2_047, outside, 0, outside]), refused(18, 0, 0, 1));
        assert_eq!(decoded([2, 0], 1, 1, &[outside; 4]), refused(18, 0, 0, 0));
    }
    assert_eq!(decoded([2, 0], 1, 1, &[2_047, -2_047, 2_047, 2_047]), accepted(0, 0, 1, "0000"));
}

/// The refusal alone, in the order of the checks.
fn refusal(m: usize, r: usize, rounds: usize, leaves: usize, lengths: [usize; 3]) -> u8 {
    let [values, out, area] = lengths;
    let (mut out, mut area) = (vec![7; out], vec![-3; area]);
    let values = vec![3_000; values];
    let answer = Second::new(Fault::None).decode_confidences(m, r, rounds, leaves, &values, &mut out, &mut area);
    assert!(out.iter().all(|x| *x == 7) && area.iter().all(|x| *x == -3));
    assert_eq!(answer, Answer { refusal: answer.refusal, ..Answer::default() });
    answer.refusal
}

#[test]
fn checks_in_their_order() {
    assert_eq!(refusal(0, 1, 0, 0, [0, 0, 0]), 1);
    assert_eq!(refusal(11, 12, 0, 0, [0, 0, 0]), 1);
    assert_eq!(refusal(usize::MAX, 0, 1, 1, [4, 4, 32]), 1);
    assert_eq!(refusal(2, 3, 0, 0, [0, 0, 0]), 2);
    assert_eq!(refusal(2, 2, 17, 0, [0, 0, 0]), 3);
    assert_eq!(refusal(2, 2, 16, 1_000_001, [0, 0, 0]), 4);
    assert_eq!(refusal(2, 2, 16, 1, [5, 0, 0]), 5);
    assert_eq!(refusal(2, 2, 16, 1, [4, 5, 0]), 6);
    assert_eq!(refusal(2, 2, 16, 1, [4, 4, 31]), 7);
    assert_eq!(refusal(2, 2, 16, 1, [4, 4, 32]), 18);
}

#[test]
fn profiles() {
    let mut second = Second::new(Fault::None);
    let mut of = |number: usize, values: &[i16]| {
        let (mut out, mut area) = (vec![7; values.len()], vec![-3; 8 * values.len()]);
        second.decode_confidences_profile(number, values, &mut out, &mut area)
    };
    for (number, (n, rounds, leaves)) in [(32, 0, 1), (64, 4, 252), (128, 4, 508), (256, 4, 1_020)].iter().enumerate() {
        let counts = Answer { rounds: *rounds, leaves: *leaves, ..Answer::default() };
        assert_eq!(of(number, &vec![5; *n]), counts);
        let silent = if number == 0 { 9 } else { 17 };
        assert_eq!(of(number, &vec![0; *n]), Answer { refusal: silent, ..counts });
        assert_eq!(of(number, &vec![0; n - 1]).refusal, 5);
        assert_eq!(of(number, &vec![i16::MIN; *n]).refusal, 18);
    }
    assert_eq!(of(5, &[0; 32]).refusal, 14);
    assert_eq!(of(usize::MAX, &[]).refusal, 14);
}
