//! Arrays by the plain decoder against the second one.

use opponent::plain;
use second::array::{Side, Sides};
use second::{Fault, Second};

/// Few ones, so that arrays are mended, left or refused.
fn word(seed: u64, length: usize) -> Vec<u8> {
    let mut state = seed.wrapping_mul(0x9E37_79B9_7F4A_7C15) | 1;
    let mut bit = || {
        state ^= state << 13;
        state ^= state >> 7;
        state ^= state << 17;
        (state >> 40) % 8 == 0
    };
    (0..length).map(|_| bit() as u8).collect()
}

fn same(codes: [usize; 4], limits: [usize; 2], word: &[u8]) -> u8 {
    let [a, r, b, s] = codes;
    let (mut out, mut right_out, mut area) = (vec![7; word.len()], vec![7; word.len()], vec![1; 512]);
    let found = plain::decode_array(codes, limits, word, &mut out, &mut plain::Workspace::default());
    let [rounds, leaves] = limits;
    let sides = Sides { row: Side { m: a, r }, column: Side { m: b, r: s }, rounds, leaves };
    let right = Second::new(Fault::None).decode_array(sides, word, &mut right_out, &mut area);
    let place = (found.refusal, found.leaves, found.place, out);
    assert_eq!(place, (right.refusal, right.leaves, right.place, right_out), "{codes:?} {limits:?}");
    found.refusal
}

#[test]
fn arrays() {
    let mut met = [0; 29];
    for (a, b) in [(1, 1), (2, 1), (1, 3), (3, 3), (4, 2)] {
        for (r, s) in (0..=a).flat_map(|r| (0..=b).map(move |s| (r, s))) {
            for seed in 0..20 {
                let limits = [[4, 1_000_000], [1, 3], [2, 7]][seed as usize % 3];
                met[same([a, r, b, s], limits, &word(seed, 1 << (a + b))) as usize] += 1;
            }
        }
    }
    assert!(met[0] > 100 && met[28] > 100, "{met:?}");
}

#[test]
fn bad_calls() {
    let codes = [[0, 0, 1, 1], [11, 0, 7, 0], [10, 11, 0, 0], [6, 7, 0, 0], [1, 1, 0, 0], [1, 1, 7, 0], [1, 1, 6, 7]];
    let refusals: Vec<u8> = codes.iter().map(|codes| same(*codes, [0, 0], &[0; 4])).collect();
    assert_eq!(refusals, [1, 1, 27, 2, 1, 27, 2]);
    let calls = [([0, 0], &[0; 4][..]), ([1, 0], &[0; 4]), ([1, 1], &[0; 5]), ([1, 1], &[0, 0, 2, 3])];
    let refusals: Vec<u8> = calls.iter().map(|(limits, word)| same([1, 0, 1, 1], *limits, word)).collect();
    assert_eq!(refusals, [3, 4, 5, 8]);
}
