//! Confidences by the plain decoder against the second one.

use opponent::plain::{self, SoftWorkspace};
use second::{code, message_bits, Fault, Second};

struct Both {
    right: Second,
    work: SoftWorkspace,
    state: u64,
    met: [usize; 19],
}

impl Both {
    fn new() -> Both {
        Both { right: Second::new(Fault::None), work: SoftWorkspace::default(), state: 17, met: [0; 19] }
    }

    fn below(&mut self, end: usize) -> usize {
        self.state ^= self.state << 13;
        self.state ^= self.state >> 7;
        self.state ^= self.state << 17;
        (self.state >> 33) as usize % end
    }

    fn decode(&mut self, [m, r]: [usize; 2], rounds: usize, leaves: usize, values: &[i16]) -> usize {
        let (mut out, mut right_out, mut area) = (vec![7; 1 << m], vec![7; 1 << m], vec![1; 8 << m]);
        let found = plain::decode_confidences(m, r, rounds, leaves, values, &mut out, &mut self.work);
        let right = self.right.decode_confidences(m, r, rounds, leaves, values, &mut right_out, &mut area);
        let given = (found.refusal, found.rounds, found.leaves, found.mended, found.place, out);
        let due = (right.refusal, right.rounds, right.leaves, right.mended, right.place, right_out);
        assert_eq!(given, due, "{m} {r} {rounds} {leaves} {values:?}");
        self.met[right.refusal as usize] += 1;
        right.leaves
    }

    /// A codeword whose values are near that size, some with the other sign or none.
    fn block(&mut self, m: usize, r: usize, size: i16) -> Vec<i16> {
        let message: Vec<u8> = (0..message_bits(m, r)).map(|_| self.below(2) as u8).collect();
        let sent = code::codeword(m, r, &message, Fault::None);
        let spread = 2 * size as usize;
        let mut value = |bit: &u8| {
            let value = (size + self.below(2 * spread + 1) as i16 - spread as i16).clamp(-2_047, 2_047);
            if *bit == 1 {
                -value
            } else {
                value
            }
        };
        sent.iter().map(&mut value).collect()
    }
}

#[test]
fn decoding() {
    let mut both = Both::new();
    for (m, r, blocks) in
        [(1, 0, 30), (1, 1, 30), (2, 2, 60), (3, 1, 60), (3, 2, 200), (3, 3, 60), (4, 2, 200), (4, 3, 60)]
            .into_iter()
            .chain([
                (4, 4, 3),
                (5, 1, 60),
                (5, 2, 60),
                (5, 3, 4),
                (6, 2, 20),
                (7, 2, 8),
                (8, 2, 3),
                (9, 1, 5),
                (10, 1, 5),
            ])
    {
        for i in 0..blocks {
            let size = [1, 3, 600, 1_900][i % 4];
            let values = both.block(m, r, size);
            let rounds = [1, 2, 4, 3][both.below(4)];
            let count = both.decode([m, r], rounds, 1_000_000, &values);
            for limit in [count, count + 1, count.saturating_sub(1)] {
                both.decode([m, r], rounds, limit, &values);
            }
        }
    }
    for refusal in [0, 4, 9, 11, 12, 17] {
        assert!(both.met[refusal] > 0, "{:?}", both.met);
    }
}

#[test]
fn ranges() {
    let mut both = Both::new();
    for m in 1..=10 {
        for outside in [2_048, -2_048, 32_767, -32_767, -32_768] {
            let mut values = vec![2_047; 1 << m];
            values[(1 << m) - 1] = outside;
            both.decode([m, 1], 1, 1, &values);
            values[(1 << m) / 2] = outside;
            both.decode([m, 1], 1, 1, &values);
        }
    }
    assert_eq!(both.met[18], 100);
}
