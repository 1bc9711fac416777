//! Message bits between bytes and packed coefficients, eight masks at a time.
//! Of eight masks in a row, those of degree at most r are none, mask 0, masks 0, 1, 2 and 4, all but mask 7, or all.

use crate::word::{numbers, packed_eight, spread_eight, within};

const LEADING: u64 = 0x17;

/// Room for the longest message and for eight bytes from its last one on.
type Padded = [u8; 1024 + 8];

/// The coefficients that a message of 0 and 1 gives.
pub fn coefficients(m: usize, r: usize, message: &[u8], word: &mut [u64]) {
    let mut padded: Padded = [0; 1024 + 8];
    padded[..message.len()].copy_from_slice(message);
    let mut next = 0;
    for (j, number) in word[..numbers(m)].iter_mut().enumerate() {
        let masks = within(m, r, j);
        for i in (0..64).step_by(8) {
            let eight = masks >> i & 255;
            let count = eight.count_ones() as usize;
            let mut packed = packed_eight(&padded[next..next + 8]) & ((1 << count) - 1);
            if eight == LEADING {
                packed += packed & 8;
            }
            *number |= packed << i;
            next += count;
        }
    }
}

/// The message bits of these coefficients.
pub fn message(m: usize, r: usize, word: &[u64], out: &mut [u8]) {
    let mut padded: Padded = [0; 1024 + 8];
    let mut next = 0;
    for (j, number) in word[..numbers(m)].iter().enumerate() {
        let masks = within(m, r, j);
        for i in (0..64).step_by(8) {
            let eight = masks >> i & 255;
            let mut packed = number >> i & eight;
            if eight == LEADING {
                packed -= (packed & 16) >> 1;
            }
            padded[next..next + 8].copy_from_slice(&spread_eight(packed));
            next += eight.count_ones() as usize;
        }
    }
    out.copy_from_slice(&padded[..out.len()]);
}
