//! Packed words: place p is bit p % 64 of number p / 64. Bits beyond the word's places are 0.

/// Room for the longest word.
pub type Word = [u64; 16];

/// LOW_HALF[i] has the places whose digit i is 0.
pub const LOW_HALF: [u64; 6] = [
    0x5555_5555_5555_5555,
    0x3333_3333_3333_3333,
    0x0F0F_0F0F_0F0F_0F0F,
    0x00FF_00FF_00FF_00FF,
    0x0000_FFFF_0000_FFFF,
    0x0000_0000_FFFF_FFFF,
];

/// WITHIN[d] has the places below 64 of degree at most d.
const WITHIN: [u64; 7] = within_degrees();

const fn within_degrees() -> [u64; 7] {
    let mut table = [0; 7];
    let mut p = 0u32;
    while p < 64 {
        let mut d = p.count_ones() as usize;
        while d < 7 {
            table[d] |= 1 << p;
            d += 1;
        }
        p += 1;
    }
    table
}

/// How many numbers hold a word of exponent m.
pub fn numbers(m: usize) -> usize {
    (1 << m) / 64 + (m < 6) as usize
}

/// The places that each number of a word of exponent m has.
pub fn present(m: usize) -> u64 {
    if m >= 6 {
        u64::MAX
    } else {
        (1 << (1 << m)) - 1
    }
}

/// The masks of number j whose degree is at most r, at exponent m.
pub fn within(m: usize, r: usize, j: usize) -> u64 {
    let above = j.count_ones() as usize;
    if above > r {
        return 0;
    }
    WITHIN[(r - above).min(6)] & present(m)
}

/// The word of 0 and 1, or the first byte above 1.
pub fn pack(bytes: &[u8], word: &mut Word) -> Result<(), usize> {
    let mut all = 0;
    for (number, part) in word.iter_mut().zip(bytes.chunks(64)) {
        *number = 0;
        for (i, eight) in part.chunks(8).enumerate() {
            all |= eight_bytes(eight);
            *number |= packed_eight(eight) << (8 * i);
        }
    }
    if all & 0xFEFE_FEFE_FEFE_FEFE == 0 {
        return Ok(());
    }
    Err(bytes.iter().position(|byte| *byte > 1).unwrap_or(0))
}

/// Up to eight bytes, the first lowest.
#[inline(always)]
fn eight_bytes(bytes: &[u8]) -> u64 {
    let mut eight = [0; 8];
    match bytes.try_into() {
        Ok(whole) => eight = whole,
        Err(_) => eight[..bytes.len()].copy_from_slice(bytes),
    }
    u64::from_le_bytes(eight)
}

/// Up to eight bits, the first lowest.
#[inline(always)]
pub fn packed_eight(bytes: &[u8]) -> u64 {
    eight_bytes(bytes).wrapping_mul(0x0102_0408_1020_4080) >> 56
}

/// The digits of a number below 256, the lowest first.
#[inline(always)]
pub fn spread_eight(x: u64) -> [u8; 8] {
    SPREAD[x as usize & 255].to_le_bytes()
}

/// SPREAD[x] has digit i of x as byte i.
const SPREAD: [u64; 256] = spread();

const fn spread() -> [u64; 256] {
    let mut table = [0; 256];
    let mut x = 0;
    while x < 256 {
        let mut i = 0;
        while i < 8 {
            table[x] |= (x as u64 >> i & 1) << (8 * i);
            i += 1;
        }
        x += 1;
    }
    table
}

pub fn unpack(word: &Word, bytes: &mut [u8]) {
    for (number, part) in word.iter().zip(bytes.chunks_mut(64)) {
        for (i, eight) in part.chunks_mut(8).enumerate() {
            eight.copy_from_slice(&spread_eight(number >> (8 * i))[..eight.len()]);
        }
    }
}

/// Coefficients from places, and places from coefficients.
pub fn transform(m: usize, word: &mut [u64]) {
    for number in word.iter_mut() {
        for (i, low) in LOW_HALF.iter().enumerate().take(m) {
            *number ^= (*number & low) << (1 << i);
        }
    }
    let mut half = 1;
    while half < word.len() {
        for pair in word.chunks_exact_mut(2 * half) {
            let (low, high) = pair.split_at_mut(half);
            for (l, h) in low.iter().zip(high) {
                *h ^= l;
            }
        }
        half *= 2;
    }
}

/// Whether no coefficient has a degree above r.
pub fn has_order(m: usize, r: usize, coefficients: &[u64]) -> bool {
    let above = |(j, c): (usize, &u64)| c & !within(m, r, j);
    coefficients.iter().enumerate().map(above).fold(0, |all, c| all | c) == 0
}

pub fn is_codeword(m: usize, r: usize, word: &Word) -> bool {
    if r >= m {
        return true;
    }
    let mut coefficients = *word;
    let coefficients = &mut coefficients[..numbers(m)];
    transform(m, coefficients);
    has_order(m, r, coefficients)
}
