//! Words of order 1.

/// The word that is the parity of the ones in mask AND p, plus 1 where it is turned.
#[derive(Clone, Copy, PartialEq, Eq, Debug)]
pub struct Affine {
    pub mask: usize,
    pub turned: bool,
}

/// LINEAR[u] is the parity of the ones in u AND p, p from 0 to 63.
pub const LINEAR: [u64; 64] = linear();

const fn linear() -> [u64; 64] {
    let mut table = [0; 64];
    let mut u = 0usize;
    while u < 64 {
        let mut p = 0;
        while p < 64 {
            table[u] |= ((u & p).count_ones() as u64 & 1) << p;
            p += 1;
        }
        u += 1;
    }
    table
}

/// The parity of the ones of a number below 1024.
#[inline(always)]
pub fn parity(x: usize) -> usize {
    let x = x ^ x >> 8;
    let x = x ^ x >> 4;
    0x6996 >> (x & 15) & 1
}

impl Affine {
    /// The places of number j.
    #[inline(always)]
    pub fn number(self, j: usize) -> u64 {
        let turned = parity(self.mask >> 6 & j) ^ self.turned as usize;
        LINEAR[self.mask & 63] ^ (turned as u64).wrapping_neg()
    }

    /// The word that has at every place p the bit of p's coset by b, h the highest one of b.
    #[inline(always)]
    pub fn spread(self, b: usize, h: usize) -> Affine {
        let low = self.mask & ((1 << h) - 1);
        let mask = (self.mask ^ low) << 1 | low;
        Affine { mask: mask | parity(mask & b) << h, turned: self.turned }
    }
}
