//! Sixteen bytes in one register. Every x86-64 processor has these instructions, so each call of one is sound.

use core::arch::x86_64::*;

#[derive(Clone, Copy)]
pub struct Lanes(__m128i);

impl Lanes {
    /// The low and the high eight bytes.
    #[inline(always)]
    pub fn of_halves(low: u64, high: u64) -> Lanes {
        Lanes(unsafe { _mm_set_epi64x(high as i64, low as i64) })
    }

    #[inline(always)]
    pub fn bytes(self) -> [i8; 16] {
        unsafe { core::mem::transmute(self.0) }
    }

    #[inline(always)]
    pub fn plus(self, other: Lanes) -> Lanes {
        Lanes(unsafe { _mm_add_epi8(self.0, other.0) })
    }

    #[inline(always)]
    pub fn minus(self, other: Lanes) -> Lanes {
        Lanes(unsafe { _mm_sub_epi8(self.0, other.0) })
    }

    /// The low halves of both, and the high halves of both.
    #[inline(always)]
    pub fn regrouped(self, other: Lanes) -> (Lanes, Lanes) {
        let low = unsafe { _mm_unpacklo_epi64(self.0, other.0) };
        let high = unsafe { _mm_unpackhi_epi64(self.0, other.0) };
        (Lanes(low), Lanes(high))
    }

    /// Absolute values, as unsigned bytes.
    #[inline(always)]
    pub fn sizes(self) -> Lanes {
        Lanes(unsafe { _mm_min_epu8(self.0, _mm_sub_epi8(_mm_setzero_si128(), self.0)) })
    }

    /// The greater of two unsigned bytes, lane by lane.
    #[inline(always)]
    pub fn greater(self, other: Lanes) -> Lanes {
        Lanes(unsafe { _mm_max_epu8(self.0, other.0) })
    }

    /// The greatest unsigned byte in every lane.
    #[inline(always)]
    pub fn greatest(self) -> Lanes {
        let x = self.greater(Lanes(unsafe { _mm_shuffle_epi32::<0b01_00_11_10>(self.0) }));
        let x = x.greater(Lanes(unsafe { _mm_shuffle_epi32::<0b10_11_00_01>(x.0) }));
        let low = unsafe { _mm_shufflelo_epi16::<0b10_11_00_01>(x.0) };
        let x = x.greater(Lanes(unsafe { _mm_shufflehi_epi16::<0b10_11_00_01>(low) }));
        x.greater(Lanes(unsafe { _mm_or_si128(_mm_slli_epi16::<8>(x.0), _mm_srli_epi16::<8>(x.0)) }))
    }

    /// A digit for each lane: 1 where both are equal.
    #[inline(always)]
    pub fn equal(self, other: Lanes) -> u64 {
        unsafe { _mm_movemask_epi8(_mm_cmpeq_epi8(self.0, other.0)) as u64 }
    }
}
