//! Safe functions over the gateway's C exports, and the gateway as a decoder that can be compared.

use check::decoder::{Answer, Decoder};
use check::decoders::Faulty;
use second::{profiles, Fault};

extern "C" {
    fn gateway_encode(m: usize, r: usize, message: *const u8, message_len: usize, out: *mut u8, out_len: usize) -> u64;
    fn gateway_decode(profile: usize, word: *const u8, word_len: usize, out: *mut u8, out_len: usize) -> u64;
    fn gateway_read_message(m: usize, r: usize, word: *const u8, word_len: usize, out: *mut u8, out_len: usize) -> u64;
}

#[inline]
pub fn encode(m: usize, r: usize, message: &[u8], out: &mut [u8]) -> u64 {
    // SAFETY: each pointer is valid for its length, and the mutable one is not shared.
    unsafe { gateway_encode(m, r, message.as_ptr(), message.len(), out.as_mut_ptr(), out.len()) }
}

#[inline]
pub fn decode(profile: usize, word: &[u8], out: &mut [u8]) -> u64 {
    // SAFETY: as for `encode`.
    unsafe { gateway_decode(profile, word.as_ptr(), word.len(), out.as_mut_ptr(), out.len()) }
}

#[inline]
pub fn read_message(m: usize, r: usize, word: &[u8], out: &mut [u8]) -> u64 {
    // SAFETY: as for `encode`.
    unsafe { gateway_read_message(m, r, word.as_ptr(), word.len(), out.as_mut_ptr(), out.len()) }
}

/// Lowest first: refusal or 0 in 8 bits, rounds in 8, leaf count in 24, mended places in 12, the place of 8 in 12.
pub fn answer(bits: u64) -> Answer {
    let (refusal, rounds, leaves) = (bits & 0xff, bits >> 8 & 0xff, bits >> 16 & 0xff_ffff);
    Answer { refusal, rounds, leaves, mended: bits >> 40 & 0xfff, place: bits >> 52 }
}

/// The gateway's three calls. It lends itself its working numbers, so that check 7 and what happens to a lent area are made here; calls that it
/// has not are the second decoder's.
pub struct Gateway(Faulty);

impl Default for Gateway {
    fn default() -> Gateway {
        Gateway(Faulty::new(Fault::None))
    }
}

impl Decoder for Gateway {
    fn encode(&mut self, m: usize, r: usize, message: &[u8], out: &mut [u8]) -> Answer {
        answer(encode(m, r, message, out))
    }

    fn read_message(&mut self, m: usize, r: usize, word: &[u8], out: &mut [u8]) -> Answer {
        answer(read_message(m, r, word, out))
    }

    fn is_codeword(&mut self, m: usize, r: usize, word: &[u8]) -> Answer {
        self.0.is_codeword(m, r, word)
    }

    fn decode(
        &mut self,
        m: usize,
        r: usize,
        rounds: usize,
        leaves: usize,
        word: &[u8],
        out: &mut [u8],
        area: &mut [i32],
    ) -> Answer {
        self.0.decode(m, r, rounds, leaves, word, out, area)
    }

    fn decode_profile(&mut self, number: usize, word: &[u8], out: &mut [u8], area: &mut [i32]) -> Answer {
        if profiles::profile(number).is_some_and(|p| area.len() < 8 << p.m) {
            return self.0.decode_profile(number, word, out, area);
        }
        let answer = answer(decode(number, word, out));
        if !matches!(answer.refusal, 1..=8 | 14) {
            area.fill(0);
        }
        answer
    }

    fn gap(&mut self, m: usize, word: &[u8], area: &mut [i32]) -> Answer {
        self.0.gap(m, word, area)
    }
}
