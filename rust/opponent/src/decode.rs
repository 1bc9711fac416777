//! The decoder's calls.

use crate::call::{check_decoding, differing, Answer};
use crate::profiles::profile;
use crate::reading::{Outcome, Reader};
use crate::word::{pack, unpack};
use crate::workspace::Workspace;

/// Decodes under these limits.
pub fn decode(
    m: usize,
    r: usize,
    rounds: usize,
    leaves: usize,
    word: &[u8],
    out: &mut [u8],
    work: &mut Workspace,
) -> Answer {
    match check_decoding(m, r, rounds, leaves, word, out) {
        0 => {}
        refusal => return Answer::refused(refusal),
    }
    if let Err(place) = pack(word, &mut work.levels[0].word) {
        return Answer::bad_byte(place);
    }
    let mut reader =
        Reader { round_limit: rounds, leaf_limit: leaves as u64, leaves: 0, exchanged: &mut work.exchanged };
    let (outcome, made) = reader.reading(m, r, &mut work.levels);
    let count = reader.leaves as usize;
    let refusal = match outcome {
        Outcome::Accepted => 0,
        Outcome::Tie => 9,
        Outcome::Flipping => 10,
        Outcome::Unsettled => 11,
        Outcome::Exhausted => return Answer { leaves, ..Answer::refused(12) },
    };
    let mut mended = 0;
    if refusal == 0 {
        unpack(&work.levels[0].word, out);
        mended = differing(word, out);
    }
    Answer { refusal, rounds: made, leaves: count, mended, place: 0 }
}

/// Decodes under a profile.
pub fn decode_profile(number: usize, word: &[u8], out: &mut [u8], work: &mut Workspace) -> Answer {
    match profile(number) {
        None => Answer::refused(14),
        Some(p) => decode(p.m, p.r, p.rounds, p.leaves, word, out, work),
    }
}
