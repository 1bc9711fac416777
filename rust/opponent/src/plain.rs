//! The same codes and the same decoder with one number for each place and loops that follow the rule step by step.

mod arrays;
mod codes;
mod confidences;
mod cosets;
mod gap;
mod leaf;
mod load;
mod reading;
mod soft_cosets;
mod soft_leaf;

use crate::call::{check_decoding, differing, Answer};
use crate::profiles::profile;
pub use arrays::decode_array;
use codes::bad_byte;
pub use codes::{encode, is_codeword, read_message};
pub use confidences::{decode_confidences, decode_confidences_profile, SoftWorkspace};
pub use gap::gap;
pub use load::load_block;
use reading::Reader;
pub use reading::Workspace;

/// Decodes under these limits.
pub fn decode(
    m: usize,
    r: usize,
    rounds: usize,
    leaves: usize,
    word: &[u8],
    out: &mut [u8],
    work: &mut Workspace,
) -> Answer {
    match check_decoding(m, r, rounds, leaves, word, out) {
        0 => {}
        refusal => return Answer::refused(refusal),
    }
    if let Some(place) = bad_byte(word) {
        return Answer::bad_byte(place);
    }
    work.levels[0].rows[0][..word.len()].copy_from_slice(word);
    let mut reader = Reader { round_limit: rounds, leaf_limit: leaves as u64, leaves: 0 };
    let (refusal, made) = reader.reading(m, r, &mut work.levels);
    if refusal == 12 {
        return Answer { leaves, ..Answer::refused(12) };
    }
    let mut mended = 0;
    if refusal == 0 {
        out.copy_from_slice(&work.levels[0].rows[0][..word.len()]);
        mended = differing(word, out);
    }
    Answer { refusal, rounds: made, leaves: reader.leaves as usize, mended, place: 0 }
}

/// Decodes under a profile.
pub fn decode_profile(number: usize, word: &[u8], out: &mut [u8], work: &mut Workspace) -> Answer {
    match profile(number) {
        None => Answer::refused(14),
        Some(p) => decode(p.m, p.r, p.rounds, p.leaves, word, out, work),
    }
}
