//! The calls that every decoder under comparison offers, and those beyond decoding, which some do.

use second::array::Sides;
use second::profiles::Profile;
use second::street::Plan;

/// Refusal or 0, rounds, leaf count, mended places, and the place that 8, 17 or 18 names, or the entry that 20 does.
#[derive(Clone, Copy, PartialEq, Eq, Debug, Default)]
pub struct Answer {
    pub refusal: u64,
    pub rounds: u64,
    pub leaves: u64,
    pub mended: u64,
    pub place: u64,
}

impl Answer {
    pub fn numbers(refusal: u64, rounds: u64, leaves: u64) -> Answer {
        Answer { refusal, rounds, leaves, ..Answer::default() }
    }
}

pub trait Decoder {
    fn encode(&mut self, m: usize, r: usize, message: &[u8], out: &mut [u8]) -> Answer;

    fn read_message(&mut self, m: usize, r: usize, word: &[u8], out: &mut [u8]) -> Answer;

    /// Yes is 1 in the rounds.
    fn is_codeword(&mut self, m: usize, r: usize, word: &[u8]) -> Answer;

    #[allow(clippy::too_many_arguments)]
    fn decode(
        &mut self,
        m: usize,
        r: usize,
        rounds: usize,
        leaves: usize,
        word: &[u8],
        out: &mut [u8],
        area: &mut [i32],
    ) -> Answer;

    fn decode_profile(&mut self, profile: usize, word: &[u8], out: &mut [u8], area: &mut [i32]) -> Answer;

    /// The gap stands in the leaf count.
    fn gap(&mut self, m: usize, word: &[u8], area: &mut [i32]) -> Answer;

    /// The calls beyond decoding, which no decoder written for speed has.
    fn beyond(&mut self) -> Option<&mut dyn Beyond> {
        None
    }

    /// The calls on confidences, where the decoder has them.
    fn confidences(&mut self) -> Option<&mut dyn Confidences> {
        None
    }
}

/// Document 02, request 2.
pub trait Confidences {
    #[allow(clippy::too_many_arguments)]
    fn decode_confidences(
        &mut self,
        m: usize,
        r: usize,
        rounds: usize,
        leaves: usize,
        values: &[i16],
        out: &mut [u8],
        area: &mut [i32],
    ) -> Answer;

    fn decode_confidences_profile(
        &mut self,
        profile: usize,
        values: &[i16],
        out: &mut [u8],
        area: &mut [i32],
    ) -> Answer;
}

/// Document 02, requests 4, 9, 10, 11 and 12.
pub trait Beyond {
    fn decode_table(&mut self, file: &[u8], number: usize, word: &[u8], out: &mut [u8], area: &mut [i32]) -> Answer;

    /// Under a table that no load made: its count, and the one entry that all 32 are.
    fn decode_made(
        &mut self,
        count: usize,
        entry: Profile,
        number: usize,
        word: &[u8],
        out: &mut [u8],
        area: &mut [i32],
    ) -> Answer;

    /// 1 in the rounds where no record is left, the serial in the leaf count, the profile in the place.
    fn record(&mut self, file: &[u8], rest: &[u8], word: &mut [u8]) -> Answer;

    /// Runs a script of operations on tallies; the number of operations made.
    fn tallies(&mut self, script: &[u8], answers: &mut [u8], tally: &mut [u32]) -> u64;

    /// Draws one block of a load: 1 in the rounds where it was left short, the state after in the leaf count.
    fn load_block(&mut self, profile: usize, state: u32, wrong: usize, word: &mut [u8]) -> Answer;

    /// A block in rows and columns; the leaf sum in the leaf count.
    fn decode_array(&mut self, sides: Sides, word: &[u8], out: &mut [u8], area: &mut [i32]) -> Answer;

    /// A street and so many steps of it: the blocks sent in the leaf count, 1 in the rounds where a step answered that none is left.
    fn street(&mut self, plan: Plan, steps: usize, log: &mut [u32], word: &mut [u8], area: &mut [i32]) -> Answer;
}
