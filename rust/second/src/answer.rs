//! Answers and limits of a call.

/// Refusal or 0, rounds, leaf count, the places mended, and the place that 8, 17 or 18 names.
#[derive(Clone, Copy, PartialEq, Eq, Debug, Default)]
pub struct Answer {
    pub refusal: u8,
    pub rounds: usize,
    pub leaves: usize,
    pub mended: usize,
    pub place: usize,
}

impl Answer {
    pub fn refused(refusal: u8) -> Answer {
        Answer { refusal, ..Answer::default() }
    }
}

/// The limits of one decoding call.
#[derive(Clone, Copy)]
pub struct Limits {
    pub rounds: usize,
    pub leaves: usize,
}
