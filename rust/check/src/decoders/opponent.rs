//! The decoders written for speed; they have no area, so check 7 and the clearing are made here.

use crate::decoder::{Answer, Confidences, Decoder};
use opponent::{check_decoding, plain, profile, Workspace};

pub enum Opponent {
    Packed(Workspace),
    Plain(plain::Workspace, plain::SoftWorkspace),
}

impl Opponent {
    pub fn packed() -> Opponent {
        Opponent::Packed(Workspace::default())
    }

    pub fn plain() -> Opponent {
        Opponent::Plain(plain::Workspace::default(), plain::SoftWorkspace::default())
    }
}

fn answer(from: opponent::Answer) -> Answer {
    let (mended, place) = (from.mended as u64, from.place as u64);
    Answer { mended, place, ..Answer::numbers(from.refusal as u64, from.rounds as u64, from.leaves as u64) }
}

impl Decoder for Opponent {
    fn encode(&mut self, m: usize, r: usize, message: &[u8], out: &mut [u8]) -> Answer {
        answer(match self {
            Opponent::Packed(_) => opponent::encode(m, r, message, out),
            Opponent::Plain(..) => plain::encode(m, r, message, out),
        })
    }

    fn read_message(&mut self, m: usize, r: usize, word: &[u8], out: &mut [u8]) -> Answer {
        answer(match self {
            Opponent::Packed(_) => opponent::read_message(m, r, word, out),
            Opponent::Plain(..) => plain::read_message(m, r, word, out),
        })
    }

    fn is_codeword(&mut self, m: usize, r: usize, word: &[u8]) -> Answer {
        answer(match self {
            Opponent::Packed(_) => opponent::is_codeword(m, r, word),
            Opponent::Plain(..) => plain::is_codeword(m, r, word),
        })
    }

    fn decode(
        &mut self,
        m: usize,
        r: usize,
        rounds: usize,
        leaves: usize,
        word: &[u8],
        out: &mut [u8],
        area: &mut [i32],
    ) -> Answer {
        if check_decoding(m, r, rounds, leaves, word, out) == 0 && area.len() < 8 << m {
            return Answer::numbers(7, 0, 0);
        }
        let answer = answer(match self {
            Opponent::Packed(work) => opponent::decode(m, r, rounds, leaves, word, out, work),
            Opponent::Plain(work, _) => plain::decode(m, r, rounds, leaves, word, out, work),
        });
        if !(1..=8).contains(&answer.refusal) {
            area.fill(0);
        }
        answer
    }

    fn decode_profile(&mut self, number: usize, word: &[u8], out: &mut [u8], area: &mut [i32]) -> Answer {
        match profile(number) {
            None => Answer::numbers(14, 0, 0),
            Some(p) => self.decode(p.m, p.r, p.rounds, p.leaves, word, out, area),
        }
    }

    /// Both take the same: the gap is of sizes, which are not packed.
    fn gap(&mut self, m: usize, word: &[u8], area: &mut [i32]) -> Answer {
        let answer = answer(plain::gap(m, word));
        if matches!(answer.refusal, 1 | 5) {
            return answer;
        }
        if area.len() < 8 << m {
            return Answer::numbers(7, 0, 0);
        }
        if answer.refusal == 0 {
            area.fill(0);
        }
        answer
    }

    /// On packed words there is nothing to gain for values.
    fn confidences(&mut self) -> Option<&mut dyn Confidences> {
        match self {
            Opponent::Packed(_) => None,
            Opponent::Plain(_, work) => Some(work),
        }
    }
}

impl Confidences for plain::SoftWorkspace {
    fn decode_confidences(
        &mut self,
        m: usize,
        r: usize,
        rounds: usize,
        leaves: usize,
        values: &[i16],
        out: &mut [u8],
        area: &mut [i32],
    ) -> Answer {
        if check_decoding(m, r, rounds, leaves, values, out) == 0 && area.len() < 8 << m {
            return Answer::numbers(7, 0, 0);
        }
        let answer = answer(plain::decode_confidences(m, r, rounds, leaves, values, out, self));
        if !matches!(answer.refusal, 1..=7 | 18) {
            area.fill(0);
        }
        answer
    }

    fn decode_confidences_profile(
        &mut self,
        number: usize,
        values: &[i16],
        out: &mut [u8],
        area: &mut [i32],
    ) -> Answer {
        match profile(number) {
            None => Answer::numbers(14, 0, 0),
            Some(p) => self.decode_confidences(p.m, p.r, p.rounds, p.leaves, values, out, area),
        }
    }
}
