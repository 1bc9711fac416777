//! The calls on confidences (document 02, requests 2 and 3).

use crate::answer::{Answer, Limits};
use crate::checks::{check_area, check_code, check_limits, check_slices, check_values};
use crate::leaves::{AboveLimit, Leaves};
use crate::profiles;
use crate::soft_reading::{bit, Failure, Reading, SoftReader};
use crate::{Fault, Second};

/// No full leaf count above this is found out by a decoder that tests 12 late.
const MOST_LEAVES: usize = 1_000_000;

impl Second {
    #[allow(clippy::too_many_arguments)]
    pub fn decode_confidences(
        &mut self,
        m: usize,
        r: usize,
        rounds: usize,
        leaves: usize,
        values: &[i16],
        out: &mut [u8],
        area: &mut [i32],
    ) -> Answer {
        let limits = Limits { rounds, leaves };
        match check_code(m, r).and_then(|()| check_limits(limits)) {
            Err(answer) => answer,
            Ok(()) => self.soft_decode_within(m, r, limits, values, out, area),
        }
    }

    pub fn decode_confidences_profile(
        &mut self,
        number: usize,
        values: &[i16],
        out: &mut [u8],
        area: &mut [i32],
    ) -> Answer {
        match profiles::profile(number) {
            None => Answer::refused(14),
            Some(p) => {
                let limits = Limits { rounds: p.rounds, leaves: p.leaves };
                self.soft_decode_within(p.m, p.r, limits, values, out, area)
            }
        }
    }

    /// Checks 5 to 7 and "18 .. in the place of 8", then the reading. "The working area is .. untouched after 18 and zero after 17."
    fn soft_decode_within(
        &mut self,
        m: usize,
        r: usize,
        limits: Limits,
        values: &[i16],
        out: &mut [u8],
        area: &mut [i32],
    ) -> Answer {
        if let Err(answer) = self.check_buffers(1 << m, values, out, area) {
            if answer.refusal == 18 && self.fault == Fault::AreaClearedAfter18 {
                area.fill(0);
            }
            return answer;
        }
        let (answer, decoded) = self.soft_read(m, r, limits, values);
        match decoded {
            Some(decoded) => out.copy_from_slice(&decoded),
            None if answer.refusal == 17 && self.fault == Fault::OutputOn17 => out.fill(0),
            None => {}
        }
        if answer.refusal != 17 || self.fault != Fault::AreaKeptAfter17 {
            area.fill(0);
        }
        answer
    }

    fn check_buffers(&self, n: usize, values: &[i16], out: &[u8], area: &[i32]) -> Result<(), Answer> {
        check_slices(values, n, out, n)?;
        if self.fault == Fault::EighteenBefore7 {
            check_values(values, self.fault)?;
        }
        check_area(area, n)?;
        check_values(values, self.fault)
    }

    /// The answer of the reading asked for, and the decoded word where it is accepted.
    fn soft_read(&mut self, m: usize, r: usize, limits: Limits, values: &[i16]) -> (Answer, Option<Vec<u8>>) {
        let late = self.fault == Fault::TwelveAfter17;
        let leaves = Leaves::new(if late { MOST_LEAVES } else { limits.leaves }, self.fault);
        let fault = self.fault;
        let mut reader = SoftReader { lists: &mut self.lists, round_limit: limits.rounds, leaves, fault };
        let reading = reader.reading(m, r, values, 0);
        let leaves = reader.leaves.count() as usize;
        let above = late && leaves > limits.leaves && !matches!(reading, Ok(Err(Failure::Zero(_))));
        match reading {
            Ok(reading) if !above => self.soft_answer(r, limits.rounds, leaves, values, reading),
            Ok(_) | Err(AboveLimit) => (Answer { leaves: limits.leaves, ..Answer::refused(12) }, None),
        }
    }

    /// 17 "with the round limit and the full leaf count"; so it is with 11 and an acceptance from order 2 on, where all rounds are made.
    fn soft_answer(
        &self,
        r: usize,
        round_limit: usize,
        leaves: usize,
        values: &[i16],
        reading: Reading,
    ) -> (Answer, Option<Vec<u8>>) {
        let counts = Answer { rounds: if r >= 2 { round_limit } else { 0 }, leaves, ..Answer::default() };
        match reading {
            Ok(word) => (Answer { mended: self.soft_mended(values, &word), ..counts }, Some(word)),
            Err(Failure::Tie) => (Answer { refusal: 9, ..counts }, None),
            Err(Failure::Zero(ended)) => (Answer { refusal: 17, place: self.zero(&ended), ..counts }, None),
            Err(Failure::NoCodeword) => (Answer { refusal: 11, ..counts }, None),
        }
    }

    /// "lowest place named"
    fn zero(&self, ended: &[i16]) -> usize {
        let zeros: Vec<usize> = (0..ended.len()).filter(|p| ended[*p] == 0).collect();
        match self.fault {
            Fault::HighestZeroNamed => zeros[zeros.len() - 1],
            _ => zeros[0],
        }
    }

    /// "the number of places where the accepted word differs from the received one. A confidence of 0 counts as bit 0 here."
    fn soft_mended(&self, values: &[i16], word: &[u8]) -> usize {
        let received = |value: i16| match self.fault {
            Fault::ZeroMendedAsOne => (value <= 0) as u8,
            _ => bit(value),
        };
        let differs = |p: &usize| match self.fault {
            Fault::ZeroNeverMended if values[*p] == 0 => false,
            _ => received(values[*p]) != word[*p],
        };
        (0..word.len()).filter(differs).count()
    }
}
