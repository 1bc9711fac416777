//! The public calls: checks in document 01's order, answers, and what is written where.

use crate::answer::{Answer, Limits};
use crate::checks::{
    check_area, check_bytes, check_code, check_exponent, check_length, check_limits, check_slices, message_bits,
};
use crate::code;
use crate::gap;
use crate::leaves::{AboveLimit, Leaves};
use crate::load::{self, Drawn};
use crate::profiles::{self, Profile};
use crate::reading::{Failure, Lists, Reader};
use crate::steps;
use crate::table::{self, Found, Table};
use crate::tallies;
use crate::Fault;

/// The second encoder and decoder, right or made wrong.
pub struct Second {
    pub(crate) fault: Fault,
    /// The codeword test goes by the steps, not by the coefficients.
    by_steps: bool,
    pub(crate) lists: Lists,
}

impl Second {
    pub fn new(fault: Fault) -> Second {
        Second { fault, by_steps: fault.is_of_the_steps(), lists: Lists::default() }
    }

    /// The right one, its codeword test by the steps.
    pub fn by_steps() -> Second {
        Second { by_steps: true, ..Second::new(Fault::None) }
    }

    pub fn encode(&self, m: usize, r: usize, message: &[u8], out: &mut [u8]) -> Answer {
        let checked = check_code(m, r).and_then(|()| check_slices(message, message_bits(m, r), out, 1 << m));
        if let Err(answer) = checked.and_then(|()| check_bytes(message, self.fault)) {
            return answer;
        }
        out.copy_from_slice(&code::codeword(m, r, message, self.fault));
        Answer::default()
    }

    pub fn read_message(&self, m: usize, r: usize, word: &[u8], out: &mut [u8]) -> Answer {
        let checked = check_code(m, r).and_then(|()| check_slices(word, 1 << m, out, message_bits(m, r)));
        if let Err(answer) = checked.and_then(|()| check_bytes(word, self.fault)) {
            return answer;
        }
        if !code::is_codeword(r, word) && self.fault != Fault::MessageUntested {
            return Answer::refused(13);
        }
        out.copy_from_slice(&code::message(m, r, word, self.fault));
        Answer::default()
    }

    /// Yes is 1 in the rounds.
    pub fn is_codeword(&self, m: usize, r: usize, word: &[u8]) -> Answer {
        let checked = check_code(m, r).and_then(|()| check_length(word, 1 << m, 5));
        if let Err(answer) = checked.and_then(|()| check_bytes(word, self.fault)) {
            return answer;
        }
        let passes = if self.by_steps { steps::passes(m, r, word, self.fault) } else { code::is_codeword(r, word) };
        Answer { rounds: passes as usize, ..Answer::default() }
    }

    /// The gap of a word at order 1, in the place of the leaf count.
    pub fn gap(&self, m: usize, word: &[u8], area: &mut [i32]) -> Answer {
        let checked = check_exponent(m).and_then(|()| check_length(word, 1 << m, 5));
        let checked = checked.and_then(|()| check_area(area, 1 << m));
        if let Err(answer) = checked.and_then(|()| check_bytes(word, self.fault)) {
            return answer;
        }
        if self.fault != Fault::GapAreaNotCleared {
            area.fill(0);
        }
        Answer { leaves: gap::gap(word, self.fault), ..Answer::default() }
    }

    /// Runs a script of operations on tallies.
    pub fn tallies(&self, script: &[u8], answers: &mut [u8], tally: &mut [u32]) -> u64 {
        tallies::run(script, answers, tally, self.fault)
    }

    /// Draws one block of a load.
    pub fn load_block(&self, profile: usize, state: u32, wrong: usize, word: &mut [u8]) -> Drawn {
        load::block(profile, state, wrong, word, self.fault)
    }

    #[allow(clippy::too_many_arguments)]
    pub fn decode(
        &mut self,
        m: usize,
        r: usize,
        rounds: usize,
        leaves: usize,
        word: &[u8],
        out: &mut [u8],
        area: &mut [i32],
    ) -> Answer {
        let limits = Limits { rounds, leaves };
        match check_code(m, r).and_then(|()| check_limits(limits)) {
            Err(answer) => answer,
            Ok(()) => self.decode_within(m, r, limits, word, out, area),
        }
    }

    pub fn decode_profile(&mut self, number: usize, word: &[u8], out: &mut [u8], area: &mut [i32]) -> Answer {
        self.decode_under(profiles::profile(number), word, out, area)
    }

    /// Under an entry of the table of a file.
    pub fn decode_table(
        &mut self,
        file: &[u8],
        number: usize,
        word: &[u8],
        out: &mut [u8],
        area: &mut [i32],
    ) -> Answer {
        match Table::load(file, self.fault) {
            Ok(table) => self.decode_entry(&table, number, word, out, area),
            Err(answer) => {
                if self.fault == Fault::AreaClearedAfterLoad {
                    area.fill(0);
                }
                answer
            }
        }
    }

    /// Under an entry of any table.
    pub fn decode_entry(
        &mut self,
        table: &Table,
        number: usize,
        word: &[u8],
        out: &mut [u8],
        area: &mut [i32],
    ) -> Answer {
        self.decode_under(table.entry(number, self.fault), word, out, area)
    }

    pub fn record(&self, file: &[u8], rest: &[u8], word: &mut [u8]) -> Found {
        table::record(file, rest, word, self.fault)
    }

    /// By profile: 14 where there is none, in the place of 1 to 4.
    fn decode_under(&mut self, profile: Option<Profile>, word: &[u8], out: &mut [u8], area: &mut [i32]) -> Answer {
        match profile {
            None => Answer::refused(14),
            Some(p) => {
                let limits = Limits { rounds: p.rounds, leaves: p.leaves };
                self.decode_within(p.m, p.r, limits, word, out, area)
            }
        }
    }

    /// Checks 5 to 8, then the reading.
    fn decode_within(
        &mut self,
        m: usize,
        r: usize,
        limits: Limits,
        word: &[u8],
        out: &mut [u8],
        area: &mut [i32],
    ) -> Answer {
        let n = 1 << m;
        let checked = check_slices(word, n, out, n).and_then(|()| check_area(area, n));
        if let Err(answer) = checked.and_then(|()| check_bytes(word, self.fault)) {
            if answer.refusal == 8 && self.fault == Fault::AreaClearedAfter8 {
                area.fill(0);
            }
            return answer;
        }
        let (answer, decoded) = self.read(m, r, limits, word);
        self.write(word, decoded, out);
        self.clear(area, n);
        self.spoiled(answer, m, r, limits)
    }

    /// The answer of the reading asked for, and the decoded word where it is accepted.
    pub(crate) fn read(&mut self, m: usize, r: usize, limits: Limits, word: &[u8]) -> (Answer, Option<Vec<u8>>) {
        let leaves = Leaves::new(limits.leaves, self.fault);
        let mut reader = Reader { lists: &mut self.lists, round_limit: limits.rounds, leaves, fault: self.fault };
        let reading = match reader.reading(m, r, word, 0) {
            Err(AboveLimit) => return (Answer { leaves: limits.leaves, ..Answer::refused(12) }, None),
            Ok(reading) => reading,
        };
        let refusal = match reading.result {
            Ok(_) => 0,
            Err(Failure::Tie) => 9,
            Err(Failure::Flipping) => 10,
            Err(Failure::Unsettled) => 11,
        };
        let leaves = reader.leaves.count() as usize;
        let decoded = reading.result.ok();
        let mended = self.mended(r, word, decoded.as_deref());
        (Answer { refusal, rounds: reading.rounds, leaves, mended, place: 0 }, decoded)
    }

    /// The places where the accepted word differs from the received one; 0 on a refusal.
    fn mended(&self, r: usize, word: &[u8], decoded: Option<&[u8]>) -> usize {
        match (decoded, self.fault) {
            (None, Fault::OneMendedOnRefusal) => 1,
            (None, _) => 0,
            (Some(_), Fault::NoneMendedAtOrderOne) if r == 1 => 0,
            (Some(decoded), Fault::OnesMended) => decoded.iter().filter(|bit| **bit == 1).count(),
            (Some(decoded), _) => (0..word.len()).filter(|p| word[*p] != decoded[*p]).count(),
        }
    }

    fn write(&self, word: &[u8], decoded: Option<Vec<u8>>, out: &mut [u8]) {
        match (decoded, self.fault) {
            (_, Fault::OutputNeverWritten | Fault::Always9 | Fault::Always10) => {}
            (_, Fault::Always11 | Fault::Always12) => {}
            (Some(_), Fault::ReceivedWordBack) | (None, Fault::OutputOnRefusal) => out.copy_from_slice(word),
            (Some(_), Fault::AlwaysZeros) => out.fill(0),
            (Some(decoded), _) => out.copy_from_slice(&decoded),
            (None, _) => {}
        }
    }

    fn clear(&self, area: &mut [i32], n: usize) {
        match self.fault {
            Fault::AreaNotCleared => {}
            Fault::AreaTailKept => area[..8 * n].fill(0),
            _ => area.fill(0),
        }
    }

    /// The answer, changed where the fault is one of the whole answer.
    fn spoiled(&self, answer: Answer, m: usize, r: usize, limits: Limits) -> Answer {
        let one_round = (1 << m) - 1;
        let (refusal, rounds, leaves) = match self.fault {
            Fault::Always9 => (9, 0, r),
            Fault::Always10 => (10, limits.rounds, one_round),
            Fault::Always11 => (11, 1, one_round),
            Fault::Always12 => (12, 0, limits.leaves),
            Fault::ConstantLeaves if matches!(answer.refusal, 0 | 10 | 11) => {
                (answer.refusal, answer.rounds, one_round)
            }
            _ => return answer,
        };
        Answer { refusal, rounds, leaves, ..answer }
    }
}
