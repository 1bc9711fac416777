//! The second decoder, right or with a fault.

use crate::decoder::{Answer, Beyond, Confidences, Decoder};
use second::array::Sides;
use second::profiles::Profile;
use second::street::Plan;
use second::table::Table;
use second::{Fault, Second};

pub struct Faulty(Second);

impl Faulty {
    pub fn new(fault: Fault) -> Faulty {
        Faulty(Second::new(fault))
    }

    /// The right one, its codeword test by the steps of document 02, request 8.
    pub fn by_steps() -> Faulty {
        Faulty(Second::by_steps())
    }
}

fn answer(from: second::Answer) -> Answer {
    let (mended, place) = (from.mended as u64, from.place as u64);
    Answer { mended, place, ..Answer::numbers(from.refusal as u64, from.rounds as u64, from.leaves as u64) }
}

impl Decoder for Faulty {
    fn encode(&mut self, m: usize, r: usize, message: &[u8], out: &mut [u8]) -> Answer {
        answer(self.0.encode(m, r, message, out))
    }

    fn read_message(&mut self, m: usize, r: usize, word: &[u8], out: &mut [u8]) -> Answer {
        answer(self.0.read_message(m, r, word, out))
    }

    fn is_codeword(&mut self, m: usize, r: usize, word: &[u8]) -> Answer {
        answer(self.0.is_codeword(m, r, word))
    }

    fn decode(
        &mut self,
        m: usize,
        r: usize,
        rounds: usize,
        leaves: usize,
        word: &[u8],
        out: &mut [u8],
        area: &mut [i32],
    ) -> Answer {
        answer(self.0.decode(m, r, rounds, leaves, word, out, area))
    }

    fn decode_profile(&mut self, profile: usize, word: &[u8], out: &mut [u8], area: &mut [i32]) -> Answer {
        answer(self.0.decode_profile(profile, word, out, area))
    }

    fn gap(&mut self, m: usize, word: &[u8], area: &mut [i32]) -> Answer {
        answer(self.0.gap(m, word, area))
    }

    fn beyond(&mut self) -> Option<&mut dyn Beyond> {
        Some(self)
    }

    fn confidences(&mut self) -> Option<&mut dyn Confidences> {
        Some(self)
    }
}

impl Confidences for Faulty {
    fn decode_confidences(
        &mut self,
        m: usize,
        r: usize,
        rounds: usize,
        leaves: usize,
        values: &[i16],
        out: &mut [u8],
        area: &mut [i32],
    ) -> Answer {
        answer(self.0.decode_confidences(m, r, rounds, leaves, values, out, area))
    }

    fn decode_confidences_profile(
        &mut self,
        profile: usize,
        values: &[i16],
        out: &mut [u8],
        area: &mut [i32],
    ) -> Answer {
        answer(self.0.decode_confidences_profile(profile, values, out, area))
    }
}

impl Beyond for Faulty {
    fn decode_table(&mut self, file: &[u8], number: usize, word: &[u8], out: &mut [u8], area: &mut [i32]) -> Answer {
        answer(self.0.decode_table(file, number, word, out, area))
    }

    fn decode_made(
        &mut self,
        count: usize,
        entry: Profile,
        number: usize,
        word: &[u8],
        out: &mut [u8],
        area: &mut [i32],
    ) -> Answer {
        let table = Table { count, entries: [entry; 32] };
        answer(self.0.decode_entry(&table, number, word, out, area))
    }

    fn record(&mut self, file: &[u8], rest: &[u8], word: &mut [u8]) -> Answer {
        let found = self.0.record(file, rest, word);
        let numbers = Answer::numbers(found.refusal as u64, found.none_left as u64, found.serial as u64);
        Answer { place: found.profile as u64, ..numbers }
    }

    fn tallies(&mut self, script: &[u8], answers: &mut [u8], tally: &mut [u32]) -> u64 {
        self.0.tallies(script, answers, tally)
    }

    fn load_block(&mut self, profile: usize, state: u32, wrong: usize, word: &mut [u8]) -> Answer {
        let drawn = self.0.load_block(profile, state, wrong, word);
        Answer::numbers(drawn.refusal as u64, drawn.short as u64, drawn.state as u64)
    }

    fn decode_array(&mut self, sides: Sides, word: &[u8], out: &mut [u8], area: &mut [i32]) -> Answer {
        answer(self.0.decode_array(sides, word, out, area))
    }

    fn street(&mut self, plan: Plan, steps: usize, log: &mut [u32], word: &mut [u8], area: &mut [i32]) -> Answer {
        let walked = self.0.street(plan, steps, log, word, area);
        Answer::numbers(walked.refusal as u64, walked.none_left as u64, walked.steps.len() as u64)
    }
}
