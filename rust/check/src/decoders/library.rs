//! The proved library, through its C exports.

use crate::decoder::Confidences;
use crate::decoder::{Answer, Beyond, Decoder};
use second::array::Sides;
use second::profiles::Profile;
use second::street::Plan;

pub struct Library;

fn answer(from: calls::Answer) -> Answer {
    let (mended, place) = (from.mended as u64, from.place as u64);
    Answer { mended, place, ..Answer::numbers(from.refusal as u64, from.rounds as u64, from.leaves as u64) }
}

impl Decoder for Library {
    fn encode(&mut self, m: usize, r: usize, message: &[u8], out: &mut [u8]) -> Answer {
        answer(calls::encode(m, r, message, out))
    }

    fn read_message(&mut self, m: usize, r: usize, word: &[u8], out: &mut [u8]) -> Answer {
        answer(calls::read_message(m, r, word, out))
    }

    fn is_codeword(&mut self, m: usize, r: usize, word: &[u8]) -> Answer {
        answer(calls::is_codeword(m, r, word))
    }

    fn decode(
        &mut self,
        m: usize,
        r: usize,
        rounds: usize,
        leaves: usize,
        word: &[u8],
        out: &mut [u8],
        area: &mut [i32],
    ) -> Answer {
        answer(calls::decode(m, r, rounds, leaves, word, out, area))
    }

    fn decode_profile(&mut self, profile: usize, word: &[u8], out: &mut [u8], area: &mut [i32]) -> Answer {
        answer(calls::decode_profile(profile, word, out, area))
    }

    fn gap(&mut self, m: usize, word: &[u8], area: &mut [i32]) -> Answer {
        answer(calls::gap(m, word, area))
    }

    fn beyond(&mut self) -> Option<&mut dyn Beyond> {
        Some(self)
    }

    fn confidences(&mut self) -> Option<&mut dyn Confidences> {
        Some(self)
    }
}

impl Confidences for Library {
    fn decode_confidences(
        &mut self,
        m: usize,
        r: usize,
        rounds: usize,
        leaves: usize,
        values: &[i16],
        out: &mut [u8],
        area: &mut [i32],
    ) -> Answer {
        answer(calls::decode_confidences(m, r, rounds, leaves, values, out, area))
    }

    fn decode_confidences_profile(
        &mut self,
        profile: usize,
        values: &[i16],
        out: &mut [u8],
        area: &mut [i32],
    ) -> Answer {
        answer(calls::decode_confidences_profile(profile, values, out, area))
    }
}

impl Beyond for Library {
    fn decode_table(&mut self, file: &[u8], number: usize, word: &[u8], out: &mut [u8], area: &mut [i32]) -> Answer {
        answer(calls::decode_table(file, number, word, out, area))
    }

    fn decode_made(
        &mut self,
        count: usize,
        entry: Profile,
        number: usize,
        word: &[u8],
        out: &mut [u8],
        area: &mut [i32],
    ) -> Answer {
        let Profile { m, r, rounds, leaves } = entry;
        answer(calls::decode_made(count, [m, r, rounds, leaves], number, word, out, area))
    }

    fn record(&mut self, file: &[u8], rest: &[u8], word: &mut [u8]) -> Answer {
        let found = calls::record(file, rest, word);
        let numbers = Answer::numbers(found.refusal as u64, found.none_left as u64, found.serial as u64);
        // a bit that must be 0 would show as a place mended
        Answer { place: found.profile as u64, mended: found.unused as u64, ..numbers }
    }

    fn tallies(&mut self, script: &[u8], answers: &mut [u8], tally: &mut [u32]) -> u64 {
        calls::tallies(script, answers, tally)
    }

    fn load_block(&mut self, profile: usize, state: u32, wrong: usize, word: &mut [u8]) -> Answer {
        let drawn = calls::load_block(profile, state, wrong, word);
        // bits that must be 0 would show as places mended
        let numbers = Answer::numbers(drawn.refusal as u64, drawn.short as u64, drawn.state as u64);
        Answer { mended: drawn.unused as u64, ..numbers }
    }

    fn decode_array(&mut self, sides: Sides, word: &[u8], out: &mut [u8], area: &mut [i32]) -> Answer {
        let Sides { row, column, rounds, leaves } = sides;
        let answer = calls::decode_array([row.m, row.r, column.m, column.r], [rounds, leaves], word, out, area);
        Answer { place: answer.place as u64, ..Answer::numbers(answer.refusal as u64, 0, answer.leaves) }
    }

    fn street(&mut self, plan: Plan, steps: usize, log: &mut [u32], word: &mut [u8], area: &mut [i32]) -> Answer {
        let Plan { meters, retries, profile, start, wrong } = plan;
        let walked = calls::street([meters, retries, profile], start, wrong, steps, log, word, area);
        // bits that must be 0 would show as places mended
        let numbers = Answer::numbers(walked.refusal as u64, walked.none_left as u64, walked.sent as u64);
        Answer { mended: walked.unused as u64, ..numbers }
    }
}
