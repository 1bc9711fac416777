//! One call made on both decoders, and whether they agree.

use crate::call::{digits, Call, Effects};
use crate::decoder::{Answer, Decoder};
use crate::decoders::Faulty;
use crate::tallies::{self, Left};
use second::Fault;
use std::fmt;

/// What a decoder did otherwise than it should.
pub struct Disagreement(pub String);

impl fmt::Display for Disagreement {
    fn fmt(&self, f: &mut fmt::Formatter) -> fmt::Result {
        write!(f, "{}", self.0)
    }
}

/// One more than the greatest number of an answer.
pub const REFUSALS: usize = 29;

/// Whether the answers met are just these.
pub fn met_just(what: &str, met: &[u64; REFUSALS], due: &[usize]) -> Result<(), Disagreement> {
    match (0..REFUSALS).find(|number| (met[*number] > 0) != due.contains(number)) {
        None => Ok(()),
        Some(number) => Err(Disagreement(format!("answer {number} of {what}: {} times", met[number]))),
    }
}

/// A decoder beside the right second decoder.
pub struct Comparison<'a> {
    pub candidate: &'a mut dyn Decoder,
    right: Faulty,
    by_steps: Faulty,
    /// How often each answer was given in a compared call, acceptance first.
    pub met: [u64; REFUSALS],
    pub pairs: u64,
    /// How many blocks were mended as document 02's guarantee says.
    pub mended: u64,
    /// How many operations on tallies were compared.
    pub operations: u64,
    /// How many steps of streets were.
    pub steps: u64,
}

impl<'a> Comparison<'a> {
    pub fn new(candidate: &'a mut dyn Decoder) -> Comparison<'a> {
        let (right, by_steps) = (Faulty::new(Fault::None), Faulty::by_steps());
        Comparison { candidate, right, by_steps, met: [0; REFUSALS], pairs: 0, mended: 0, operations: 0, steps: 0 }
    }

    /// Whether the candidate has the calls beyond decoding.
    pub fn goes_beyond(&mut self) -> bool {
        self.candidate.beyond().is_some()
    }

    /// Whether the candidate has the calls on confidences.
    pub fn has_confidences(&mut self) -> bool {
        self.candidate.confidences().is_some()
    }

    /// Makes the call on both; the right effects if they agree. The codeword test is held to the steps too.
    pub fn call(&mut self, call: &Call) -> Result<Effects, Disagreement> {
        let found = call.run(self.candidate);
        let right = call.run(&mut self.right);
        if found != right {
            return Err(difference(call, &found, &right));
        }
        if matches!(call, Call::IsCodeword { .. }) {
            let by_steps = call.run(&mut self.by_steps);
            if found != by_steps {
                return Err(difference(call, &found, &by_steps));
            }
        }
        self.met[right.answer.refusal as usize] += 1;
        Ok(right)
    }

    /// What the candidate and the right one leave of a run of a script.
    pub fn tallies(&mut self, script: &[u8], room: usize, tally: &[u32]) -> (Left, Left) {
        let found = tallies::left(self.candidate, script, room, tally);
        let right = tallies::left(&mut self.right, script, room, tally);
        self.operations += right.operations();
        (found, right)
    }

    pub fn calls(&self) -> u64 {
        self.met.iter().sum()
    }
}

fn numbers(answer: Answer) -> String {
    let Answer { refusal, rounds, leaves, mended, place } = answer;
    format!("refusal {refusal} rounds {rounds} leaves {leaves} mended {mended} place {place}")
}

/// Both sides in words.
fn difference(call: &Call, found: &Effects, right: &Effects) -> Disagreement {
    let mut text = format!("{call}\n  given: {}\n  right: {}", numbers(found.answer), numbers(right.answer));
    let shown = |out: &Option<Vec<u8>>| out.as_ref().map_or("written around".into(), |out| digits(out));
    if found.out != right.out {
        text += &format!("\n  output given: {}\n  output right: {}", shown(&found.out), shown(&right.out));
    }
    if found.area != right.area {
        text += &format!("\n  area: {}", area_difference(&found.area, &right.area));
    }
    if found.log != right.log {
        text += &format!("\n  log given: {:?}\n  log right: {:?}", found.log, right.log);
    }
    if !found.input_kept {
        text += "\n  the input was changed";
    }
    Disagreement(text)
}

fn area_difference(found: &Option<Vec<i32>>, right: &Option<Vec<i32>>) -> String {
    let (Some(found), Some(right)) = (found, right) else {
        return "written around".into();
    };
    match (0..right.len()).find(|i| found[*i] != right[*i]) {
        Some(i) => format!("{} at {i}, right is {}", found[i], right[i]),
        None => "the same".into(),
    }
}
