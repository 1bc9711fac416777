//! A street before the digging (document 02, request 10): meters that send blocks of one load, turn after turn.

use crate::answer::Limits;
use crate::profiles::{self, Profile};
use crate::{load, Fault, Second};

/// What a planner tries.
#[derive(Clone, Copy, PartialEq, Eq, Debug)]
pub struct Plan {
    pub meters: usize,
    pub retries: usize,
    pub profile: usize,
    pub start: u32,
    pub wrong: usize,
}

/// "Each step shows the meter, its try (0 in the first turn) and its answer": 0 for right, 100 for another codeword, or the refusal.
#[derive(Clone, Copy, PartialEq, Eq, Debug)]
pub struct Step {
    pub meter: usize,
    pub attempt: usize,
    pub answer: u8,
}

pub const OTHER: u8 = 100;

/// Refusal or 0, the steps that sent a block, and whether a step answered that none is left.
#[derive(Clone, PartialEq, Eq, Debug, Default)]
pub struct Walked {
    pub refusal: u8,
    pub steps: Vec<Step>,
    pub none_left: bool,
}

/// 23, 24, 14, 21, 22, 6, 7, in this order.
fn refusal(plan: Plan, word: usize, area: usize, fault: Fault) -> u8 {
    let p = profiles::profile(plan.profile);
    let beyond = |number: usize| p.is_some_and(|p| number > 1 << p.m);
    let other = |number: usize| p.is_some_and(|p| number != 1 << p.m);
    let most_meters = if fault == Fault::Meters256Refused { 255 } else { 256 };
    let most_retries = if fault == Fault::Retries15Refused { 14 } else { 15 };
    let mut checks = [
        (!(1..=most_meters).contains(&plan.meters), 23),
        (plan.retries > most_retries, 24),
        (p.is_none(), 14),
        (plan.start == 0, 21),
        (beyond(plan.wrong), 22),
        (other(word), 6),
        (p.is_some_and(|p| area < 8 << p.m), 7),
    ];
    match fault {
        Fault::TwentyFourBefore23 => checks.swap(0, 1),
        Fault::FourteenBefore24 => checks.swap(1, 2),
        Fault::TwentyOneBefore14 => checks.swap(2, 3),
        Fault::TwentyTwoBefore21 => checks.swap(3, 4),
        Fault::LengthBefore22 => checks.swap(4, 5),
        Fault::SevenBefore6 => checks.swap(5, 6),
        _ => {}
    }
    checks.into_iter().find(|(fails, _)| *fails).map_or(0, |(_, number)| number)
}

/// A street that is walked along: the load's state, and what was shown so far.
struct Street<'a> {
    second: &'a mut Second,
    plan: Plan,
    profile: Profile,
    most: usize,
    state: u32,
    steps: Vec<Step>,
    buffer: Vec<u8>,
    /// Whether a meter was left to send when the steps were made.
    left: bool,
    /// The state that each meter's last block was drawn from.
    drawn_from: Vec<u32>,
}

impl Street<'_> {
    /// "each block the next of one load of request 9": whether it was refused.
    fn send(&mut self, meter: usize, attempt: usize) -> bool {
        let fault = self.second.fault;
        let again = fault == Fault::SameBlockAgain && attempt > 0;
        let from = if again { self.drawn_from[meter] } else { self.state };
        let (sent, block, drawn) = load::drawn(self.profile, from, self.plan.wrong, fault);
        self.drawn_from[meter] = from;
        self.state = drawn.state;
        let Profile { m, r, rounds, leaves } = self.profile;
        let (answer, decoded) = self.second.read(m, r, Limits { rounds, leaves }, &block);
        let answer = match &decoded {
            None => answer.refusal,
            Some(word) if *word == sent || fault == Fault::OtherShownRight => 0,
            Some(_) => OTHER,
        };
        let attempt = if fault == Fault::TryFromOne { attempt + 1 } else { attempt };
        self.steps.push(Step { meter, attempt, answer });
        self.buffer = if fault == Fault::BufferHoldsDecoded { decoded.unwrap_or(block) } else { block };
        !matches!(answer, 0 | OTHER) || answer == OTHER && fault == Fault::OtherSentAgain
    }

    /// A meter's turn to send, unless all steps are made: whether it was refused.
    fn step(&mut self, meter: usize, attempt: usize) -> bool {
        if self.steps.len() == self.most {
            self.left = true;
            return false;
        }
        self.send(meter, attempt)
    }

    /// The meters of a turn send by number; those that were refused.
    fn turn(&mut self, attempt: usize, meters: &[usize]) -> Vec<usize> {
        meters.iter().copied().filter(|&meter| self.step(meter, attempt)).collect()
    }

    /// "In later turns only the meters refused in the turn before send, up to a retry limit of 0 to 15 such turns."
    fn walk(&mut self) {
        let (plan, start, fault) = (self.plan, self.state, self.second.fault);
        let mut meters = self.turn(0, &(0..plan.meters).collect::<Vec<usize>>());
        if fault == Fault::SecondTurnSkipsOne {
            meters.pop();
        }
        let turns = if fault == Fault::OneTurnMore { plan.retries + 1 } else { plan.retries };
        for attempt in 1..=turns {
            if fault == Fault::OneLoadForEachTurn {
                self.state = start;
            }
            let refused = self.turn(attempt, &meters);
            if fault != Fault::AllFirstRefusedSend {
                meters = refused;
            }
        }
    }

    /// The fault in which a refused meter does not wait for the next turn.
    fn walk_at_once(&mut self) {
        for meter in 0..self.plan.meters {
            let mut refused = true;
            for attempt in 0..=self.plan.retries {
                refused = refused && self.step(meter, attempt);
            }
        }
    }
}

/// Three numbers for a step, where there is room for three.
fn write(log: &mut [u32], steps: &[Step], fault: Fault) {
    for (three, step) in log.chunks_mut(3).zip(steps) {
        if three.len() == 3 || fault == Fault::TripleCut {
            let numbers = [step.meter as u32, step.attempt as u32, step.answer as u32];
            three.iter_mut().zip(numbers).for_each(|(place, number)| *place = number);
        }
    }
}

impl Second {
    /// Makes steps until so many have sent a block, or one answers that none is left.
    pub fn street(&mut self, plan: Plan, steps: usize, log: &mut [u32], word: &mut [u8], area: &mut [i32]) -> Walked {
        let fault = self.fault;
        let refusal = refusal(plan, word.len(), area.len(), fault);
        let (Some(profile), 0) = (profiles::profile(plan.profile), refusal) else {
            if fault == Fault::StreetWrittenOnRefusal {
                log.fill(0);
                word.fill(0);
                area.fill(0);
            }
            return Walked { refusal, ..Walked::default() };
        };
        let most = if fault == Fault::LogEndsTheSteps { steps.min(log.len() / 3) } else { steps };
        let (state, buffer, drawn_from) = (plan.start, word.to_vec(), vec![0; plan.meters]);
        let (steps, left) = (Vec::new(), false);
        let mut street = Street { second: self, plan, profile, most, state, steps, buffer, left, drawn_from };
        if fault == Fault::RetriedAtOnce {
            street.walk_at_once();
        } else {
            street.walk();
        }
        let (steps, left) = (street.steps, street.left);
        word.copy_from_slice(&street.buffer);
        write(log, &steps, fault);
        if !steps.is_empty() && fault != Fault::StreetAreaNotCleared {
            area.fill(0);
        }
        let none_left = steps.len() < most || fault == Fault::NoneLeftAtTheEnd && !left;
        if none_left && fault == Fault::BlockAfterNoneLeft {
            word.fill(0);
        }
        Walked { refusal, none_left, steps }
    }
}
