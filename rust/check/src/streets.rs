//! A street before the digging (document 02, request 10): streets step by step, whole ones, logs without room, and settings at their limits and
//! beyond.

use crate::call::{Call, Effects};
use crate::compare::{met_just, Comparison, Disagreement, REFUSALS};
use second::profiles;
use second::street::{Plan, OTHER};

/// The calls, the answers that they met, and those that their steps showed.
struct Streets<'a, 'b> {
    c: &'a mut Comparison<'b>,
    met: [u64; REFUSALS],
    shown: [u64; 256],
    ended: u64,
}

/// The places of a block, of a profile that there is not those of the first.
fn places(profile: usize) -> usize {
    1 << profiles::profile(profile).map_or(5, |p| p.m)
}

/// The most blocks that such a street can send.
fn most(plan: Plan) -> usize {
    plan.meters * (plan.retries + 1)
}

impl<'a, 'b> Streets<'a, 'b> {
    fn new(c: &'a mut Comparison<'b>) -> Streets<'a, 'b> {
        Streets { c, met: [0; REFUSALS], shown: [0; 256], ended: 0 }
    }

    fn call(&mut self, call: &Call) -> Result<Effects, Disagreement> {
        let effects = self.c.call(call)?;
        self.met[effects.answer.refusal as usize] += 1;
        self.ended += effects.answer.rounds;
        self.c.steps += effects.answer.leaves;
        let log = effects.log.iter().flatten();
        let answers = log.skip(2).step_by(3).take(effects.answer.leaves as usize);
        answers.for_each(|answer| self.shown[*answer as usize & 255] += 1);
        Ok(effects)
    }

    /// With a word and an area of the right sizes.
    fn logged(&mut self, plan: Plan, steps: usize, log: usize) -> Result<Effects, Disagreement> {
        let n = places(plan.profile);
        self.call(&Call::Street { plan, steps, log, word: n, area: 8 * n })
    }

    /// The number of blocks that a street sends by itself, and that no step more is shown as sent.
    fn whole(&mut self, plan: Plan) -> Result<usize, Disagreement> {
        let effects = self.logged(plan, usize::MAX, 3 * most(plan))?;
        Ok(effects.answer.leaves as usize)
    }

    /// After every step from the start, to two after the end.
    fn each_step(&mut self, plan: Plan) -> Result<(), Disagreement> {
        let sent = self.whole(plan)?;
        (0..=sent + 2).try_for_each(|steps| self.logged(plan, steps, 3 * sent).map(|_| ()))
    }

    /// One step less than there are, just as many, and one more.
    fn ends(&mut self, plan: Plan) -> Result<(), Disagreement> {
        let sent = self.whole(plan)?;
        [sent - 1, sent, sent + 1].into_iter().try_for_each(|steps| self.logged(plan, steps, 3 * sent).map(|_| ()))
    }

    /// Logs with room for nothing, for parts of a step, and for more than there are.
    fn rooms(&mut self, plan: Plan) -> Result<(), Disagreement> {
        let sent = self.whole(plan)?;
        (0..=3 * sent + 4).try_for_each(|log| {
            self.logged(plan, sent + 1, log)?;
            self.logged(plan, sent / 2 + 1, log).map(|_| ())
        })
    }

    /// Settings and buffers at their limits and beyond, alone and with all that is checked after them.
    fn limits(&mut self, profiles: &[usize], meters: &[usize], retries: &[usize]) -> Result<(), Disagreement> {
        for &profile in profiles {
            let n = places(profile);
            for &meters in meters {
                for &retries in retries {
                    for start in [0, 1, u32::MAX] {
                        for wrong in [0, n, n + 1, usize::MAX] {
                            self.buffers(Plan { meters, retries, profile, start, wrong })?;
                        }
                    }
                }
            }
        }
        Ok(())
    }

    /// Buffers one short and one long, with one step; with none and with two, buffers of the right sizes alone.
    fn buffers(&mut self, plan: Plan) -> Result<(), Disagreement> {
        let n = places(plan.profile);
        for (word, area) in
            [(n, 8 * n), (n, 8 * n + 1), (n, 8 * n - 1), (n - 1, 8 * n), (n + 1, 8 * n), (n - 1, 8 * n - 1), (0, 0)]
        {
            self.call(&Call::Street { plan, steps: 1, log: 3, word, area })?;
        }
        self.logged(plan, 0, 3)?;
        self.logged(plan, 2, 6).map(|_| ())
    }

    /// Whether the calls met just these answers, and the steps just those; some streets came to their end.
    fn met_just(&self, answers: &[usize], shown: &[usize]) -> Result<(), Disagreement> {
        met_just("streets", &self.met, answers)?;
        match (0..256).find(|answer| (self.shown[*answer] > 0) != shown.contains(answer)) {
            Some(answer) => Err(Disagreement(format!("{} steps of streets show {answer}", self.shown[answer]))),
            None if self.ended == 0 => Err(Disagreement("no street came to its end".to_string())),
            None => Ok(()),
        }
    }
}

const REFUSED: [usize; 8] = [0, 6, 7, 14, 21, 22, 23, 24];

fn plan(meters: usize, retries: usize, profile: usize, start: u32, wrong: usize) -> Plan {
    Plan { meters, retries, profile, start, wrong }
}

/// Few streets that still show every fault.
pub fn directed(c: &mut Comparison) -> Result<(), Disagreement> {
    let mut streets = Streets::new(c);
    for (wrong, start) in [(0, 1), (8, 2), (9, 3), (10, 4), (12, 5), (16, u32::MAX)] {
        streets.each_step(plan(5, 3, 0, start, wrong))?;
    }
    streets.each_step(plan(1, 0, 0, 1, 16))?;
    streets.rooms(plan(3, 1, 0, 7, 9))?;
    for retries in [0, 1, 15] {
        streets.ends(plan(256, retries, 0, 1, 9))?;
    }
    streets.limits(&[0, 5], &[0, 1, 256, 257], &[0, 15, 16])?;
    streets.met_just(&REFUSED, &[0, 9, OTHER as usize])
}

/// Streets of every profile, the slowest few.
pub fn many(c: &mut Comparison) -> Result<(), Disagreement> {
    let mut streets = Streets::new(c);
    for (profile, wrongs) in [
        (0, &[0, 1, 7, 8, 9, 10, 11, 12, 16, 31, 32][..]),
        (1, &[0, 7, 8, 9, 10, 11, 12, 13, 64]),
        (2, &[15, 16, 18, 20, 24]),
        (3, &[31, 40, 48]),
    ] {
        for &wrong in wrongs {
            for (meters, retries, start) in [(1, 1, 1), (2, 0, u32::MAX), (3, 2, 17)] {
                streets.each_step(plan(meters, retries, profile, start, wrong))?;
            }
        }
    }
    for start in 1..=60 {
        streets.each_step(plan(6, 4, 0, start, 8 + start as usize % 5))?;
    }
    streets.rooms(plan(4, 2, 1, 3, 11))?;
    streets.ends(plan(2, 1, 4, 5, 20))?;
    streets.met_just(&[0], &[0, 9, 10, 11, OTHER as usize])
}

/// As many meters and retries as there can be.
pub fn full(c: &mut Comparison) -> Result<(), Disagreement> {
    let mut streets = Streets::new(c);
    for meters in [1, 2, 255, 256] {
        for retries in [0, 1, 14, 15] {
            for (start, wrong) in [(1, 8), (2, 9), (1 << 31, 12), (u32::MAX, 16)] {
                streets.ends(plan(meters, retries, 0, start, wrong))?;
            }
        }
    }
    for (profile, meters, retries, wrong) in [(1, 256, 15, 9), (1, 256, 15, 14), (2, 256, 3, 18), (3, 40, 2, 36)] {
        streets.ends(plan(meters, retries, profile, 9, wrong))?;
    }
    streets.met_just(&[0], &[0, 9, 10, 11, OTHER as usize])
}

/// Settings at their limits and beyond.
pub fn limits(c: &mut Comparison) -> Result<(), Disagreement> {
    let mut streets = Streets::new(c);
    let meters = [0, 1, 2, 255, 256, 257, (1 << 32) + 1, usize::MAX];
    let retries = [0, 1, 15, 16, 1 << 32, usize::MAX];
    streets.limits(&[0, 1, 2, 5, 6, 31, 256, 1 << 32, usize::MAX], &meters, &retries)?;
    streets.limits(&[3, 4], &[0, 257], &[0, 16])?;
    streets.met_just(&REFUSED, &[0, 9, 10, 11, OTHER as usize])
}
