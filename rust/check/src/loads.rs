//! Loads that anyone can repeat (document 02, request 9): blocks drawn one after the other, and calls that are refused.

use crate::call::Call;
use crate::compare::{met_just, Comparison, Disagreement, REFUSALS};
use second::profiles;

/// What the calls of loads met: the answers, and among the blocks those left short and those that are whole.
#[derive(Default)]
struct Met {
    answers: [u64; REFUSALS],
    short: u64,
    whole: u64,
}

/// One call; the state after it.
fn draw(
    c: &mut Comparison,
    met: &mut Met,
    profile: usize,
    state: u32,
    wrong: usize,
    word: usize,
) -> Result<u32, Disagreement> {
    let effects = c.call(&Call::LoadBlock { profile, state, wrong, word })?;
    met.answers[effects.answer.refusal as usize] += 1;
    if effects.answer.refusal == 0 {
        met.short += effects.answer.rounds;
        met.whole += 1 - effects.answer.rounds;
    }
    Ok(effects.answer.leaves as u32)
}

/// A load of so many blocks, each from the state after the one before.
fn chained(
    c: &mut Comparison,
    met: &mut Met,
    profile: usize,
    start: u32,
    wrong: usize,
    blocks: usize,
) -> Result<(), Disagreement> {
    let n = places(profile);
    (0..blocks).try_fold(start, |state, _| draw(c, met, profile, state, wrong, n)).map(|_| ())
}

/// The places of a block, of a profile that there is not those of the first.
fn places(profile: usize) -> usize {
    1 << profiles::profile(profile).map_or(5, |p| p.m)
}

/// Loads of each profile, with few wrong places and many, up to so many blocks in each.
fn long(c: &mut Comparison, met: &mut Met, blocks: usize) -> Result<(), Disagreement> {
    for profile in 0..5 {
        let n = places(profile);
        for (wrong, blocks) in
            [(3, 4 * blocks), (0, blocks), (1, blocks), (n / 2, blocks), (n * 5 / 8, blocks), (n, blocks / 8)]
        {
            chained(c, met, profile, 1 + wrong as u32, wrong, blocks)?;
        }
    }
    Ok(())
}

/// States at the ends of their range, buffers and numbers of wrong places right and wrong, profiles that there are and are not.
fn ends(c: &mut Comparison, met: &mut Met) -> Result<(), Disagreement> {
    for profile in [0, 1, 2, 3, 4, 5, 6, 31, 32, 255, 256, 1 << 32, (1 << 32) + 1, usize::MAX] {
        let n = places(profile);
        for state in [0, 1, 2, 1 << 31, u32::MAX] {
            for wrong in [0, 1, n - 1, n, n + 1, 1 << 32, usize::MAX] {
                for word in [n, 0, n - 1, n + 1, 2 * n] {
                    draw(c, met, profile, state, wrong, word)?;
                }
            }
        }
    }
    Ok(())
}

pub fn all(c: &mut Comparison, blocks: usize) -> Result<(), Disagreement> {
    let mut met = Met::default();
    ends(c, &mut met)?;
    long(c, &mut met, blocks)?;
    if met.short == 0 || met.whole == 0 {
        return Err(Disagreement(format!("{} blocks left short, {} whole", met.short, met.whole)));
    }
    met_just("loads", &met.answers, &[0, 6, 14, 21, 22])
}
