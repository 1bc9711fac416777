//! Scripts of operations on tallies, document 02's request 11, run by the candidate and over a map.

use crate::compare::{Comparison, Disagreement};
use crate::decoder::Decoder;
use crate::lent::{self, Lent};
use crate::random::Random;
use second::tallies::{Counts, Name, Operation};

/// What a run returned and left; a buffer is missing if something was written around it.
#[derive(PartialEq, Eq, Debug)]
pub struct Left {
    made: u64,
    answers: Option<Vec<u8>>,
    tally: Option<Vec<u32>>,
    script_kept: bool,
}

impl Left {
    /// None where the tally was refused.
    pub fn operations(&self) -> u64 {
        if self.made == u64::MAX {
            return 0;
        }
        self.made
    }
}

pub fn left(decoder: &mut dyn Decoder, script: &[u8], room: usize, tally: &[u32]) -> Left {
    let (mut answers, mut counts, lent_script) = (lent::bytes(room), Lent::of(tally), script.to_vec());
    let made =
        decoder.beyond().expect("a decoder with tallies").tallies(&lent_script, answers.inside(), counts.inside());
    Left { made, answers: answers.taken_back(), tally: counts.taken_back(), script_kept: lent_script == script }
}

fn run(c: &mut Comparison, script: &[u8], room: usize, tally: &[u32]) -> Result<u64, Disagreement> {
    let (found, right) = c.tallies(script, room, tally);
    if found == right {
        return Ok(right.made);
    }
    Err(Disagreement(format!("script {script:?}, room {room}, from {tally:?}\n  given: {found:?}\n  right: {right:?}")))
}

/// Names that are alike but for one byte, and two that are all of one.
fn names(random: &mut Random, count: usize) -> Vec<Name> {
    let base: Name = std::array::from_fn(|_| random.below(256) as u8);
    let mut names = vec![[0; 8], [255; 8], base];
    for i in 0..count {
        let mut name = base;
        name[i % 8] ^= 1 << (i / 8 % 8);
        names.push(name);
    }
    names
}

/// Counts at the ends of their range.
fn counts(random: &mut Random) -> Counts {
    std::array::from_fn(|_| random.one_of(&[0, 1, u32::MAX - 2, u32::MAX - 1, u32::MAX]))
}

fn operation(random: &mut Random, names: &[Name]) -> Operation {
    let name = random.one_of(names);
    match random.below(8) {
        0..=2 => {
            let any = random.below(256);
            Operation::Count(random.one_of(&[0, 9, 30, 31, 32, any]))
        }
        3 | 4 => Operation::Save(name),
        5 | 6 => Operation::Return(name),
        _ => Operation::Drop(name),
    }
}

/// A script of so many operations over more names than there are places.
pub fn long(c: &mut Comparison, seed: u64, operations: usize, others: usize) -> Result<(), Disagreement> {
    let mut random = Random::new(seed);
    let (names, start) = (names(&mut random, others), counts(&mut random));
    let script: Vec<u8> = (0..operations).flat_map(|_| operation(&mut random, &names).written()).collect();
    for room in [operations, operations + 3, operations / 2] {
        let made = run(c, &script, room, &start)?;
        if made != room.min(operations) as u64 {
            return Err(Disagreement(format!("{made} operations of {operations} were made, with room for {room}")));
        }
    }
    Ok(())
}

/// Short scripts, so that each state that a script can reach is the last of one: cut at every byte, with too few answers, with bytes by chance.
pub fn short(c: &mut Comparison, seed: u64, scripts: usize) -> Result<(), Disagreement> {
    let mut random = Random::new(seed);
    for _ in 0..scripts {
        let (names, start) = (names(&mut random, 2), counts(&mut random));
        let mut script: Vec<u8> = (0..4).flat_map(|_| operation(&mut random, &names).written()).collect();
        script.extend([random.below(6) as u8, random.below(256) as u8]);
        for end in 0..=script.len() {
            run(c, &script[..end], random.below(7), &start)?;
        }
    }
    Ok(())
}

/// Tallies of other lengths than 32, after which nothing is written.
pub fn lengths(c: &mut Comparison) -> Result<(), Disagreement> {
    for length in [0, 1, 31, 33, 64] {
        run(c, &[0, 0, 0, 1], 4, &vec![7; length])?;
    }
    Ok(())
}

/// Sixteen names held, then one of them saved again, another one refused, and one dropped for it; all are returned to.
pub fn full(c: &mut Comparison) -> Result<(), Disagreement> {
    let name = |i: u8| [b'm', b'e', b't', b'e', b'r', 0, 0, i];
    let mut operations: Vec<Operation> =
        (0..16).flat_map(|i| [Operation::Count(5), Operation::Save(name(i))]).collect();
    operations.extend([Operation::Save(name(3)), Operation::Save(name(16)), Operation::Return(name(16))]);
    operations.extend([Operation::Drop(name(16)), Operation::Drop(name(8)), Operation::Save(name(16))]);
    operations.extend((0..17).flat_map(|i| [Operation::Return(name(i)), Operation::Return(name(i))]));
    for made in 1..=operations.len() {
        let script: Vec<u8> = operations[..made].iter().flat_map(|operation| operation.written()).collect();
        run(c, &script, made, &[0; 32])?;
    }
    Ok(())
}
