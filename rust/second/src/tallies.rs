//! Tallies under names, document 02's request 11, over a map: scripts of operations as the library runs them.

use crate::Fault;
use std::collections::BTreeMap;

pub type Name = [u8; 8];
pub type Counts = [u32; 32];

/// What a byte of a script and those after it say.
#[derive(Clone, Copy, PartialEq, Eq, Debug)]
pub enum Operation {
    Count(usize),
    Save(Name),
    Return(Name),
    Drop(Name),
}

impl Operation {
    /// The first operation of a script, and the rest; none where it is cut short or unknown.
    fn first(script: &[u8]) -> Option<(Operation, &[u8])> {
        let (code, rest) = script.split_first()?;
        if *code == 0 {
            let (number, rest) = rest.split_first()?;
            return Some((Operation::Count(*number as usize), rest));
        }
        let name: Name = rest.get(..8)?.try_into().expect("eight bytes");
        let operation = match code {
            1 => Operation::Save(name),
            2 => Operation::Return(name),
            3 => Operation::Drop(name),
            _ => return None,
        };
        Some((operation, &rest[8..]))
    }

    /// Its bytes in a script; the number of an answer is kept to one byte.
    pub fn written(self) -> Vec<u8> {
        let named = |code: u8, name: Name| [&[code], &name[..]].concat();
        match self {
            Operation::Count(number) => vec![0, number as u8],
            Operation::Save(name) => named(1, name),
            Operation::Return(name) => named(2, name),
            Operation::Drop(name) => named(3, name),
        }
    }
}

/// The receive loop's tally, and those saved under names.
pub struct Keeper {
    pub counts: Counts,
    held: BTreeMap<Name, Counts>,
    fault: Fault,
}

const PLACES: usize = 16;

impl Keeper {
    pub fn new(counts: Counts, fault: Fault) -> Keeper {
        Keeper { counts, held: BTreeMap::new(), fault }
    }

    /// One more answer of that number.
    pub fn count(&mut self, number: usize) {
        let number = match self.fault {
            Fault::Answer31Uncounted if number == 31 => return,
            Fault::Answer32Counted if number == 32 => 31,
            _ => number,
        };
        if let Some(count) = self.counts.get_mut(number) {
            *count = if self.fault == Fault::CountsWrap { count.wrapping_add(1) } else { count.saturating_add(1) };
        }
    }

    /// The bytes that names are compared by.
    fn compared(&self, mut name: Name) -> Name {
        if self.fault == Fault::SevenByteNames {
            name[7] = 0;
        }
        name
    }

    fn save(&mut self, name: Name) -> u8 {
        let known = self.held.contains_key(&name) && self.fault != Fault::FullRefusesHeldNames;
        if self.held.len() < PLACES || known {
            self.held.insert(name, self.counts);
            return 0;
        }
        if self.fault == Fault::RefusedSaveOverwrites {
            self.held.pop_first();
            self.held.insert(name, self.counts);
        }
        26
    }

    fn return_to(&mut self, name: Name) -> u8 {
        let Some(counts) = self.held.get(&name) else {
            if self.fault == Fault::UnknownNameClears {
                self.counts = [0; 32];
            }
            return 25;
        };
        self.counts = *counts;
        if self.fault == Fault::ReturningDrops {
            self.held.remove(&name);
        }
        0
    }

    fn drop_name(&mut self, name: Name) -> u8 {
        if !self.held.contains_key(&name) {
            return 25;
        }
        let other = self.held.keys().find(|key| **key != name).copied();
        let gone = if self.fault == Fault::AnotherNameDropped { other.unwrap_or(name) } else { name };
        self.held.remove(&gone);
        0
    }

    /// Its answer.
    fn make(&mut self, operation: Operation) -> u8 {
        match operation {
            Operation::Count(number) => {
                self.count(number);
                0
            }
            Operation::Save(name) => self.save(self.compared(name)),
            Operation::Return(name) => self.return_to(self.compared(name)),
            Operation::Drop(name) => self.drop_name(self.compared(name)),
        }
    }
}

/// Runs a script from these counts with no name held, and gives the number of operations made; 2^64 - 1 where there are not 32 counts.
pub fn run(script: &[u8], answers: &mut [u8], tally: &mut [u32], fault: Fault) -> u64 {
    let Ok(counts) = Counts::try_from(&*tally) else {
        return u64::MAX;
    };
    let mut keeper = Keeper::new(counts, fault);
    let (mut rest, mut made) = (script, 0);
    while made < answers.len() {
        let Some((operation, after)) = Operation::first(rest) else {
            break;
        };
        answers[made] = keeper.make(operation);
        (rest, made) = (after, made + 1);
    }
    tally.copy_from_slice(&keeper.counts);
    made as u64
}
