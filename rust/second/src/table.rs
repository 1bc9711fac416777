//! The customer's own profiles (document 02, request 4): table files, what a table has at a number, and a record under a table.

use crate::answer::Answer;
use crate::profiles::{self, Profile};
use crate::Fault;

const ROOM: usize = 32;
const NO_ENTRY: Profile = Profile { m: 0, r: 0, rounds: 0, leaves: 0 };

/// A table, loaded or made in another way.
#[derive(Clone, Copy)]
pub struct Table {
    pub count: usize,
    pub entries: [Profile; ROOM],
}

/// What the capture reader says; the serial is 0 where it is not given.
#[derive(Clone, Copy, PartialEq, Eq, Debug, Default)]
pub struct Found {
    pub refusal: u8,
    pub none_left: bool,
    pub profile: u8,
    pub serial: u32,
}

/// The number that these bytes are, the senior one first.
fn number(bytes: &[u8]) -> usize {
    bytes.iter().fold(0, |sum, byte| 256 * sum + *byte as usize)
}

fn entry_of(bytes: &[u8], fault: Fault) -> Profile {
    let mut limit = bytes[3..].to_vec();
    if fault == Fault::JuniorByteFirst {
        limit.reverse();
    }
    Profile { m: bytes[0] as usize, r: bytes[1] as usize, rounds: bytes[2] as usize, leaves: number(&limit) }
}

/// "m is 3 to 10 here; the other limits are document 01's."
fn in_limits(p: &Profile, fault: Fault) -> bool {
    let least = if fault == Fault::ExponentTwo { 2 } else { 3 };
    let code = (least..=10).contains(&p.m) && p.r <= p.m;
    code && (1..=16).contains(&p.rounds) && (1..=1_000_000).contains(&p.leaves)
}

impl Table {
    fn of(entries: &[Profile]) -> Table {
        let mut table = Table { count: entries.len(), entries: [NO_ENTRY; ROOM] };
        table.entries[..entries.len()].copy_from_slice(entries);
        table
    }

    /// Document 01's.
    fn constant() -> Table {
        let entries: Vec<Profile> = (0..).map_while(profiles::profile).collect();
        Table::of(&entries)
    }

    /// Of a file: 19 for mark, version, count or length; then 20 for the first entry outside the limits.
    pub fn load(file: &[u8], fault: Fault) -> Result<Table, Answer> {
        let entries: Vec<Profile> = file.get(6..).unwrap_or(&[]).chunks_exact(7).map(|b| entry_of(b, fault)).collect();
        let bad: Vec<usize> = (0..entries.len()).filter(|i| !in_limits(&entries[*i], fault)).collect();
        let named = if fault == Fault::LastEntryNamed { bad.last() } else { bad.first() };
        let outside = named.map(|i| Answer { place: *i, ..Answer::refused(20) });
        let right = file.len() >= 6
            && file[..3] == *b"WMT"
            && number(&file[3..5]) == 1
            && (1..=ROOM).contains(&(file[5] as usize))
            && file.len() == 6 + 7 * file[5] as usize;
        match outside {
            Some(answer) if right || fault == Fault::EntriesFirst => Err(answer),
            _ if !right => Err(Answer::refused(19)),
            _ => Ok(Table::of(&entries)),
        }
    }

    /// The entry of that number: below the count, not above 31, and within the limits; or 14.
    pub fn entry(&self, number: usize, fault: Fault) -> Option<Profile> {
        if number >= self.count || number >= ROOM && fault != Fault::EntryAbove31 {
            return None;
        }
        Some(self.entries[number % ROOM]).filter(|p| in_limits(p, fault))
    }
}

/// The record that stands first, under the table of a file, or document 01's where the file is empty. Only a record writes the word.
pub fn record(file: &[u8], rest: &[u8], word: &mut [u8], fault: Fault) -> Found {
    let refused = |refusal, serial| Found { refusal, serial, ..Found::default() };
    let table = match Table::load(file, fault) {
        _ if file.is_empty() => Table::constant(),
        Ok(table) => table,
        Err(answer) => return refused(answer.refusal, 0),
    };
    if rest.is_empty() {
        return Found { none_left: true, ..Found::default() };
    }
    let Some(head) = rest.get(..5) else {
        return refused(16, 0);
    };
    let (serial, profile, bits) = (number(&head[..4]) as u32, head[4], &rest[5..]);
    let Some(p) = table.entry(profile as usize, fault) else {
        return refused(if fault == Fault::BitsBefore14 && bits.is_empty() { 16 } else { 14 }, serial);
    };
    let n = 1 << p.m;
    if 8 * bits.len() < n {
        return refused(16, 0);
    }
    if word.len() != n {
        return refused(6, serial);
    }
    for (place, bit) in word.iter_mut().enumerate() {
        *bit = bits[place / 8] >> (7 - place % 8) & 1;
    }
    Found { profile, serial, ..Found::default() }
}
