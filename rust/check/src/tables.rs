//! Tables of the customer's own (document 02, request 4): files right and wrong, tables that no load made, blocks and records under them.

use crate::alike;
use crate::blocks::{codeword, noisy};
use crate::call::{Call, Effects};
use crate::compare::{met_just, Comparison, Disagreement, REFUSALS};
use crate::random::Random;
use second::profiles::{self, Profile};

/// A table file with these entries, right or wrong; values that do not fit their field are cut.
pub fn file(entries: &[Profile]) -> Vec<u8> {
    let mut bytes = [b"WMT\x00\x01", [entries.len() as u8].as_slice()].concat();
    for p in entries {
        bytes.extend([p.m as u8, p.r as u8, p.rounds as u8]);
        bytes.extend((p.leaves as u32).to_be_bytes());
    }
    bytes
}

/// A record of a word, its bits packed.
pub fn record(serial: u32, profile: u8, word: &[u8]) -> Vec<u8> {
    let bits = word.chunks(8).map(|eight| eight.iter().fold(0, |byte, bit| byte << 1 | bit));
    serial.to_be_bytes().into_iter().chain([profile]).chain(bits).collect()
}

const SMALL: Profile = Profile { m: 3, r: 1, rounds: 1, leaves: 1 };

/// An entry within the limits whose blocks the second decoder reads in no time.
fn entry(random: &mut Random) -> Profile {
    let m = 3 + random.below(3);
    let r = random.below(m.min(3) + 1);
    Profile { m, r, rounds: random.one_of(&[1, 2, 4, 16]), leaves: random.one_of(&[1, 7, 30, 100, 1_000, 1_000_000]) }
}

fn entries(random: &mut Random, count: usize) -> Vec<Profile> {
    (0..count).map(|_| entry(random)).collect()
}

/// The entry with one field at its limits and beyond, the others as they were but for a leaf limit of 1 where m is great.
fn at_the_limits(p: Profile) -> Vec<Profile> {
    let mut all = Vec::new();
    for m in [0, 1, 2, 3, 4, 9, 10, 11, 12, 128, 255] {
        all.extend((0..=m.min(13) + 1).chain([255]).map(|r| Profile { m, r, leaves: 1, ..p }));
    }
    all.extend([0, 1, 2, 16, 17, 18, 255].map(|rounds| Profile { rounds, ..p }));
    let leaves = [0, 1, 2, 255, 256, 65_536, 999_999, 1_000_000, 1_000_001, 1 << 24, 1 << 31, (1 << 32) - 1];
    all.extend(leaves.map(|leaves| Profile { leaves, ..p }));
    all
}

/// The calls of one kind, and the answers that they met.
struct Under<'a, 'b> {
    c: &'a mut Comparison<'b>,
    random: Random,
    met: [u64; REFUSALS],
}

impl<'a, 'b> Under<'a, 'b> {
    fn new(c: &'a mut Comparison<'b>, seed: u64) -> Under<'a, 'b> {
        Under { c, random: Random::new(seed), met: [0; REFUSALS] }
    }

    fn call(&mut self, call: &Call) -> Result<Effects, Disagreement> {
        let effects = self.c.call(call)?;
        self.met[effects.answer.refusal as usize] += 1;
        Ok(effects)
    }

    /// A word of that exponent, or of another where it is too great.
    fn word(&mut self, m: usize) -> Vec<u8> {
        self.random.bits(1 << m.min(10))
    }

    /// The file in a call of each kind.
    fn loaded(&mut self, file: &[u8], number: usize, m: usize) -> Result<(), Disagreement> {
        let word = self.word(m);
        let area = 8 * word.len() + self.random.below(4);
        self.call(&Call::decode_table(file, number, &word).with_area(area))?;
        let rest = record(self.random.below(1 << 32) as u32, number as u8, &word);
        self.call(&Call::Record { file: file.to_vec(), rest, word: word.len() }).map(|_| ())
    }

    /// A right file cut at each byte and with bytes too many; each byte before the entries changed.
    fn spoiled(&mut self, entries: &[Profile]) -> Result<(), Disagreement> {
        let right = file(entries);
        let last = entries.len() - 1;
        for length in 0..=right.len() + 8 {
            let bytes: Vec<u8> = (0..length).map(|i| *right.get(i).unwrap_or(&3)).collect();
            self.loaded(&bytes, last, entries[last].m)?;
        }
        for place in 0..6 {
            for byte in 0..=255 {
                let mut bytes = right.clone();
                bytes[place] = byte;
                self.loaded(&bytes, last, entries[last].m)?;
            }
        }
        // the version with its junior byte first, and the mark of a capture
        for head in [b"WMT\x01\x00", b"WMR\x00\x01", b"wmt\x00\x01"] {
            self.loaded(&[head, &right[5..]].concat(), last, entries[last].m)?;
        }
        Ok(())
    }

    /// A right file for each count, and for those that are none.
    fn counts(&mut self) -> Result<(), Disagreement> {
        for count in [0, 1, 2, 31, 32, 33, 34, 64, 255] {
            let all = entries(&mut self.random, count);
            let bytes = file(&all);
            for number in [0, 1, count.wrapping_sub(1), count, 31, 32, 255, 256, 1 << 32, usize::MAX] {
                self.loaded(&bytes, number, all.get(number).map_or(3, |p| p.m))?;
            }
            // wrong in mark or length too, and with entries outside the limits: 19 comes first
            let bad = vec![Profile { m: 2, ..SMALL }; count];
            self.loaded(&file(&bad), 0, 3)?;
            self.loaded(&file(&bad)[..5 + 7 * count], 0, 3)?;
            self.loaded(&[file(&bad), vec![0]].concat(), 0, 3)?;
            self.loaded(&[b"WMS", &file(&bad)[3..]].concat(), 0, 3)?;
        }
        Ok(())
    }

    /// One entry at its limits and beyond, at the start, inside and at the end of a table.
    fn fields(&mut self) -> Result<(), Disagreement> {
        for (count, place) in [(1, 0), (5, 0), (5, 2), (5, 4), (32, 31)] {
            for p in
                at_the_limits(SMALL).into_iter().chain(at_the_limits(Profile { m: 4, r: 2, rounds: 2, leaves: 30 }))
            {
                let mut all = entries(&mut self.random, count);
                all[place] = p;
                self.loaded(&file(&all), place, p.m)?;
            }
        }
        Ok(())
    }

    /// Several entries outside the limits.
    fn several(&mut self, times: usize) -> Result<(), Disagreement> {
        let bad: Vec<Profile> = at_the_limits(SMALL);
        for i in 0..times {
            let mut all = entries(&mut self.random, 1 + i % 32);
            for _ in 0..1 + self.random.below(4) {
                let place = self.random.below(all.len());
                all[place] = self.random.one_of(&bad);
            }
            let number = self.random.below(all.len());
            self.loaded(&file(&all), number, all[number].m)?;
        }
        Ok(())
    }

    /// Blocks under the entries of a table, in buffers right and wrong.
    fn blocks(&mut self, times: usize) -> Result<(), Disagreement> {
        for i in 0..times {
            let all = entries(&mut self.random, 1 + i % 32);
            let number = self.random.below(all.len());
            let p = all[number];
            let wrong = self.random.below(1 << (p.m - 1));
            let mut word = noisy(&mut self.random, p.m, p.r, wrong);
            let (mut out, mut area) = (word.len(), 8 * word.len() + self.random.below(9));
            match i % 12 {
                0 => word.push(0),
                1 => out -= 1,
                2 => area = 8 * word.len() - 1,
                3 => word[wrong] = 2,
                _ => {}
            }
            self.call(&Call::DecodeTable { file: file(&all), number, word, out, area })?;
        }
        Ok(())
    }

    /// Blocks that differ by a codeword, under the same entry.
    fn pairs(&mut self, times: usize) -> Result<(), Disagreement> {
        for i in 0..times {
            let all = entries(&mut self.random, 1 + i % 32);
            let number = self.random.below(all.len());
            let p = all[number];
            let wrong = self.random.below(1 << (p.m - 1));
            let word = noisy(&mut self.random, p.m, p.r, wrong);
            let added = codeword(&mut self.random, p.m, p.r);
            alike::pair(self.c, &Call::decode_table(&file(&all), number, &word), &added)?;
        }
        Ok(())
    }

    /// Tables that no load made: any count, any entry, any number.
    fn made(&mut self) -> Result<(), Disagreement> {
        let large = [(1 << 32) + 3, usize::MAX];
        let beyond = large.into_iter().flat_map(|x| {
            [
                Profile { m: x, ..SMALL },
                Profile { r: x, ..SMALL },
                Profile { rounds: x, ..SMALL },
                Profile { leaves: x, ..SMALL },
            ]
        });
        for p in at_the_limits(SMALL).into_iter().chain(beyond) {
            let word = self.word(p.m);
            self.call(&Call::decode_made(1, p, 0, &word))?;
        }
        for count in [0, 1, 2, 31, 32, 33, 200, 255, 256, 1 << 32, usize::MAX] {
            for number in [0, 1, 30, 31, 32, 33, 63, 64, 199, 200, 254, 255, 256, 1 << 32, usize::MAX - 1, usize::MAX] {
                let p = entry(&mut self.random);
                let wrong = self.random.below(1 << (p.m - 1));
                let word = noisy(&mut self.random, p.m, p.r, wrong);
                self.call(&Call::decode_made(count, p, number, &word))?;
                self.call(&Call::decode_made(count, Profile { m: 2, ..p }, number, &[0; 4]))?;
            }
        }
        self.made_in_bad_buffers()
    }

    fn made_in_bad_buffers(&mut self) -> Result<(), Disagreement> {
        let made = |word: &[u8], out, area| Call::DecodeMade {
            count: 200,
            entry: SMALL,
            number: 31,
            word: word.to_vec(),
            out,
            area,
        };
        for (word, out, area) in
            [([0; 8].as_slice(), 7, 0), (&[0; 7], 7, 0), (&[0; 8], 8, 63), (&[0, 1, 2, 0, 0, 0, 0, 3], 8, 64)]
        {
            self.call(&made(word, out, area))?;
        }
        // places still flip at one round, words that settle on no codeword, ties
        for rounds in [1, 2, 16] {
            for (m, r) in [(4, 2), (5, 2), (5, 3), (4, 0), (4, 1)] {
                for i in 0..12 {
                    let word = noisy(&mut self.random, m, r, [1, (1 << m) / 4][i % 2]);
                    let p = Profile { m, r, rounds, leaves: 1_000_000 };
                    self.call(&Call::decode_made(32, p, 31, &word))?;
                }
            }
        }
        Ok(())
    }

    /// A record cut at each byte and followed by another, with word buffers of right and wrong lengths.
    fn record(&mut self, file: &[u8], number: u8, m: usize) -> Result<(), Disagreement> {
        let n = 1usize << m;
        let word = self.word(m);
        let whole = record(self.random.below(1 << 32) as u32, number, &word);
        let next = record(7, number, &word);
        for length in (0..=whole.len()).chain([whole.len() + 1, whole.len() + next.len()]) {
            let rest = [whole.as_slice(), &next].concat()[..length].to_vec();
            for room in [n, n - 1, n + 1, 0, 2 * n] {
                self.call(&Call::Record { file: file.to_vec(), rest: rest.clone(), word: room })?;
            }
        }
        Ok(())
    }

    /// Records under the constant table and under tables of files, profiles that these have and have not.
    fn records(&mut self, files: usize) -> Result<(), Disagreement> {
        for number in (0..=6).chain([31, 32, 255]) {
            self.record(&[], number as u8, profiles::profile(number).map_or(3, |p| p.m))?;
        }
        for count in (1..=32).rev().step_by((32 / files).max(1)) {
            let all: Vec<Profile> = (0..count).map(|i| Profile { m: 3 + i % 8, r: i % 4, ..SMALL }).collect();
            let bytes = file(&all);
            for number in [0, count / 2, count - 1, count, 32, 255] {
                self.record(&bytes, number as u8, all.get(number).map_or(3, |p| p.m))?;
            }
        }
        Ok(())
    }
}

pub fn files(c: &mut Comparison, seed: u64, times: usize) -> Result<(), Disagreement> {
    let mut under = Under::new(c, seed);
    for count in [1, 2, 32] {
        let all = entries(&mut under.random, count);
        under.spoiled(&all)?;
    }
    under.counts()?;
    under.fields()?;
    under.several(times)?;
    under.blocks(times)?;
    under.pairs(times)?;
    met_just("a table's calls", &under.met, &[0, 5, 6, 7, 8, 9, 10, 11, 12, 14, 16, 19, 20])
}

pub fn made(c: &mut Comparison, seed: u64) -> Result<(), Disagreement> {
    let mut under = Under::new(c, seed);
    under.made()?;
    met_just("a made table's calls", &under.met, &[0, 5, 6, 7, 8, 9, 10, 11, 12, 14])
}

pub fn records(c: &mut Comparison, seed: u64, files: usize) -> Result<(), Disagreement> {
    let mut under = Under::new(c, seed);
    under.records(files)?;
    let rest = record(1, 0, &[0; 8]);
    for bad in [file(&[]), file(&[Profile { m: 2, ..SMALL }])] {
        under.call(&Call::Record { file: bad, rest: rest.clone(), word: 8 })?;
    }
    met_just("records", &under.met, &[0, 6, 14, 16, 19, 20])
}
