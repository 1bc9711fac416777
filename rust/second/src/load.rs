//! Loads that anyone can repeat (document 02, request 9): the generator's states and blocks, and the captures of them.

use crate::checks::message_bits;
use crate::profiles::{self, Profile};
use crate::{code, Fault};
use std::collections::BTreeSet;

/// What a call for a block says: refusal or 0, whether the block was left short, and the state after.
#[derive(Clone, Copy, PartialEq, Eq, Debug)]
pub struct Drawn {
    pub refusal: u8,
    pub short: bool,
    pub state: u32,
}

const KEPT: u64 = u32::MAX as u64;

/// "exclusive or with itself shifted left 13, then right 17, then left 5, kept to 32 bits"
fn step(state: u32, fault: Fault) -> u32 {
    let kept = |x: u64| if fault == Fault::ShiftsUncut { x } else { x & KEPT };
    let right = if fault == Fault::OtherShift { 7 } else { 17 };
    let start = state as u64;
    let first = kept(start ^ start << 13);
    let second = first ^ first >> right;
    (kept(second ^ second << 5) & KEPT) as u32
}

/// A generator at a state, with the number of steps that it has made.
struct Generator {
    state: u32,
    made: usize,
    fault: Fault,
}

impl Generator {
    fn next(&mut self) -> u32 {
        self.state = step(self.state, self.fault);
        self.made += 1;
        self.state
    }

    /// "a message, one step a bit, top bit of the new state"
    fn message(&mut self, bits: usize) -> Vec<u8> {
        let position = if self.fault == Fault::LowestBitOfState { 0 } else { 31 };
        (0..bits).map(|_| (self.next() >> position & 1) as u8).collect()
    }

    /// "places, one step each, new state modulo n, until the asked number of different places is wrong", in at most n steps
    fn places(&mut self, n: usize, asked: usize) -> BTreeSet<usize> {
        if self.fault != Fault::MessageAmongTheSteps {
            self.made = 0;
        }
        let most = if self.fault == Fault::OneDrawFewer { n - 1 } else { n };
        let mut places = BTreeSet::new();
        while places.len() < asked && self.made < most {
            let place = self.next() as usize % n;
            if !places.insert(place) && self.fault == Fault::RepeatedPlaceMended {
                places.remove(&place);
            }
        }
        places
    }
}

/// 14, 21, 22, 6, in this order.
fn refusal(profile: Option<Profile>, state: u32, asked: usize, room: usize, fault: Fault) -> u8 {
    let Some(p) = profile else {
        return 14;
    };
    let n = 1 << p.m;
    let most = if fault == Fault::AllPlacesRefused { n - 1 } else { n };
    let mut checks = [(state == 0, 21), (asked > most, 22), (room != n, 6)];
    match fault {
        Fault::TwentyTwoBefore21 => checks.swap(0, 1),
        Fault::LengthBefore22 => checks.swap(1, 2),
        _ => {}
    }
    checks.into_iter().find(|(fails, _)| *fails).map_or(0, |(_, number)| number)
}

/// A block drawn from a state: the codeword sent, the block with its wrong places, and what the call says.
pub(crate) fn drawn(p: Profile, state: u32, asked: usize, fault: Fault) -> (Vec<u8>, Vec<u8>, Drawn) {
    let mut generator = Generator { state, made: 0, fault };
    let message = generator.message(message_bits(p.m, p.r));
    let sent = code::codeword(p.m, p.r, &message, fault);
    let places = generator.places(sent.len(), asked);
    let mut block = sent.clone();
    places.iter().for_each(|place| block[*place] ^= 1);
    let late = fault == Fault::WholeAtTheEndIsShort && generator.made == block.len();
    (sent, block, Drawn { refusal: 0, short: places.len() < asked || late, state: generator.state })
}

/// Draws one block of that profile from a state.
pub fn block(profile: usize, state: u32, asked: usize, word: &mut [u8], fault: Fault) -> Drawn {
    let p = profiles::profile(profile);
    let refusal = refusal(p, state, asked, word.len(), fault);
    let (Some(p), 0) = (p, refusal) else {
        if fault == Fault::RefusedBlockWritten {
            word.fill(0);
        }
        let state = if fault == Fault::RefusedCallSteps { step(state, fault) } else { state };
        return Drawn { refusal, short: false, state };
    };
    let (_, block, drawn) = drawn(p, state, asked, fault);
    word.copy_from_slice(&block);
    drawn
}

/// The capture of so many blocks from a start, or the refusal of its first block.
pub fn capture(profile: usize, start: u32, asked: usize, blocks: usize) -> Result<Vec<u8>, u8> {
    let mut bytes = b"WMR\x00\x01".to_vec();
    let mut word = vec![0; profiles::profile(profile).map_or(0, |p| 1 << p.m)];
    let mut state = start;
    for number in 0..blocks {
        let drawn = block(profile, state, asked, &mut word, Fault::None);
        if drawn.refusal != 0 {
            return Err(drawn.refusal);
        }
        state = drawn.state;
        bytes.extend((number as u32).to_be_bytes());
        bytes.push(profile as u8);
        bytes.extend(word.chunks(8).map(|eight| eight.iter().fold(0, |byte, bit| byte << 1 | bit)));
    }
    Ok(bytes)
}
