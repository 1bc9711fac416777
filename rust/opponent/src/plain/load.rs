//! Blocks of a load.

use super::encode;
use crate::profiles::profile;

/// Refusal or 0, whether the block was left short, and the state after.
#[derive(Clone, Copy, PartialEq, Eq, Debug)]
pub struct Drawn {
    pub refusal: u8,
    pub short: bool,
    pub state: u32,
}

/// The number of message bits of each profile, and the most places of any.
const MESSAGE_BITS: [usize; 5] = [6, 22, 29, 37, 93];
const MOST_PLACES: usize = 256;

fn step(mut x: u32) -> u32 {
    x ^= x << 13;
    x ^= x >> 17;
    x ^ x << 5
}

/// Draws one block of that profile from a state.
pub fn load_block(number: usize, start: u32, wrong: usize, word: &mut [u8]) -> Drawn {
    let refused = |refusal| Drawn { refusal, short: false, state: start };
    let Some(p) = profile(number) else {
        return refused(14);
    };
    let n = 1 << p.m;
    if start == 0 {
        return refused(21);
    }
    if wrong > n {
        return refused(22);
    }
    if word.len() != n {
        return refused(6);
    }
    let mut state = start;
    let mut message = [0; MOST_PLACES];
    let message = &mut message[..MESSAGE_BITS[number]];
    for bit in message.iter_mut() {
        state = step(state);
        *bit = (state >> 31) as u8;
    }
    encode(p.m, p.r, message, word);
    let mut hit = [false; MOST_PLACES];
    let (mut made, mut steps) = (0, 0);
    while made < wrong && steps < n {
        state = step(state);
        steps += 1;
        let place = state as usize & (n - 1);
        if !hit[place] {
            hit[place] = true;
            word[place] ^= 1;
            made += 1;
        }
    }
    Drawn { refusal: 0, short: made < wrong, state }
}
