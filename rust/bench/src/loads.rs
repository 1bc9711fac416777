//! Races of the blocks of a load.

use crate::race::{race, Given, Runner};
use check::random::Random;
use opponent::plain;
use second::profiles;

/// A function of the state that fills the block and gives refusal, short and the state after.
struct Drawing<F> {
    name: &'static str,
    call: F,
    word: Vec<u8>,
    answer: (u64, u64, u64),
}

impl<F: FnMut(u32, &mut [u8]) -> (u64, u64, u64)> Runner for Drawing<F> {
    fn name(&self) -> &'static str {
        self.name
    }

    /// The block is the state's four bytes.
    fn run(&mut self, block: &[u8]) {
        let state = u32::from_le_bytes(block.try_into().expect("a state"));
        self.answer = (self.call)(state, &mut self.word);
    }

    fn given(&self) -> Given {
        (self.answer.0, self.answer.1, self.answer.2, self.word.clone())
    }
}

fn runner<'a>(
    name: &'static str,
    places: usize,
    call: impl FnMut(u32, &mut [u8]) -> (u64, u64, u64) + 'a,
) -> Box<dyn Runner + 'a> {
    Box::new(Drawing { name, call, word: vec![0; places], answer: (0, 0, 0) })
}

fn races_of(profile: usize) -> Result<(), String> {
    let n = 1 << profiles::profile(profile).expect("a profile of the table").m;
    let mut random = Random::new(500 + profile as u64);
    let states: Vec<Vec<u8>> =
        (0..64).map(|_| (1 + random.below(u32::MAX as usize) as u32).to_le_bytes().to_vec()).collect();
    for wrong in [0, 3, n / 4, n] {
        let runners = vec![
            runner("library", n, |state, word| {
                let drawn = calls::load_block(profile, state, wrong, word);
                (drawn.refusal as u64, drawn.short as u64, drawn.state as u64)
            }),
            runner("plain", n, |state, word| {
                let drawn = plain::load_block(profile, state, wrong, word);
                (drawn.refusal as u64, drawn.short as u64, drawn.state as u64)
            }),
        ];
        race(&format!("load (profile {profile}), {wrong} wrong"), runners, &states)?;
    }
    Ok(())
}

pub fn races() -> Result<(), String> {
    (0..5).try_for_each(races_of)
}
