//! The instructions of a block, counted by `perf` where the processor's counter can be read, else by valgrind.
//! A count is the difference of two runs of this program, one of which goes through the blocks once more.

use crate::decoding::{Race, RACES};
use std::hint::black_box;
use std::process::Command;

/// The word by which this program is told to go through blocks: then the race, the runner and the times.
pub const PASSES: &str = "passes";
const RUNNERS: [&str; 3] = ["library", "plain", "packed"];

/// Goes through the blocks of one race with one runner, and measures nothing.
pub fn passes(words: impl Iterator<Item = String>) -> Result<(), String> {
    let numbers: Vec<usize> = words.filter_map(|word| word.parse().ok()).collect();
    let [race, runner, times] = numbers[..] else {
        return Err(format!("{PASSES} RACE RUNNER TIMES"));
    };
    let race = Race::new(race);
    race.with_runners(|mut runners| {
        for _ in 0..times {
            race.blocks.iter().for_each(|block| runners[runner].run(black_box(block)));
        }
    });
    Ok(())
}

/// A program that counts the instructions of another one, and how its count is found in what it says.
struct Counter {
    words: &'static [&'static str],
    before: &'static str,
    after: &'static str,
}

const COUNTERS: [Counter; 2] = [
    Counter { words: &["perf", "stat", "-x", " ", "-e", "instructions:u"], before: "", after: " " },
    Counter {
        words: &["valgrind", "--tool=callgrind", "--callgrind-out-file=/dev/null"],
        before: "Collected :",
        after: "\n",
    },
];

impl Counter {
    /// The instructions of a run of this program, if they can be counted so.
    fn count(&self, race: usize, runner: usize, times: usize) -> Option<u64> {
        let mut command = Command::new(self.words[0]);
        command.args(&self.words[1..]).arg(std::env::current_exe().ok()?);
        command.arg(PASSES).args([race, runner, times].map(|number| number.to_string()));
        let said = String::from_utf8(command.output().ok()?.stderr).ok()?;
        let (_, rest) = said.split_once(self.before)?;
        rest.split_once(self.after)?.0.trim().parse().ok()
    }
}

pub fn counts() -> Result<(), String> {
    let counter = COUNTERS.iter().find(|counter| counter.count(0, 0, 1).is_some());
    let counter = counter.ok_or("neither perf nor valgrind can count instructions here")?;
    println!("instructions a block, by {}", counter.words[0]);
    for index in 0..RACES {
        let race = Race::new(index);
        let mut counted = [0.0; RUNNERS.len()];
        for (runner, counted) in counted.iter_mut().enumerate() {
            let runs = counter.count(index, runner, 1).zip(counter.count(index, runner, 2));
            let (once, twice) = runs.ok_or("a run was not counted")?;
            *counted = twice.saturating_sub(once) as f64 / race.blocks.len() as f64;
        }
        print!("{:40} {} {:11.0}", race.title(), RUNNERS[0], counted[0]);
        for (name, instructions) in RUNNERS.iter().zip(counted).skip(1) {
            print!("   {name} {instructions:11.0}, ratio {:7.2}", counted[0] / instructions);
        }
        println!();
    }
    Ok(())
}
