//! Runners on the same blocks, in turn; the least time of several tries counts.

use std::hint::black_box;
use std::time::{Duration, Instant};

/// About how long one try of the slowest runner takes: short, so that some try is not disturbed.
const TRY: Duration = Duration::from_millis(4);
const LEAST_TRIES: usize = 5;
const MOST_TRIES: usize = 40;
/// No more tries after this time.
const ENOUGH: Duration = Duration::from_secs(2);

/// What a call gave, to be compared: refusal, rounds, leaf count, output.
pub type Given = (u64, u64, u64, Vec<u8>);

/// A runner calls its decoder on one block, of bits or of confidences.
pub trait Runner<T = u8> {
    fn name(&self) -> &'static str;
    fn run(&mut self, block: &[T]);
    fn given(&self) -> Given;
}

pub type Runners<'a, T> = [Box<dyn Runner<T> + 'a>];

fn time<T>(runner: &mut dyn Runner<T>, blocks: &[Vec<T>], times: usize) -> Duration {
    let start = Instant::now();
    for _ in 0..times {
        for block in blocks {
            runner.run(black_box(block));
        }
    }
    start.elapsed()
}

/// Whether all give the same on every block.
fn equal<T>(runners: &mut Runners<T>, blocks: &[Vec<T>]) -> bool {
    blocks.iter().all(|block| {
        runners.iter_mut().for_each(|runner| runner.run(block));
        runners.iter().all(|runner| runner.given() == runners[0].given())
    })
}

/// The least time of a block for each runner, in microseconds.
fn least_times<T>(runners: &mut Runners<T>, blocks: &[Vec<T>]) -> Vec<f64> {
    let once = runners.iter_mut().map(|runner| time(runner.as_mut(), blocks, 1)).max().unwrap_or(TRY);
    let times = (TRY.as_nanos() / once.as_nanos().max(1)) as usize + 1;
    let mut least = vec![Duration::MAX; runners.len()];
    let start = Instant::now();
    for tries in 0..MOST_TRIES {
        if tries >= LEAST_TRIES && start.elapsed() > ENOUGH {
            break;
        }
        for (least, runner) in least.iter_mut().zip(runners.iter_mut()) {
            *least = time(runner.as_mut(), blocks, times).min(*least);
        }
    }
    least.iter().map(|t| t.as_secs_f64() * 1e6 / (times * blocks.len()) as f64).collect()
}

/// Prints the time of a block for each runner, and the ratio of the first, the library, to each other one.
pub fn race<T>(name: &str, mut runners: Vec<Box<dyn Runner<T> + '_>>, blocks: &[Vec<T>]) -> Result<(), String> {
    if !equal(&mut runners, blocks) {
        return Err(format!("{name}: the answers differ"));
    }
    side_by_side(name, runners, blocks);
    Ok(())
}

/// The same for calls that answer different questions.
pub fn side_by_side<T>(name: &str, mut runners: Vec<Box<dyn Runner<T> + '_>>, blocks: &[Vec<T>]) {
    let times = least_times(&mut runners, blocks);
    print!("{name:40} {} {:9.3} us", runners[0].name(), times[0]);
    for (runner, time) in runners.iter().zip(&times).skip(1) {
        print!("   {} {time:9.3} us, ratio {:7.2}", runner.name(), times[0] / time);
    }
    println!();
}
