//! Compares decoders with the second decoder, the parts of the plan on as many threads as there are processors. Any disagreement prints the
//! call and ends with 1.

use check::compare::{Comparison, Disagreement, REFUSALS};
use check::decoder::Decoder;
use check::{decoders, plan};
use std::process::ExitCode;
use std::sync::atomic::{AtomicUsize, Ordering};
use std::time::Instant;

/// The decoders named on the command line; without names the library, or the packed one where it is left out.
fn candidates() -> Vec<String> {
    let names: Vec<String> = std::env::args().skip(1).collect();
    if names.is_empty() {
        return vec![if cfg!(feature = "library") { "library" } else { "packed" }.to_string()];
    }
    names
}

fn decoder(name: &str) -> Box<dyn Decoder> {
    match name {
        #[cfg(feature = "library")]
        "library" => Box::new(decoders::Library),
        "packed" => Box::new(decoders::Opponent::packed()),
        "plain" => Box::new(decoders::Opponent::plain()),
        _ => panic!("no decoder is named {name}"),
    }
}

/// How often each answer was given, how many pairs agreed, how many blocks were surely mended, the operations on tallies and the steps of
/// streets.
#[derive(Default)]
struct Met {
    answers: [u64; REFUSALS],
    pairs: u64,
    mended: u64,
    operations: u64,
    steps: u64,
}

impl Met {
    fn of(c: &Comparison) -> Met {
        Met { answers: c.met, pairs: c.pairs, mended: c.mended, operations: c.operations, steps: c.steps }
    }

    fn calls(&self) -> u64 {
        self.answers.iter().sum()
    }
}

/// Takes parts of the plan until none is left.
fn parts(name: &str, next: &AtomicUsize) -> Result<Met, Disagreement> {
    let mut candidate = decoder(name);
    let mut c = Comparison::new(candidate.as_mut());
    let beyond = if c.goes_beyond() { plan::BEYOND } else { &[] };
    let soft = if c.has_confidences() { plan::SOFT } else { &[] };
    let all: Vec<&plan::Part> = plan::WHOLE.iter().chain(beyond).chain(soft).collect();
    while let Some((title, part)) = all.get(next.fetch_add(1, Ordering::Relaxed)) {
        let (start, before) = (Instant::now(), Met::of(&c));
        part(&mut c)?;
        let met = Met::of(&c);
        println!(
            "  {title}: {} calls, {} pairs, {} mended, {} operations, {} steps, {:.1} s",
            met.calls() - before.calls(),
            met.pairs - before.pairs,
            met.mended - before.mended,
            met.operations - before.operations,
            met.steps - before.steps,
            start.elapsed().as_secs_f64()
        );
    }
    Ok(Met::of(&c))
}

fn by_threads(name: &str) -> Result<Met, Disagreement> {
    let next = AtomicUsize::new(0);
    let threads = std::thread::available_parallelism().map_or(1, |n| n.get());
    let mut whole = Met::default();
    std::thread::scope(|scope| {
        let workers: Vec<_> = (0..threads).map(|_| scope.spawn(|| parts(name, &next))).collect();
        for worker in workers {
            let met = worker.join().expect("a comparison ends")?;
            whole.answers.iter_mut().zip(met.answers).for_each(|(sum, times)| *sum += times);
            whole.pairs += met.pairs;
            whole.mended += met.mended;
            whole.operations += met.operations;
            whole.steps += met.steps;
        }
        Ok(whole)
    })
}

/// Whether the plan meets this answer, which 16, 19 to 24, 27 and 28 are beyond decoding: those of tables, records, loads, streets and arrays; 17 and 18
/// are those of confidences. 15 is the listing's, and what a script of tallies answers is not counted here.
fn due(number: usize, beyond: bool, confidences: bool) -> bool {
    match number {
        0..=14 => true,
        16 | 19..=24 | 27 | 28 => beyond,
        17 | 18 => confidences,
        _ => false,
    }
}

fn whole(name: &str) -> Result<(), Disagreement> {
    println!("{name} against the second decoder");
    let met = by_threads(name)?;
    let (beyond, confidences) = (decoder(name).beyond().is_some(), decoder(name).confidences().is_some());
    let due = |number: &usize| due(*number, beyond, confidences);
    for number in (0..REFUSALS).filter(due) {
        println!("  answer {number:2}: {}", met.answers[number]);
    }
    println!(
        "  {} calls, {} pairs, {} operations on tallies and {} steps of streets agree, {} blocks are surely mended",
        met.calls(),
        met.pairs,
        met.operations,
        met.steps,
        met.mended
    );
    match (0..REFUSALS).filter(|number| (met.answers[*number] > 0) != due(number)).collect::<Vec<usize>>() {
        none if none.is_empty() => Ok(()),
        wrong => Err(Disagreement(format!("answers that were to be met and were not, or the other way: {wrong:?}"))),
    }
}

fn main() -> ExitCode {
    for name in candidates() {
        if let Err(disagreement) = whole(&name) {
            println!("DISAGREEMENT\n{disagreement}");
            return ExitCode::FAILURE;
        }
    }
    ExitCode::SUCCESS
}
