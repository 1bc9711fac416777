//! Races of the listing programs on the same capture files, each run as a process: for billing, and for the crew.

use opponent::Reader;
use std::fs::File;
use std::path::{Path, PathBuf};
use std::process::{Command, Output, Stdio};
use std::time::Instant;

const TRIES: usize = 5;
/// Records of each profile, so that a run takes long enough to time.
const RECORDS: [usize; 5] = [200_000, 4_000, 1_600, 400, 12];

struct Program {
    name: &'static str,
    path: PathBuf,
    words: &'static [&'static str],
}

impl Program {
    /// Its output on a capture, and the time it took.
    fn run(&self, capture: &Path) -> Result<(Output, f64), String> {
        let input = File::open(capture).map_err(|e| format!("{}: {e}", capture.display()))?;
        let mut command = Command::new(&self.path);
        command.args(self.words).stdin(input).stdout(Stdio::piped());
        let start = Instant::now();
        let output = command.output().map_err(|e| format!("{}: {e}", self.path.display()))?;
        Ok((output, start.elapsed().as_secs_f64()))
    }
}

/// Those for billing, and those for the crew; the first of each is the proved one.
fn programs() -> Result<[[Program; 3]; 2], String> {
    let beside = std::env::current_exe().map_err(|e| e.to_string())?.with_file_name("opponent_list");
    if !beside.exists() {
        return Err(format!("{} is missing: ./bench builds it", beside.display()));
    }
    let opponent = |name, words| Program { name, path: beside.clone(), words };
    let proved = |name, reader| Program { name, path: lister::program(reader), words: &[] };
    Ok([
        [proved("meter_list", Reader::Billing), opponent("plain", &["plain"]), opponent("packed", &[])],
        [proved("crew_list", Reader::Crew), opponent("plain", &["crew", "plain"]), opponent("packed", &["crew"])],
    ])
}

fn race(programs: &[[Program; 3]; 2], profile: usize, records: usize) -> Result<(), String> {
    let path = std::env::temp_dir().join(format!("fezqalyr-{}-{profile}.cap", std::process::id()));
    std::fs::write(&path, lister::capture(7, profile, records)).map_err(|e| e.to_string())?;
    let mut least = [[f64::MAX; 3]; 2];
    for _ in 0..TRIES {
        for (programs, least) in programs.iter().zip(&mut least) {
            let mut first = None;
            for (program, least) in programs.iter().zip(least) {
                let (output, seconds) = program.run(&path)?;
                *least = least.min(seconds);
                if *first.get_or_insert(output.stdout.clone()) != output.stdout {
                    return Err(format!("profile {profile}: the listings differ"));
                }
            }
        }
    }
    let _ = std::fs::remove_file(&path);
    let per_second = |seconds: &f64| records as f64 / seconds;
    for (programs, times) in programs.iter().zip(&least) {
        let (name, rate) = (programs[0].name, per_second(&times[0]));
        print!("listing, profile {profile}, {records} records   {name} {rate:.0} records/s");
        for (program, seconds) in programs.iter().zip(times).skip(1) {
            print!("   {} {:.0} records/s, ratio {:.2}", program.name, per_second(seconds), times[0] / seconds);
        }
        println!();
    }
    println!(
        "listing, profile {profile}, {records} records   crew_list to meter_list, ratio {:.2}",
        least[1][0] / least[0][0]
    );
    Ok(())
}

pub fn races() -> Result<(), String> {
    let programs = programs()?;
    (0..5).try_for_each(|profile| race(&programs, profile, RECORDS[profile]))
}
