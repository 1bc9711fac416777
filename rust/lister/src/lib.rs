//! The programs run as a person would run them: bytes to standard input, bytes or text from standard output.

use check::blocks::{codeword, noisy};
use check::random::Random;
pub use check::tables::record;
use opponent::Reader;
use second::{code, profiles};
use std::ffi::OsStr;
use std::io::{Read, Write};
use std::path::PathBuf;
use std::process::{Command, Stdio};
use std::thread;

pub const HEADER: [u8; 5] = [b'W', b'M', b'R', 0, 1];

/// Where `rt ci` and `rt run` put a program.
fn built(name: &str) -> PathBuf {
    let path = PathBuf::from(env!("CARGO_MANIFEST_DIR")).join("../../crates").join(name).join("out").join(name);
    assert!(path.exists(), "{} is missing: run .ci/program {name}", path.display());
    path
}

/// The reader's program.
pub fn program(reader: Reader) -> PathBuf {
    built(match reader {
        Reader::Billing => "meter_list",
        Reader::Crew => "crew_list",
    })
}

/// The capture that the load's program writes, which reads no input.
pub fn written_load() -> Vec<u8> {
    let ran = Command::new(built("write_load")).stdin(Stdio::null()).output().expect("the program runs");
    assert!(ran.status.success() && ran.stderr.is_empty());
    ran.stdout
}

/// What the program for planners says with these arguments, on standard output and on standard error.
pub fn street<T: AsRef<OsStr>>(arguments: &[T]) -> (String, String) {
    let ran = Command::new(built("street")).args(arguments).stdin(Stdio::null()).output().expect("the program runs");
    assert!(ran.status.success());
    let text = |bytes: Vec<u8>| String::from_utf8(bytes).expect("text");
    (text(ran.stdout), text(ran.stderr))
}

/// What the program prints for a capture that reaches it in pieces of so many bytes.
pub fn listed_in_pieces(reader: Reader, capture: &[u8], piece: usize) -> String {
    let mut child =
        Command::new(program(reader)).stdin(Stdio::piped()).stdout(Stdio::piped()).spawn().expect("the program starts");
    let mut input = child.stdin.take().expect("its input");
    let bytes = capture.to_vec();
    let writer = thread::spawn(move || {
        for part in bytes.chunks(piece) {
            // a listing that has ended reads no more
            if input.write_all(part).and_then(|()| input.flush()).is_err() {
                break;
            }
        }
    });
    let mut text = String::new();
    child.stdout.take().expect("its output").read_to_string(&mut text).expect("text");
    writer.join().expect("all is written");
    assert!(child.wait().expect("it ends").success());
    text
}

pub fn listed(reader: Reader, capture: &[u8]) -> String {
    listed_in_pieces(reader, capture, 1 << 16)
}

/// A capture of so many records of one profile, noise from none to half the places.
pub fn capture(seed: u64, profile: usize, records: usize) -> Vec<u8> {
    let mut random = Random::new(seed);
    let p = profiles::profile(profile).expect("a profile of the table");
    let mut bytes = HEADER.to_vec();
    for i in 0..records {
        let wrong = (i << (p.m - 1)) / records;
        let word = noisy(&mut random, p.m, p.r, wrong);
        bytes.extend(record(random.below(1 << 32) as u32, profile as u8, &word));
    }
    bytes
}

/// Two captures of one profile that agree in the serials; each block of the second has another codeword added to that of the first.
pub fn pair(seed: u64, profile: usize, records: usize) -> (Vec<u8>, Vec<u8>) {
    let mut random = Random::new(seed);
    let p = profiles::profile(profile).expect("a profile of the table");
    let mut both = (HEADER.to_vec(), HEADER.to_vec());
    for i in 0..records {
        let word = noisy(&mut random, p.m, p.r, (i << (p.m - 1)) / records);
        let mut added = codeword(&mut random, p.m, p.r);
        while added.iter().all(|&bit| bit == 0) {
            added = codeword(&mut random, p.m, p.r);
        }
        let serial = random.below(1 << 32) as u32;
        both.0.extend(record(serial, profile as u8, &word));
        both.1.extend(record(serial, profile as u8, &code::sum(&word, &added)));
    }
    both
}
