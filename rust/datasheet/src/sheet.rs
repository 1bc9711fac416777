//! docs/DATASHEET.md, made from the proved tables.

use crate::run::{Course, COURSES};
use crate::soft_run::{self, Fates};
use crate::table::{Code, Profile};

pub const PAGE: &str = "docs/DATASHEET.md";

/// With a comma after each three digits.
pub fn grouped(number: u64) -> String {
    let digits = number.to_string();
    let comma = |(i, digit): (usize, char)| {
        let needs = i > 0 && (digits.len() - i).is_multiple_of(3);
        [needs.then_some(','), Some(digit)]
    };
    digits.chars().enumerate().flat_map(comma).flatten().collect()
}

const HEAD: &str = "# What the decoder surely mends
A block has n = 2^m bits. If at most so many of them arrive wrong as the column \"surely mended\" says, the decoder gives back exactly the \
codeword that was sent, in at most 2 rounds, and says how many bits it mended. It does so for every message and wherever the wrong bits are: \
this is proved, not sampled. The round limit must be 2 to 16, and the leaf limit at least the column \"leaf limit\" and at most 1,000,000.

This page is made from the proved table (crates/guarantee/proofs/DataSheet.antt) by the program rust/datasheet, and the gate checks that it \
is what the program writes.
";

const MIDDLE: &str = "
## Every code
Where no leaf limit up to 1,000,000 is enough, nothing is promised.

";

fn row(cells: &[String]) -> String {
    format!("| {} |\n", cells.join(" | "))
}

fn heading(cells: &[&str]) -> String {
    let cells: Vec<String> = cells.iter().map(|cell| cell.to_string()).collect();
    row(&cells) + &row(&cells.iter().map(|_| "---:".to_string()).collect::<Vec<String>>())
}

/// The row of a profile's code, whose limits allow the guarantee.
pub fn code_of(profile: &Profile, codes: &[Code]) -> Code {
    let code = codes.iter().find(|code| (code.m, code.r) == (profile.m, profile.r)).expect("a code of the table");
    assert!(
        code.fits && code.leaves <= profile.leaves && (2..=16).contains(&profile.rounds),
        "no promise for {profile:?}"
    );
    *code
}

fn by_profile(profiles: &[Profile], codes: &[Code]) -> String {
    let mut text = "\n## The five profiles\n".to_string();
    text += &heading(&["profile", "bits a block", "order", "distance", "surely mended"]);
    for (number, profile) in profiles.iter().enumerate() {
        let code = code_of(profile, codes);
        let cells = [number as u64, 1 << code.m, code.r as u64, code.distance, code.mended];
        text += &row(&cells.map(grouped));
    }
    text
}

fn by_code(codes: &[Code]) -> String {
    let mut text = MIDDLE.to_string();
    text += &heading(&["m", "bits a block", "order r", "distance", "surely mended", "leaf limit"]);
    for code in codes {
        let promised = |number: u64| if code.fits { grouped(number) } else { "no promise".to_string() };
        let start = [code.m as u64, 1 << code.m, code.r as u64, code.distance].map(grouped);
        let leaves =
            if code.fits { grouped(code.leaves) } else { format!("{}, above 1,000,000", grouped(code.leaves)) };
        text += &row(&[&start[..], &[promised(code.mended), leaves]].concat());
    }
    text + &format!("\n{} of {} codes have the promise.\n", codes.iter().filter(|code| code.fits).count(), codes.len())
}

fn beyond() -> String {
    let every = |step: usize| if step > 1 { format!(" in steps of {step}") } else { String::new() };
    let blocks = |c: &Course| format!("{} of profile {}{}", grouped(c.blocks as u64), c.profile, every(c.step));
    let runs: Vec<String> = COURSES.iter().map(blocks).collect();
    format!(
        "\n## Beyond the promise\n![What the decoder does with more wrong bits](datasheet.svg)\n\nThe picture is measured, not proved: for \
         each number of wrong bits, blocks by chance from a fixed seed ({}) through the compiled library, the wrong bits anywhere with equal \
         chance. The part that is promised is shaded. The counts are in datasheet.csv; `./datasheet` makes page, counts and picture anew.\n",
        runs.join(", ")
    )
}

/// The greatest noise measured up to which at least 99 of 100 blocks are accepted right.
fn read_well(profile: usize, points: &[soft_run::Point], fates: fn(&soft_run::Point) -> Fates) -> u64 {
    let of_profile = points.iter().filter(|p| p.profile == profile);
    let well = |p: &&soft_run::Point| 100 * fates(p).right >= 99 * fates(p).blocks();
    of_profile.take_while(well).last().expect("a noise that is read well").noise as u64
}

const CONFIDENCES: &str = "
## Bits or confidences
![The same noise read from bits and from confidences](confidences.svg)

A receiver that says how sure it is of each place can have a block read from these confidences instead of from bits. Nothing is promised of \
confidences: the promise above is for bits. What they gain is measured: the same blocks under the same noise, read from the signs as bits and \
from the confidences, by the two second decoders that the library is compared with, blocks by chance from a fixed seed";

const READ_WELL: &str = "
Read well is a noise at which at least 99 of 100 blocks are accepted right, and at every smaller one measured too. Beyond it, from confidences \
few blocks are refused: what is not read right is mostly accepted as another codeword. From bits more blocks are refused. The counts are in \
confidences.csv; `./datasheet confidences` makes counts and picture anew.
";

fn bits_or_confidences(points: &[soft_run::Point]) -> String {
    let blocks = |c: &soft_run::Course| format!("{} of profile {}", grouped(c.blocks as u64), c.profile);
    let runs: Vec<String> = soft_run::COURSES.iter().map(blocks).collect();
    let channel = format!(
        "each place's value is ±{} with noise near to normal, a sum of twelve even draws, and cut to ±2,047",
        soft_run::AMPLITUDE
    );
    let mut text =
        format!("{CONFIDENCES} ({} at every {} % of noise): {channel}.\n\n", runs.join(", "), soft_run::STEP);
    text += &heading(&["profile", "read well from bits up to a noise of", "from confidences"]);
    for course in &soft_run::COURSES {
        let noise = |fates| format!("{} % of the signal", read_well(course.profile, points, fates));
        text += &row(&[course.profile.to_string(), noise(|p| p.bits), noise(|p| p.confidences)]);
    }
    text + READ_WELL
}

pub fn page(codes: &[Code], profiles: &[Profile], points: &[soft_run::Point]) -> String {
    [HEAD.to_string(), by_profile(profiles, codes), by_code(codes), beyond(), bits_or_confidences(points)].concat()
}
