//! What the comparison goes through.

use crate::compare::{Comparison, Disagreement};
use crate::{
    alike, arrays, bad_calls, blocks, code_calls, confidences, gaps, guarantee, loads, small, streets, tables, tallies,
    values,
};

/// Few calls that still show every fault.
pub fn directed(c: &mut Comparison) -> Result<(), Disagreement> {
    values::all(c)?;
    small::every_word(c, 2)?;
    for m in 1..=4 {
        code_calls::monomials(c, m)?;
    }
    code_calls::every(c, 2)?;
    code_calls::tests(c, 93, 4, 10)?;
    bad_calls::many(c, 90, 400)?;
    bad_calls::several_bad_bytes(c, 93, 3)?;
    gaps::every(c, 2)?;
    gaps::bad(c, 94, 400)?;
    gaps::sampled(c, 95, 4, 10)?;
    blocks::by_profile(c, 91, 0, 10)?;
    blocks::by_profile(c, 92, 1, 10)?;
    if c.goes_beyond() {
        directed_beyond(c)?;
    }
    if c.has_confidences() {
        confidences::directed(c, 89)?;
    }
    Ok(())
}

/// The same for the calls beyond decoding.
fn directed_beyond(c: &mut Comparison) -> Result<(), Disagreement> {
    tables::files(c, 96, 100)?;
    tables::made(c, 97)?;
    tables::records(c, 98, 2)?;
    tallies::full(c)?;
    tallies::short(c, 96, 40)?;
    tallies::long(c, 97, 400, 18)?;
    loads::all(c, 30)?;
    arrays::directed(c, 99)?;
    streets::directed(c)
}

/// What a layer goes through that has the calls by profile alone, and encodes and reads messages.
pub fn by_profile(c: &mut Comparison) -> Result<(), Disagreement> {
    (1..=3).try_for_each(|m| code_calls::every(c, m))?;
    (1..=6).try_for_each(|m| code_calls::monomials(c, m))?;
    (4..=10).try_for_each(|m| code_calls::sampled(c, 2_200 + m as u64, m, 4))?;
    bad_calls::by_profile(c, 2_300, 6_000)?;
    (0..5).try_for_each(|number| bad_calls::each_profile(c, number))?;
    for (number, count) in [1_000, 200, 100, 30, 2].into_iter().enumerate() {
        blocks::by_profile(c, 2_400 + number as u64, number, count)?;
    }
    Ok(())
}

pub type Part = (&'static str, fn(&mut Comparison) -> Result<(), Disagreement>);

/// The whole comparison by parts.
pub const WHOLE: &[Part] = &[
    ("known values", values::all),
    ("every word to m 4", every_small_word),
    ("encoder, message reader, codeword test", every_code_call),
    ("codeword test by its steps", every_test),
    ("bad arguments", every_bad_call),
    ("blocks of m 4 to 6", small_blocks),
    ("order 1 of m 5 to 7", order_one_blocks),
    ("blocks of m 7 to 10", large_blocks),
    ("profiles", profile_blocks),
    ("pairs that differ by a codeword", every_pair),
    ("the gap", every_gap),
    ("blocks that are surely mended", every_mended),
];

/// The parts for the calls beyond decoding.
pub const BEYOND: &[Part] = &[
    ("tables of the customer's own", every_table),
    ("tallies", every_script),
    ("loads", every_load),
    ("arrays", every_array),
    ("arrays that differ by an array of codewords", |c| arrays::pairs(c, 2_602)),
    ("streets step by step", streets::many),
    ("the longest streets", streets::full),
    ("settings of streets at their limits and beyond", streets::limits),
];

/// The parts for the calls on confidences.
pub const SOFT: &[Part] = &[
    ("confidences of profile 4", |c| confidences::slow_profile_blocks(c, 2_704)),
    ("small blocks of confidences", |c| confidences::small(c, 2_700)),
    ("confidences of m 4 to 10", |c| confidences::large(c, 2_701)),
    ("confidences of profiles 0 to 3", |c| confidences::profile_blocks(c, 2_702)),
    ("bad arguments with confidences", |c| confidences::bad(c, 2_703, 6_000)),
    ("confidences that differ by a codeword", |c| confidences::pairs(c, 2_705)),
];

fn every_small_word(c: &mut Comparison) -> Result<(), Disagreement> {
    (1..=3).try_for_each(|m| small::every_word(c, m))?;
    (0..=4).try_for_each(|r| small::every_word_of_4(c, r, 4))
}

fn every_code_call(c: &mut Comparison) -> Result<(), Disagreement> {
    (1..=3).try_for_each(|m| code_calls::every(c, m))?;
    (1..=6).try_for_each(|m| code_calls::monomials(c, m))?;
    (4..=7).try_for_each(|m| code_calls::sampled(c, 100 + m as u64, m, 40))?;
    (8..=10).try_for_each(|m| code_calls::sampled(c, 100 + m as u64, m, 4))
}

fn every_test(c: &mut Comparison) -> Result<(), Disagreement> {
    code_calls::every_test(c, 4)?;
    (1..=7).try_for_each(|m| code_calls::tests(c, 1_600 + m as u64, m, 200))?;
    (8..=10).try_for_each(|m| code_calls::tests(c, 1_600 + m as u64, m, 20))
}

fn every_bad_call(c: &mut Comparison) -> Result<(), Disagreement> {
    bad_calls::many(c, 200, 20_000)?;
    (0..5).try_for_each(|number| bad_calls::each_profile(c, number))?;
    (1..=10).try_for_each(|m| bad_calls::each_bad_byte(c, m))?;
    (1..=10).try_for_each(|m| bad_calls::several_bad_bytes(c, 250 + m as u64, m))?;
    (1..=10).try_for_each(|m| [0, 1, m].iter().try_for_each(|r| bad_calls::each_length(c, m, *r)))
}

/// Exponent, orders, and how many blocks of each.
type Sample = (usize, std::ops::RangeInclusive<usize>, usize);

fn samples(c: &mut Comparison, seed: u64, list: &[Sample]) -> Result<(), Disagreement> {
    for (m, orders, count) in list {
        for r in orders.clone() {
            blocks::sampled(c, seed + (16 * m + r) as u64, *m, r, *count)?;
        }
    }
    Ok(())
}

fn small_blocks(c: &mut Comparison) -> Result<(), Disagreement> {
    samples(c, 300, &[(4, 0..=4, 1_000), (5, 0..=2, 400), (5, 3..=5, 100)])?;
    samples(c, 500, &[(6, 0..=2, 200), (6, 3..=3, 60), (6, 4..=4, 8), (6, 5..=6, 3)])
}

/// The blocks that the library reads from their bytes.
fn order_one_blocks(c: &mut Comparison) -> Result<(), Disagreement> {
    samples(c, 650, &[(5, 1..=1, 4_000), (6, 1..=1, 4_000), (7, 1..=1, 4_000)])
}

fn large_blocks(c: &mut Comparison) -> Result<(), Disagreement> {
    samples(c, 700, &[(7, 0..=2, 100), (7, 3..=3, 12), (8, 0..=2, 60), (8, 3..=3, 3), (9, 0..=2, 10), (10, 0..=2, 6)])?;
    for m in 7..=10 {
        for r in 2..=m {
            blocks::limited(c, 900 + (16 * m + r) as u64, m, r, 5_000)?;
        }
    }
    blocks::limited(c, 1_000, 7, 4, 600_000)?;
    blocks::limited(c, 1_001, 8, 3, 200_000)
}

fn profile_blocks(c: &mut Comparison) -> Result<(), Disagreement> {
    for (number, count) in [2_000, 600, 300, 100, 8].into_iter().enumerate() {
        blocks::by_profile(c, 1_100 + number as u64, number, count)?;
    }
    Ok(())
}

fn every_pair(c: &mut Comparison) -> Result<(), Disagreement> {
    for m in 1..=10 {
        for r in 0..=m {
            let pairs = if m <= 5 || r <= 1 {
                200
            } else if r == 2 {
                40
            } else {
                3
            };
            alike::sampled(c, 1_200 + (16 * m + r) as u64, m, r, pairs)?;
        }
    }
    for (number, pairs) in [1_000, 300, 150, 60, 3].into_iter().enumerate() {
        alike::by_profile(c, 1_500 + number as u64, number, pairs)?;
    }
    Ok(())
}

fn every_gap(c: &mut Comparison) -> Result<(), Disagreement> {
    (1..=3).try_for_each(|m| gaps::every(c, m))?;
    (1..=7).try_for_each(|m| gaps::sampled(c, 1_700 + m as u64, m, 200))?;
    (8..=10).try_for_each(|m| gaps::sampled(c, 1_700 + m as u64, m, 12))?;
    (1..=10).try_for_each(|m| gaps::changed(c, 1_800 + m as u64, m, 200))?;
    gaps::bad(c, 1_900, 4_000)
}

fn every_mended(c: &mut Comparison) -> Result<(), Disagreement> {
    for m in 1..=10 {
        for r in 0..=m {
            match m {
                1..=4 => guarantee::every(c, m, r)?,
                _ => guarantee::sampled(c, 1_600 + (16 * m + r) as u64, m, r)?,
            }
        }
    }
    Ok(())
}

fn every_table(c: &mut Comparison) -> Result<(), Disagreement> {
    tables::files(c, 2_000, 3_000)?;
    tables::made(c, 2_001)?;
    tables::records(c, 2_002, 32)
}

fn every_script(c: &mut Comparison) -> Result<(), Disagreement> {
    tallies::full(c)?;
    tallies::lengths(c)?;
    tallies::short(c, 2_000, 2_000)?;
    [2, 12, 14, 18, 40].into_iter().try_for_each(|others| tallies::long(c, 2_100 + others as u64, 40_000, others))
}

fn every_load(c: &mut Comparison) -> Result<(), Disagreement> {
    loads::all(c, 4_000)
}

fn every_array(c: &mut Comparison) -> Result<(), Disagreement> {
    arrays::small(c)?;
    arrays::large(c, 2_600)?;
    arrays::bad(c, 2_601, 6_000)
}
