//! The checks of a call's arguments, each with its refusal.

use crate::answer::{Answer, Limits};
use crate::array::Side;
use crate::soft_reading::GREATEST;
use crate::{code, Fault};

/// The number of message bits: the sum of the binomials of m over 0 to r.
pub fn message_bits(m: usize, r: usize) -> usize {
    code::masks(m, r, Fault::None).len()
}

fn check(fails: bool, refusal: u8) -> Result<(), Answer> {
    if fails {
        return Err(Answer::refused(refusal));
    }
    Ok(())
}

pub fn check_exponent(m: usize) -> Result<(), Answer> {
    check(!(1..=10).contains(&m), 1)
}

pub fn check_code(m: usize, r: usize) -> Result<(), Answer> {
    check_exponent(m)?;
    check(r > m, 2)
}

/// 1, then 27.
fn check_side_exponent(side: Side, fault: Fault) -> Result<(), Answer> {
    let long = check(side.m > 6, 27);
    if fault == Fault::TwentySevenFirst {
        return long.and_then(|()| check_exponent(side.m));
    }
    check_exponent(side.m).and(long)
}

/// 1, 27 and 2 of the row code of an array, then of the column code.
pub fn check_sides(row: Side, column: Side, fault: Fault) -> Result<(), Answer> {
    check_side_exponent(row, fault)?;
    if fault == Fault::RowOrderLate {
        check_side_exponent(column, fault)?;
    }
    check(row.r > row.m, 2)?;
    check_side_exponent(column, fault)?;
    check(column.r > column.m, 2)
}

pub fn check_limits(limits: Limits) -> Result<(), Answer> {
    check(!(1..=16).contains(&limits.rounds), 3)?;
    check(!(1..=1_000_000).contains(&limits.leaves), 4)
}

pub fn check_length<T>(input: &[T], length: usize, refusal: u8) -> Result<(), Answer> {
    check(input.len() != length, refusal)
}

pub fn check_slices<T>(input: &[T], input_length: usize, out: &[u8], out_length: usize) -> Result<(), Answer> {
    check_length(input, input_length, 5)?;
    check_length(out, out_length, 6)
}

pub fn check_area(area: &[i32], n: usize) -> Result<(), Answer> {
    check(area.len() < 8 * n, 7)
}

/// 8 names the smallest place whose byte is above 1.
pub fn check_bytes(bytes: &[u8], fault: Fault) -> Result<(), Answer> {
    let bad: Vec<usize> = (0..bytes.len()).filter(|place| bytes[*place] > 1).collect();
    let Some(&lowest) = bad.first() else {
        return Ok(());
    };
    let place = match fault {
        Fault::HighestBadPlace => bad[bad.len() - 1],
        Fault::BadPlaceFromOne => *bad.iter().find(|place| **place > 0).unwrap_or(&0),
        Fault::PlaceAfterBad => lowest + 1,
        _ => lowest,
    };
    Err(Answer { place, ..Answer::refused(8) })
}

/// "18, a confidence outside the range, lowest place named"
pub fn check_values(values: &[i16], fault: Fault) -> Result<(), Answer> {
    let outside = |value: i16| match fault {
        Fault::RangeTo2048 => !(-2_048..=2_048).contains(&value),
        Fault::LeastNumberAllowed => value.wrapping_abs() > GREATEST,
        _ => !(-GREATEST..=GREATEST).contains(&value),
    };
    let bad: Vec<usize> = (0..values.len()).filter(|place| outside(values[*place])).collect();
    let Some(&lowest) = bad.first() else {
        return Ok(());
    };
    let place = if fault == Fault::HighestOutside { bad[bad.len() - 1] } else { lowest };
    Err(Answer { place, ..Answer::refused(18) })
}
