//! Blocks in rows and columns, each row and column by the decoder of a single block.

use super::codes::{bad_byte, is_codeword};
use super::{decode, Workspace};
use crate::call::{check_code, check_lengths, check_limits, Answer};

const LONGEST: usize = 64;

/// 1, 27 and 2 of one code, or 0.
fn check_side(m: usize, r: usize) -> u8 {
    match check_code(m, r) {
        1 => 1,
        _ if m > 6 => 27,
        refusal => refusal,
    }
}

/// 1 to 6 and 27, or 0.
fn check(codes: [usize; 4], limits: [usize; 2], word: &[u8], out: &[u8]) -> u8 {
    let [row_m, row_r, column_m, column_r] = codes;
    for refusal in [check_side(row_m, row_r), check_side(column_m, column_r), check_limits(limits[0], limits[1])] {
        if refusal != 0 {
            return refusal;
        }
    }
    let n = 1 << (row_m + column_m);
    check_lengths(word.len(), n, out.len(), n)
}

fn gather(grid: &[u8], width: usize, j: usize, column: &mut [u8]) {
    for (bit, row) in column.iter_mut().zip(grid.chunks_exact(width)) {
        *bit = row[j];
    }
}

fn scatter(column: &[u8], width: usize, j: usize, grid: &mut [u8]) {
    for (bit, row) in column.iter().zip(grid.chunks_exact_mut(width)) {
        row[j] = *bit;
    }
}

/// Whether every row and every column is a codeword.
fn is_array([row_m, row_r, column_m, column_r]: [usize; 4], grid: &[u8]) -> bool {
    let (width, mut room) = (1 << row_m, [0; LONGEST]);
    let column = &mut room[..1 << column_m];
    grid.chunks_exact(width).all(|row| is_codeword(row_m, row_r, row).rounds == 1)
        && (0..width).all(|j| {
            gather(grid, width, j, column);
            is_codeword(column_m, column_r, column).rounds == 1
        })
}

/// Exponent and order of the row code, then of the column code; round limit and leaf limit. The leaf sum stands in the leaf count; there is no
/// area, so 7 cannot occur.
pub fn decode_array(
    codes: [usize; 4],
    limits: [usize; 2],
    word: &[u8],
    out: &mut [u8],
    work: &mut Workspace,
) -> Answer {
    match check(codes, limits, word, out) {
        0 => {}
        refusal => return Answer::refused(refusal),
    }
    if let Some(place) = bad_byte(word) {
        return Answer::bad_byte(place);
    }
    let ([row_m, row_r, column_m, column_r], [rounds, leaves]) = (codes, limits);
    let (width, mut sum) = (1 << row_m, 0);
    let mut room = [0; LONGEST * LONGEST];
    let grid = &mut room[..word.len()];
    grid.copy_from_slice(word);
    for (row, left) in word.chunks_exact(width).zip(grid.chunks_exact_mut(width)) {
        sum += decode(row_m, row_r, rounds, leaves, row, left, work).leaves;
    }
    let (mut line, mut left) = ([0; LONGEST], [0; LONGEST]);
    let (line, left) = (&mut line[..1 << column_m], &mut left[..1 << column_m]);
    for j in 0..width {
        gather(grid, width, j, line);
        let answer = decode(column_m, column_r, rounds, leaves, line, left, work);
        sum += answer.leaves;
        if answer.refusal == 0 {
            scatter(left, width, j, grid);
        }
    }
    if !is_array(codes, grid) {
        return Answer { leaves: sum, ..Answer::refused(28) };
    }
    out.copy_from_slice(grid);
    Answer { leaves: sum, ..Answer::default() }
}
