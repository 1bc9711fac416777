//! Blocks in rows and columns (document 02, request 12): every row and every column is read by itself.

use crate::answer::{Answer, Limits};
use crate::checks::{check_area, check_bytes, check_limits, check_sides, check_slices};
use crate::{code, Fault, Second};

/// One of the two codes.
#[derive(Clone, Copy, PartialEq, Eq, Debug)]
pub struct Side {
    pub m: usize,
    pub r: usize,
}

/// The row code, the column code, and the limits of each reading.
#[derive(Clone, Copy, PartialEq, Eq, Debug)]
pub struct Sides {
    pub row: Side,
    pub column: Side,
    pub rounds: usize,
    pub leaves: usize,
}

type Lines = Vec<Vec<u8>>;

/// The rows of an array become its columns.
fn turned(lines: &Lines) -> Lines {
    (0..lines[0].len()).map(|j| lines.iter().map(|line| line[j]).collect()).collect()
}

fn are_codewords(side: Side, lines: &Lines) -> bool {
    lines.iter().all(|line| code::is_codeword(side.r, line))
}

impl Second {
    pub fn decode_array(&mut self, sides: Sides, word: &[u8], out: &mut [u8], area: &mut [i32]) -> Answer {
        if let Err(answer) = self.check_array(sides, word, out, area) {
            if answer.refusal == 27 && self.fault == Fault::AreaClearedAfter27 {
                area.fill(0);
            }
            return answer;
        }
        let (lines, leaves) = self.read_array(sides, word);
        let rows = are_codewords(sides.row, &lines) || self.fault == Fault::RowsUntested;
        let accepted = rows && are_codewords(sides.column, &turned(&lines));
        if accepted || self.fault == Fault::OutputOn28 {
            out.copy_from_slice(&lines.concat());
        }
        if self.fault != Fault::ArrayAreaNotCleared {
            area.fill(0);
        }
        Answer { refusal: if accepted { 0 } else { 28 }, leaves, ..Answer::default() }
    }

    /// "Checks are 1, 27 and 2 for the row code, then for the column code, then 3 to 8 once for the whole array."
    fn check_array(&self, sides: Sides, word: &[u8], out: &[u8], area: &[i32]) -> Result<(), Answer> {
        let Sides { row, column, rounds, leaves } = sides;
        check_sides(row, column, self.fault)?;
        check_limits(Limits { rounds, leaves })?;
        let n = 1 << (row.m + column.m);
        check_slices(word, n, out, n)?;
        // "the area fits the longer of row and column"
        let longer = if self.fault == Fault::AreaOfTheRow { row.m } else { row.m.max(column.m) };
        check_area(area, 1 << longer)?;
        check_bytes(word, self.fault).map_err(|answer| match self.fault {
            Fault::PlaceInTheRow => Answer { place: answer.place % (1 << row.m), ..answer },
            _ => answer,
        })
    }

    /// "All rows are decoded .. Then all columns, in the same manner": what is left, row by row, and the leaf sum.
    fn read_array(&mut self, sides: Sides, word: &[u8]) -> (Lines, usize) {
        let rows: Lines = word.chunks(1 << sides.row.m).map(|row| row.to_vec()).collect();
        if self.fault == Fault::ColumnsFirst {
            let (columns, first) = self.read_lines(sides.column, sides, &turned(&rows), 0);
            return self.read_lines(sides.row, sides, &turned(&columns), first);
        }
        let (rows, first) = self.read_lines(sides.row, sides, &rows, 0);
        let (columns, sum) = self.read_lines(sides.column, sides, &turned(&rows), first);
        (turned(&columns), sum)
    }

    /// "refused rows left as received", "the sum of the counts they return, refused ones too"
    fn read_lines(&mut self, side: Side, sides: Sides, lines: &Lines, before: usize) -> (Lines, usize) {
        let mut sum = before;
        let mut left = Vec::new();
        for line in lines {
            let leaves = match self.fault {
                Fault::LimitOfTheArray => sides.leaves.saturating_sub(sum),
                _ => sides.leaves,
            };
            let (answer, decoded) = self.read(side.m, side.r, Limits { rounds: sides.rounds, leaves }, line);
            if decoded.is_some() || self.fault != Fault::RefusedUncounted {
                sum += answer.leaves;
            }
            let refused = if self.fault == Fault::RefusedAsZeros { vec![0; line.len()] } else { line.clone() };
            left.push(decoded.unwrap_or(refused));
        }
        (left, sum)
    }
}
