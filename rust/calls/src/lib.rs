//! Safe functions over the C exports of the library.
//! A slice passes as its pointer and its length; an empty slice's pointer dangles but is not null.

mod answer;

pub use answer::{Answer, ArrayAnswer, Drawn, Found, Walked};

extern "C" {
    fn rm_encode(m: usize, r: usize, message: *const u8, message_len: usize, out: *mut u8, out_len: usize) -> u64;
    fn rm_read_message(m: usize, r: usize, word: *const u8, word_len: usize, out: *mut u8, out_len: usize) -> u64;
    fn rm_is_codeword(m: usize, r: usize, word: *const u8, word_len: usize) -> u64;
    fn rm_decode(
        m: usize,
        r: usize,
        rounds: usize,
        leaves: usize,
        word: *const u8,
        word_len: usize,
        out: *mut u8,
        out_len: usize,
        area: *mut i32,
        area_len: usize,
    ) -> u64;
    fn rm_decode_profile(
        profile: usize,
        word: *const u8,
        word_len: usize,
        out: *mut u8,
        out_len: usize,
        area: *mut i32,
        area_len: usize,
    ) -> u64;
    fn rm_gap(m: usize, word: *const u8, word_len: usize, area: *mut i32, area_len: usize) -> u64;
    fn rm_decode_table(
        file: *const u8,
        file_len: usize,
        number: usize,
        word: *const u8,
        word_len: usize,
        out: *mut u8,
        out_len: usize,
        area: *mut i32,
        area_len: usize,
    ) -> u64;
    fn rm_decode_made(
        count: usize,
        m: usize,
        r: usize,
        rounds: usize,
        leaves: usize,
        number: usize,
        word: *const u8,
        word_len: usize,
        out: *mut u8,
        out_len: usize,
        area: *mut i32,
        area_len: usize,
    ) -> u64;
    fn rm_record(
        file: *const u8,
        file_len: usize,
        rest: *const u8,
        rest_len: usize,
        word: *mut u8,
        word_len: usize,
    ) -> u64;
    fn rm_decode_array(
        row_m: usize,
        row_r: usize,
        column_m: usize,
        column_r: usize,
        rounds: usize,
        leaves: usize,
        word: *const u8,
        word_len: usize,
        out: *mut u8,
        out_len: usize,
        area: *mut i32,
        area_len: usize,
    ) -> u64;
    fn rm_tallies(
        script: *const u8,
        script_len: usize,
        answers: *mut u8,
        answers_len: usize,
        tally: *mut u32,
        tally_len: usize,
    ) -> u64;
    fn rm_load_block(profile: usize, state: u32, wrong: usize, word: *mut u8, word_len: usize) -> u64;
    fn rm_decode_confidences(
        m: usize,
        r: usize,
        rounds: usize,
        leaves: usize,
        values: *const i16,
        values_len: usize,
        out: *mut u8,
        out_len: usize,
        area: *mut i32,
        area_len: usize,
    ) -> u64;
    fn rm_decode_confidences_profile(
        profile: usize,
        values: *const i16,
        values_len: usize,
        out: *mut u8,
        out_len: usize,
        area: *mut i32,
        area_len: usize,
    ) -> u64;
    fn rm_street(
        meters: usize,
        retries: usize,
        profile: usize,
        start: u32,
        wrong: usize,
        steps: usize,
        log: *mut u32,
        log_len: usize,
        word: *mut u8,
        word_len: usize,
        area: *mut i32,
        area_len: usize,
    ) -> u64;
}

#[inline]
pub fn encode(m: usize, r: usize, message: &[u8], out: &mut [u8]) -> Answer {
    // SAFETY: each pointer is valid for its length, and the mutable one is not shared.
    Answer::unpacked(unsafe { rm_encode(m, r, message.as_ptr(), message.len(), out.as_mut_ptr(), out.len()) })
}

#[inline]
pub fn read_message(m: usize, r: usize, word: &[u8], out: &mut [u8]) -> Answer {
    // SAFETY: as for `encode`.
    Answer::unpacked(unsafe { rm_read_message(m, r, word.as_ptr(), word.len(), out.as_mut_ptr(), out.len()) })
}

/// Yes is 1 in the rounds.
#[inline]
pub fn is_codeword(m: usize, r: usize, word: &[u8]) -> Answer {
    // SAFETY: as for `encode`.
    Answer::unpacked(unsafe { rm_is_codeword(m, r, word.as_ptr(), word.len()) })
}

#[inline]
pub fn decode(
    m: usize,
    r: usize,
    rounds: usize,
    leaves: usize,
    word: &[u8],
    out: &mut [u8],
    area: &mut [i32],
) -> Answer {
    let (word, word_len) = (word.as_ptr(), word.len());
    let (out, out_len) = (out.as_mut_ptr(), out.len());
    let (area, area_len) = (area.as_mut_ptr(), area.len());
    // SAFETY: as for `encode`.
    Answer::unpacked(unsafe { rm_decode(m, r, rounds, leaves, word, word_len, out, out_len, area, area_len) })
}

#[inline]
pub fn decode_profile(profile: usize, word: &[u8], out: &mut [u8], area: &mut [i32]) -> Answer {
    let (word, word_len) = (word.as_ptr(), word.len());
    let (out, out_len) = (out.as_mut_ptr(), out.len());
    let (area, area_len) = (area.as_mut_ptr(), area.len());
    // SAFETY: as for `encode`.
    Answer::unpacked(unsafe { rm_decode_profile(profile, word, word_len, out, out_len, area, area_len) })
}

/// The gap stands in the leaf count.
#[inline]
pub fn gap(m: usize, word: &[u8], area: &mut [i32]) -> Answer {
    // SAFETY: as for `encode`.
    Answer::unpacked(unsafe { rm_gap(m, word.as_ptr(), word.len(), area.as_mut_ptr(), area.len()) })
}

/// Under an entry of the table of a file.
#[inline]
pub fn decode_table(file: &[u8], number: usize, word: &[u8], out: &mut [u8], area: &mut [i32]) -> Answer {
    let (file, file_len) = (file.as_ptr(), file.len());
    let (word, word_len) = (word.as_ptr(), word.len());
    let (out, out_len) = (out.as_mut_ptr(), out.len());
    let (area, area_len) = (area.as_mut_ptr(), area.len());
    // SAFETY: as for `encode`.
    Answer::unpacked(unsafe { rm_decode_table(file, file_len, number, word, word_len, out, out_len, area, area_len) })
}

/// Under a table of that count, all of whose 32 entries are m, r, rounds and leaves.
#[inline]
pub fn decode_made(
    count: usize,
    [m, r, rounds, leaves]: [usize; 4],
    number: usize,
    word: &[u8],
    out: &mut [u8],
    area: &mut [i32],
) -> Answer {
    let (word, word_len) = (word.as_ptr(), word.len());
    let (out, out_len) = (out.as_mut_ptr(), out.len());
    let (area, area_len) = (area.as_mut_ptr(), area.len());
    // SAFETY: as for `encode`.
    Answer::unpacked(unsafe {
        rm_decode_made(count, m, r, rounds, leaves, number, word, word_len, out, out_len, area, area_len)
    })
}

/// The record at the start of `rest`, under the table of a file, or document 01's where the file is empty.
#[inline]
pub fn record(file: &[u8], rest: &[u8], word: &mut [u8]) -> Found {
    let (file, file_len) = (file.as_ptr(), file.len());
    let (rest, rest_len) = (rest.as_ptr(), rest.len());
    // SAFETY: as for `encode`.
    Found::unpacked(unsafe { rm_record(file, file_len, rest, rest_len, word.as_mut_ptr(), word.len()) })
}

/// Runs a script of operations on tallies; the number of operations made.
#[inline]
pub fn tallies(script: &[u8], answers: &mut [u8], tally: &mut [u32]) -> u64 {
    let (script, script_len) = (script.as_ptr(), script.len());
    let (answers, answers_len) = (answers.as_mut_ptr(), answers.len());
    let (tally, tally_len) = (tally.as_mut_ptr(), tally.len());
    // SAFETY: as for `encode`.
    unsafe { rm_tallies(script, script_len, answers, answers_len, tally, tally_len) }
}

/// Draws one block of a load from a state.
#[inline]
pub fn load_block(profile: usize, state: u32, wrong: usize, word: &mut [u8]) -> Drawn {
    // SAFETY: as for `encode`.
    Drawn::unpacked(unsafe { rm_load_block(profile, state, wrong, word.as_mut_ptr(), word.len()) })
}

/// Starts a street of so many meters under a retry limit and makes steps until so many have sent a block, or none is left.
#[inline]
pub fn street(
    [meters, retries, profile]: [usize; 3],
    start: u32,
    wrong: usize,
    steps: usize,
    log: &mut [u32],
    word: &mut [u8],
    area: &mut [i32],
) -> Walked {
    let (log, log_len) = (log.as_mut_ptr(), log.len());
    let (word, word_len) = (word.as_mut_ptr(), word.len());
    let (area, area_len) = (area.as_mut_ptr(), area.len());
    // SAFETY: as for `encode`.
    Walked::unpacked(unsafe {
        rm_street(meters, retries, profile, start, wrong, steps, log, log_len, word, word_len, area, area_len)
    })
}

/// A block in rows and columns: exponent and order of the row code, then of the column code; round limit and leaf limit.
#[inline]
pub fn decode_array(
    [row_m, row_r, column_m, column_r]: [usize; 4],
    [rounds, leaves]: [usize; 2],
    word: &[u8],
    out: &mut [u8],
    area: &mut [i32],
) -> ArrayAnswer {
    let (word, word_len) = (word.as_ptr(), word.len());
    let (out, out_len) = (out.as_mut_ptr(), out.len());
    let (area, area_len) = (area.as_mut_ptr(), area.len());
    // SAFETY: as for `encode`.
    ArrayAnswer::unpacked(unsafe {
        rm_decode_array(row_m, row_r, column_m, column_r, rounds, leaves, word, word_len, out, out_len, area, area_len)
    })
}

/// The decoder of confidences.
#[inline]
pub fn decode_confidences(
    m: usize,
    r: usize,
    rounds: usize,
    leaves: usize,
    values: &[i16],
    out: &mut [u8],
    area: &mut [i32],
) -> Answer {
    let (values, values_len) = (values.as_ptr(), values.len());
    let (out, out_len) = (out.as_mut_ptr(), out.len());
    let (area, area_len) = (area.as_mut_ptr(), area.len());
    // SAFETY: as for `encode`.
    Answer::unpacked(unsafe {
        rm_decode_confidences(m, r, rounds, leaves, values, values_len, out, out_len, area, area_len)
    })
}

#[inline]
pub fn decode_confidences_profile(profile: usize, values: &[i16], out: &mut [u8], area: &mut [i32]) -> Answer {
    let (values, values_len) = (values.as_ptr(), values.len());
    let (out, out_len) = (out.as_mut_ptr(), out.len());
    let (area, area_len) = (area.as_mut_ptr(), area.len());
    // SAFETY: as for `encode`.
    Answer::unpacked(unsafe {
        rm_decode_confidences_profile(profile, values, values_len, out, out_len, area, area_len)
    })
}
