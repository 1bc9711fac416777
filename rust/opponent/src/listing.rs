//! The listing of a capture, for billing or for the radio crew.

use crate::{decode_profile, plain, profile, read_message, Answer, Profile, Workspace};
use std::fmt::Write;

/// Who reads the listing.
#[derive(Clone, Copy, PartialEq, Eq, Debug)]
pub enum Reader {
    Billing,
    Crew,
}

/// Decodes a block of a profile into the output.
type Decode<'a> = &'a mut dyn FnMut(usize, &[u8], &mut [u8]) -> Answer;

const HEADER: [u8; 5] = [b'W', b'M', b'R', 0, 1];

/// The whole listing.
pub fn listing(reader: Reader, capture: &[u8]) -> String {
    let mut work = Workspace::new();
    listing_by(reader, capture, &mut |number, word, out| decode_profile(number, word, out, &mut work))
}

/// The same over the plain decoder.
pub fn plain_listing(reader: Reader, capture: &[u8]) -> String {
    let mut work = plain::Workspace::default();
    listing_by(reader, capture, &mut |number, word, out| plain::decode_profile(number, word, out, &mut work))
}

fn listing_by(reader: Reader, capture: &[u8], decode: Decode) -> String {
    let Some(mut records) = capture.strip_prefix(&HEADER) else {
        return "file refused 15\n".to_string();
    };
    let mut text = String::new();
    let (mut lines, mut accepted) = (0u64, 0u64);
    while !records.is_empty() {
        lines += 1;
        let Some((serial, profile, bits, rest)) = record(reader, records, &mut text) else {
            break;
        };
        accepted += line(reader, serial, profile, bits, decode, &mut text) as u64;
        records = rest;
    }
    let _ = writeln!(text, "{lines} records, {accepted} accepted");
    text
}

/// The line of 14 or 16.
fn refusal(reader: Reader, serial: &str, number: u8, text: &mut String) {
    let between = match reader {
        Reader::Billing => "refused",
        Reader::Crew => "0 0 0 0",
    };
    let _ = writeln!(text, "{serial} {between} {number}");
}

/// Serial, profile number, bits, and what follows the record; on 14 and 16 writes their line.
fn record<'a>(reader: Reader, records: &'a [u8], text: &mut String) -> Option<(u32, usize, &'a [u8], &'a [u8])> {
    let Some((head, rest)) = records.split_first_chunk::<5>() else {
        refusal(reader, "----------", 16, text);
        return None;
    };
    let serial = u32::from_be_bytes([head[0], head[1], head[2], head[3]]);
    let number = head[4] as usize;
    let Some(Profile { m, .. }) = profile(number) else {
        refusal(reader, &format!("{serial:010}"), 14, text);
        return None;
    };
    let Some((bits, rest)) = rest.split_at_checked((1 << m) / 8) else {
        refusal(reader, "----------", 16, text);
        return None;
    };
    Some((serial, number, bits, rest))
}

/// One record's line; whether it was accepted.
fn line(reader: Reader, serial: u32, number: usize, bits: &[u8], decode: Decode, text: &mut String) -> bool {
    let (mut word, mut decoded) = ([0; 256], [0; 256]);
    let n = 8 * bits.len();
    for (p, bit) in word[..n].iter_mut().enumerate() {
        *bit = bits[p / 8] >> (7 - p % 8) & 1;
    }
    let Answer { refusal, rounds, leaves, mended, .. } = decode(number, &word[..n], &mut decoded[..n]);
    match reader {
        Reader::Crew => {
            let _ = writeln!(text, "{serial:010} {number} {rounds} {leaves} {mended} {refusal}");
        }
        Reader::Billing if refusal != 0 => {
            let _ = writeln!(text, "{serial:010} refused {refusal}");
        }
        Reader::Billing => message_line(serial, number, &decoded[..n], text),
    }
    refusal == 0
}

fn message_line(serial: u32, number: usize, decoded: &[u8], text: &mut String) {
    let mut message = [0; 256];
    let k = [6, 22, 29, 37, 93][number];
    let (m, r) = profile(number).map_or((0, 0), |p| (p.m, p.r));
    read_message(m, r, decoded, &mut message[..k]);
    let _ = write!(text, "{serial:010} ");
    for eight in message[..k.div_ceil(8) * 8].chunks(8) {
        let byte = eight.iter().fold(0u8, |byte, bit| byte << 1 | bit);
        let _ = write!(text, "{byte:02x}");
    }
    text.push('\n');
}
