//! A call with its arguments, and what it leaves behind.

use crate::decoder::{Answer, Beyond, Confidences, Decoder};
use crate::lent;
use second::array::Sides;
use second::profiles::Profile;
use second::street::Plan;
use std::fmt;

/// `out` and `area` are lengths, and so are a street's log and the word that a record or a block is put into.
#[derive(Clone, Debug)]
pub enum Call {
    Encode { m: usize, r: usize, message: Vec<u8>, out: usize },
    ReadMessage { m: usize, r: usize, word: Vec<u8>, out: usize },
    IsCodeword { m: usize, r: usize, word: Vec<u8> },
    Decode { m: usize, r: usize, rounds: usize, leaves: usize, word: Vec<u8>, out: usize, area: usize },
    DecodeProfile { profile: usize, word: Vec<u8>, out: usize, area: usize },
    Gap { m: usize, word: Vec<u8>, area: usize },
    DecodeTable { file: Vec<u8>, number: usize, word: Vec<u8>, out: usize, area: usize },
    DecodeMade { count: usize, entry: Profile, number: usize, word: Vec<u8>, out: usize, area: usize },
    Record { file: Vec<u8>, rest: Vec<u8>, word: usize },
    LoadBlock { profile: usize, state: u32, wrong: usize, word: usize },
    DecodeArray { sides: Sides, word: Vec<u8>, out: usize, area: usize },
    DecodeConfidences { m: usize, r: usize, rounds: usize, leaves: usize, values: Vec<i16>, out: usize, area: usize },
    DecodeConfidencesProfile { profile: usize, values: Vec<i16>, out: usize, area: usize },
    Street { plan: Plan, steps: usize, log: usize, word: usize, area: usize },
}

/// Answer, output, area and log after a call; a buffer is missing if something was written around it.
#[derive(Clone, PartialEq, Eq, Debug)]
pub struct Effects {
    pub answer: Answer,
    pub out: Option<Vec<u8>>,
    pub area: Option<Vec<i32>>,
    pub log: Option<Vec<u32>>,
    pub input_kept: bool,
}

impl Call {
    /// A decoding call with buffers of the right sizes.
    pub fn decode(m: usize, r: usize, rounds: usize, leaves: usize, word: &[u8]) -> Call {
        Call::Decode { m, r, rounds, leaves, word: word.to_vec(), out: 1 << m, area: 8 << m }
    }

    pub fn decode_profile(profile: usize, word: &[u8]) -> Call {
        Call::DecodeProfile { profile, word: word.to_vec(), out: word.len(), area: 8 * word.len() }
    }

    pub fn gap(m: usize, word: &[u8]) -> Call {
        Call::Gap { m, word: word.to_vec(), area: 8 << m }
    }

    pub fn decode_table(file: &[u8], number: usize, word: &[u8]) -> Call {
        Call::DecodeTable { file: file.to_vec(), number, word: word.to_vec(), out: word.len(), area: 8 * word.len() }
    }

    pub fn decode_made(count: usize, entry: Profile, number: usize, word: &[u8]) -> Call {
        Call::DecodeMade { count, entry, number, word: word.to_vec(), out: word.len(), area: 8 * word.len() }
    }

    /// On an array, with buffers of the right sizes.
    pub fn decode_array(sides: Sides, word: &[u8]) -> Call {
        let longer = sides.row.m.max(sides.column.m);
        Call::DecodeArray { sides, word: word.to_vec(), out: word.len(), area: 8 << longer }
    }

    /// On confidences, with buffers of the right sizes.
    pub fn decode_confidences(m: usize, r: usize, rounds: usize, leaves: usize, values: &[i16]) -> Call {
        Call::DecodeConfidences { m, r, rounds, leaves, values: values.to_vec(), out: 1 << m, area: 8 << m }
    }

    pub fn decode_confidences_profile(profile: usize, values: &[i16]) -> Call {
        let n = values.len();
        Call::DecodeConfidencesProfile { profile, values: values.to_vec(), out: n, area: 8 * n }
    }

    pub fn input(&self) -> &[u8] {
        match self {
            Call::Encode { message, .. } => message,
            Call::ReadMessage { word, .. } | Call::IsCodeword { word, .. } => word,
            Call::Decode { word, .. } | Call::DecodeProfile { word, .. } | Call::Gap { word, .. } => word,
            Call::DecodeTable { word, .. } | Call::DecodeMade { word, .. } | Call::DecodeArray { word, .. } => word,
            Call::Record { rest, .. } => rest,
            Call::LoadBlock { .. } | Call::Street { .. } => &[],
            Call::DecodeConfidences { .. } | Call::DecodeConfidencesProfile { .. } => &[],
        }
    }

    /// The confidences of the call, empty where it has none.
    pub fn values(&self) -> &[i16] {
        match self {
            Call::DecodeConfidences { values, .. } | Call::DecodeConfidencesProfile { values, .. } => values,
            _ => &[],
        }
    }

    /// The table file of the call, empty where it has none.
    fn file(&self) -> &[u8] {
        match self {
            Call::DecodeTable { file, .. } | Call::Record { file, .. } => file,
            _ => &[],
        }
    }

    /// The lengths of output and area.
    fn lengths(&self) -> (usize, usize) {
        match self {
            Call::Encode { out, .. } | Call::ReadMessage { out, .. } => (*out, 0),
            Call::IsCodeword { .. } => (0, 0),
            Call::Decode { out, area, .. } | Call::DecodeProfile { out, area, .. } => (*out, *area),
            Call::Gap { area, .. } => (0, *area),
            Call::DecodeTable { out, area, .. } | Call::DecodeMade { out, area, .. } => (*out, *area),
            Call::DecodeArray { out, area, .. } | Call::DecodeConfidences { out, area, .. } => (*out, *area),
            Call::DecodeConfidencesProfile { out, area, .. } => (*out, *area),
            Call::Record { word, .. } | Call::LoadBlock { word, .. } => (*word, 0),
            Call::Street { word, area, .. } => (*word, *area),
        }
    }

    /// The length of a street's log.
    fn log(&self) -> usize {
        match self {
            Call::Street { log, .. } => *log,
            _ => 0,
        }
    }

    pub fn with_area(mut self, length: usize) -> Call {
        match &mut self {
            Call::Decode { area, .. } | Call::DecodeProfile { area, .. } | Call::Gap { area, .. } => *area = length,
            Call::DecodeTable { area, .. } | Call::DecodeMade { area, .. } | Call::DecodeArray { area, .. } => {
                *area = length
            }
            Call::DecodeConfidences { area, .. } | Call::DecodeConfidencesProfile { area, .. } => *area = length,
            _ => {}
        }
        self
    }

    /// Makes the call with buffers full of a pattern.
    pub fn run(&self, decoder: &mut dyn Decoder) -> Effects {
        let (out_length, area_length) = self.lengths();
        let (mut out, mut area) = (lent::bytes(out_length), lent::numbers(area_length));
        let (input, file, values) = (self.input().to_vec(), self.file().to_vec(), self.values().to_vec());
        let mut log = lent::counts(self.log());
        let answer = match self {
            Call::Street { plan, steps, .. } => {
                let beyond = decoder.beyond().expect("a decoder with streets");
                beyond.street(*plan, *steps, log.inside(), out.inside(), area.inside())
            }
            _ => match decoder.confidences() {
                Some(confidences) if self.is_on_values() => {
                    self.made_soft(confidences, &values, out.inside(), area.inside())
                }
                _ => self.made(decoder, &input, &file, out.inside(), area.inside()),
            },
        };
        let input_kept = input == self.input() && file == self.file() && values == self.values();
        Effects { answer, out: out.taken_back(), area: area.taken_back(), log: log.taken_back(), input_kept }
    }

    fn made(&self, decoder: &mut dyn Decoder, input: &[u8], file: &[u8], out: &mut [u8], area: &mut [i32]) -> Answer {
        match self {
            Call::Encode { m, r, .. } => decoder.encode(*m, *r, input, out),
            Call::ReadMessage { m, r, .. } => decoder.read_message(*m, *r, input, out),
            Call::IsCodeword { m, r, .. } => decoder.is_codeword(*m, *r, input),
            Call::Decode { m, r, rounds, leaves, .. } => decoder.decode(*m, *r, *rounds, *leaves, input, out, area),
            Call::DecodeProfile { profile, .. } => decoder.decode_profile(*profile, input, out, area),
            Call::Gap { m, .. } => decoder.gap(*m, input, area),
            _ => self.made_beyond(decoder.beyond().expect("a decoder with these calls"), input, file, out, area),
        }
    }

    fn is_on_values(&self) -> bool {
        matches!(self, Call::DecodeConfidences { .. } | Call::DecodeConfidencesProfile { .. })
    }

    fn made_soft(&self, soft: &mut dyn Confidences, values: &[i16], out: &mut [u8], area: &mut [i32]) -> Answer {
        match self {
            Call::DecodeConfidences { m, r, rounds, leaves, .. } => {
                soft.decode_confidences(*m, *r, *rounds, *leaves, values, out, area)
            }
            Call::DecodeConfidencesProfile { profile, .. } => {
                soft.decode_confidences_profile(*profile, values, out, area)
            }
            _ => panic!("no call on confidences: {self}"),
        }
    }

    fn made_beyond(
        &self,
        beyond: &mut dyn Beyond,
        input: &[u8],
        file: &[u8],
        out: &mut [u8],
        area: &mut [i32],
    ) -> Answer {
        match self {
            Call::DecodeTable { number, .. } => beyond.decode_table(file, *number, input, out, area),
            Call::DecodeMade { count, entry, number, .. } => {
                beyond.decode_made(*count, *entry, *number, input, out, area)
            }
            Call::LoadBlock { profile, state, wrong, .. } => beyond.load_block(*profile, *state, *wrong, out),
            Call::DecodeArray { sides, .. } => beyond.decode_array(*sides, input, out, area),
            _ => beyond.record(file, input, out),
        }
    }
}

/// Bits without spaces; a byte above 1 as its number in brackets.
pub fn digits(bytes: &[u8]) -> String {
    let digit = |byte: &u8| if *byte > 1 { format!("({byte})") } else { byte.to_string() };
    bytes.iter().map(digit).collect()
}

impl fmt::Display for Call {
    fn fmt(&self, f: &mut fmt::Formatter) -> fmt::Result {
        match self {
            Call::Encode { m, r, .. } => write!(f, "encode m {m} r {r}")?,
            Call::ReadMessage { m, r, .. } => write!(f, "read_message m {m} r {r}")?,
            Call::IsCodeword { m, r, .. } => write!(f, "is_codeword m {m} r {r}")?,
            Call::Decode { m, r, rounds, leaves, .. } => {
                write!(f, "decode m {m} r {r} rounds {rounds} leaves {leaves}")?
            }
            Call::DecodeProfile { profile, .. } => write!(f, "decode_profile {profile}")?,
            Call::Gap { m, .. } => write!(f, "gap m {m}")?,
            Call::DecodeTable { file, number, .. } => write!(f, "decode_table {file:02x?} number {number}")?,
            Call::DecodeMade { count, entry, number, .. } => {
                write!(f, "decode_made count {count} of {entry:?} number {number}")?
            }
            Call::Record { file, .. } => write!(f, "record {file:02x?}")?,
            Call::LoadBlock { profile, state, wrong, .. } => {
                write!(f, "load_block of profile {profile} from {state}, {wrong} wrong")?
            }
            Call::DecodeArray { sides, .. } => write!(f, "decode_array {sides:?}")?,
            Call::DecodeConfidences { m, r, rounds, leaves, .. } => {
                write!(f, "decode_confidences m {m} r {r} rounds {rounds} leaves {leaves}")?
            }
            Call::DecodeConfidencesProfile { profile, .. } => write!(f, "decode_confidences_profile {profile}")?,
            Call::Street { plan, steps, log, .. } => write!(f, "{steps} steps of {plan:?}, log of {log}")?,
        }
        let (out, area) = self.lengths();
        if self.is_on_values() {
            let values = self.values();
            return write!(f, ", input of {}: {values:?}, output of {out}, area of {area}", values.len());
        }
        let input = self.input();
        write!(f, ", input of {}: {}, output of {out}, area of {area}", input.len(), digits(input))
    }
}
