//! The rows of the proved tables, read from the files that the checker proves.

pub const CODES: &str = "crates/guarantee/proofs/DataSheet.antt";
pub const PROFILES: &str = "crates/profiles/specs/Profiles.antt";

/// A row of the data sheet: a code, its distance, the places surely mended, the leaf limit that is enough, and whether a leaf limit may be
/// that great.
#[derive(Clone, Copy, PartialEq, Eq, Debug)]
pub struct Code {
    pub m: usize,
    pub r: usize,
    pub distance: u64,
    pub mended: u64,
    pub leaves: u64,
    pub fits: bool,
}

#[derive(Clone, Copy, PartialEq, Eq, Debug)]
pub struct Profile {
    pub m: usize,
    pub r: usize,
    pub rounds: u64,
    pub leaves: u64,
}

/// The arguments of each application of a constructor in a statement: the words after its name that are numbers, or true or false.
fn applications(text: &str, constructor: &str) -> Vec<Vec<String>> {
    let words: Vec<&str> = text.split(|c: char| c.is_whitespace() || "()".contains(c)).collect();
    let argument = |word: &&&str| {
        word.bytes().all(|b| b.is_ascii_digit()) && !word.is_empty() || **word == "true" || **word == "false"
    };
    let starts = words.iter().enumerate().filter(|(_, word)| **word == constructor);
    starts.map(|(at, _)| words[at + 1..].iter().take_while(argument).map(|word| word.to_string()).collect()).collect()
}

/// The part of a file from the line that starts so to the next empty line.
fn statement<'a>(text: &'a str, start: &str) -> &'a str {
    let from = text.find(start).unwrap_or_else(|| panic!("no line starts with {start}"));
    let end = text[from..].find("\n\n").map_or(text.len(), |length| from + length);
    &text[from..end]
}

fn number(word: &str) -> u64 {
    word.parse().expect("a number")
}

/// The statement of the theorem `data_sheet`.
pub fn codes(text: &str) -> Vec<Code> {
    let code = |words: Vec<String>| {
        let [m, r, distance, mended, leaves, fits] = &words[..] else { panic!("a line has 6 parts, not {words:?}") };
        let (m, r) = (number(m) as usize, number(r) as usize);
        Code { m, r, distance: number(distance), mended: number(mended), leaves: number(leaves), fits: fits == "true" }
    };
    applications(statement(text, "pub data_sheet :"), "line").into_iter().map(code).collect()
}

/// The definition `profiles`.
pub fn profiles(text: &str) -> Vec<Profile> {
    let profile = |words: Vec<String>| {
        let [m, r, rounds, leaves] = &words[..] else { panic!("a row has 4 parts, not {words:?}") };
        Profile { m: number(m) as usize, r: number(r) as usize, rounds: number(rounds), leaves: number(leaves) }
    };
    applications(statement(text, "profiles ="), "row").into_iter().map(profile).collect()
}
