//! The opponents' listing program: a capture on standard input, its listing on standard output. Words among the arguments: `plain` takes the
//! plain decoder, `crew` lists for the crew.

use opponent::Reader;
use std::io::{self, Read, Write};

fn main() -> io::Result<()> {
    let mut capture = Vec::new();
    io::stdin().read_to_end(&mut capture)?;
    let words: Vec<String> = std::env::args().skip(1).collect();
    let given = |word: &str| words.iter().any(|w| w == word);
    let reader = if given("crew") { Reader::Crew } else { Reader::Billing };
    let listing = if given("plain") { opponent::plain_listing } else { opponent::listing };
    io::stdout().write_all(listing(reader, &capture).as_bytes())
}
