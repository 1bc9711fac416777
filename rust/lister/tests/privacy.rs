//! Document 02, request 7: captures whose blocks differ by codewords give the crew the same bytes. Billing sees every accepted message.

use lister::{listed, listed_in_pieces, pair};
use opponent::Reader;

/// Records of each profile.
const RECORDS: [usize; 5] = [4_000, 400, 200, 100, 12];

#[test]
fn the_crew_sees_no_message() {
    for (profile, records) in RECORDS.into_iter().enumerate() {
        let (first, second) = pair(40 + profile as u64, profile, records);
        assert_eq!(listed(Reader::Crew, &first), listed(Reader::Crew, &second), "profile {profile}");
    }
}

#[test]
fn pieces_do_not_tell() {
    let (first, second) = pair(50, 1, 50);
    let text = listed(Reader::Crew, &first);
    for piece in [1, 9, 14, 4096] {
        assert_eq!(listed_in_pieces(Reader::Crew, &second, piece), text, "pieces of {piece}");
    }
}

#[test]
fn cut_at_the_same_byte() {
    let (first, second) = pair(51, 0, 4);
    for end in 0..=first.len() {
        assert_eq!(listed(Reader::Crew, &first[..end]), listed(Reader::Crew, &second[..end]), "cut at {end}");
    }
}

#[test]
fn billing_sees_every_accepted_message() {
    for (profile, records) in RECORDS.into_iter().enumerate() {
        let (first, second) = pair(60 + profile as u64, profile, records);
        let (first, second) = (listed(Reader::Billing, &first), listed(Reader::Billing, &second));
        assert_ne!(first, second, "profile {profile}");
        let (one, two): (Vec<&str>, Vec<&str>) = (first.lines().collect(), second.lines().collect());
        assert_eq!((one.len(), one.last()), (records + 1, two.last()));
        for (line, other) in one.iter().zip(&two).take(records) {
            assert_eq!(line == other, line.contains("refused"), "profile {profile}: {line}, {other}");
            assert_eq!(line[..11], other[..11]);
        }
    }
}
