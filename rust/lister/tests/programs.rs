//! The built programs on captures of every kind, against the listings of the decoders written for comparison.

use lister::{capture, listed, listed_in_pieces, record, HEADER};
use opponent::{listing, Reader};

const READERS: [Reader; 2] = [Reader::Billing, Reader::Crew];

fn with_header(records: &[u8]) -> Vec<u8> {
    [&HEADER, records].concat()
}

fn reads(capture: &[u8], billing: &str, crew: &str) {
    assert_eq!(listed(Reader::Billing, capture), billing, "{capture:?}");
    assert_eq!(listed(Reader::Crew, capture), crew, "{capture:?}");
}

#[test]
fn the_example_of_the_paper() {
    let records = [0, 0x3D, 9, 0x11, 0, 0x7F, 0xFF, 0, 0, 0, 0x3D, 9, 0x12, 0, 0xFF, 0, 0, 0];
    reads(
        &with_header(&records),
        "0004000017 84\n0004000018 refused 9\n2 records, 1 accepted\n",
        "0004000017 0 0 1 1 0\n0004000018 0 0 1 0 9\n2 records, 1 accepted\n",
    );
}

#[test]
fn headers() {
    for wrong in
        [&b""[..], b"W", b"WM", b"WMR", b"WMR\0", b"wmr\0\x01", b"WMR\x01\0", b"WMR\0\x02", b"WMR\0\x02WMR\0\x01"]
    {
        reads(wrong, "file refused 15\n", "file refused 15\n");
    }
    reads(&HEADER, "0 records, 0 accepted\n", "0 records, 0 accepted\n");
}

#[test]
fn a_profile_above_4_ends_the_listing() {
    for profile in [5, 6, 255] {
        let end = [0, 0, 0, 11, profile];
        let more = [&end[..], &record(12, 0, &[0; 32])].concat();
        for records in [&end[..], &more] {
            reads(
                &with_header(records),
                "0000000011 refused 14\n1 records, 0 accepted\n",
                "0000000011 0 0 0 0 14\n1 records, 0 accepted\n",
            );
        }
    }
}

#[test]
fn cut_at_every_byte() {
    let mut whole = capture(1, 0, 3);
    whole.extend_from_slice(&capture(2, 1, 2)[5..]);
    whole.extend_from_slice(&capture(3, 4, 1)[5..]);
    for reader in READERS {
        for end in 0..=whole.len() {
            assert_eq!(listed(reader, &whole[..end]), listing(reader, &whole[..end]), "{reader:?}, cut at {end}");
        }
    }
    let cut = &whole[..whole.len() - 1];
    assert!(listed(Reader::Billing, cut).contains("\n---------- refused 16\n6 records, "));
    assert!(listed(Reader::Crew, cut).contains("\n---------- 0 0 0 0 16\n6 records, "));
}

#[test]
fn every_profile_and_every_refusal_of_noise() {
    for (reader, before) in [(Reader::Billing, " refused "), (Reader::Crew, " 0 ")] {
        let mut met = String::new();
        for (profile, records) in [(0, 400), (1, 400), (2, 200), (3, 100), (4, 12)] {
            let bytes = capture(10 + profile as u64, profile, records);
            let text = listed(reader, &bytes);
            assert_eq!(text, listing(reader, &bytes), "{reader:?}, profile {profile}");
            met += &text;
        }
        for refusal in [9, 10, 11] {
            assert!(met.contains(&format!("{before}{refusal}\n")), "{reader:?}, never met: {refusal}");
        }
    }
}

#[test]
fn pieces_of_any_size() {
    let bytes = capture(20, 1, 50);
    for reader in READERS {
        let text = listing(reader, &bytes);
        for piece in [1, 2, 3, 7, 4096] {
            assert_eq!(listed_in_pieces(reader, &bytes, piece), text, "{reader:?}, pieces of {piece}");
        }
    }
}

#[test]
fn a_hundred_thousand_records() {
    let hundred = capture(30, 0, 100);
    let mut bytes = HEADER.to_vec();
    for _ in 0..1000 {
        bytes.extend_from_slice(&hundred[5..]);
    }
    for reader in READERS {
        let text = listed(reader, &bytes);
        assert_eq!(text, listing(reader, &bytes), "{reader:?}");
        assert!(text.contains("\n100000 records, "));
    }
}
