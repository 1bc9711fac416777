//! Document 01's listing and the crew's of document 02, and captures that end or start badly.

use opponent::{listing, Reader};

const HEADER: [u8; 5] = [b'W', b'M', b'R', 0, 1];

fn capture(records: &[u8]) -> Vec<u8> {
    [&HEADER, records].concat()
}

fn reads(capture: &[u8], billing: &str, crew: &str) {
    assert_eq!(listing(Reader::Billing, capture), billing, "{capture:?}");
    assert_eq!(listing(Reader::Crew, capture), crew, "{capture:?}");
}

#[test]
fn the_listing_of_the_paper() {
    let records = [0, 0x3D, 9, 0x11, 0, 0x7F, 0xFF, 0, 0, 0, 0x3D, 9, 0x12, 0, 0xFF, 0, 0, 0];
    reads(
        &capture(&records),
        "0004000017 84\n0004000018 refused 9\n2 records, 1 accepted\n",
        "0004000017 0 0 1 1 0\n0004000018 0 0 1 0 9\n2 records, 1 accepted\n",
    );
}

#[test]
fn headers() {
    for wrong in [&b""[..], b"WMR\0", b"wmr\0\x01", b"WMR\x01\0", b"WMR\0\x02"] {
        reads(wrong, "file refused 15\n", "file refused 15\n");
    }
    reads(&HEADER, "0 records, 0 accepted\n", "0 records, 0 accepted\n");
}

#[test]
fn captures_that_end_inside_a_record() {
    for records in [&[0][..], &[0, 0, 0, 1], &[0, 0, 0, 1, 0], &[0, 0, 0, 1, 4, 0, 0]] {
        reads(
            &capture(records),
            "---------- refused 16\n1 records, 0 accepted\n",
            "---------- 0 0 0 0 16\n1 records, 0 accepted\n",
        );
    }
}

#[test]
fn a_profile_above_4_ends_the_reading() {
    for records in [&[0, 0, 0, 11, 5][..], &[0, 0, 0, 11, 5, 0, 0, 0, 1, 0, 0, 0, 0, 0]] {
        reads(
            &capture(records),
            "0000000011 refused 14\n1 records, 0 accepted\n",
            "0000000011 0 0 0 0 14\n1 records, 0 accepted\n",
        );
    }
}

#[test]
fn every_profile_of_zeros() {
    let leaves = [1, 63, 127, 255, 255 * 127];
    for (profile, bytes, digits) in [(0, 4, 2), (1, 8, 6), (2, 16, 8), (3, 32, 10), (4, 32, 24)] {
        let mut record = vec![255, 255, 255, 255, profile];
        record.resize(5 + bytes, 0);
        let (zeros, rounds, leaves) = ("0".repeat(digits), (profile > 0) as u8, leaves[profile as usize]);
        reads(
            &capture(&record),
            &format!("4294967295 {zeros}\n1 records, 1 accepted\n"),
            &format!("4294967295 {profile} {rounds} {leaves} 0 0\n1 records, 1 accepted\n"),
        );
    }
}
