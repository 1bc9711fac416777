//! The built program that writes a load against the second generator, and loads listed by the built listing programs.

use lister::{listed, written_load, HEADER};
use opponent::{listing, Reader};
use second::{load, profiles};

const READERS: [Reader; 2] = [Reader::Billing, Reader::Crew];

#[test]
fn the_load_that_is_written() {
    let bytes = written_load();
    assert_eq!(Ok(bytes.clone()), load::capture(1, 1, 3, 100));
    for reader in READERS {
        let text = listed(reader, &bytes);
        assert_eq!(text, listing(reader, &bytes), "{reader:?}");
        assert!(text.ends_with("\n100 records, 100 accepted\n"), "{reader:?}");
    }
    // three places are surely mended at profile 1, and the crew sees them
    let crew = listed(Reader::Crew, &bytes);
    assert_eq!(crew.lines().filter(|line| line.ends_with(" 3 0")).count(), 100);
}

#[test]
fn a_load_once_more() {
    assert_eq!(written_load(), written_load());
}

#[test]
fn loads_of_every_profile() {
    for (profile, blocks) in [(0, 300), (1, 200), (2, 100), (3, 60), (4, 8)] {
        let n = 1 << profiles::profile(profile).expect("a profile of the table").m;
        for wrong in [0, n / 8, n / 4, n] {
            let bytes = load::capture(profile, 77, wrong, blocks).expect("a load");
            assert_eq!(bytes.len(), HEADER.len() + blocks * (5 + n / 8));
            for reader in READERS {
                assert_eq!(listed(reader, &bytes), listing(reader, &bytes), "{reader:?}, {profile}, {wrong} wrong");
            }
        }
    }
}
