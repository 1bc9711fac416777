//! The decoders written for speed against the second decoder, by the directed calls. The library's whole comparison is the program
//! `compare`, which the gate runs.

use check::compare::Comparison;
use check::{decoders, plan};

#[test]
fn packed() {
    assert!(plan::directed(&mut Comparison::new(&mut decoders::Opponent::packed())).is_ok());
}

#[test]
fn plain() {
    assert!(plan::directed(&mut Comparison::new(&mut decoders::Opponent::plain())).is_ok());
}

#[test]
#[cfg(feature = "library")]
fn library() {
    assert!(plan::directed(&mut Comparison::new(&mut decoders::Library)).is_ok());
}
