//! The data sheet: the proved table as a page for people who buy meters, a picture of what the decoder does beyond the guarantee, and one
//! of bits beside confidences.

pub mod picture;
mod plot;
pub mod run;
pub mod sheet;
pub mod soft_picture;
pub mod soft_run;
pub mod table;

use std::path::PathBuf;

/// A file of the repository.
pub fn in_repository(path: &str) -> PathBuf {
    PathBuf::from(env!("CARGO_MANIFEST_DIR")).join("../..").join(path)
}

pub fn read(path: &str) -> String {
    let file = in_repository(path);
    std::fs::read_to_string(&file).unwrap_or_else(|why| panic!("{}: {why}", file.display()))
}
