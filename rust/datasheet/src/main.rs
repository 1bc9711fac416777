//! Writes the data sheet: `datasheet` counts, page and pictures; `datasheet page` the page alone and `datasheet picture` the pictures, both
//! from the counts that stand; `datasheet confidences` the counts of bits beside confidences and their picture.

use datasheet::{in_repository, picture, read, run, sheet, soft_picture, soft_run, table};

fn write(path: &str, text: &str) {
    std::fs::write(in_repository(path), text).unwrap_or_else(|why| panic!("{path}: {why}"));
    println!("{path}");
}

fn main() {
    let (codes, profiles) = (table::codes(&read(table::CODES)), table::profiles(&read(table::PROFILES)));
    let what = std::env::args().nth(1).unwrap_or_else(|| "all".into());
    let usage = "usage: datasheet [page|picture|confidences]";
    assert!(["all", "page", "picture", "confidences"].contains(&&what[..]), "{usage}");
    if what == "all" {
        write(run::COUNTS, &run::written(&run::points(&run::COURSES)));
    }
    if what == "all" || what == "confidences" {
        write(soft_run::COUNTS, &soft_run::written(&soft_run::points(&soft_run::COURSES)));
    }
    let soft_points = soft_run::read(&read(soft_run::COUNTS));
    if what == "all" || what == "page" {
        write(sheet::PAGE, &sheet::page(&codes, &profiles, &soft_points));
    }
    if what == "all" || what == "picture" {
        write(picture::PICTURE, &picture::drawn(&run::read(&read(run::COUNTS)), &codes, &profiles));
    }
    if what != "page" {
        write(soft_picture::PICTURE, &soft_picture::drawn(&soft_points, &profiles));
    }
}
