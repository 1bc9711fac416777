//! The page, the counts and the picture in docs/ are what the program makes.

use datasheet::run::{Point, COURSES};
use datasheet::sheet::code_of;
use datasheet::table::{Code, Profile};
use datasheet::{picture, read, run, sheet, soft_picture, soft_run, table};

fn codes() -> Vec<Code> {
    table::codes(&read(table::CODES))
}

fn profiles() -> Vec<Profile> {
    table::profiles(&read(table::PROFILES))
}

fn points() -> Vec<Point> {
    run::read(&read(run::COUNTS))
}

fn soft_points() -> Vec<soft_run::Point> {
    soft_run::read(&read(soft_run::COUNTS))
}

/// No row of the proved table is lost on the way.
#[test]
fn every_code_is_read() {
    let right: Vec<(usize, usize)> = (1..=10).flat_map(|m| (0..=m).map(move |r| (m, r))).collect();
    assert_eq!(codes().iter().map(|code| (code.m, code.r)).collect::<Vec<_>>(), right);
    assert_eq!(profiles().len(), 5);
}

/// The columns by document 02's own words.
#[test]
fn each_row_is_the_rule() {
    for code in codes() {
        let distance = 1u64 << (code.m - code.r);
        assert_eq!(code.distance, distance);
        assert_eq!((0..=distance).filter(|wrong| 2 * wrong < distance).max(), Some(code.mended));
        let factors = (2..=code.r).map(|i| 2 * ((1u64 << (code.m - code.r + i)) - 1));
        assert_eq!(code.leaves, factors.product::<u64>());
        assert_eq!(code.fits, code.leaves <= 1_000_000);
    }
}

#[test]
fn the_page_is_the_table() {
    assert!(read(sheet::PAGE) == sheet::page(&codes(), &profiles(), &soft_points()), "run ./datasheet page");
}

#[test]
fn the_picture_is_the_counts() {
    assert!(read(picture::PICTURE) == picture::drawn(&points(), &codes(), &profiles()), "run ./datasheet picture");
    let drawn = soft_picture::drawn(&soft_points(), &profiles());
    assert!(read(soft_picture::PICTURE) == drawn, "run ./datasheet picture");
}

/// Every point is there, and where the promise holds all blocks are accepted right.
#[test]
fn the_counts_keep_the_promise() {
    let points = points();
    for course in &COURSES {
        let code = code_of(&profiles()[course.profile], &codes());
        let of_course: Vec<&Point> = points.iter().filter(|p| p.profile == course.profile).collect();
        assert!(of_course.iter().map(|p| p.wrong).eq((0..=course.last).step_by(course.step)));
        assert!(of_course.iter().all(|p| p.blocks() == course.blocks));
        assert!(of_course.iter().all(|p| p.wrong as u64 > code.mended || p.right == course.blocks));
    }
}

/// The two fast profiles run again.
#[test]
fn the_counts_are_the_library_s() {
    let again = run::points(&COURSES[..2]);
    assert_eq!(again, points().into_iter().filter(|p| p.profile < 2).collect::<Vec<_>>());
}

/// Every point of bits beside confidences is there, and the page's words on them hold.
#[test]
fn confidences_gain() {
    let points = soft_points();
    for course in &soft_run::COURSES {
        let of_course: Vec<&soft_run::Point> = points.iter().filter(|p| p.profile == course.profile).collect();
        assert!(of_course.iter().map(|p| p.noise).eq(course.noises()));
        for p in &of_course {
            assert_eq!((p.bits.blocks(), p.confidences.blocks()), (course.blocks, course.blocks));
            assert!(p.confidences.right >= p.bits.right && p.confidences.refused <= p.bits.refused, "{p:?}");
            assert!(p.confidences.another >= p.confidences.refused, "{p:?}");
        }
    }
}

/// A few points run again.
#[test]
fn the_counts_of_confidences_are_the_decoders() {
    let points = soft_points();
    for (profile, noise) in [(0, 40), (0, 120), (0, 200), (1, 90)] {
        let point = points.iter().find(|p| (p.profile, p.noise) == (profile, noise)).expect("a point");
        assert_eq!(soft_run::point(profile, noise, point.bits.blocks()), *point);
    }
}
