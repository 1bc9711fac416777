//! docs/datasheet.svg: for each profile the share of blocks accepted right, accepted as another codeword and refused, against the number
//! of wrong places. The part that is promised is shaded.

use crate::plot::{canvas, text, Axes, Line, MARGIN, PANEL, PLOT};
use crate::run::Point;
use crate::sheet::{code_of, grouped};
use crate::table::{Code, Profile};

pub const PICTURE: &str = "docs/datasheet.svg";

/// What became of a block: a name, its line, and the share of the blocks of a point.
struct Fate {
    name: &'static str,
    line: Line,
    share: fn(&Point) -> f64,
}

fn of_all(p: &Point, part: usize) -> f64 {
    part as f64 / p.blocks() as f64
}

const fn line(colour: &'static str, dashes: &'static str) -> Line {
    Line { colour, dashes }
}

const FATES: [Fate; 3] = [
    Fate { name: "accepted right", line: line("#1b6ca8", "none"), share: |p| of_all(p, p.right) },
    Fate { name: "accepted as another codeword", line: line("#c8324a", "7 4"), share: |p| of_all(p, p.another) },
    Fate { name: "refused", line: line("#5f6670", "2 3"), share: |p| of_all(p, p.refused) },
];

const SHADE: &str = "#d8efd3";

fn promised(axes: &Axes, mended: u64) -> String {
    let (x, width) = (axes.x(0.0), axes.x(mended as f64) - axes.x(0.0));
    let (y, height) = (axes.y(1.0), PLOT.1);
    format!("<rect x=\"{x:.1}\" y=\"{y:.1}\" width=\"{width:.1}\" height=\"{height:.1}\" fill=\"{SHADE}\"/>\n")
}

fn panel(number: usize, code: &Code, points: &[&Point]) -> String {
    let axes = Axes { first: 0.0, last: points.iter().map(|p| p.wrong).max().expect("some point") as f64 };
    let step = [1, 2, 4, 8, 16, 32].into_iter().find(|step| axes.last / *step as f64 <= 9.0).expect("a step");
    let blocks = grouped(points[0].blocks() as u64);
    let mut svg = text(MARGIN, 22.0, "start", 15, &format!("Profile {number}: {} bits, order {}", 1 << code.m, code.r));
    let note = format!("promised up to {} wrong bits; {blocks} blocks a point", code.mended);
    svg += &text(MARGIN, 39.0, "start", 12, &note);
    svg += &promised(&axes, code.mended);
    svg += &axes.frame(step);
    svg += &axes.under(1, "wrong bits in the block");
    let curve = |fate: &Fate| {
        let shares: Vec<(f64, f64)> = points.iter().map(|p| (p.wrong as f64, (fate.share)(p))).collect();
        axes.curve(&shares, fate.line)
    };
    svg + &FATES.iter().map(curve).collect::<String>()
}

fn legend() -> String {
    let mut svg = text(MARGIN, 70.0, "start", 15, "Share of the blocks that are");
    for (i, fate) in FATES.iter().enumerate() {
        let y = 100.0 + 30.0 * i as f64;
        svg += &fate.line.sample(MARGIN, y);
        svg += &text(MARGIN + 56.0, y + 4.0, "start", 14, fate.name);
    }
    svg += &format!("<rect x=\"{MARGIN}\" y=\"180\" width=\"44\" height=\"20\" fill=\"{SHADE}\"/>\n");
    svg + &text(MARGIN + 56.0, 195.0, "start", 14, "promised: all accepted right (proved)")
}

/// The panels, and the legend in the last place.
pub fn drawn(points: &[Point], codes: &[Code], profiles: &[Profile]) -> String {
    let mut cells = Vec::new();
    for (number, profile) in profiles.iter().enumerate() {
        let of_profile: Vec<&Point> = points.iter().filter(|p| p.profile == number).collect();
        cells.push(panel(number, &code_of(profile, codes), &of_profile));
    }
    cells.push(legend());
    canvas(&cells, PANEL.1, cells.len().div_ceil(2) as f64 * PANEL.1)
}
