//! docs/confidences.svg: for profiles 0 to 3 the share of blocks read right from bits and from confidences, against the noise.

use crate::plot::{canvas, text, Axes, Line, MARGIN, PANEL};
use crate::sheet::grouped;
use crate::soft_run::{Fates, Point};
use crate::table::Profile;

pub const PICTURE: &str = "docs/confidences.svg";

/// A curve: its name, its line, and the share of the blocks of a point.
struct Curve {
    name: &'static str,
    line: Line,
    share: fn(&Point) -> f64,
}

const BITS: &str = "#c8641e";
const CONFIDENCES: &str = "#1b6ca8";

const fn curve(name: &'static str, colour: &'static str, dashes: &'static str, share: fn(&Point) -> f64) -> Curve {
    Curve { name, line: Line { colour, dashes }, share }
}

fn of_all(fates: &Fates, part: usize) -> f64 {
    part as f64 / fates.blocks() as f64
}

const CURVES: [Curve; 4] = [
    curve("confidences, accepted right", CONFIDENCES, "none", |p| of_all(&p.confidences, p.confidences.right)),
    curve("confidences, accepted as another codeword", CONFIDENCES, "7 4", |p| {
        of_all(&p.confidences, p.confidences.another)
    }),
    curve("bits, accepted right", BITS, "none", |p| of_all(&p.bits, p.bits.right)),
    curve("bits, accepted as another codeword", BITS, "7 4", |p| of_all(&p.bits, p.bits.another)),
];

/// The panels are higher than those of the data sheet by a line under the axis.
const HEIGHT: f64 = PANEL.1 + 22.0;
const LEGEND: f64 = 110.0;
const MARKS: usize = 40;

fn panel(number: usize, profile: &Profile, points: &[&Point]) -> String {
    let (first, last) = (points[0].noise as f64, points[points.len() - 1].noise as f64);
    let axes = Axes { first, last };
    let (n, blocks) = (1 << profile.m, points[0].bits.blocks());
    let mut svg = text(MARGIN, 22.0, "start", 15, &format!("Profile {number}: {n} places, order {}", profile.r));
    svg += &text(MARGIN, 39.0, "start", 12, &format!("{} blocks a point", grouped(blocks as u64)));
    svg += &axes.frame(MARKS);
    for point in points.iter().filter(|p| (p.noise - points[0].noise).is_multiple_of(MARKS)) {
        let wrong = 100.0 * point.wrong as f64 / (n * blocks) as f64;
        svg += &text(axes.x(point.noise as f64), axes.y(0.0) + 36.0, "middle", 11, &format!("{wrong:.0} %"));
    }
    svg += &axes.under(2, "noise in % of the signal (below: wrong signs)");
    let drawn = |curve: &Curve| {
        let shares: Vec<(f64, f64)> = points.iter().map(|p| (p.noise as f64, (curve.share)(p))).collect();
        axes.curve(&shares, curve.line)
    };
    svg + &CURVES.iter().map(drawn).collect::<String>()
}

/// Two curves of the legend.
fn legend(title: &str, curves: &[Curve]) -> String {
    let mut svg = text(MARGIN, 30.0, "start", 15, title);
    for (i, curve) in curves.iter().enumerate() {
        let y = 54.0 + 26.0 * i as f64;
        svg += &curve.line.sample(MARGIN, y);
        svg += &text(MARGIN + 56.0, y + 4.0, "start", 14, curve.name);
    }
    svg
}

pub fn drawn(points: &[Point], profiles: &[Profile]) -> String {
    let mut cells = Vec::new();
    for (number, profile) in profiles.iter().enumerate() {
        let of_profile: Vec<&Point> = points.iter().filter(|p| p.profile == number).collect();
        if !of_profile.is_empty() {
            cells.push(panel(number, profile, &of_profile));
        }
    }
    cells.push(legend("Share of the blocks, the same noise read from", &CURVES[..2]));
    cells.push(legend("", &CURVES[2..]));
    canvas(&cells, HEIGHT, (cells.len() / 2 - 1) as f64 * HEIGHT + LEGEND)
}
