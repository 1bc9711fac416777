//! The same noise read from bits and from confidences by the two second decoders, which the library's are compared with.

use crate::run::in_parallel;
use check::blocks::codeword;
use check::channel::{received, signs};
use check::random::Random;
use second::{profiles, Fault, Second};

pub const COUNTS: &str = "docs/confidences.csv";

/// The signal at the receiver; the noise's deviation is so many hundredths of it.
pub const AMPLITUDE: i64 = 400;

/// A profile's points: so many blocks at every `step` of noise.
pub struct Course {
    pub profile: usize,
    pub blocks: usize,
    pub first: usize,
    pub last: usize,
}

pub const STEP: usize = 10;

const fn course(profile: usize, blocks: usize, first: usize, last: usize) -> Course {
    Course { profile, blocks, first, last }
}

pub const COURSES: [Course; 4] =
    [course(0, 4_000, 40, 200), course(1, 2_000, 40, 200), course(2, 1_000, 40, 200), course(3, 1_000, 40, 200)];

impl Course {
    pub fn noises(&self) -> impl Iterator<Item = usize> {
        (self.first..=self.last).step_by(STEP)
    }
}

/// How many blocks were accepted right, accepted as another codeword, and refused.
#[derive(Clone, Copy, PartialEq, Eq, PartialOrd, Ord, Debug, Default)]
pub struct Fates {
    pub right: usize,
    pub another: usize,
    pub refused: usize,
}

impl Fates {
    fn count(&mut self, refusal: u8, right: bool) {
        match (refusal, right) {
            (0, true) => self.right += 1,
            (0, false) => self.another += 1,
            _ => self.refused += 1,
        }
    }

    pub fn blocks(&self) -> usize {
        self.right + self.another + self.refused
    }
}

/// A profile under a noise, in hundredths of the signal: the wrong signs of all blocks, and what became of the blocks.
#[derive(Clone, Copy, PartialEq, Eq, PartialOrd, Ord, Debug)]
pub struct Point {
    pub profile: usize,
    pub noise: usize,
    pub wrong: usize,
    pub bits: Fates,
    pub confidences: Fates,
}

pub fn point(profile: usize, noise: usize, blocks: usize) -> Point {
    let p = profiles::profile(profile).expect("a profile of the table");
    let mut random = Random::new((100_000 * (profile + 1) + noise) as u64);
    let mut second = Second::new(Fault::None);
    let (mut out, mut area) = (vec![0; 1 << p.m], vec![0; 8 << p.m]);
    let mut found = Point { profile, noise, wrong: 0, bits: Fates::default(), confidences: Fates::default() };
    for _ in 0..blocks {
        let sent = codeword(&mut random, p.m, p.r);
        let values = received(&mut random, &sent, AMPLITUDE, AMPLITUDE * noise as i64 / 100);
        let bits = signs(&values);
        found.wrong += bits.iter().zip(&sent).filter(|(a, b)| a != b).count();
        let answer = second.decode_profile(profile, &bits, &mut out, &mut area);
        found.bits.count(answer.refusal, out == sent);
        let answer = second.decode_confidences_profile(profile, &values, &mut out, &mut area);
        found.confidences.count(answer.refusal, out == sent);
    }
    found
}

pub fn points(courses: &[Course]) -> Vec<Point> {
    let of = |c: &Course| c.noises().map(|noise| (c.profile, noise, c.blocks)).collect::<Vec<_>>();
    // the slowest first
    let todo: Vec<(usize, usize, usize)> = courses.iter().rev().flat_map(of).collect();
    in_parallel(&todo, |(profile, noise, blocks)| point(*profile, *noise, *blocks))
}

const COLUMNS: &str = "profile,noise,wrong,bits right,another,refused,confidences right,another,refused\n";

pub fn written(points: &[Point]) -> String {
    let fates = |f: &Fates| format!("{},{},{}", f.right, f.another, f.refused);
    let line =
        |p: &Point| format!("{},{},{},{},{}\n", p.profile, p.noise, p.wrong, fates(&p.bits), fates(&p.confidences));
    COLUMNS.to_string() + &points.iter().map(line).collect::<String>()
}

pub fn read(text: &str) -> Vec<Point> {
    let point = |line: &str| {
        let numbers: Vec<usize> = line.split(',').map(|word| word.parse().expect("a number")).collect();
        let [profile, noise, wrong, ref fates @ ..] = numbers[..] else { panic!("a line has 9 numbers, not {line}") };
        let of = |f: &[usize]| Fates { right: f[0], another: f[1], refused: f[2] };
        Point { profile, noise, wrong, bits: of(&fates[..3]), confidences: of(&fates[3..6]) }
    };
    text.strip_prefix(COLUMNS).expect("the columns").lines().map(point).collect()
}
