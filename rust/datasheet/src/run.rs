//! What the compiled decoder does with so many wrong places, by chance from a fixed seed.

use check::blocks::codeword;
use check::random::Random;
use second::{code, profiles};
use std::sync::atomic::{AtomicUsize, Ordering};
use std::sync::Mutex;

pub const COUNTS: &str = "docs/datasheet.csv";

/// A profile's points: so many blocks at every `step` of wrong places up to `last`.
pub struct Course {
    pub profile: usize,
    pub blocks: usize,
    pub step: usize,
    pub last: usize,
}

const fn course(profile: usize, blocks: usize, step: usize, last: usize) -> Course {
    Course { profile, blocks, step, last }
}

/// A block of profile 4 takes thousands of times as long as one of profile 0. Even and odd numbers of wrong places are met in every course,
/// since ties are not equally likely in both.
pub const COURSES: [Course; 5] = [
    course(0, 4_000, 1, 16),
    course(1, 4_000, 1, 24),
    course(2, 4_000, 1, 48),
    course(3, 4_000, 3, 99),
    course(4, 400, 3, 63),
];

/// How many blocks with so many wrong places were accepted right, accepted as another codeword, and refused.
#[derive(Clone, Copy, PartialEq, Eq, PartialOrd, Ord, Debug)]
pub struct Point {
    pub profile: usize,
    pub wrong: usize,
    pub right: usize,
    pub another: usize,
    pub refused: usize,
}

impl Point {
    pub fn blocks(&self) -> usize {
        self.right + self.another + self.refused
    }
}

pub fn point(profile: usize, wrong: usize, blocks: usize) -> Point {
    let p = profiles::profile(profile).expect("a profile of the table");
    let mut random = Random::new((1_000 * (profile + 1) + wrong) as u64);
    let (mut out, mut area) = (vec![0; 1 << p.m], vec![0; 8 << p.m]);
    let mut found = Point { profile, wrong, right: 0, another: 0, refused: 0 };
    for _ in 0..blocks {
        let sent = codeword(&mut random, p.m, p.r);
        let word = code::sum(&sent, &random.noise(1 << p.m, wrong));
        let answer = calls::decode_profile(profile, &word, &mut out, &mut area);
        match answer.refusal {
            0 if out == sent => found.right += 1,
            0 => found.another += 1,
            _ => found.refused += 1,
        }
    }
    found
}

/// What is found of each thing to do, in order, on as many threads as there are processors.
pub fn in_parallel<T: Sync, P: Ord + Send>(todo: &[T], of: impl Fn(&T) -> P + Sync) -> Vec<P> {
    let (next, found) = (AtomicUsize::new(0), Mutex::new(Vec::new()));
    let work = || {
        while let Some(thing) = todo.get(next.fetch_add(1, Ordering::Relaxed)) {
            let point = of(thing);
            found.lock().expect("no thread fails").push(point);
        }
    };
    std::thread::scope(|scope| {
        for _ in 0..std::thread::available_parallelism().map_or(1, |n| n.get()) {
            scope.spawn(work);
        }
    });
    let mut points = found.into_inner().expect("no thread fails");
    points.sort();
    points
}

/// The points of all courses.
pub fn points(courses: &[Course]) -> Vec<Point> {
    let of = |c: &Course| (0..=c.last).step_by(c.step).map(|wrong| (c.profile, wrong, c.blocks)).collect::<Vec<_>>();
    // the slowest first
    let todo: Vec<(usize, usize, usize)> = courses.iter().rev().flat_map(of).collect();
    in_parallel(&todo, |(profile, wrong, blocks)| point(*profile, *wrong, *blocks))
}

const COLUMNS: &str = "profile,wrong,right,another,refused\n";

pub fn written(points: &[Point]) -> String {
    let line = |p: &Point| format!("{},{},{},{},{}\n", p.profile, p.wrong, p.right, p.another, p.refused);
    COLUMNS.to_string() + &points.iter().map(line).collect::<String>()
}

pub fn read(text: &str) -> Vec<Point> {
    let point = |line: &str| {
        let numbers: Vec<usize> = line.split(',').map(|word| word.parse().expect("a number")).collect();
        let [profile, wrong, right, another, refused] = numbers[..] else { panic!("a line has 5 numbers, not {line}") };
        Point { profile, wrong, right, another, refused }
    };
    text.strip_prefix(COLUMNS).expect("the columns").lines().map(point).collect()
}
