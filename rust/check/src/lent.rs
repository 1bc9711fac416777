//! A buffer that is lent to a call: a pattern inside, and a guard on both sides.

const GUARD: usize = 16;

pub struct Lent<T> {
    all: Vec<T>,
    guards: [Vec<T>; 2],
}

impl<T: Copy + PartialEq> Lent<T> {
    pub fn new(length: usize, pattern: impl Fn(usize) -> T) -> Lent<T> {
        let all: Vec<T> = (0..length + 2 * GUARD).map(pattern).collect();
        let guards = [all[..GUARD].to_vec(), all[GUARD + length..].to_vec()];
        Lent { all, guards }
    }

    /// With these inside.
    pub fn of(inside: &[T]) -> Lent<T>
    where
        T: Default,
    {
        let mut lent = Lent::new(inside.len(), |_| T::default());
        lent.inside().copy_from_slice(inside);
        lent
    }

    pub fn inside(&mut self) -> &mut [T] {
        let end = self.all.len() - GUARD;
        &mut self.all[GUARD..end]
    }

    /// What is inside, if nothing was written outside.
    pub fn taken_back(mut self) -> Option<Vec<T>> {
        let end = self.all.len() - GUARD;
        let kept = self.all[..GUARD] == self.guards[0] && self.all[end..] == self.guards[1];
        kept.then(|| self.inside().to_vec())
    }
}

/// Bytes that are no bits, different from place to place.
pub fn bytes(length: usize) -> Lent<u8> {
    Lent::new(length, |i| 2 + (i * 37 % 251) as u8)
}

pub fn numbers(length: usize) -> Lent<i32> {
    Lent::new(length, |i| 1 + (i as i32).wrapping_mul(1_000_003))
}

pub fn counts(length: usize) -> Lent<u32> {
    Lent::new(length, |i| 1_000 + (i as u32).wrapping_mul(1_000_003))
}
