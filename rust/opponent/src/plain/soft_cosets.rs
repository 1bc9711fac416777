//! Projections of confidences and the shares of their cosets, four places at a time.

/// The highest one of b as a number, and the rest of b.
fn parts(b: usize) -> (usize, usize) {
    let half = 1 << (usize::BITS - 1 - b.leading_zeros());
    (half, b ^ half)
}

/// The product of the signs and the smaller magnitude.
#[inline(always)]
fn joint(x: i32, y: i32) -> i32 {
    ((x + y).abs() - (x - y).abs()) >> 1
}

/// Negated where the sign is -1.
#[inline(always)]
fn turned(value: i32, sign: i32) -> i32 {
    (value ^ sign) - sign
}

/// The joint values of the cosets of b, in the order of their numbers.
pub fn project(b: usize, values: &[i32], projection: &mut [i32]) {
    let (half, low) = parts(b);
    for (pair, joints) in values.chunks_exact(2 * half).zip(projection.chunks_exact_mut(half)) {
        let (first, other) = pair.split_at(half);
        match (half >= 4, low & 3) {
            (true, 0) => project_fours::<0>(low >> 2, first, other, joints),
            (true, 1) => project_fours::<1>(low >> 2, first, other, joints),
            (true, 2) => project_fours::<2>(low >> 2, first, other, joints),
            (true, _) => project_fours::<3>(low >> 2, first, other, joints),
            _ => (0..half).for_each(|q| joints[q] = joint(first[q], other[q ^ low])),
        }
    }
}

#[inline(always)]
fn project_fours<const L: usize>(exchange: usize, first: &[i32], other: &[i32], joints: &mut [i32]) {
    let (first, other) = (first.as_chunks::<4>().0, other.as_chunks::<4>().0);
    for (c, joints) in joints.as_chunks_mut::<4>().0.iter_mut().enumerate() {
        let (x, y) = (first[c], other[c ^ exchange]);
        *joints = core::array::from_fn(|i| joint(x[i], y[i ^ L]));
    }
}

/// To the sum of each place the old value of the other one of its coset, negated where the coset's sign is -1.
pub fn share(b: usize, signs: &[i32], values: &[i32], sums: &mut [i32]) {
    let (half, low) = parts(b);
    let blocks = values.chunks_exact(2 * half).zip(sums.chunks_exact_mut(2 * half));
    for ((pair, sums), signs) in blocks.zip(signs.chunks_exact(half)) {
        let ((first, other), (to_first, to_other)) = (pair.split_at(half), sums.split_at_mut(half));
        match (half >= 4, low & 3) {
            (true, 0) => share_fours::<0>(low >> 2, signs, first, other, to_first, to_other),
            (true, 1) => share_fours::<1>(low >> 2, signs, first, other, to_first, to_other),
            (true, 2) => share_fours::<2>(low >> 2, signs, first, other, to_first, to_other),
            (true, _) => share_fours::<3>(low >> 2, signs, first, other, to_first, to_other),
            _ => (0..half).for_each(|q| {
                to_first[q] += turned(other[q ^ low], signs[q]);
                to_other[q ^ low] += turned(first[q], signs[q]);
            }),
        }
    }
}

#[inline(always)]
fn share_fours<const L: usize>(
    exchange: usize,
    signs: &[i32],
    first: &[i32],
    other: &[i32],
    to_first: &mut [i32],
    to_other: &mut [i32],
) {
    let (first, other) = (first.as_chunks::<4>().0, other.as_chunks::<4>().0);
    let (to_first, to_other) = (to_first.as_chunks_mut::<4>().0, to_other.as_chunks_mut::<4>().0);
    for (c, signs) in signs.as_chunks::<4>().0.iter().enumerate() {
        let (x, y) = (first[c], other[c ^ exchange]);
        let (to_x, to_y) = (&mut to_first[c], &mut to_other[c ^ exchange]);
        *to_x = core::array::from_fn(|i| to_x[i] + turned(y[i ^ L], signs[i]));
        *to_y = core::array::from_fn(|i| to_y[i] + turned(x[i ^ L], signs[i ^ L]));
    }
}
