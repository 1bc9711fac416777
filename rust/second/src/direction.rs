//! Directions, their cosets and projections (document 01, "Directions and cosets").

/// The bit that a direction's numbering of cosets deletes.
#[derive(Clone, Copy, PartialEq, Eq, Hash, Debug)]
pub enum Numbering {
    /// The highest one of the direction: the right one.
    Highest,
    /// The lowest one.
    Lowest,
}

/// The position h for direction b.
fn position(b: usize, numbering: Numbering) -> usize {
    let ones: Vec<usize> = (0..usize::BITS as usize).filter(|i| b >> i & 1 == 1).collect();
    match numbering {
        Numbering::Highest => ones[ones.len() - 1],
        Numbering::Lowest => ones[0],
    }
}

/// The place without its bit h, higher bits moved down one.
fn delete_bit(place: usize, h: usize) -> usize {
    let below = place % (1 << h);
    let above = place >> (h + 1);
    (above << h) + below
}

/// The cosets of direction b in the order of their numbers, the representative first.
pub fn cosets(m: usize, b: usize, numbering: Numbering) -> Vec<(usize, usize)> {
    let h = position(b, numbering);
    let mut found: Vec<(usize, usize)> = (0..1 << m).filter(|p| p >> h & 1 == 0).map(|p| (p, p ^ b)).collect();
    found.sort_by_key(|(p, _)| delete_bit(*p, h));
    found
}

/// The sum of the two bits of each coset.
pub fn projection(word: &[u8], cosets: &[(usize, usize)]) -> Vec<u8> {
    cosets.iter().map(|(p, q)| word[*p] ^ word[*q]).collect()
}
