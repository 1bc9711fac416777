//! The table of profiles (document 01, "Profiles").

#[derive(Clone, Copy, PartialEq, Eq, Debug)]
pub struct Profile {
    pub m: usize,
    pub r: usize,
    pub rounds: usize,
    pub leaves: usize,
}

/// The profile of that number, if there is one.
pub fn profile(number: usize) -> Option<Profile> {
    let (m, r, leaves) = match number {
        0 => (5, 1, 1),
        1 => (6, 2, 252),
        2 => (7, 2, 508),
        3 => (8, 2, 1_020),
        4 => (8, 3, 518_160),
        _ => return None,
    };
    Some(Profile { m, r, rounds: 4, leaves })
}
