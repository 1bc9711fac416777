//! The room that readings work in.

use crate::votes::Votes;
use crate::word::Word;

/// What the reading at one depth keeps.
pub struct Level {
    pub word: Word,
    pub votes: Votes,
    /// How many directions of the round did not abstain.
    pub voters: usize,
}

/// exchanged[j][b] is number j of the word with its places exchanged by b.
pub type Exchanged = [[u64; 64]; 16];

pub struct Workspace {
    pub(crate) levels: Vec<Level>,
    pub(crate) exchanged: Box<Exchanged>,
}

impl Workspace {
    pub fn new() -> Workspace {
        let level = || Level { word: [0; 16], votes: Votes::new(), voters: 0 };
        Workspace { levels: (0..11).map(|_| level()).collect(), exchanged: Box::new([[0; 64]; 16]) }
    }
}

impl Default for Workspace {
    fn default() -> Workspace {
        Workspace::new()
    }
}
