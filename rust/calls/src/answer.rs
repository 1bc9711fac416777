//! An answer and its 64 bits.

/// Lowest first: refusal or 0 in 8 bits, rounds in 8, leaf count in 24, mended places in 12, the place of 8, 17 or 18 or the entry of 20 in
/// 12.
#[derive(Clone, Copy, PartialEq, Eq, Debug, Default)]
pub struct Answer {
    pub refusal: u8,
    pub rounds: u8,
    pub leaves: u32,
    pub mended: u16,
    pub place: u16,
}

impl Answer {
    #[inline]
    pub fn unpacked(bits: u64) -> Answer {
        let field = |first: u32, width: u32| bits >> first & ((1 << width) - 1);
        Answer {
            refusal: field(0, 8) as u8,
            rounds: field(8, 8) as u8,
            leaves: field(16, 24) as u32,
            mended: field(40, 12) as u16,
            place: field(52, 12) as u16,
        }
    }
}

/// What the capture reader says. Lowest first: refusal or 0 in 8 bits, 1 where no record is left in 8, profile in 8, 0 in 8, serial in 32.
#[derive(Clone, Copy, PartialEq, Eq, Debug, Default)]
pub struct Found {
    pub refusal: u8,
    pub none_left: u8,
    pub profile: u8,
    pub unused: u8,
    pub serial: u32,
}

impl Found {
    #[inline]
    pub fn unpacked(bits: u64) -> Found {
        let [refusal, none_left, profile, unused, ..] = bits.to_le_bytes();
        Found { refusal, none_left, profile, unused, serial: (bits >> 32) as u32 }
    }
}

/// A block of a load. Lowest first: refusal or 0 in 8 bits, 1 where it was left short in 8, 0 in 16, the state after in 32.
#[derive(Clone, Copy, PartialEq, Eq, Debug, Default)]
pub struct Drawn {
    pub refusal: u8,
    pub short: u8,
    pub unused: u16,
    pub state: u32,
}

impl Drawn {
    #[inline]
    pub fn unpacked(bits: u64) -> Drawn {
        Drawn { refusal: bits as u8, short: (bits >> 8) as u8, unused: (bits >> 16) as u16, state: (bits >> 32) as u32 }
    }
}

/// What a call on an array answers. Lowest first: refusal or 0 in 8 bits, leaf sum in 40, the place of 8 in 16.
#[derive(Clone, Copy, PartialEq, Eq, Debug, Default)]
pub struct ArrayAnswer {
    pub refusal: u8,
    pub leaves: u64,
    pub place: u16,
}

impl ArrayAnswer {
    #[inline]
    pub fn unpacked(bits: u64) -> ArrayAnswer {
        ArrayAnswer { refusal: bits as u8, leaves: bits >> 8 & ((1 << 40) - 1), place: (bits >> 48) as u16 }
    }
}

/// Steps of a street. Lowest first: refusal or 0 in 8 bits, the blocks sent in 32, 1 where a step answered that none is left in 8, 0 in 16.
#[derive(Clone, Copy, PartialEq, Eq, Debug, Default)]
pub struct Walked {
    pub refusal: u8,
    pub sent: u32,
    pub none_left: u8,
    pub unused: u16,
}

impl Walked {
    #[inline]
    pub fn unpacked(bits: u64) -> Walked {
        Walked {
            refusal: bits as u8,
            sent: (bits >> 8) as u32,
            none_left: (bits >> 40) as u8,
            unused: (bits >> 48) as u16,
        }
    }
}

#[cfg(test)]
mod tests {
    use super::{Answer, ArrayAnswer, Drawn, Found, Walked};

    #[test]
    fn each_field_by_itself() {
        let bits = 12 | 5 << 8 | 1_000_000 << 16 | 1_024 << 40 | 1_023 << 52;
        let answer = Answer { refusal: 12, rounds: 5, leaves: 1_000_000, mended: 1_024, place: 1_023 };
        assert_eq!(Answer::unpacked(bits), answer);
    }

    #[test]
    fn each_field_of_a_record() {
        let found = Found { refusal: 6, none_left: 1, profile: 31, unused: 0, serial: 4_000_000_017 };
        assert_eq!(Found::unpacked(6 | 1 << 8 | 31 << 16 | 4_000_000_017 << 32), found);
    }

    #[test]
    fn each_field_of_a_block() {
        let drawn = Drawn { refusal: 22, short: 1, unused: 0, state: 4_000_000_017 };
        assert_eq!(Drawn::unpacked(22 | 1 << 8 | 4_000_000_017 << 32), drawn);
        assert_eq!(Drawn::unpacked(1 << 31).unused, 1 << 15);
    }

    #[test]
    fn each_field_of_an_array() {
        let answer = ArrayAnswer { refusal: 28, leaves: 128_000_000, place: 4_095 };
        assert_eq!(ArrayAnswer::unpacked(28 | 128_000_000 << 8 | 4_095 << 48), answer);
    }

    #[test]
    fn each_field_of_a_street() {
        let walked = Walked { refusal: 24, sent: 4_000_000_017, none_left: 1, unused: 0 };
        assert_eq!(Walked::unpacked(24 | 4_000_000_017 << 8 | 1 << 40), walked);
        assert_eq!(Walked::unpacked(1 << 63).unused, 1 << 15);
    }
}
