//! The area that a library's call is lent.

const LINE: usize = 64;

/// Numbers that start on a cache line. A call clears its area by the C library's function, which stores up to 64 bytes at a time; where such
/// a store lies across two pages a short call takes up to a quarter longer, so that where the heap puts an area would decide a race.
pub struct Area {
    room: Vec<i32>,
    length: usize,
}

impl Area {
    /// The 8 n numbers of a block's decoding.
    pub fn new(m: usize) -> Area {
        let length = 8 << m;
        Area { room: vec![0; length + LINE / size_of::<i32>()], length }
    }

    pub fn numbers(&mut self) -> &mut [i32] {
        let start = self.room.as_ptr().align_offset(LINE);
        &mut self.room[start..start + self.length]
    }
}
