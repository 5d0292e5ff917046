//! Memory as a caller may lend it: with old content, at any alignment, and with
//! guard bytes of the caller's before and behind.

use reference::generate::Random;

const GUARD: usize = 64;

#[derive(Clone)]
pub struct Lent {
    bytes: Vec<u8>,
    from: usize,
    length: usize,
}

impl Lent {
    /// The old content has no pattern that a zeroed or a shifted part could
    /// be mistaken for.
    pub fn new(length: usize, random: &mut Random) -> Lent {
        let salt = random.bits() as u32;
        let from = GUARD + random.index(8);
        let noise = |at: u32| (at ^ salt).wrapping_mul(0x9E37_79B1).rotate_right(15) as u8;
        let bytes = (0..(from + length + GUARD) as u32).map(noise).collect();
        Lent { bytes, from, length }
    }

    /// The bytes lent.
    pub fn part(&mut self) -> &mut [u8] {
        &mut self.bytes[self.from..self.from + self.length]
    }

    pub fn length(&self) -> usize {
        self.length
    }

    /// The first byte, counted from the first one lent, that another memory
    /// with the same beginnings has otherwise, and the two bytes.
    pub fn difference(&self, other: &Lent) -> Option<(isize, u8, u8)> {
        if self.bytes == other.bytes {
            return None;
        }
        let pairs = self.bytes.iter().zip(&other.bytes);
        let at = pairs.clone().position(|(one, two)| one != two)?;
        Some((at as isize - self.from as isize, self.bytes[at], other.bytes[at]))
    }
}
