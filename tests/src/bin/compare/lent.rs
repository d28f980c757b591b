//! Buffers as C lends them, between guard bytes, and pairs of them to be compared.

use crate::random::Random;

const GUARD: usize = 64;

/// Bytes of which a part is lent; all others are guards.
pub struct Lent {
    whole: Vec<u8>,
    start: usize,
    length: usize,
    null: bool,
}

impl Lent {
    pub fn content(&self) -> &[u8] {
        &self.whole[self.start..self.start + self.length]
    }

    pub fn content_mut(&mut self) -> &mut [u8] {
        &mut self.whole[self.start..self.start + self.length]
    }

    pub fn length(&self) -> usize {
        self.length
    }

    /// The pointer to lend: NULL only where nothing is lent. The archive alone is called by it.
    #[cfg_attr(not(feature = "link"), allow(dead_code))]
    pub fn pointer(&mut self) -> *mut u8 {
        if self.null && self.length == 0 {
            return std::ptr::null_mut();
        }
        self.whole[self.start..].as_mut_ptr()
    }

    /// Does what no side may do.
    pub fn touch_guard(&mut self) {
        self.whole[self.start + self.length] ^= 1;
    }
}

/// The same buffer twice: as the reference leaves it, and as the other side does.
pub struct Pair {
    pub expected: Lent,
    pub actual: Lent,
}

impl Pair {
    /// Room for so many bytes, at any alignment, all of them random.
    pub fn new(room: usize, random: &mut Random) -> Pair {
        let start = GUARD + random.index(16);
        let whole = random.bytes(start + room + GUARD);
        let lent = |whole| Lent {
            whole,
            start,
            length: room,
            null: false,
        };
        Pair {
            expected: lent(whole.clone()),
            actual: lent(whole),
        }
    }

    /// Lends the first `length` bytes of the room; nothing perhaps as NULL.
    pub fn lend(&mut self, length: usize, null: bool) {
        for lent in [&mut self.expected, &mut self.actual] {
            lent.length = length;
            lent.null = null;
        }
    }

    /// Lends `content`.
    pub fn lend_content(&mut self, content: &[u8], null: bool) {
        self.lend(content.len(), null);
        self.expected.content_mut().copy_from_slice(content);
        self.actual.content_mut().copy_from_slice(content);
    }

    /// Makes the actual side as the expected one.
    pub fn level(&mut self) {
        self.actual.whole.copy_from_slice(&self.expected.whole);
    }

    /// Takes over the expected content of another pair, and its length.
    pub fn copy(&mut self, other: &Pair) {
        self.lend_content(other.expected.content(), false);
    }

    /// Where the sides first differ, counted from the lent part's start, and both bytes.
    pub fn difference(&self) -> Option<(isize, u8, u8)> {
        if self.expected.whole == self.actual.whole {
            return None;
        }
        let sides = self.expected.whole.iter().zip(&self.actual.whole);
        let at = sides.clone().position(|(one, other)| one != other)?;
        let offset = at as isize - self.expected.start as isize;
        Some((offset, self.expected.whole[at], self.actual.whole[at]))
    }
}
