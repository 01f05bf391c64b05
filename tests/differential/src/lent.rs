//! Bytes lent to a call, between guard bytes.

use reference::random::Random;

const GUARD: usize = 32;

pub struct Lent {
    bytes: Vec<u8>,
    before: Vec<u8>,
    start: usize,
    end: usize,
}

impl Lent {
    /// Lends a copy of these bytes, at any alignment.
    pub fn copy_of(content: &[u8], random: &mut Random) -> Lent {
        let start = GUARD + random.below(8);
        let end = start + content.len();
        let mut bytes = random.bytes(start);
        bytes.extend_from_slice(content);
        bytes.extend(random.bytes(GUARD));
        Lent { before: bytes.clone(), bytes, start, end }
    }

    /// Lends a buffer that holds anything.
    pub fn buffer(size: usize, random: &mut Random) -> Lent {
        let content = random.bytes(size);
        Lent::copy_of(&content, random)
    }

    /// What is lent, as C takes it: where it begins and how many bytes it has.
    pub fn raw(&mut self) -> (*mut u8, usize) {
        let part = &mut self.bytes[self.start..self.end];
        (part.as_mut_ptr(), part.len())
    }

    /// What the lent bytes hold now.
    pub fn now(&self) -> &[u8] {
        &self.bytes[self.start..self.end]
    }

    /// What they held before the call.
    pub fn before(&self) -> &[u8] {
        &self.before[self.start..self.end]
    }

    pub fn is_unchanged(&self) -> bool {
        self.bytes == self.before
    }

    pub fn guards_are_unchanged(&self) -> bool {
        self.bytes[..self.start] == self.before[..self.start]
            && self.bytes[self.end..] == self.before[self.end..]
    }
}
