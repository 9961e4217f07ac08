//! A memory to lend, with guard bytes on both sides that no call may change.

const GUARD: usize = 64;
const PAINT: u8 = 0xC3;

pub struct Lent {
    bytes: Vec<u8>,
    size: usize,
}

impl Lent {
    /// `size` bytes, all 0.
    pub fn new(size: usize) -> Lent {
        let mut bytes = vec![PAINT; size + 2 * GUARD];
        bytes[GUARD..GUARD + size].fill(0);
        Lent { bytes, size }
    }

    pub fn get(&self) -> &[u8] {
        &self.bytes[GUARD..GUARD + self.size]
    }

    pub fn lend(&mut self) -> &mut [u8] {
        &mut self.bytes[GUARD..GUARD + self.size]
    }

    /// The memory, or as much of it and of the guard behind it as makes `size` bytes.
    pub fn lend_other(&mut self, size: usize) -> &mut [u8] {
        &mut self.bytes[GUARD..GUARD + size]
    }

    /// Becomes a copy of `bytes`.
    pub fn hold(&mut self, bytes: &[u8]) {
        self.size = bytes.len();
        let room = (self.size + 2 * GUARD).max(self.bytes.len());
        self.bytes.resize(room, PAINT);
        self.lend().copy_from_slice(bytes);
        self.bytes[GUARD + bytes.len()..2 * GUARD + bytes.len()].fill(PAINT);
    }

    /// Whether it holds these bytes, between guards as they were.
    pub fn holds(&self, expected: &[u8]) -> bool {
        let after = GUARD + self.size;
        let painted = |bytes: &[u8]| bytes.iter().all(|byte| *byte == PAINT);
        painted(&self.bytes[..GUARD])
            && painted(&self.bytes[after..after + GUARD])
            && self.get() == expected
    }
}
