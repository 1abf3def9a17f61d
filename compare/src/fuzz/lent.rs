//! Lent memory with guards around it.

const GUARD: usize = 64;
const GUARD_BYTE: u8 = 0xA5;

/// Bytes to lend, at any alignment, between guards that no call may touch.
pub struct Lent {
    memory: Vec<u8>,
    first: usize,
    length: usize,
}

impl Lent {
    pub fn new(bytes: &[u8], offset: usize) -> Self {
        let first = GUARD + offset;
        let mut memory = vec![GUARD_BYTE; first + bytes.len() + GUARD];
        memory[first..first + bytes.len()].copy_from_slice(bytes);
        Lent { memory, first, length: bytes.len() }
    }

    pub fn bytes(&self) -> &[u8] {
        &self.memory[self.first..self.first + self.length]
    }

    pub fn bytes_mut(&mut self) -> &mut [u8] {
        &mut self.memory[self.first..self.first + self.length]
    }

    /// Whether nothing around the lent bytes was written.
    pub fn guards_hold(&self) -> bool {
        let (before, rest) = self.memory.split_at(self.first);
        let after = &rest[self.length..];
        before.iter().chain(after).all(|&byte| byte == GUARD_BYTE)
    }
}
