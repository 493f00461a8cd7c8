//! Lent memory.

use crate::chance::Rng;

const GUARD: usize = 16;

/// A slice to lend, with guard bytes before and after it.
pub struct Lent {
    pub memory: Vec<u8>,
    pub len: usize,
    null: bool,
}

impl Lent {
    pub fn new(rng: &mut Rng, content: &[u8]) -> Lent {
        let mut memory = rng.bytes(GUARD);
        memory.extend_from_slice(content);
        memory.extend(rng.bytes(GUARD));
        Lent { memory, len: content.len(), null: content.is_empty() && rng.once_in(2) }
    }

    pub fn room(rng: &mut Rng, room: usize) -> Lent {
        let content = rng.bytes(room);
        Lent::new(rng, &content)
    }

    pub fn ptr(&mut self) -> *mut u8 {
        if self.null {
            return std::ptr::null_mut();
        }
        self.memory[GUARD..].as_mut_ptr()
    }

    /// The whole memory as it must be once these bytes are written from the slice's start.
    pub fn with(&self, bytes: &[u8]) -> Vec<u8> {
        let mut memory = self.memory.clone();
        memory[GUARD..GUARD + bytes.len()].copy_from_slice(bytes);
        memory
    }
}
