use crate::Refusal;
use std::fmt;

// What was written so far, and room behind it that is kept from root to root.
#[derive(Clone, Default)]
pub struct Target {
    pub bytes: Vec<u8>,
    pub filled: usize,
}

// What lies behind the fill may be an earlier job's.
impl fmt::Debug for Target {
    fn fmt(&self, f: &mut fmt::Formatter<'_>) -> fmt::Result {
        self.written().fmt(f)
    }
}

impl Target {
    // Memory that is neither cleared nor shown.
    pub fn over(bytes: Vec<u8>) -> Target {
        Target { bytes, filled: 0 }
    }

    // The same memory with these bytes at its front; it grows where it is shorter.
    pub fn beginning(mut bytes: Vec<u8>, front: &[u8]) -> Target {
        if bytes.len() < front.len() {
            bytes.resize(front.len(), 0);
        }
        bytes[..front.len()].copy_from_slice(front);
        Target { bytes, filled: front.len() }
    }

    pub fn filled(bytes: Vec<u8>) -> Target {
        Target { filled: bytes.len(), bytes }
    }

    pub fn written(&self) -> &[u8] {
        &self.bytes[..self.filled]
    }

    // What may be filled under a limit; what is filled already stays, also beyond it.
    fn size(&self, limit: usize) -> usize {
        self.bytes.len().min(limit.max(self.filled))
    }

    pub fn free(&self, limit: usize) -> usize {
        self.size(limit) - self.filled
    }

    pub fn lent(&mut self, limit: usize) -> &mut [u8] {
        let size = self.size(limit);
        &mut self.bytes[..size]
    }

    // Room for so many bytes more; beyond the limit it is refused.
    pub fn make_room(&mut self, needed: usize, limit: usize) -> Result<(), Refusal> {
        let wanted = self.filled.saturating_add(needed);
        if limit < wanted {
            return Err(Refusal::Limit { needed, limit });
        }
        if self.bytes.len() < wanted {
            self.bytes.resize(wanted.max(limit.min(2 * self.bytes.len())), 0);
        }
        Ok(())
    }

    // Room for the calls of roots of `size` bytes over a text of `text` bytes, so that each is lowered in one pass. The library's figure takes a pass over the tapes, so
    // it is asked for only where there is less than roots take whose texts don't overlap; where the limit allows it as much is made, so that the next roots of this
    // size need not ask. Beyond the limit no room is made; the figure of a refusal then says what is wanted.
    pub fn make_room_for(
        &mut self,
        size: usize,
        text: usize,
        call_room: impl FnOnce() -> usize,
        limit: usize,
    ) {
        let usual = 4 * size + 6 * text;
        if self.free(limit) < usual {
            let bound = call_room();
            let made = self.make_room(bound.max(usual), limit);
            let _ = made.or_else(|_| self.make_room(bound, limit));
        }
    }

    pub fn into_written(mut self) -> Vec<u8> {
        self.bytes.truncate(self.filled);
        self.bytes
    }
}
