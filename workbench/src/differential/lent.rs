//! Buffers lent to calls, between guard bytes that no call may alter.

/// How many guard bytes stand on each side.
const GUARD: usize = 64;

/// A guard byte, by its place: no two neighbours are alike.
fn guard_byte(place: usize) -> u8 {
    (place as u8).wrapping_mul(151) ^ 0xa5
}

/// A buffer with guard bytes on both sides.
pub struct Lent {
    bytes: Vec<u8>,
}

impl Lent {
    /// A buffer that holds the given bytes.
    pub fn holding(content: &[u8]) -> Lent {
        let guard: Vec<u8> = (0..GUARD).map(guard_byte).collect();
        Lent {
            bytes: [&guard, content, &guard].concat(),
        }
    }

    pub fn content(&self) -> &[u8] {
        &self.bytes[GUARD..self.bytes.len() - GUARD]
    }

    pub fn content_mut(&mut self) -> &mut [u8] {
        let end = self.bytes.len() - GUARD;
        &mut self.bytes[GUARD..end]
    }

    /// Whether the buffer holds these bytes and its guards are as they were.
    pub fn holds(&self, content: &[u8]) -> bool {
        let stands = |guard: &[u8]| (0..GUARD).all(|place| guard[place] == guard_byte(place));
        self.content() == content
            && stands(&self.bytes[..GUARD])
            && stands(&self.bytes[self.bytes.len() - GUARD..])
    }
}
