//! Buffers with guard bytes around them.

const GUARD_LENGTH: usize = 64;
const GUARD: u8 = 0xC3;

/// Bytes or counts that are lent to a call, between guards that the call must leave alone. Each lending begins at another place modulo
/// 16.
pub struct Guarded<T = u8> {
    whole: Vec<T>,
    guard: T,
    start: usize,
    length: usize,
}

impl Guarded {
    pub fn new(content: &[u8]) -> Guarded {
        Guarded::between(GUARD, content)
    }

    pub fn bytes(&self) -> &[u8] {
        self.content()
    }

    pub fn bytes_mut(&mut self) -> &mut [u8] {
        &mut self.whole[self.start..self.start + self.length]
    }

    pub fn array<const N: usize>(&self) -> &[u8; N] {
        self.bytes().try_into().expect("a buffer of this length")
    }

    pub fn array_mut<const N: usize>(&mut self) -> &mut [u8; N] {
        self.bytes_mut()
            .try_into()
            .expect("a buffer of this length")
    }
}

impl<T: Copy + PartialEq> Guarded<T> {
    pub fn between(guard: T, content: &[T]) -> Guarded<T> {
        let mut guarded = Guarded {
            whole: Vec::new(),
            guard,
            start: GUARD_LENGTH,
            length: 0,
        };
        guarded.set(content);
        guarded
    }

    /// Another content, of another length perhaps, with whole guards.
    pub fn set(&mut self, content: &[T]) {
        self.length = content.len();
        self.start = GUARD_LENGTH + (self.start + 5) % 16;
        self.whole.clear();
        self.whole.resize(self.start, self.guard);
        self.whole.extend_from_slice(content);
        let end = self.whole.len() + GUARD_LENGTH;
        self.whole.resize(end, self.guard);
    }

    pub fn content(&self) -> &[T] {
        &self.whole[self.start..self.start + self.length]
    }

    pub fn guards_hold(&self) -> bool {
        let (before, rest) = self.whole.split_at(self.start);
        let after = &rest[self.length..];
        before.iter().chain(after).all(|&guard| guard == self.guard)
    }
}

#[cfg(test)]
mod tests {
    use super::*;

    #[test]
    fn a_byte_beyond_either_end_is_noticed() {
        for beyond in [-1, 3] {
            let mut guarded = Guarded::new(&[1, 2, 3]);
            assert!(guarded.guards_hold());
            let at = guarded
                .start
                .checked_add_signed(beyond)
                .expect("a place in the pages");
            guarded.whole[at] = 0;
            assert!(!guarded.guards_hold());
        }
        let mut guarded = Guarded::new(&[1, 2, 3]);
        guarded.bytes_mut().fill(0);
        assert!(guarded.guards_hold());
    }

    #[test]
    fn counts_have_guards_too() {
        let mut guarded = Guarded::between(0, &[0x0102_u16, 2, 65_535]);
        assert_eq!(guarded.content(), [0x0102, 2, 65_535]);
        assert!(guarded.guards_hold());
        let behind = guarded.start + 3;
        guarded.whole[behind] = 0x0100;
        assert!(!guarded.guards_hold());
        guarded.set(&[]);
        assert!(guarded.content().is_empty() && guarded.guards_hold());
    }
}
