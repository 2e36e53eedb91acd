//! Numbers in a record or a reply: unsigned, high byte first.

/// What is left of a record or a reply.
pub(super) struct Bytes<'a>(pub &'a [u8]);

impl<'a> Bytes<'a> {
    pub fn take(&mut self, count: usize) -> &'a [u8] {
        let (taken, rest) = self.0.split_at(count);
        self.0 = rest;
        taken
    }

    /// A number of so many bytes.
    pub fn number(&mut self, bytes: usize) -> u64 {
        self.take(bytes)
            .iter()
            .fold(0, |number, &byte| number << 8 | u64::from(byte))
    }

    pub fn u8(&mut self) -> u8 {
        self.number(1) as u8
    }

    pub fn u16(&mut self) -> u16 {
        self.number(2) as u16
    }

    pub fn u32(&mut self) -> u32 {
        self.number(4) as u32
    }

    /// A length or a room; one past `most` counts as `most`.
    pub fn length(&mut self, most: usize) -> usize {
        usize::from(self.u16()).min(most)
    }

    /// A length and the bytes that count, out of so many.
    pub fn sized(&mut self, room: usize) -> &'a [u8] {
        let length = self.length(room);
        &self.take(room)[..length]
    }
}

/// Puts a number of so many bytes, which hold all of it.
pub(super) fn put(out: &mut Vec<u8>, bytes: usize, number: impl Into<u64>) {
    let number = number.into().to_be_bytes();
    let (high, low) = number.split_at(8 - bytes);
    assert!(high.iter().all(|&byte| byte == 0));
    out.extend(low);
}
