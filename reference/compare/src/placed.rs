//! Inputs at any address, with other bytes before and behind them.

use slopeboard_reference::gen::Rng;

/// Bytes behind the input, so that reading on is no accident that goes
/// unseen.
const BEHIND: usize = 16;

/// An input in a larger stretch. Kept to spare the allocator.
#[derive(Default)]
pub struct Placed {
    bytes: Vec<u8>,
    first: usize,
    len: usize,
}

impl Placed {
    /// Puts the input at an address of any parity, with noise behind it.
    pub fn put(&mut self, rng: &mut Rng, input: &[u8]) {
        let noise = rng.draw().to_be_bytes();
        self.put_before(rng, input, &noise);
    }

    /// The same with these bytes right behind the input.
    pub fn put_before(&mut self, rng: &mut Rng, input: &[u8], behind: &[u8]) {
        self.first = rng.below(8) as usize;
        self.len = input.len();
        self.bytes.clear();
        self.bytes.resize(self.first, 0xA5);
        self.bytes.extend(input);
        self.bytes.extend(&behind[..behind.len().min(BEHIND)]);
    }

    pub fn input(&self) -> &[u8] {
        &self.bytes[self.first..self.first + self.len]
    }
}
