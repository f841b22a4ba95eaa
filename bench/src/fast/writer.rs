//! Decisions written to bytes, by a window of many bits.

use super::reader::{adapted, doublings, split};
use harness::block::{Block, Prediction};

pub struct Writer {
    bytes: Vec<u8>,
    range: u32,
    // The last `pending` bits of the bottom of the range, and above them a carry into the bytes.
    low: u64,
    pending: u32,
    contexts: [u8; 64],
}

impl Writer {
    pub fn new(room: usize) -> Writer {
        Writer {
            bytes: Vec::with_capacity(room),
            range: 256,
            low: 0,
            pending: 8,
            contexts: [128; 64],
        }
    }

    // Adds one to the bytes as a number.
    fn carry(&mut self) {
        for byte in self.bytes.iter_mut().rev() {
            *byte = byte.wrapping_add(1);
            if *byte != 0 {
                break;
            }
        }
    }

    // Moves the window's high bytes to the others, all but its last bits.
    fn flush(&mut self) {
        if self.low >> self.pending != 0 {
            self.carry();
        }
        while self.pending >= 16 {
            self.pending -= 8;
            self.bytes.push((self.low >> self.pending) as u8);
        }
        self.low &= (1 << self.pending) - 1;
    }

    fn decide(&mut self, p: u8, decision: bool) {
        let split = split(self.range, p);
        if decision {
            self.low += u64::from(split);
            self.range -= split;
        } else {
            self.range = split;
        }
        let count = doublings(self.range);
        self.range <<= count;
        self.low <<= count;
        self.pending += count;
        if self.pending > 55 {
            self.flush();
        }
    }

    fn adaptive(&mut self, context: usize, decision: bool) {
        let p = self.contexts[context];
        self.decide(p, decision);
        self.contexts[context] = adapted(p, decision);
    }

    fn bypass_bits(&mut self, count: u32, value: u32) {
        for place in (0..count).rev() {
            self.decide(128, value >> place & 1 == 1);
        }
    }

    fn signed(&mut self, context: usize, value: i32) {
        let size = value.unsigned_abs();
        let length = (size + 1).ilog2();
        for place in 0..length as usize {
            self.adaptive(context + place, true);
        }
        if length < 15 {
            self.adaptive(context + length as usize, false);
        }
        if size > 0 {
            self.bypass_bits(length, size + 1 - (1 << length));
            self.decide(128, value < 0);
        }
    }

    pub fn block(&mut self, key: bool, block: &Block) {
        match block.prediction {
            Prediction::Flat(value) => {
                if !key {
                    self.adaptive(0, false);
                }
                self.bypass_bits(8, u32::from(value));
            }
            Prediction::Motion { dx, dy } => {
                self.adaptive(0, true);
                self.signed(2, dx);
                self.signed(18, dy);
            }
        }
        let some = block.levels != [0; 16];
        self.adaptive(1, some);
        if some {
            self.signed(33, block.levels[0]);
            for level in &block.levels[1..] {
                self.signed(48, *level);
            }
        }
    }

    pub fn into_bytes(mut self) -> Vec<u8> {
        self.flush();
        let last = self.low << (16 - self.pending);
        self.bytes.extend([(last >> 8) as u8, last as u8]);
        while self.bytes.last() == Some(&0) {
            self.bytes.pop();
        }
        self.bytes
    }
}
