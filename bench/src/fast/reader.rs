//! Decisions read from bytes, by a window of many bits.

// The probability a sixteenth of the way on, towards the decision.
pub fn adapted(p: u8, decision: bool) -> u8 {
    if decision {
        p - p / 16
    } else {
        p + ((256 - u32::from(p)) / 16) as u8
    }
}

// The part of the range that belongs to `false`.
pub fn split(range: u32, p: u8) -> u32 {
    1 + (((range - 1) * u32::from(p)) >> 8)
}

// How often a range is doubled until it is at least 128.
pub fn doublings(range: u32) -> u32 {
    range.leading_zeros().saturating_sub(24)
}

pub struct Reader<'a> {
    rest: &'a [u8],
    range: u32,
    // The offset is the highest eight bits; those below it are the next bits, `ready` of them.
    window: u64,
    ready: i32,
    contexts: [u8; 64],
}

impl<'a> Reader<'a> {
    pub fn new(bytes: &'a [u8]) -> Reader<'a> {
        let mut reader = Reader {
            rest: bytes,
            range: 256,
            window: 0,
            ready: -8,
            contexts: [128; 64],
        };
        reader.refill();
        reader
    }

    // Fills the window with whole bytes, and with zeros after the last one.
    fn refill(&mut self) {
        if let Some((eight, _)) = self.rest.split_first_chunk::<8>() {
            let count = (56 - self.ready) / 8;
            let bits = u64::from_be_bytes(*eight);
            let kept = if count == 8 {
                bits
            } else {
                bits >> (64 - 8 * count) << (64 - 8 * count)
            };
            self.window |= kept >> (self.ready + 8);
            self.ready += 8 * count;
            self.rest = &self.rest[count as usize..];
        } else {
            while self.ready <= 48 {
                if let Some((byte, rest)) = self.rest.split_first() {
                    self.window |= u64::from(*byte) << (48 - self.ready);
                    self.rest = rest;
                }
                self.ready += 8;
            }
        }
    }

    fn decide(&mut self, p: u8) -> bool {
        let split = split(self.range, p);
        let top = u64::from(split) << 56;
        // Only the first range is 256, and its offset is below it.
        let decision = self.window >= top;
        if decision {
            self.range -= split;
            self.window -= top;
        } else {
            self.range = split;
        }
        let count = doublings(self.range);
        self.range <<= count;
        self.window <<= count;
        self.ready -= count as i32;
        if self.ready < 0 {
            self.refill();
        }
        decision
    }

    pub fn adaptive(&mut self, context: usize) -> bool {
        let p = self.contexts[context];
        let decision = self.decide(p);
        self.contexts[context] = adapted(p, decision);
        decision
    }

    pub fn bypass_bits(&mut self, count: u32) -> u32 {
        (0..count).fold(0, |value, _| 2 * value + u32::from(self.decide(128)))
    }

    pub fn signed(&mut self, context: usize) -> i32 {
        if !self.adaptive(context) {
            return 0;
        }
        let mut length = 1;
        while length < 15 && self.adaptive(context + length) {
            length += 1;
        }
        let value = ((1 << length) - 1 + self.bypass_bits(length as u32)) as i32;
        if self.decide(128) { -value } else { value }
    }
}
