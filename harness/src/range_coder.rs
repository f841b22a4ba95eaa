//! Binary decisions read from bytes and written to bytes, with adaptive probabilities.

// The part of the range that belongs to `false`, which has probability p in 256ths.
fn split(range: u32, p: u32) -> u32 {
    1 + (range - 1) * p / 256
}

// A probability a sixteenth of the way on, towards the decision.
fn adapted(p: u32, decision: bool) -> u32 {
    if decision {
        p - p / 16
    } else {
        p + (256 - p) / 16
    }
}

pub struct Reader<'a> {
    bytes: &'a [u8],
    position: usize,
    range: u32,
    offset: u32,
    contexts: [u32; 64],
}

impl<'a> Reader<'a> {
    pub fn new(bytes: &'a [u8]) -> Reader<'a> {
        let mut reader = Reader {
            bytes,
            position: 0,
            range: 256,
            offset: 0,
            contexts: [128; 64],
        };
        for _ in 0..8 {
            reader.offset = 2 * reader.offset + reader.next_bit();
        }
        reader
    }

    fn next_bit(&mut self) -> u32 {
        let position = self.position;
        self.position += 1;
        match self.bytes.get(position / 8) {
            Some(byte) => u32::from(byte >> (7 - position % 8)) % 2,
            None => 0,
        }
    }

    fn decide(&mut self, p: u32) -> bool {
        let split = split(self.range, p);
        let decision = self.offset >= split;
        if decision {
            self.range -= split;
            self.offset -= split;
        } else {
            self.range = split;
        }
        while self.range < 128 {
            self.range *= 2;
            self.offset = 2 * self.offset + self.next_bit();
        }
        decision
    }

    pub fn adaptive(&mut self, context: usize) -> bool {
        let p = self.contexts[context];
        let decision = self.decide(p);
        self.contexts[context] = adapted(p, decision);
        decision
    }

    pub fn bypass_bits(&mut self, count: usize) -> u32 {
        let mut value = 0;
        for _ in 0..count {
            value = 2 * value + u32::from(self.decide(128));
        }
        value
    }

    pub fn signed(&mut self, context: usize) -> i32 {
        let mut length = 0;
        while length < 15 && self.adaptive(context + length) {
            length += 1;
        }
        let value = ((1 << length) - 1 + self.bypass_bits(length)) as i32;
        if value != 0 && self.bypass_bits(1) == 1 {
            -value
        } else {
            value
        }
    }

    // Whether the offset is 0 and no 1 is left over, as in the bytes that an encoder writes.
    pub fn is_at_bottom(&mut self) -> bool {
        while self.position < 8 * self.bytes.len() {
            if self.next_bit() == 1 {
                return false;
            }
        }
        self.offset == 0
    }
}

pub struct Writer {
    // The bottom of the range, bit by bit, the high bit first.
    low: Vec<u8>,
    range: u32,
    contexts: [u32; 64],
}

impl Writer {
    pub fn new() -> Writer {
        Writer {
            low: vec![0; 8],
            range: 256,
            contexts: [128; 64],
        }
    }

    // Adds to the bottom of the range, with carry.
    fn raise(&mut self, mut amount: u32) {
        let mut place = self.low.len();
        while amount > 0 {
            place -= 1;
            amount += u32::from(self.low[place]);
            self.low[place] = (amount % 2) as u8;
            amount /= 2;
        }
    }

    fn decide(&mut self, p: u32, decision: bool) {
        let split = split(self.range, p);
        if decision {
            self.raise(split);
            self.range -= split;
        } else {
            self.range = split;
        }
        while self.range < 128 {
            self.range *= 2;
            self.low.push(0);
        }
    }

    pub fn adaptive(&mut self, context: usize, decision: bool) {
        let p = self.contexts[context];
        self.decide(p, decision);
        self.contexts[context] = adapted(p, decision);
    }

    pub fn bypass_bits(&mut self, count: usize, value: u32) {
        for place in (0..count).rev() {
            self.decide(128, (value >> place) % 2 == 1);
        }
    }

    pub fn signed(&mut self, context: usize, value: i32) {
        let size = value.unsigned_abs();
        let length = (size + 1).ilog2() as usize;
        for place in 0..length {
            self.adaptive(context + place, true);
        }
        if length < 15 {
            self.adaptive(context + length, false);
        }
        self.bypass_bits(length, size + 1 - (1 << length));
        if size > 0 {
            self.bypass_bits(1, u32::from(value < 0));
        }
    }

    // The bottom of the last range, without the zero bits at its end but for those that fill the last byte.
    pub fn into_bytes(mut self) -> Vec<u8> {
        while self.low.last() == Some(&0) {
            self.low.pop();
        }
        while !self.low.len().is_multiple_of(8) {
            self.low.push(0);
        }
        self.low
            .chunks(8)
            .map(|bits| bits.iter().fold(0, |byte, bit| 2 * byte + bit))
            .collect()
    }
}
