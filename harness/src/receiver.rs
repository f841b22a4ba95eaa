//! A receiver of packets.

use crate::frame::{Format, decode};

#[derive(Clone, Debug, PartialEq)]
pub struct Receiver {
    pub picture: Vec<u8>,
    pub sure: bool,
    pub next: u64,
}

impl Receiver {
    pub fn new(format: Format) -> Receiver {
        Receiver {
            picture: vec![0; format.pixel_count()],
            sure: false,
            next: 0,
        }
    }

    pub fn receive(&mut self, format: Format, number: u64, key: bool, bytes: &[u8]) {
        if number < self.next {
            return;
        }
        let wanted = key || (self.sure && number == self.next);
        if wanted && let Some(picture) = decode(format, key, bytes, &self.picture).picture {
            *self = Receiver {
                picture,
                sure: true,
                next: number + 1,
            };
            return;
        }
        self.sure = false;
    }
}
