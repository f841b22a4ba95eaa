//! Any bytes at all as a frame.

use super::Tally;
use crate::material::{format, picture, show_by_both};
use crate::random::Random;

fn bytes(random: &mut Random) -> Vec<u8> {
    let count = if random.one_in(8) {
        random.index(600)
    } else {
        random.index(40)
    };
    match random.below(4) {
        0 | 1 => random.bytes(count),
        2 => (0..count)
            .map(|_| {
                if random.one_in(4) {
                    random.byte()
                } else {
                    random.pick(&[0, 255])
                }
            })
            .collect(),
        _ => (0..count)
            .map(|_| random.byte() & random.byte() & random.byte())
            .collect(),
    }
}

pub fn run(random: &mut Random, tally: &mut Tally) -> Result<(), String> {
    let format = format(random);
    let key = random.one_in(4);
    let reference = picture(random, format);
    let bytes = bytes(random);
    let valid = show_by_both(random, format, key, &bytes, &reference)?;
    tally.count(if valid { "valid" } else { "invalid" });
    Ok(())
}
