//! Random formats, pictures, blocks and frames.

use crate::block::{Block, LARGEST, Prediction};
use crate::camera::{self, Answer, Numbers};
use crate::frame::{Format, decode, write_frame};
use crate::random::Random;

// Mostly small ones, since what is large takes long and finds little more.
pub fn format(random: &mut Random) -> Format {
    let (across, down) = match random.below(400) {
        0 => random.pick(&[
            (60, 3),
            (3, 60),
            (14, 16),
            (16, 14),
            (60, 1),
            (1, 60),
            (56, 4),
            (4, 56),
        ]),
        1..=12 => (1 + random.index(8), 1 + random.index(8)),
        _ => (1 + random.index(3), 1 + random.index(3)),
    };
    let step = if random.one_in(4) {
        random.pick(&[1, 2, 3, 63, 64])
    } else {
        random.between(1, 64)
    };
    Format { across, down, step }
}

pub fn numbers(format: Format) -> Numbers {
    Numbers {
        across: format.across as u64,
        down: format.down as u64,
        step: format.step as u64,
    }
}

// A flag as C may give it: any number but 0 is set.
pub fn flag(random: &mut Random, set: bool) -> u64 {
    match (set, random.one_in(16)) {
        (false, _) => 0,
        (true, false) => 1,
        (true, true) => random.pick(&[2, 255, 256, 1 << 32, u64::MAX]),
    }
}

pub fn picture(random: &mut Random, format: Format) -> Vec<u8> {
    let count = format.pixel_count();
    match random.below(5) {
        0 => random.bytes(count),
        1 => vec![random.byte(); count],
        2 => (0..count).map(|_| random.pick(&[0, 255])).collect(),
        3 => (0..count)
            .map(|_| random.pick(&[0, 1, 2, 253, 254, 255]))
            .collect(),
        _ => gradient(random, format),
    }
}

fn gradient(random: &mut Random, format: Format) -> Vec<u8> {
    let (first, right, below) = (
        random.between(0, 255),
        random.between(-9, 9),
        random.between(-9, 9),
    );
    let noise = random.between(0, 12);
    (0..format.pixel_count())
        .map(|i| {
            let (x, y) = ((i % format.width()) as i32, (i / format.width()) as i32);
            (first + x * right + y * below + random.between(-noise, noise)).clamp(0, 255) as u8
        })
        .collect()
}

// A picture much like another: moved a little, with noise.
pub fn successor(random: &mut Random, format: Format, before: &[u8]) -> Vec<u8> {
    let (dx, dy) = (random.between(-3, 3), random.between(-3, 3));
    let noise = if random.one_in(2) {
        0
    } else {
        random.between(0, 2 * format.step)
    };
    let end = |size: usize| size as i32 - 1;
    (0..format.pixel_count())
        .map(|i| {
            let x = ((i % format.width()) as i32 + dx).clamp(0, end(format.width())) as usize;
            let y = ((i / format.width()) as i32 + dy).clamp(0, end(format.height())) as usize;
            (i32::from(before[y * format.width() + x]) + random.between(-noise, noise))
                .clamp(0, 255) as u8
        })
        .collect()
}

// A number of any size: each length is as likely as another.
fn number(random: &mut Random, longest: u32) -> i32 {
    let length = random.below(u64::from(longest) + 1) as u32;
    let size = (1 << length) - 1 + random.below(1 << length) as i32;
    if random.one_in(2) { -size } else { size }
}

fn levels(random: &mut Random) -> [i32; 16] {
    match random.below(8) {
        0..=2 => [0; 16],
        3 => std::array::from_fn(|_| {
            if random.one_in(8) {
                number(random, 3)
            } else {
                0
            }
        }),
        4 => std::array::from_fn(|_| number(random, 2)),
        5 => std::array::from_fn(|_| number(random, 8)),
        6 => std::array::from_fn(|_| number(random, 15)),
        _ => std::array::from_fn(|_| random.pick(&[0, 1, -1, LARGEST, -LARGEST])),
    }
}

// A motion vector that stays within the picture.
fn vector_within(random: &mut Random, format: Format, block: usize) -> Prediction {
    let (left, top) = format.corner(block);
    let (left, top) = (left as i32, top as i32);
    let dx = random.between(-left, format.width() as i32 - 4 - left);
    let dy = random.between(-top, format.height() as i32 - 4 - top);
    match random.below(4) {
        0 => Prediction::Motion { dx: 0, dy: 0 },
        1 => Prediction::Motion { dx: -left, dy },
        2 => Prediction::Motion {
            dx: format.width() as i32 - 4 - left,
            dy: format.height() as i32 - 4 - top,
        },
        _ => Prediction::Motion { dx, dy },
    }
}

// A motion vector that mostly leaves it, by a pixel or by far.
fn vector_beyond(random: &mut Random, format: Format, block: usize) -> Prediction {
    let (left, top) = format.corner(block);
    let (left, top) = (left as i32, top as i32);
    match random.below(5) {
        0 => Prediction::Motion {
            dx: -left - 1,
            dy: 0,
        },
        1 => Prediction::Motion {
            dx: format.width() as i32 - 3 - left,
            dy: 0,
        },
        2 => Prediction::Motion {
            dx: 0,
            dy: -top - 1,
        },
        3 => Prediction::Motion {
            dx: 0,
            dy: format.height() as i32 - 3 - top,
        },
        _ => Prediction::Motion {
            dx: number(random, 15),
            dy: number(random, 15),
        },
    }
}

pub fn blocks(random: &mut Random, format: Format, key: bool) -> Vec<Block> {
    let count = format.block_count();
    let beyond = !key && random.one_in(4);
    let stray = random.index(count);
    (0..count)
        .map(|n| {
            let prediction = if beyond && n == stray {
                vector_beyond(random, format, n)
            } else if !key && random.one_in(2) {
                vector_within(random, format, n)
            } else {
                Prediction::Flat(if random.one_in(4) {
                    random.pick(&[0, 255])
                } else {
                    random.byte()
                })
            };
            Block {
                prediction,
                levels: levels(random),
            }
        })
        .collect()
}

// A frame as the codec writes it.
pub fn coded(
    random: &mut Random,
    format: Format,
    key: bool,
    reference: &[u8],
) -> Result<Vec<u8>, String> {
    let source = if random.one_in(3) {
        picture(random, format)
    } else {
        successor(random, format, reference)
    };
    let mut buffer = vec![0; format.worst_case_size()];
    let mut output = vec![0; format.pixel_count()];
    match camera::code(
        numbers(format),
        u64::from(key),
        &source,
        reference,
        &mut buffer,
        &mut output,
    )? {
        Answer::Length(length) => {
            buffer.truncate(length as usize);
            Ok(buffer)
        }
        answer => Err(format!("coding answered {answer:?}")),
    }
}

// A frame from either writer.
pub fn frame(
    random: &mut Random,
    format: Format,
    key: bool,
    reference: &[u8],
) -> Result<Vec<u8>, String> {
    if random.one_in(4) {
        coded(random, format, key, reference)
    } else {
        Ok(write_frame(key, &blocks(random, format, key)))
    }
}

// Bytes of a frame after an accident.
pub fn damage(random: &mut Random, bytes: &mut Vec<u8>) {
    for _ in 0..1 + random.below(3) {
        let place = random.index(bytes.len() + 1);
        match random.below(6) {
            0 | 1 if place < bytes.len() => bytes[place] ^= 1 << random.below(8),
            2 if place < bytes.len() => bytes[place] = random.byte(),
            3 if place < bytes.len() => {
                bytes.remove(place);
            }
            4 => bytes.truncate(place),
            _ => bytes.insert(place, random.byte()),
        }
    }
}

pub fn expect(holds: bool, what: impl FnOnce() -> String) -> Result<(), String> {
    if holds { Ok(()) } else { Err(what()) }
}

// Has both decoders show a frame, and says whether it is valid.
pub fn show_by_both(
    random: &mut Random,
    format: Format,
    key: bool,
    bytes: &[u8],
    reference: &[u8],
) -> Result<bool, String> {
    let before = random.bytes(format.pixel_count());
    let mut output = before.clone();
    let answer = camera::show(
        numbers(format),
        flag(random, key),
        bytes,
        reference,
        &mut output,
    )?;
    let (expected, picture) = match decode(format, key, bytes, reference).picture {
        Some(picture) => (Answer::Shown, picture),
        None => (Answer::Invalid, before),
    };
    expect(answer == expected, || {
        format!("{format:?} key {key} bytes {bytes:?}: {answer:?}, expected {expected:?}")
    })?;
    expect(output == picture, || {
        format!("{format:?} key {key} bytes {bytes:?}: output {output:?}, expected {picture:?}")
    })?;
    Ok(expected == Answer::Shown)
}
