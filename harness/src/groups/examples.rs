//! The worked examples of the format's description, in the plain code and in the codec.

use super::Tally;
use crate::block::{Block, Prediction, nearest_levels};
use crate::camera::{self, Answer};
use crate::frame::{Format, decode, draw, write_frame};
use crate::material::{expect, numbers, show_by_both};
use crate::random::Random;
use crate::receiver::Receiver;

const ONE: Format = Format {
    across: 1,
    down: 1,
    step: 8,
};
const STILL: Prediction = Prediction::Motion { dx: 0, dy: 0 };

// A block with one level.
fn block(prediction: Prediction, index: usize, level: i32) -> Block {
    let mut levels = [0; 16];
    levels[index] = level;
    Block { prediction, levels }
}

fn plain(prediction: Prediction) -> Block {
    block(prediction, 0, 0)
}

fn check_frame(
    random: &mut Random,
    key: bool,
    format: Format,
    blocks: &[Block],
    bytes: &[u8],
) -> Result<(), String> {
    let written = write_frame(key, blocks);
    expect(written == bytes, || {
        format!("{blocks:?}: {written:?}, expected {bytes:?}")
    })?;
    let reference = random.bytes(format.pixel_count());
    let read = decode(format, key, bytes, &reference);
    expect(read.blocks == blocks, || {
        format!("{bytes:?}: {:?}, expected {blocks:?}", read.blocks)
    })?;
    show_by_both(random, format, key, bytes, &reference)?;
    Ok(())
}

fn frames(random: &mut Random) -> Result<(), String> {
    let flat = Prediction::Flat(128);
    let row = |across| Format { across, ..ONE };
    check_frame(random, true, ONE, &[plain(Prediction::Flat(0))], &[])?;
    check_frame(random, true, ONE, &[plain(flat)], &[128])?;
    check_frame(random, true, ONE, &[plain(Prediction::Flat(255))], &[255])?;
    check_frame(random, true, ONE, &[block(flat, 0, 3)], &[128, 224])?;
    check_frame(random, true, ONE, &[block(flat, 1, -2)], &[128, 172])?;
    check_frame(random, true, row(4), &[plain(flat); 4], &[128, 64, 34, 19])?;
    check_frame(random, false, ONE, &[plain(STILL)], &[128])?;
    check_frame(
        random,
        false,
        ONE,
        &[plain(Prediction::Motion { dx: 1, dy: -2 })],
        &[197, 128],
    )?;
    check_frame(
        random,
        false,
        row(16),
        &[plain(STILL); 16],
        &[136, 30, 167, 164, 227, 96],
    )
}

// What a block shows, in the plain code and in the codec.
fn check_pixels(block: Block, rows: [[u8; 4]; 4]) -> Result<(), String> {
    let expected = rows.concat();
    let drawn = draw(ONE, &[block], &[0; 16]);
    expect(drawn.as_ref() == Some(&expected), || {
        format!("{block:?}: {drawn:?}, expected {expected:?}")
    })?;
    let mut output = [7; 16];
    let answer = camera::show(
        numbers(ONE),
        1,
        &write_frame(true, &[block]),
        &[0; 16],
        &mut output,
    )?;
    expect(answer == Answer::Shown && output[..] == expected, || {
        format!("{block:?}: {answer:?} {output:?}, expected {expected:?}")
    })
}

fn residuals() -> Result<(), String> {
    let flat = Prediction::Flat(128);
    check_pixels(block(flat, 0, 3), [[130; 4]; 4])?;
    check_pixels(block(flat, 1, -2), [[127, 129, 127, 129]; 4])?;
    check_pixels(block(flat, 4, 5), [[131; 4], [126; 4], [131; 4], [126; 4]])?;
    let (even, odd) = ([254, 247, 254, 247], [247, 254, 247, 254]);
    check_pixels(block(Prediction::Flat(250), 5, 7), [even, odd, even, odd])
}

fn nearest() -> Result<(), String> {
    let mut source: [u8; 16] = std::array::from_fn(|i| 10 * (i as u8 % 4 + 1));
    source[15] = 250;
    let mut coarse: [u8; 16] = std::array::from_fn(|i| [5, 21, 29, 45][i % 4]);
    coarse[15] = 237;
    let mut fine = source;
    fine[15] = 248;
    let cases = [
        (
            16,
            [
                13, -18, -23, 13, -13, 13, 13, -13, -13, 13, 13, -13, 13, -13, -13, 13,
            ],
            fine,
        ),
        (
            64,
            [3, -5, -6, 3, -3, 3, 3, -3, -3, 3, 3, -3, 3, -3, -3, 3],
            coarse,
        ),
    ];
    for (step, expected, shown) in cases {
        let levels = nearest_levels(step, &source, &[25; 16]);
        expect(levels == expected, || {
            format!("step {step}: {levels:?}, expected {expected:?}")
        })?;
        let drawn = draw(
            Format { step, ..ONE },
            &[Block {
                prediction: Prediction::Flat(25),
                levels,
            }],
            &[0; 16],
        );
        expect(drawn.as_deref() == Some(&shown), || {
            format!("step {step}: {drawn:?}, expected {shown:?}")
        })?;
    }
    Ok(())
}

fn playing() -> Result<(), String> {
    let packets: [(u64, bool, &[u8], bool, u64); 9] = [
        (1, false, &[128], false, 0),
        (0, true, &[128], true, 1),
        (1, false, &[197, 128], false, 1),
        (1, false, &[128], false, 1),
        (3, true, &[255], true, 4),
        (2, true, &[128], true, 4),
        (4, false, &[128], true, 5),
        (6, false, &[128], false, 5),
        (5, true, &[], true, 6),
    ];
    let mut plain = Receiver::new(ONE);
    let mut receiver = camera::CReceiver { next: 0, sure: 0 };
    let mut picture = [0; 16];
    for (number, key, bytes, sure, next) in packets {
        plain.receive(ONE, number, key, bytes);
        expect(plain.sure == sure && plain.next == next, || {
            format!("packet {number}: {plain:?}")
        })?;
        let answer = camera::receive(
            numbers(ONE),
            &mut receiver,
            number,
            u64::from(key),
            bytes,
            &mut picture,
        )?;
        let expected = if sure { Answer::Sure } else { Answer::Unsure };
        expect(
            answer == expected && receiver.next == next && picture[..] == plain.picture,
            || format!("packet {number}: {answer:?} {receiver:?} {picture:?}"),
        )?;
    }
    Ok(())
}

pub fn run(random: &mut Random, tally: &mut Tally) -> Result<(), String> {
    frames(random)?;
    tally.add("frames", 9);
    residuals()?;
    tally.add("residuals", 4);
    nearest()?;
    tally.add("nearest levels", 2);
    playing()?;
    tally.add("packets", 9);
    Ok(())
}
