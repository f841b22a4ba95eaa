//! Blocks of four by four pixels: their syntax, and what their levels add.

use crate::range_coder::{Reader, Writer};

pub const LARGEST: i32 = 65534;

#[derive(Clone, Copy, Debug, PartialEq)]
pub enum Prediction {
    Flat(u8),
    Motion { dx: i32, dy: i32 },
}

#[derive(Clone, Copy, Debug, PartialEq)]
pub struct Block {
    pub prediction: Prediction,
    pub levels: [i32; 16],
}

fn level_context(level: usize) -> usize {
    if level == 0 { 33 } else { 48 }
}

pub fn read_block(reader: &mut Reader, key: bool) -> Block {
    let prediction = if !key && reader.adaptive(0) {
        let dx = reader.signed(2);
        let dy = reader.signed(18);
        Prediction::Motion { dx, dy }
    } else {
        Prediction::Flat(reader.bypass_bits(8) as u8)
    };
    let mut levels = [0; 16];
    if reader.adaptive(1) {
        for (index, level) in levels.iter_mut().enumerate() {
            *level = reader.signed(level_context(index));
        }
    }
    Block { prediction, levels }
}

// `spelled` has all sixteen levels written, even if they are 0.
pub fn write_block(writer: &mut Writer, key: bool, block: &Block, spelled: bool) {
    match block.prediction {
        Prediction::Flat(value) => {
            if !key {
                writer.adaptive(0, false);
            }
            writer.bypass_bits(8, u32::from(value));
        }
        Prediction::Motion { dx, dy } => {
            writer.adaptive(0, true);
            writer.signed(2, dx);
            writer.signed(18, dy);
        }
    }
    let some = spelled || block.levels != [0; 16];
    writer.adaptive(1, some);
    if some {
        for (index, level) in block.levels.iter().enumerate() {
            writer.signed(level_context(index), *level);
        }
    }
}

// The sign of basis function u at x.
fn sign(u: usize, x: usize) -> i32 {
    if (u & x).count_ones().is_multiple_of(2) {
        1
    } else {
        -1
    }
}

pub fn residual(step: i32, levels: &[i32; 16], x: usize, y: usize) -> i32 {
    let mut sum = 0;
    for v in 0..4 {
        for u in 0..4 {
            sum += sign(u, x) * sign(v, y) * step * levels[4 * v + u];
        }
    }
    (sum + 8).div_euclid(16)
}

// The levels that are nearest to what a prediction lacks.
pub fn nearest_levels(step: i32, source: &[u8; 16], prediction: &[u8; 16]) -> [i32; 16] {
    std::array::from_fn(|level| {
        let (u, v) = (level % 4, level / 4);
        let sum: i32 = (0..16)
            .map(|i| {
                sign(u, i % 4) * sign(v, i / 4) * (i32::from(source[i]) - i32::from(prediction[i]))
            })
            .sum();
        (sum + step / 2).div_euclid(step)
    })
}
