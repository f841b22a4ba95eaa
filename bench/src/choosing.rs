//! The encoder in plain Rust, written for speed: it makes the same choices as the proved one, byte for byte.
//!
//! What it ports is in crates/encoder/src: the search of motion.rt, the levels of levels.rt and the order of encoding.rt.

use crate::fast::decoding::{pixels_at, put};
use crate::fast::transform::{shown, transform};
use crate::fast::writer;
use harness::block::{Block, Prediction, write_block};
use harness::frame::Format;
use harness::range_coder;

// How often a search moves on from the best vector so far.
const ROUNDS: usize = 8;

// What blocks are written by: the plain writer or the fast one.
pub trait BlockWriter {
    fn begin(format: Format) -> Self;
    fn write(&mut self, key: bool, block: &Block);
    fn end(self) -> Vec<u8>;
}

impl BlockWriter for range_coder::Writer {
    fn begin(_: Format) -> Self {
        range_coder::Writer::new()
    }

    fn write(&mut self, key: bool, block: &Block) {
        write_block(self, key, block, false);
    }

    fn end(self) -> Vec<u8> {
        self.into_bytes()
    }
}

impl BlockWriter for writer::Writer {
    fn begin(format: Format) -> Self {
        writer::Writer::new(16 * format.block_count())
    }

    fn write(&mut self, key: bool, block: &Block) {
        self.block(key, block);
    }

    fn end(self) -> Vec<u8> {
        self.into_bytes()
    }
}

fn difference(a: &[u8; 16], b: &[u8; 16]) -> u32 {
    a.iter()
        .zip(b)
        .map(|(a, b)| u32::from(a.abs_diff(*b)))
        .sum()
}

fn mean(pixels: &[u8; 16]) -> u8 {
    let sum: u16 = pixels.iter().map(|pixel| u16::from(*pixel)).sum();
    ((sum + 8) / 16) as u8
}

#[derive(Clone, Copy, PartialEq)]
struct Vector {
    dx: i32,
    dy: i32,
}

const STILL: Vector = Vector { dx: 0, dy: 0 };

#[derive(Clone, Copy)]
struct Predicted {
    prediction: Prediction,
    pixels: [u8; 16],
}

fn flat(source: &[u8; 16]) -> Predicted {
    let value = mean(source);
    Predicted {
        prediction: Prediction::Flat(value),
        pixels: [value; 16],
    }
}

// A search for a block's prediction: what is looked for and where, and the best so far.
struct Search<'a> {
    reference: &'a [u8],
    format: Format,
    left: usize,
    top: usize,
    source: &'a [u8; 16],
    best: Predicted,
    vector: Vector,
    cost: u32,
}

impl Search<'_> {
    fn try_vector(&mut self, vector: Vector) {
        let column = self.left as i32 + vector.dx;
        let row = self.top as i32 + vector.dy;
        let (width, height) = (self.format.width(), self.format.height());
        if column < 0 || row < 0 || column + 4 > width as i32 || row + 4 > height as i32 {
            return;
        }
        let pixels = pixels_at(
            self.reference,
            width,
            row as usize * width + column as usize,
        );
        let beside = if vector == STILL {
            0
        } else {
            2 * self.format.step as u32
        };
        let cost = difference(&pixels, self.source) + beside;
        if cost < self.cost {
            let Vector { dx, dy } = vector;
            let prediction = Prediction::Motion { dx, dy };
            self.best = Predicted { prediction, pixels };
            self.vector = vector;
            self.cost = cost;
        }
    }

    // Moves on from the best vector to a better one beside it, as long as there is one.
    fn refine(&mut self) {
        for _ in 0..ROUNDS {
            let Vector { dx, dy } = self.vector;
            let before = self.cost;
            for (right, down) in [(1, 0), (-1, 0), (0, 1), (0, -1)] {
                self.try_vector(Vector {
                    dx: dx + right,
                    dy: dy + down,
                });
            }
            if self.cost == before {
                break;
            }
        }
    }
}

fn searched(
    format: Format,
    left: usize,
    top: usize,
    source: &[u8; 16],
    reference: &[u8],
    before: Vector,
) -> Predicted {
    let best = flat(source);
    let mut search = Search {
        reference,
        format,
        left,
        top,
        source,
        best,
        vector: STILL,
        cost: difference(&best.pixels, source) + 4 * format.step as u32,
    };
    search.try_vector(STILL);
    search.try_vector(before);
    search.refine();
    search.best
}

fn is_close(half: u8, a: &[u8; 16], b: &[u8; 16]) -> bool {
    a.iter().zip(b).all(|(a, b)| a.abs_diff(*b) <= half)
}

// The signs of each basis function at each pixel.
const SIGNS: [[i32; 16]; 16] = {
    let mut signs = [[0; 16]; 16];
    let mut i = 0;
    while i < 256 {
        let (function, pixel) = (i / 16, i % 16);
        signs[function][pixel] = 1 - 2 * ((function & pixel).count_ones() % 2) as i32;
        i += 1;
    }
    signs
};

// A block in the making: its levels, and sixteen times what they add at each pixel.
struct Levels<'a> {
    step: i32,
    source: &'a [u8; 16],
    prediction: &'a [u8; 16],
    levels: [i32; 16],
    sums: [i32; 16],
    pixels: [u8; 16],
}

impl Levels<'_> {
    // Gives a level another value, if the block is then still close enough to its source.
    fn try_level(&mut self, k: usize, value: i32) -> bool {
        let change = self.step * (value - self.levels[k]);
        let sums = std::array::from_fn(|i| self.sums[i] + SIGNS[k][i] * change);
        let pixels = std::array::from_fn(|i| shown(self.prediction[i], sums[i]));
        let close = is_close((self.step / 2) as u8, &pixels, self.source);
        if close {
            self.levels[k] = value;
            self.sums = sums;
            self.pixels = pixels;
        }
        close
    }

    // Lowers the levels one after the other, those of the finest detail first.
    fn lower(&mut self) {
        for k in (0..16).rev() {
            let level = self.levels[k];
            if level != 0 && !self.try_level(k, 0) {
                self.try_level(k, level - level.signum());
            }
        }
    }
}

// The levels that are nearest to what a prediction lacks.
fn nearest<'a>(step: i32, source: &'a [u8; 16], prediction: &'a [u8; 16]) -> Levels<'a> {
    let lacking = std::array::from_fn(|i| i32::from(source[i]) - i32::from(prediction[i]));
    let levels = transform(&lacking).map(|coefficient| (coefficient + step / 2).div_euclid(step));
    let sums = transform(&levels.map(|level| step * level));
    Levels {
        step,
        source,
        prediction,
        levels,
        sums,
        pixels: std::array::from_fn(|i| shown(prediction[i], sums[i])),
    }
}

// A block's levels, none if that is close enough, and the pixels that it then shows.
fn finished(step: i32, source: &[u8; 16], predicted: &Predicted) -> ([i32; 16], [u8; 16]) {
    if is_close((step / 2) as u8, &predicted.pixels, source) {
        return ([0; 16], predicted.pixels);
    }
    let mut levels = nearest(step, source, &predicted.pixels);
    levels.lower();
    (levels.levels, levels.pixels)
}

// Encodes a frame: its bytes, and in `output` the picture that they mean.
pub fn encode<W: BlockWriter>(
    format: Format,
    key: bool,
    source: &[u8],
    reference: &[u8],
    output: &mut [u8],
) -> Vec<u8> {
    let width = format.width();
    let mut writer = W::begin(format);
    for top in (0..format.height()).step_by(4) {
        let mut before = STILL;
        for left in (0..width).step_by(4) {
            let wanted = pixels_at(source, width, top * width + left);
            let predicted = if key {
                flat(&wanted)
            } else {
                searched(format, left, top, &wanted, reference, before)
            };
            let (levels, pixels) = finished(format.step, &wanted, &predicted);
            let prediction = predicted.prediction;
            writer.write(key, &Block { prediction, levels });
            put(output, width, top * width + left, &pixels);
            before = match prediction {
                Prediction::Motion { dx, dy } => Vector { dx, dy },
                Prediction::Flat(_) => STILL,
            };
        }
    }
    writer.end()
}
