//! Frames: blocks row by row, and the picture that they show.

use crate::block::{Block, Prediction, read_block, residual, write_block};
use crate::range_coder::{Reader, Writer};

#[derive(Clone, Copy, Debug, PartialEq)]
pub struct Format {
    pub across: usize,
    pub down: usize,
    pub step: i32,
}

impl Format {
    pub fn width(self) -> usize {
        4 * self.across
    }

    pub fn height(self) -> usize {
        4 * self.down
    }

    pub fn block_count(self) -> usize {
        self.across * self.down
    }

    pub fn pixel_count(self) -> usize {
        16 * self.block_count()
    }

    pub fn worst_case_size(self) -> usize {
        280 * self.block_count() + 8
    }

    // The column and the row of a block's first pixel.
    pub fn corner(self, block: usize) -> (usize, usize) {
        (4 * (block % self.across), 4 * (block / self.across))
    }
}

pub struct DecodedFrame {
    pub blocks: Vec<Block>,
    // Whether the bytes end as those that an encoder writes.
    pub at_bottom: bool,
    // None if the frame is invalid.
    pub picture: Option<Vec<u8>>,
}

pub fn decode(format: Format, key: bool, bytes: &[u8], reference: &[u8]) -> DecodedFrame {
    let mut reader = Reader::new(bytes);
    let blocks: Vec<Block> = (0..format.block_count())
        .map(|_| read_block(&mut reader, key))
        .collect();
    let picture = draw(format, &blocks, reference);
    DecodedFrame {
        blocks,
        at_bottom: reader.is_at_bottom(),
        picture,
    }
}

// The picture that blocks make, unless one of them is predicted from over an edge.
pub fn draw(format: Format, blocks: &[Block], reference: &[u8]) -> Option<Vec<u8>> {
    let mut picture = vec![0; format.pixel_count()];
    for (n, block) in blocks.iter().enumerate() {
        let (left, top) = format.corner(n);
        let prediction = predict(format, block.prediction, left, top, reference)?;
        for y in 0..4 {
            for x in 0..4 {
                let sum =
                    i32::from(prediction[4 * y + x]) + residual(format.step, &block.levels, x, y);
                picture[(top + y) * format.width() + left + x] = sum.clamp(0, 255) as u8;
            }
        }
    }
    Some(picture)
}

fn predict(
    format: Format,
    prediction: Prediction,
    left: usize,
    top: usize,
    reference: &[u8],
) -> Option<[u8; 16]> {
    match prediction {
        Prediction::Flat(value) => Some([value; 16]),
        Prediction::Motion { dx, dy } => {
            let column = left as i32 + dx;
            let row = top as i32 + dy;
            if column < 0
                || row < 0
                || column + 4 > format.width() as i32
                || row + 4 > format.height() as i32
            {
                return None;
            }
            let first = row as usize * format.width() + column as usize;
            Some(std::array::from_fn(|i| {
                reference[first + i / 4 * format.width() + i % 4]
            }))
        }
    }
}

pub fn write_frame(key: bool, blocks: &[Block]) -> Vec<u8> {
    let mut writer = Writer::new();
    for block in blocks {
        write_block(&mut writer, key, block, false);
    }
    writer.into_bytes()
}
