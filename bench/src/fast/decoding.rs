//! Frames decoded.

use super::reader::Reader;
use super::transform::{shown, transform};
use harness::frame::Format;

// The first of a block's pixels in a picture, after it is moved, unless it then reaches over an edge.
fn moved_corner(format: Format, left: usize, top: usize, dx: i32, dy: i32) -> Option<usize> {
    let column = left as i32 + dx;
    let row = top as i32 + dy;
    let within = |first: i32, end: usize| first >= 0 && first + 4 <= end as i32;
    (within(column, format.width()) && within(row, format.height()))
        .then(|| row as usize * format.width() + column as usize)
}

pub fn pixels_at(picture: &[u8], width: usize, corner: usize) -> [u8; 16] {
    let mut pixels = [0; 16];
    for (y, row) in pixels.chunks_exact_mut(4).enumerate() {
        let first = corner + y * width;
        row.copy_from_slice(&picture[first..first + 4]);
    }
    pixels
}

pub fn put(picture: &mut [u8], width: usize, corner: usize, pixels: &[u8; 16]) {
    for (y, row) in pixels.chunks_exact(4).enumerate() {
        let first = corner + y * width;
        picture[first..first + 4].copy_from_slice(row);
    }
}

fn read_sums(reader: &mut Reader, step: i32) -> [i32; 16] {
    let mut scaled = [0; 16];
    scaled[0] = step * reader.signed(33);
    for value in &mut scaled[1..] {
        *value = step * reader.signed(48);
    }
    transform(&scaled)
}

// The next block, of which the first pixel is at that column and row.
fn decode_block(
    reader: &mut Reader,
    format: Format,
    key: bool,
    left: usize,
    top: usize,
    reference: &[u8],
) -> Option<[u8; 16]> {
    let prediction = if !key && reader.adaptive(0) {
        let dx = reader.signed(2);
        let dy = reader.signed(18);
        let corner = moved_corner(format, left, top, dx, dy)?;
        pixels_at(reference, format.width(), corner)
    } else {
        [reader.bypass_bits(8) as u8; 16]
    };
    if !reader.adaptive(1) {
        return Some(prediction);
    }
    let sums = read_sums(reader, format.step);
    Some(std::array::from_fn(|i| shown(prediction[i], sums[i])))
}

// A decoder keeps the picture in the making, so that an invalid frame leaves the output as it was.
pub struct Decoder {
    scratch: Vec<u8>,
}

impl Decoder {
    pub fn new(format: Format) -> Decoder {
        Decoder {
            scratch: vec![0; format.pixel_count()],
        }
    }

    // Shows a frame in the output, and says whether it is valid.
    pub fn show(
        &mut self,
        format: Format,
        key: bool,
        bytes: &[u8],
        reference: &[u8],
        output: &mut [u8],
    ) -> bool {
        let mut reader = Reader::new(bytes);
        let width = format.width();
        for top in (0..format.height()).step_by(4) {
            for left in (0..width).step_by(4) {
                match decode_block(&mut reader, format, key, left, top, reference) {
                    Some(pixels) => put(&mut self.scratch, width, top * width + left, &pixels),
                    None => return false,
                }
            }
        }
        output.copy_from_slice(&self.scratch);
        true
    }
}
