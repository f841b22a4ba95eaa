//! Videos of grey pictures, 64 by 56 pixels each.

use crate::slope;
use harness::frame::Format;
use std::fs;
use std::path::Path;

pub const WIDTH: usize = 64;
pub const HEIGHT: usize = 56;

pub struct Video {
    pub name: &'static str,
    pub pixels: Vec<u8>,
}

impl Video {
    pub fn slope() -> Video {
        Video {
            name: "slope",
            pixels: slope::video(1),
        }
    }

    // The street camera's raw pictures.
    pub fn street(path: &Path) -> Result<Video, String> {
        let pixels = fs::read(path).map_err(|error| format!("{}: {error}", path.display()))?;
        Ok(Video {
            name: "street",
            pixels,
        })
    }

    pub fn frame_count(&self) -> usize {
        self.pixels.len() / (WIDTH * HEIGHT)
    }

    pub fn frame(&self, n: usize) -> &[u8] {
        &self.pixels[n * WIDTH * HEIGHT..(n + 1) * WIDTH * HEIGHT]
    }

    // A frame in another shape. A picture that is wider is strips of the frame side by side; a smaller one is cut
    // from its middle, where something moves in either video.
    pub fn shaped(&self, n: usize, format: Format) -> Vec<u8> {
        let (width, height) = (format.width(), format.height());
        let frame = self.frame(n);
        let at = |x: usize, y: usize| frame[y * WIDTH + x];
        let mut pixels = Vec::with_capacity(width * height);
        for y in 0..height {
            for x in 0..width {
                pixels.push(if width > WIDTH {
                    at(x % 60, y + height * (x / 60))
                } else {
                    at((WIDTH - width) / 2 + x, (HEIGHT - height) / 2 + y)
                });
            }
        }
        pixels
    }
}

// How far the worst pixel is from its source.
pub fn worst_distance(shown: &[u8], source: &[u8]) -> u8 {
    shown
        .iter()
        .zip(source)
        .map(|(a, b)| a.abs_diff(*b))
        .max()
        .unwrap_or(0)
}
