//! A synthetic slope: a still scene seen through a noisy sensor, on which a patch begins to slide after some frames.
//!
//! Everything is computed in integers from a seed, so that the video is the same on every machine.

use harness::random::Random;

pub const WIDTH: usize = 64;
pub const HEIGHT: usize = 56;
pub const FRAMES: usize = 400;
// The first frame in which the patch is not where it was.
pub const FIRST_MOVED: usize = 200;

// The patch slides down one pixel in so many frames, and right one pixel in so many.
const FRAMES_DOWN: usize = 8;
const FRAMES_RIGHT: usize = 20;
const PATCH: Rectangle = Rectangle {
    left: 20,
    top: 12,
    width: 18,
    height: 14,
};

#[derive(Clone, Copy, PartialEq)]
pub struct Rectangle {
    pub left: usize,
    pub top: usize,
    pub width: usize,
    pub height: usize,
}

impl Rectangle {
    pub fn contains(self, x: usize, y: usize) -> bool {
        (self.left..self.left + self.width).contains(&x)
            && (self.top..self.top + self.height).contains(&y)
    }

    pub fn overlaps(self, other: Rectangle) -> bool {
        self.left < other.left + other.width
            && other.left < self.left + self.width
            && self.top < other.top + other.height
            && other.top < self.top + self.height
    }
}

// Where the patch is in a frame.
pub fn patch_at(frame: usize) -> Rectangle {
    let moving = (frame + 1).saturating_sub(FIRST_MOVED);
    Rectangle {
        left: PATCH.left + moving.div_ceil(FRAMES_RIGHT),
        top: PATCH.top + moving.div_ceil(FRAMES_DOWN),
        ..PATCH
    }
}

// Random values on a lattice, and between them the values that a straight line gives, in 16ths.
struct Octave {
    spacing: usize,
    across: usize,
    lattice: Vec<u8>,
}

impl Octave {
    fn new(random: &mut Random, spacing: usize) -> Octave {
        let across = WIDTH / spacing + 2;
        let down = HEIGHT / spacing + 2;
        Octave {
            spacing,
            across,
            lattice: random.bytes(across * down),
        }
    }

    fn at(&self, x: usize, y: usize) -> usize {
        let (column, row) = (x / self.spacing, y / self.spacing);
        let (right, below) = (x % self.spacing, y % self.spacing);
        let corner = |c: usize, r: usize| usize::from(self.lattice[r * self.across + c]);
        let between =
            |r: usize| corner(column, r) * (self.spacing - right) + corner(column + 1, r) * right;
        (between(row) * (self.spacing - below) + between(row + 1) * below) * 16
            / (self.spacing * self.spacing)
    }
}

// Ground of several grains: coarse shapes and fine stones, the finer the fainter.
struct Ground {
    octaves: [Octave; 4],
}

impl Ground {
    fn new(random: &mut Random) -> Ground {
        Ground {
            octaves: [16, 8, 4, 2].map(|spacing| Octave::new(random, spacing)),
        }
    }

    // 0 to 127.
    fn at(&self, x: usize, y: usize) -> usize {
        let weights = [6, 5, 3, 2];
        let sum: usize = self
            .octaves
            .iter()
            .zip(weights)
            .map(|(octave, weight)| octave.at(x, y) * weight)
            .sum();
        sum / (16 * 16) / 2
    }
}

struct Scene {
    slope: Ground,
    patch: Ground,
}

impl Scene {
    // The light at a pixel, before the sensor: the hill is brighter above, and the patch a little darker.
    fn at(&self, frame: usize, x: usize, y: usize) -> i32 {
        let patch = patch_at(frame);
        let light = if patch.contains(x, y) {
            40 + self.patch.at(x - patch.left, y - patch.top)
        } else {
            110 - y + self.slope.at(x, y)
        };
        light as i32
    }
}

// The sensor's noise: the sum of two numbers of −1, 0 and 1, so −2 to 2 in 1, 2, 3, 2 and 1 of nine cases.
fn noise(random: &mut Random) -> i32 {
    random.between(-1, 1) + random.between(-1, 1)
}

// All frames, one after the other, row by row.
pub fn video(seed: u64) -> Vec<u8> {
    let mut random = Random::new(seed);
    let scene = Scene {
        slope: Ground::new(&mut random),
        patch: Ground::new(&mut random),
    };
    let mut pixels = Vec::with_capacity(FRAMES * WIDTH * HEIGHT);
    for frame in 0..FRAMES {
        for y in 0..HEIGHT {
            for x in 0..WIDTH {
                let seen = scene.at(frame, x, y) + noise(&mut random);
                pixels.push(seen.clamp(0, 255) as u8);
            }
        }
    }
    pixels
}
