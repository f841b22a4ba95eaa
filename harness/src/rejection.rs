//! What is rejected, in the order of the checks.

#[derive(Clone, Copy, Debug, PartialEq)]
pub struct Rejection {
    pub code: u64,
    pub position: u64,
}

// Fails with a rejection unless a test holds.
fn check(holds: bool, code: u64, position: u64) -> Result<(), Rejection> {
    if holds {
        Ok(())
    } else {
        Err(Rejection { code, position })
    }
}

pub fn check_format(across: u64, down: u64, step: u64) -> Result<(), Rejection> {
    check((1..=60).contains(&across), 1, 0)?;
    check((1..=60).contains(&down), 1, 1)?;
    check(across * down <= 224, 1, 2)?;
    check((1..=64).contains(&step), 2, 0)
}

pub fn check_planes(pixels: usize, reference: usize, output: usize) -> Result<(), Rejection> {
    check(reference == pixels, 3, 0)?;
    check(output == pixels, 3, 1)
}

pub fn check_source(pixels: usize, source: usize) -> Result<(), Rejection> {
    check(source == pixels, 4, source as u64)
}

pub fn check_packet(pixels: usize, picture: usize, number: u64) -> Result<(), Rejection> {
    check(picture == pixels, 3, 0)?;
    check(number <= 1 << 62, 7, 0)
}
