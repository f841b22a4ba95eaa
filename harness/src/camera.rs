//! The codec's C interface, as include/zukhtavo.h declares it.

use crate::rejection::Rejection;

#[repr(C)]
#[derive(Clone, Copy, Debug, PartialEq)]
pub struct CReceiver {
    pub next: u64,
    pub sure: u64,
}

// What every call is given: the size in blocks and the quantiser step.
#[derive(Clone, Copy, Debug, PartialEq)]
pub struct Numbers {
    pub across: u64,
    pub down: u64,
    pub step: u64,
}

#[derive(Clone, Copy, Debug, PartialEq)]
pub enum Answer {
    Length(u64),
    Shown,
    Invalid,
    Sure,
    Unsure,
    Rejected(Rejection),
}

mod c {
    use super::CReceiver;

    unsafe extern "C" {
        pub fn zukhtavo_worst_case(across: u64, down: u64, step: u64) -> u64;
        pub fn zukhtavo_code(
            across: u64,
            down: u64,
            step: u64,
            key: u64,
            source: *const u8,
            source_length: usize,
            reference: *const u8,
            reference_length: usize,
            buffer: *mut u8,
            buffer_length: usize,
            output: *mut u8,
            output_length: usize,
        ) -> u64;
        pub fn zukhtavo_show(
            across: u64,
            down: u64,
            step: u64,
            key: u64,
            bytes: *const u8,
            bytes_length: usize,
            reference: *const u8,
            reference_length: usize,
            output: *mut u8,
            output_length: usize,
        ) -> u64;
        pub fn zukhtavo_receive(
            across: u64,
            down: u64,
            step: u64,
            receiver: *mut CReceiver,
            number: u64,
            key: u64,
            bytes: *const u8,
            bytes_length: usize,
            picture: *mut u8,
            picture_length: usize,
        ) -> u64;
    }
}

// The answer that a number is; one that is none is told as it is.
fn unpacked(number: u64) -> Result<Answer, String> {
    if number >> 63 == 1 {
        return Ok(Answer::Rejected(Rejection {
            code: 4,
            position: number & (u64::MAX >> 1),
        }));
    }
    let (kind, code, field) = (number & 15, number >> 4 & 15, number >> 8);
    match (kind, code, field) {
        (0, 0, length) => Ok(Answer::Length(length)),
        (1, 0, 0) => Ok(Answer::Shown),
        (2, 0, 0) => Ok(Answer::Invalid),
        (3, 0, 0) => Ok(Answer::Sure),
        (4, 0, 0) => Ok(Answer::Unsure),
        (5, 1..=7, position) if code != 4 => Ok(Answer::Rejected(Rejection { code, position })),
        _ => Err(format!("{number:#x} is no answer")),
    }
}

pub fn worst_case(numbers: Numbers) -> Result<Answer, String> {
    unpacked(unsafe { c::zukhtavo_worst_case(numbers.across, numbers.down, numbers.step) })
}

pub fn code(
    numbers: Numbers,
    key: u64,
    source: &[u8],
    reference: &[u8],
    buffer: &mut [u8],
    output: &mut [u8],
) -> Result<Answer, String> {
    unpacked(unsafe {
        c::zukhtavo_code(
            numbers.across,
            numbers.down,
            numbers.step,
            key,
            source.as_ptr(),
            source.len(),
            reference.as_ptr(),
            reference.len(),
            buffer.as_mut_ptr(),
            buffer.len(),
            output.as_mut_ptr(),
            output.len(),
        )
    })
}

// The same with a source so long that no memory has it: its length is all that may be looked at.
pub fn code_endless(
    numbers: Numbers,
    source_length: usize,
    reference: &[u8],
    buffer: &mut [u8],
    output: &mut [u8],
) -> Result<Answer, String> {
    unpacked(unsafe {
        c::zukhtavo_code(
            numbers.across,
            numbers.down,
            numbers.step,
            1,
            reference.as_ptr(),
            source_length,
            reference.as_ptr(),
            reference.len(),
            buffer.as_mut_ptr(),
            buffer.len(),
            output.as_mut_ptr(),
            output.len(),
        )
    })
}

pub fn show(
    numbers: Numbers,
    key: u64,
    bytes: &[u8],
    reference: &[u8],
    output: &mut [u8],
) -> Result<Answer, String> {
    unpacked(unsafe {
        c::zukhtavo_show(
            numbers.across,
            numbers.down,
            numbers.step,
            key,
            bytes.as_ptr(),
            bytes.len(),
            reference.as_ptr(),
            reference.len(),
            output.as_mut_ptr(),
            output.len(),
        )
    })
}

pub fn receive(
    numbers: Numbers,
    receiver: &mut CReceiver,
    number: u64,
    key: u64,
    bytes: &[u8],
    picture: &mut [u8],
) -> Result<Answer, String> {
    unpacked(unsafe {
        c::zukhtavo_receive(
            numbers.across,
            numbers.down,
            numbers.step,
            receiver,
            number,
            key,
            bytes.as_ptr(),
            bytes.len(),
            picture.as_mut_ptr(),
            picture.len(),
        )
    })
}
