//! The proved codec, through its C interface.

use harness::camera::{self, Answer};
use harness::frame::Format;
use harness::material::numbers;

// Codes a source picture: how many bytes of the buffer the frame has.
pub fn code(
    format: Format,
    key: bool,
    source: &[u8],
    reference: &[u8],
    buffer: &mut [u8],
    output: &mut [u8],
) -> usize {
    match camera::code(
        numbers(format),
        u64::from(key),
        source,
        reference,
        buffer,
        output,
    ) {
        Ok(Answer::Length(length)) => length as usize,
        answer => panic!("coding answered {answer:?}"),
    }
}

// Shows a frame, and says whether it is valid.
pub fn show(format: Format, key: bool, bytes: &[u8], reference: &[u8], output: &mut [u8]) -> bool {
    match camera::show(numbers(format), u64::from(key), bytes, reference, output) {
        Ok(Answer::Shown) => true,
        Ok(Answer::Invalid) => false,
        answer => panic!("showing answered {answer:?}"),
    }
}

// An encoder of a video: the reference picture, and room for a frame and its picture.
pub struct Session {
    format: Format,
    pub reference: Vec<u8>,
    buffer: Vec<u8>,
    output: Vec<u8>,
}

impl Session {
    pub fn new(format: Format) -> Session {
        Session {
            format,
            reference: vec![0; format.pixel_count()],
            buffer: vec![0; format.worst_case_size()],
            output: vec![0; format.pixel_count()],
        }
    }

    // Codes the next picture. The reference is then the picture that its frame shows.
    pub fn push(&mut self, key: bool, source: &[u8]) -> &[u8] {
        let length = code(
            self.format,
            key,
            source,
            &self.reference,
            &mut self.buffer,
            &mut self.output,
        );
        std::mem::swap(&mut self.reference, &mut self.output);
        &self.buffer[..length]
    }
}
