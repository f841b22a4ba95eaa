//! That the codecs that are timed do the same: on random frames and pictures, valid or not.

use crate::choosing::encode;
use crate::fast::decoding::Decoder;
use crate::fast::writer;
use crate::ours;
use harness::frame::{Format, decode, write_frame};
use harness::material;
use harness::random::Random;
use harness::range_coder;

pub const CASES: u64 = 20_000;

// Blocks that no encoder would choose, written by both writers.
fn check_writing(random: &mut Random, format: Format, key: bool) -> Vec<u8> {
    let blocks = material::blocks(random, format, key);
    let mut writer = writer::Writer::new(16);
    for block in &blocks {
        writer.block(key, block);
    }
    let bytes = write_frame(key, &blocks);
    assert_eq!(
        writer.into_bytes(),
        bytes,
        "the fast writer writes other bytes than the plain one"
    );
    bytes
}

// Any bytes, shown by all decoders. An invalid frame leaves the output as it was.
fn check_decoding(format: Format, key: bool, bytes: &[u8], reference: &[u8]) {
    let before = vec![7; format.pixel_count()];
    let picture = decode(format, key, bytes, reference).picture;
    let expected = picture.as_ref().unwrap_or(&before);
    let mut output = before.clone();
    let valid = Decoder::new(format).show(format, key, bytes, reference, &mut output);
    assert!(
        valid == picture.is_some() && &output == expected,
        "the fast decoder shows another picture"
    );
    output.copy_from_slice(&before);
    let valid = ours::show(format, key, bytes, reference, &mut output);
    assert!(
        valid == picture.is_some() && &output == expected,
        "the proved decoder shows another picture"
    );
}

// A picture coded by all encoders.
fn check_encoding(random: &mut Random, format: Format, key: bool, reference: &[u8]) -> Vec<u8> {
    let source = material::successor(random, format, reference);
    let mut picture = vec![0; format.pixel_count()];
    let mut bytes = vec![0; format.worst_case_size()];
    let length = ours::code(format, key, &source, reference, &mut bytes, &mut picture);
    bytes.truncate(length);
    let mut output = vec![0; format.pixel_count()];
    let plain = encode::<range_coder::Writer>(format, key, &source, reference, &mut output);
    assert!(
        plain == bytes && output == picture,
        "the plain encoder writes another frame: is choosing.rs out of date?"
    );
    let fast = encode::<writer::Writer>(format, key, &source, reference, &mut output);
    assert!(
        fast == bytes && output == picture,
        "the fast encoder writes another frame than the plain one"
    );
    bytes
}

pub fn check() {
    for seed in 0..CASES {
        let mut random = Random::new(seed);
        let format = material::format(&mut random);
        let key = random.one_in(3);
        let reference = material::picture(&mut random, format);
        let mut bytes = match random.below(3) {
            0 => random.some_bytes(40 * format.block_count()),
            1 => check_writing(&mut random, format, key),
            _ => check_encoding(&mut random, format, key, &reference),
        };
        if random.one_in(4) {
            material::damage(&mut random, &mut bytes);
        }
        check_decoding(format, key, &bytes, &reference);
    }
}
