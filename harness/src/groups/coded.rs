//! Frames that the codec coded: the plain decoder shows what it left, close to the source, and the plain writer writes the same bytes.

use super::Tally;
use crate::block::Prediction;
use crate::camera::{self, Answer};
use crate::frame::{Format, decode, write_frame};
use crate::material::{expect, flag, format, numbers, picture, show_by_both, successor};
use crate::random::Random;
use crate::rejection::Rejection;

pub fn run(random: &mut Random, tally: &mut Tally) -> Result<(), String> {
    let format = format(random);
    let key = random.one_in(4);
    let reference = picture(random, format);
    let source = if random.one_in(3) {
        picture(random, format)
    } else {
        successor(random, format, &reference)
    };
    let room = format.worst_case_size() + random.index(20);
    let untouched = random.bytes(room);
    let mut buffer = untouched.clone();
    let mut output = random.bytes(format.pixel_count());
    let answer = camera::code(
        numbers(format),
        flag(random, key),
        &source,
        &reference,
        &mut buffer,
        &mut output,
    )?;
    let Answer::Length(length) = answer else {
        return Err(format!(
            "{format:?} key {key} source {source:?} reference {reference:?}: {answer:?}"
        ));
    };
    let length = length as usize;
    expect(length <= format.worst_case_size(), || {
        format!("{length} bytes")
    })?;
    let bytes = &buffer[..length];
    let case = || {
        format!("{format:?} key {key} source {source:?} reference {reference:?} bytes {bytes:?}")
    };
    expect(buffer[length..] == untouched[length..], || {
        format!("{}: the buffer is changed after the frame", case())
    })?;
    expect(bytes.last() != Some(&0), || {
        format!("{}: the last byte is 0", case())
    })?;

    let decoded = decode(format, key, bytes, &reference);
    expect(decoded.picture.as_deref() == Some(&output[..]), || {
        format!("{}: means {:?}, left {output:?}", case(), decoded.picture)
    })?;
    expect(decoded.at_bottom, || {
        format!("{}: not at the bottom of the range", case())
    })?;
    let again = write_frame(key, &decoded.blocks);
    expect(again == bytes, || {
        format!("{}: written again as {again:?}", case())
    })?;
    let half = format.step / 2;
    let close = output
        .iter()
        .zip(&source)
        .all(|(a, b)| i32::from(a.abs_diff(*b)) <= half);
    expect(close, || {
        format!(
            "{}: {output:?} is further than {half} from the source",
            case()
        )
    })?;
    expect(
        show_by_both(random, format, key, bytes, &reference)?,
        || format!("{}: invalid", case()),
    )?;

    let moved = decoded
        .blocks
        .iter()
        .filter(|b| matches!(b.prediction, Prediction::Motion { .. }))
        .count();
    let plain = decoded
        .blocks
        .iter()
        .filter(|b| b.levels == [0; 16])
        .count();
    tally.add("blocks", decoded.blocks.len() as u64);
    tally.add("blocks by motion", moved as u64);
    tally.add("blocks without levels", plain as u64);
    tally.add("bytes", length as u64);

    let bytes = bytes.to_vec();
    if random.one_in(4) {
        code_into(random, format, key, &source, &reference, &bytes, &output)?;
        tally.count("tight buffers");
    }
    Ok(())
}

// Codes again into a buffer that just suffices or is too short by some bytes.
fn code_into(
    random: &mut Random,
    format: Format,
    key: bool,
    source: &[u8],
    reference: &[u8],
    bytes: &[u8],
    shown: &[u8],
) -> Result<(), String> {
    let room = if random.one_in(2) {
        bytes.len()
    } else {
        random.index(bytes.len() + 1)
    };
    let buffer_before = random.bytes(room);
    let output_before = random.bytes(shown.len());
    let mut buffer = buffer_before.clone();
    let mut output = output_before.clone();
    let answer = camera::code(
        numbers(format),
        flag(random, key),
        source,
        reference,
        &mut buffer,
        &mut output,
    )?;
    let (expected, buffer_after, output_after) = if room == bytes.len() {
        (Answer::Length(room as u64), bytes, shown)
    } else {
        (
            Answer::Rejected(Rejection {
                code: 5,
                position: room as u64,
            }),
            &buffer_before[..],
            &output_before[..],
        )
    };
    let case =
        || format!("{format:?} key {key} source {source:?} reference {reference:?} room {room}");
    expect(answer == expected, || {
        format!("{}: {answer:?}, expected {expected:?}", case())
    })?;
    expect(buffer == buffer_after, || {
        format!("{}: buffer {buffer:?}, expected {buffer_after:?}", case())
    })?;
    expect(output == output_after, || {
        format!("{}: output {output:?}, expected {output_after:?}", case())
    })
}
