//! Calls with numbers out of range and slices of other lengths, one or several at once: the first that is checked is told, and nothing changes.

use super::Tally;
use crate::camera::{self, Answer, CReceiver, Numbers};
use crate::frame::Format;
use crate::material::{expect, format, numbers};
use crate::random::Random;
use crate::rejection::{Rejection, check_format, check_packet, check_planes, check_source};

// A number, now and then one out of range.
fn spoiled(random: &mut Random, number: u64) -> u64 {
    if random.one_in(6) {
        random.pick(&[0, 61, 65, 255, 256, 1 << 32, 1 << 63, u64::MAX])
    } else {
        number
    }
}

// A length, now and then another.
fn other_length(random: &mut Random, length: usize) -> usize {
    if random.one_in(5) {
        random.pick(&[
            0,
            length - 1,
            length + 1,
            length / 2,
            2 * length,
            3584,
            3585,
        ])
    } else {
        length
    }
}

fn spoiled_numbers(random: &mut Random, format: Format) -> Numbers {
    let Numbers { across, down, step } = numbers(format);
    Numbers {
        across: spoiled(random, across),
        down: spoiled(random, down),
        step: spoiled(random, step),
    }
}

// How many pixels the numbers say, where they are in range.
fn pixels(numbers: Numbers) -> Result<usize, Rejection> {
    check_format(numbers.across, numbers.down, numbers.step)?;
    Ok(16 * (numbers.across * numbers.down) as usize)
}

fn compare(
    call: &'static str,
    case: &dyn Fn() -> String,
    answer: Answer,
    expected: Result<(), Rejection>,
    unchanged: bool,
    tally: &mut Tally,
) -> Result<(), String> {
    match expected {
        Err(rejection) => {
            tally.count(call);
            let expected = Answer::Rejected(rejection);
            expect(answer == expected, || {
                format!("{call} {}: {answer:?}, expected {expected:?}", case())
            })?;
            expect(unchanged, || {
                format!("{call} {}: rejected and changed", case())
            })
        }
        Ok(()) => {
            tally.count("not rejected");
            expect(!matches!(answer, Answer::Rejected(_)), || {
                format!("{call} {}: {answer:?}", case())
            })
        }
    }
}

fn code(random: &mut Random, format: Format, tally: &mut Tally) -> Result<(), String> {
    let numbers = spoiled_numbers(random, format);
    let count = format.pixel_count();
    let lengths = [
        other_length(random, count),
        other_length(random, count),
        other_length(random, count),
    ];
    let [source, reference, output_before] = lengths.map(|length| random.bytes(length));
    let buffer_before = random.bytes(format.worst_case_size());
    let (mut buffer, mut output) = (buffer_before.clone(), output_before.clone());
    let answer = camera::code(
        numbers,
        random.below(2),
        &source,
        &reference,
        &mut buffer,
        &mut output,
    )?;
    let expected = pixels(numbers).and_then(|pixels| {
        check_planes(pixels, reference.len(), output.len())?;
        check_source(pixels, source.len())
    });
    let unchanged = buffer == buffer_before && output == output_before;
    compare(
        "code",
        &|| format!("{numbers:?} lengths {lengths:?}"),
        answer,
        expected,
        unchanged,
        tally,
    )
}

// Lengths that fill the packed answer, up to the longest that a slice can have.
fn code_endless(random: &mut Random, format: Format, tally: &mut Tally) -> Result<(), String> {
    let length = (format.pixel_count() + 1).max(random.next() as usize >> (1 + random.below(63)));
    let reference = random.bytes(format.pixel_count());
    let buffer_before = random.bytes(format.worst_case_size());
    let output_before = random.bytes(format.pixel_count());
    let (mut buffer, mut output) = (buffer_before.clone(), output_before.clone());
    let answer = camera::code_endless(
        numbers(format),
        length,
        &reference,
        &mut buffer,
        &mut output,
    )?;
    let unchanged = buffer == buffer_before && output == output_before;
    compare(
        "code, endless source",
        &|| format!("{format:?} source of {length}"),
        answer,
        check_source(format.pixel_count(), length),
        unchanged,
        tally,
    )
}

fn show(random: &mut Random, format: Format, tally: &mut Tally) -> Result<(), String> {
    let numbers = spoiled_numbers(random, format);
    let count = format.pixel_count();
    let lengths = [other_length(random, count), other_length(random, count)];
    let [reference, output_before] = lengths.map(|length| random.bytes(length));
    let mut output = output_before.clone();
    let bytes = random.some_bytes(20);
    let answer = camera::show(numbers, random.below(2), &bytes, &reference, &mut output)?;
    let expected =
        pixels(numbers).and_then(|pixels| check_planes(pixels, reference.len(), output.len()));
    compare(
        "show",
        &|| format!("{numbers:?} lengths {lengths:?}"),
        answer,
        expected,
        output == output_before,
        tally,
    )
}

fn receive(random: &mut Random, format: Format, tally: &mut Tally) -> Result<(), String> {
    let numbers = spoiled_numbers(random, format);
    let length = other_length(random, format.pixel_count());
    let picture_before = random.bytes(length);
    let mut picture = picture_before.clone();
    let before = CReceiver {
        next: random.next() >> random.below(64),
        sure: random.pick(&[0, 1, 7, u64::MAX]),
    };
    let mut receiver = before;
    let number = random.pick(&[0, before.next, 1 << 62, (1 << 62) + 1, 1 << 63, u64::MAX]);
    let bytes = random.some_bytes(20);
    let answer = camera::receive(
        numbers,
        &mut receiver,
        number,
        random.below(2),
        &bytes,
        &mut picture,
    )?;
    let expected = pixels(numbers).and_then(|pixels| check_packet(pixels, length, number));
    let unchanged = receiver == before && picture == picture_before;
    compare(
        "receive",
        &|| format!("{numbers:?} {before:?} number {number} length {length}"),
        answer,
        expected,
        unchanged,
        tally,
    )
}

pub fn run(random: &mut Random, tally: &mut Tally) -> Result<(), String> {
    let format = format(random);
    match random.below(8) {
        0..=2 => code(random, format, tally),
        3 => code_endless(random, format, tally),
        4 | 5 => show(random, format, tally),
        _ => receive(random, format, tally),
    }
}
