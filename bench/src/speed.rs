//! How long encoding and decoding take, beside the same in plain Rust.

use crate::choosing::encode;
use crate::fast::decoding::Decoder;
use crate::fast::writer;
use crate::ours::{self, Session};
use crate::timing::{Times, race};
use crate::video::Video;
use harness::frame::{Format, decode};
use harness::range_coder;
use std::fmt::Write;
use std::hint::black_box;

// How many batches of frames are timed.
const BATCHES: usize = 12;
const STEPS: [i32; 3] = [1, 9, 33];
const SIZES: [(usize, usize); 3] = [(1, 1), (16, 14), (60, 3)];

// How many frames are timed at once: one, or as many small ones as have about as many blocks.
fn batch(format: Format) -> usize {
    (224 / format.block_count()).max(1)
}

// A picture to be coded, and the frame that it is coded as.
struct Case {
    key: bool,
    source: Vec<u8>,
    reference: Vec<u8>,
    bytes: Vec<u8>,
    picture: Vec<u8>,
}

// Frames of a video, spread evenly over it, as they come up when the whole of it is coded, each as a key frame or as another.
fn cases(video: &Video, format: Format, key: bool) -> Vec<Case> {
    let count = video.frame_count();
    let apart = (count / (BATCHES * batch(format))).max(1);
    let mut session = Session::new(format);
    let mut cases = Vec::new();
    for n in 0..count {
        let source = video.shaped(n, format);
        if n > 0 && n % apart == apart / 2 {
            let reference = session.reference.clone();
            let mut buffer = vec![0; format.worst_case_size()];
            let mut picture = vec![0; format.pixel_count()];
            let length = ours::code(format, key, &source, &reference, &mut buffer, &mut picture);
            buffer.truncate(length);
            cases.push(Case {
                key,
                source: source.clone(),
                reference,
                bytes: buffer,
                picture,
            });
        }
        session.push(n == 0, &source);
    }
    cases
}

// Both plain encoders must write the same frame, and both plain decoders show the same picture.
fn check(format: Format, case: &Case) {
    let mut output = vec![0; format.pixel_count()];
    let Case {
        key,
        source,
        reference,
        bytes,
        picture,
    } = case;
    let plain = encode::<range_coder::Writer>(format, *key, source, reference, &mut output);
    assert!(
        &plain == bytes && &output == picture,
        "the plain encoder writes another frame: is choosing.rs out of date?"
    );
    let fast = encode::<writer::Writer>(format, *key, source, reference, &mut output);
    assert!(
        &fast == bytes && &output == picture,
        "the fast encoder writes another frame than the plain one"
    );
    let shown = decode(format, *key, bytes, reference).picture;
    assert!(
        shown.as_ref() == Some(picture),
        "the plain decoder shows another picture"
    );
    output.fill(0);
    let valid = Decoder::new(format).show(format, *key, bytes, reference, &mut output);
    assert!(
        valid && &output == picture,
        "the fast decoder shows another picture"
    );
}

fn time_decoding(format: Format, cases: &[Case]) -> Times {
    let mut outputs = [(); 2].map(|()| vec![0; format.pixel_count()]);
    let [first, third] = &mut outputs;
    let mut decoder = Decoder::new(format);
    race(
        cases,
        batch(format),
        [
            &mut |case| {
                ours::show(format, case.key, &case.bytes, &case.reference, first);
            },
            &mut |case| {
                black_box(decode(format, case.key, &case.bytes, &case.reference));
            },
            &mut |case| {
                decoder.show(format, case.key, &case.bytes, &case.reference, third);
            },
        ],
    )
}

fn time_encoding(format: Format, cases: &[Case]) -> Times {
    let mut buffer = vec![0; format.worst_case_size()];
    let mut outputs = [(); 3].map(|()| vec![0; format.pixel_count()]);
    let [first, second, third] = &mut outputs;
    race(
        cases,
        batch(format),
        [
            &mut |case| {
                let Case {
                    source, reference, ..
                } = case;
                ours::code(format, case.key, source, reference, &mut buffer, first);
            },
            &mut |case| {
                let Case {
                    source, reference, ..
                } = case;
                black_box(encode::<range_coder::Writer>(
                    format, case.key, source, reference, second,
                ));
            },
            &mut |case| {
                let Case {
                    source, reference, ..
                } = case;
                black_box(encode::<writer::Writer>(
                    format, case.key, source, reference, third,
                ));
            },
        ],
    )
}

fn cells(times: Times, blocks: usize) -> String {
    format!(
        "{:.0} | {:.2} | {:.2}",
        times.ours / blocks as f64,
        times.plain / times.ours,
        times.fast / times.ours
    )
}

fn row(table: &mut String, video: &Video, format: Format, key: bool) {
    let cases = cases(video, format, key);
    for case in &cases {
        check(format, case);
    }
    let blocks = cases.len() * format.block_count();
    let decoding = cells(time_decoding(format, &cases), blocks);
    let encoding = cells(time_encoding(format, &cases), blocks);
    let (width, height) = (format.width(), format.height());
    let kind = if key { "key" } else { "inter" };
    let step = format.step;
    let name = video.name;
    writeln!(
        table,
        "| {width}×{height} | {kind} | {name} | {step} | {decoding} | {encoding} |"
    )
    .expect("a string takes what is written");
}

// A row for each size, kind of frame, video and step.
pub fn table(videos: &[Video]) -> String {
    let mut table = String::from(
        "| Pixels | Frame | Video | Step | Decode, ns/block | plain/ours | fast/ours | Encode, ns/block | plain/ours | fast/ours |\n\
         |---|---|---|---:|---:|---:|---:|---:|---:|---:|\n",
    );
    for (across, down) in SIZES {
        for key in [true, false] {
            for video in videos {
                for step in STEPS {
                    let format = Format { across, down, step };
                    row(&mut table, video, format, key);
                }
            }
        }
    }
    table
}

// Nanoseconds that a key frame takes to decode and to encode, on average.
pub fn per_frame(video: &Video, format: Format) -> (f64, f64) {
    let cases = cases(video, format, true);
    let each = |times: Times| times.ours / cases.len() as f64;
    (
        each(time_decoding(format, &cases)),
        each(time_encoding(format, &cases)),
    )
}
