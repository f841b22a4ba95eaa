//! How many bytes a video takes, beside what else one would take.

use crate::jpegls::JpegLs;
use crate::ours::Session;
use crate::video::{Video, worst_distance};
use crate::x264::X264;
use harness::frame::Format;
use std::fmt::Write;

const STEPS: [i32; 5] = [1, 5, 9, 17, 33];

// What a codec made of a video.
#[derive(Clone)]
pub struct Coded {
    pub bytes: usize,
    pub worst: u8,
    // How it was told to.
    pub settings: String,
}

fn ours(video: &Video, step: i32) -> Coded {
    let mut session = Session::new(Format {
        across: 16,
        down: 14,
        step,
    });
    let mut coded = Coded {
        bytes: 0,
        worst: 0,
        settings: String::new(),
    };
    for n in 0..video.frame_count() {
        coded.bytes += session.push(n == 0, video.frame(n)).len();
        let distance = worst_distance(&session.reference, video.frame(n));
        coded.worst = coded.worst.max(distance);
    }
    coded
}

// Bytes per frame and the worst pixel, or nothing where the codec is not at hand.
fn cells(coded: Option<&Coded>, frames: usize) -> String {
    match coded {
        Some(coded) => format!(
            "{:.1} | {}",
            coded.bytes as f64 / frames as f64,
            coded.worst
        ),
        None => "– | –".to_string(),
    }
}

fn row(video: &Video, step: i32, x264: Option<&X264>, jpegls: Option<&JpegLs>) -> String {
    let bound = (step / 2) as u8;
    let ours = ours(video, step);
    let x264 = x264.and_then(|x264| x264.best(bound));
    let jpegls = jpegls.and_then(|jpegls| jpegls.code(video, bound));
    let ratio = |other: &Option<Coded>| match other {
        Some(other) => format!("{:.2}", ours.bytes as f64 / other.bytes as f64),
        None => "–".to_string(),
    };
    let settings = x264.as_ref().map_or("–", |coded| &coded.settings);
    let cells = |coded| cells(coded, video.frame_count());
    format!(
        "| {step} | {} | {} | {settings} | {} | {} | {} |",
        cells(Some(&ours)),
        cells(x264.as_ref()),
        cells(jpegls.as_ref()),
        ratio(&x264),
        ratio(&jpegls)
    )
}

// A row for each step.
pub fn table(video: &Video, x264: Option<&X264>, jpegls: Option<&JpegLs>) -> String {
    let mut table = String::from(
        "| Step | Ours, bytes/frame | worst | x264, bytes/frame | worst | settings | JPEG-LS, bytes/frame | worst | ours/x264 | ours/JPEG-LS |\n\
         |---:|---:|---:|---:|---:|---|---:|---:|---:|---:|\n",
    );
    for step in STEPS {
        let row = row(video, step, x264, jpegls);
        writeln!(table, "{row}").expect("a string takes what is written");
    }
    table
}
