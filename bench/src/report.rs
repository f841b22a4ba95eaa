//! All that is measured, with how it was.

use crate::jpegls::JpegLs;
use crate::video::Video;
use crate::x264::X264;
use crate::{agreement, growth, machine, motion, size, slope, speed, timing};
use std::path::Path;

// A text in the making, which is also printed as it grows.
#[derive(Default)]
struct Report {
    text: String,
}

impl Report {
    fn add(&mut self, part: &str) {
        if !self.text.is_empty() {
            self.text.push('\n');
        }
        println!("{part}");
        self.text.push_str(part);
    }

    fn paragraph(&mut self, words: &str) {
        self.add(&format!("{words}\n"));
    }
}

fn add_machine(report: &mut Report) {
    report.paragraph("## What was measured, and on what");
    report.add(&machine::table());
}

fn add_speed(report: &mut Report, videos: &[Video]) {
    agreement::check();
    report.paragraph("## Speed");
    report.paragraph(&format!(
        "Through the interface for C, beside two codecs in Rust that are built for release in the same run: *plain* \
         is the second codec of `harness/`, written from the format's prose and not for speed; *fast* is one that is \
         (`bench/src/fast`), without `unsafe`; its decoder keeps room for a picture from call to call, where ours keeps \
         nothing. Both encoders choose by `bench/src/choosing.rs`, a port of the proved \
         encoder's choices, and differ in the range coder. The run checks that all write the same bytes and show the \
         same pictures, on every frame that is timed and on {} random ones. A ratio is their time by ours: 1.00 or more says that ours is at least as fast. The frames are \
         spread over the whole video and coded with the reference picture that they have there. The three take turns \
         at each frame (at each 224 frames of a block), {} times, and the shortest time of each counts.",
        agreement::CASES,
        timing::ROUNDS
    ));
    report.paragraph(
        "*street* is the real video and *slope* the synthetic one, see Size; 240×12 is four strips of a picture side \
         by side, and 4×4 is cut from its middle.",
    );
    report.add(&speed::table(videos));
}

fn add_size(report: &mut Report, videos: &[Video], work: &Path) {
    report.paragraph("## Size");
    report.paragraph(
        "Bytes per frame of all frames, the first a key frame and the others not, and how far the worst pixel of the \
         whole video is from its source. **x264** through ffmpeg: grey, full range, preset `placebo`, tune `psnr`, one thread, no \
         key frame but the first, constant quantiser (`qp`); of six settings and all quantisers the fewest bytes \
         whose worst pixel is within half a step, which is what ours promises; the elementary stream's bytes without \
         the note on x264's version. B-frames, where its best has them, are sent after frames that are shown later. \
         **JPEG-LS** by CharLS codes each picture for itself within the same bound (NEAR); 27 bytes of each are \
         headers. Neither promises what a lossy radio leaves.",
    );
    let jpegls = JpegLs::new(work.join("jpegls"));
    for video in videos {
        report.paragraph(&format!("### {}", title(video)));
        let x264 = X264::new(video, &work.join("x264.txt"));
        report.add(&size::table(video, x264.as_ref(), jpegls.as_ref()));
        if x264.is_none() {
            report.paragraph(
                "x264 is left out: there is no ffmpeg here that codes grey pictures by it, exactly at quantiser 0.",
            );
        }
    }
    if jpegls.is_none() {
        report.paragraph("JPEG-LS is left out: there is no CharLS here (libcharls-dev).");
    }
    if videos.len() == 1 {
        report.paragraph("The street camera is left out: bench/run could not fetch its video.");
    }
}

fn title(video: &Video) -> String {
    let frames = video.frame_count();
    match video.name {
        "slope" => format!(
            "Slope: {frames} frames, still with noise of −2 to 2, a patch slides from frame {} on",
            slope::FIRST_MOVED
        ),
        _ => format!("Street: {frames} frames of a fixed camera, OpenCV's vtest.avi at 64×56"),
    }
}

fn add_slope(report: &mut Report, video: &Video) {
    report.paragraph("## Where the slope's bytes go");
    report.paragraph(
        "The slope is made from a seed, in integers (`bench/src/slope.rs`): ground of four grains, and on each pixel of \
         each frame noise of −2, −1, 0, 1 or 2 in 1, 2, 3, 2 and 1 of nine cases. The patch of 18×14 pixels slides down \
         a pixel in 8 frames and right a pixel in 20. Something moved in a block if the patch moved since the frame \
         before and lies, or lay, over the block.",
    );
    report.add(&motion::bytes_table(video));
    report.add(&motion::blocks_table(video));
}

fn add_growth(report: &mut Report, video: &Video, binaries: &Path, work: &Path) {
    report.paragraph("## Growth");
    report.paragraph(
        "Frames of 8×8 pixels at step 9, one run and one process each; times are the processor's. Through the interface each frame is coded, \
         shown and compared; `encode --out FILE` reads them as text, and `play FILE` prints a line for each. Peaks are \
         the kernel's (VmHWM); that of the interface's process includes its test pictures.",
    );
    report.add(&growth::frames_table(video, binaries, work));
    report.paragraph(
        "Key frames of several sizes at step 1, where every block has levels, so that it matters little what is cut out:",
    );
    report.add(&growth::blocks_table(video));
}

// Measures everything that can be measured here.
pub fn measure(work: &Path, binaries: &Path) -> String {
    let mut videos = vec![Video::slope()];
    match Video::street(&work.join("street.gray")) {
        Ok(video) => videos.push(video),
        Err(fault) => eprintln!("bench: without the street camera: {fault}"),
    }
    let mut report = Report::default();
    add_machine(&mut report);
    add_speed(&mut report, &videos);
    add_size(&mut report, &videos, work);
    add_slope(&mut report, &videos[0]);
    add_growth(&mut report, &videos[0], binaries, work);
    report.text
}
