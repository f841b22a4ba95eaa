//! That time and memory grow as they should: time with blocks and frames, memory not at all.

use crate::ours::{self, Session};
use crate::programs::{self, Watched};
use crate::speed;
use crate::tools;
use crate::video::Video;
use harness::frame::Format;
use std::env;
use std::fmt::Write;
use std::path::Path;
use std::process::Command;

const COUNTS: [usize; 2] = [10_000, 100_000];
const SIZES: [(usize, usize); 7] = [(1, 1), (2, 2), (4, 4), (8, 8), (16, 7), (16, 14), (60, 3)];
const FORMAT: Format = Format {
    across: 2,
    down: 2,
    step: 9,
};

// Small pictures, over and over.
fn pictures(video: &Video) -> Vec<Vec<u8>> {
    (0..video.frame_count())
        .map(|n| video.shaped(n, FORMAT))
        .collect()
}

// Codes and shows so many frames, and prints the processor time that it took and this process's peak of memory.
pub fn run_alone(frames: usize) {
    let pictures = pictures(&Video::slope());
    let mut session = Session::new(FORMAT);
    let mut shown = vec![0; FORMAT.pixel_count()];
    let mut output = shown.clone();
    let began = programs::processor_time("self").unwrap_or(0);
    for n in 0..frames {
        let bytes = session.push(n == 0, &pictures[n % pictures.len()]);
        let valid = ours::show(FORMAT, n == 0, bytes, &shown, &mut output);
        assert!(valid && output == session.reference, "frame {n}");
        std::mem::swap(&mut shown, &mut output);
    }
    let time = programs::processor_time("self").unwrap_or(0) - began;
    let peak = programs::peak_memory("self").unwrap_or(0);
    println!("{time} {peak}");
}

// The same in a process of its own.
fn through_interface(frames: usize) -> Option<Watched> {
    let program = env::current_exe().ok()?;
    let mut command = Command::new(program);
    command.args(["growth", &frames.to_string()]);
    let printed = String::from_utf8(tools::run(&mut command, &[])?).ok()?;
    let (time, peak) = printed.trim().split_once(' ')?;
    Some(Watched {
        time: time.parse().ok()?,
        peak: peak.parse().ok()?,
    })
}

// The text that `encode` reads.
fn source_text(video: &Video, frames: usize) -> Vec<u8> {
    let pictures = pictures(video);
    let mut text = format!(
        "size {} {} step {}\n",
        FORMAT.across, FORMAT.down, FORMAT.step
    );
    for n in 0..frames {
        for row in pictures[n % pictures.len()].chunks(FORMAT.width()) {
            let words: Vec<String> = row.iter().map(u8::to_string).collect();
            text.push_str(&words.join(" "));
            text.push('\n');
        }
    }
    text.into_bytes()
}

fn cells(watched: Option<Watched>, frames: usize) -> String {
    let blocks = (frames * FORMAT.block_count()) as f64;
    watched.map_or("– | –".to_string(), |Watched { time, peak }| {
        format!("{:.0} | {peak}", time as f64 / blocks)
    })
}

pub fn frames_table(video: &Video, binaries: &Path, work: &Path) -> String {
    let mut table = String::from(
        "| Frames | Interface, ns/block | peak, KiB | `encode`, ns/block | peak, KiB | `play`, ns/block | peak, KiB |\n\
         |---:|---:|---:|---:|---:|---:|---:|\n",
    );
    let file = work.join("growth.video");
    for frames in COUNTS {
        let interface = through_interface(frames);
        let mut encode = Command::new(binaries.join("encode"));
        encode.arg("--out").arg(&file);
        let encoded = programs::watch(&mut encode, &source_text(video, frames));
        let played = programs::watch(Command::new(binaries.join("play")).arg(&file), &[]);
        let [interface, encoded, played] =
            [interface, encoded, played].map(|watched| cells(watched, frames));
        writeln!(table, "| {frames} | {interface} | {encoded} | {played} |")
            .expect("a string takes what is written");
    }
    table
}

pub fn blocks_table(video: &Video) -> String {
    let mut table = String::from(
        "| Pixels | Blocks | Decode, ns/frame | ns/block | Encode, ns/frame | ns/block |\n\
         |---|---:|---:|---:|---:|---:|\n",
    );
    for (across, down) in SIZES {
        let format = Format {
            across,
            down,
            step: 1,
        };
        let (decoding, encoding) = speed::per_frame(video, format);
        let blocks = format.block_count();
        let each = |time: f64| format!("{time:.0} | {:.0}", time / blocks as f64);
        writeln!(
            table,
            "| {}×{} | {blocks} | {} | {} |",
            format.width(),
            format.height(),
            each(decoding),
            each(encoding)
        )
        .expect("a string takes what is written");
    }
    table
}
