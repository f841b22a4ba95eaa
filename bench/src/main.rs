//! Measures the codec: how fast it is beside plain Rust, how many bytes it takes beside other codecs, and how it grows.
//!
//!   bench WORK BINARIES PAGE    with what bench/run put in the folder WORK and the programs in BINARIES; writes PAGE
//!   bench growth FRAMES         one run of small frames

mod agreement;
mod choosing;
mod fast;
mod growth;
mod jpegls;
mod machine;
mod motion;
mod ours;
mod page;
mod programs;
mod report;
mod size;
mod slope;
mod speed;
mod timing;
mod tools;
mod video;
mod x264;

use std::env;
use std::path::Path;
use std::process::ExitCode;

const USAGE: &str = "usage: bench WORK BINARIES PAGE, or bench growth FRAMES";

fn run(words: &[&str]) -> Result<(), String> {
    match words {
        ["growth", frames] => {
            growth::run_alone(frames.parse().map_err(|_| USAGE)?);
            Ok(())
        }
        [work, binaries, page] => {
            let report = report::measure(Path::new(work), Path::new(binaries));
            page::write(Path::new(page), &report)
        }
        _ => Err(USAGE.to_string()),
    }
}

fn main() -> ExitCode {
    let words: Vec<String> = env::args().skip(1).collect();
    let words: Vec<&str> = words.iter().map(String::as_str).collect();
    match run(&words) {
        Ok(()) => ExitCode::SUCCESS,
        Err(fault) => {
            eprintln!("bench: {fault}");
            ExitCode::FAILURE
        }
    }
}
