//! What was measured, and on what.

use crate::tools::first_line;
use std::fs;
use std::thread;

fn processor() -> Option<String> {
    let text = fs::read_to_string("/proc/cpuinfo").ok()?;
    let line = text.lines().find(|line| line.starts_with("model name"))?;
    Some(line.split_once(':')?.1.trim().to_string())
}

// How many programs wanted to run at once in the last minute.
fn load() -> Option<String> {
    let text = fs::read_to_string("/proc/loadavg").ok()?;
    Some(text.split(' ').next()?.to_string())
}

pub fn table() -> String {
    let cores = thread::available_parallelism().map_or(0, usize::from);
    let known = |value: Option<String>| value.unwrap_or_else(|| "not known".to_string());
    let ffmpeg = first_line("ffmpeg", &["-version"]).map(|line| {
        line.split(" Copyright")
            .next()
            .unwrap_or_default()
            .to_string()
    });
    let rows = [
        ("Date", known(first_line("date", &["-u", "+%Y-%m-%d"]))),
        (
            "Revision",
            known(first_line("git", &["describe", "--always", "--dirty"])),
        ),
        (
            "Processor",
            format!("{}, {cores} cores", known(processor())),
        ),
        ("Load before the run", format!("{} programs", known(load()))),
        ("Rattle", known(first_line("rt", &["version"]))),
        ("Rust", known(first_line("rustc", &["--version"]))),
        ("ffmpeg", known(ffmpeg)),
    ];
    let rows: String = rows
        .iter()
        .map(|(what, value)| format!("| {what} | {value} |\n"))
        .collect();
    format!("| | |\n|---|---|\n{rows}")
}
