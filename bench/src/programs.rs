//! Programs watched while they run.

use std::fs;
use std::io::Write;
use std::process::{Command, Stdio};
use std::thread;
use std::time::Duration;

pub struct Watched {
    // Nanoseconds that it ran on a processor.
    pub time: u64,
    // The most memory that it had, in KiB.
    pub peak: u64,
}

// The most memory that a process has had so far, in KiB.
pub fn peak_memory(process: &str) -> Option<u64> {
    let status = fs::read_to_string(format!("/proc/{process}/status")).ok()?;
    let line = status
        .lines()
        .find_map(|line| line.strip_prefix("VmHWM:"))?;
    line.trim().strip_suffix(" kB")?.parse().ok()
}

// How many nanoseconds a process has run on a processor so far.
pub fn processor_time(process: &str) -> Option<u64> {
    let status = fs::read_to_string(format!("/proc/{process}/schedstat")).ok()?;
    status.split(' ').next()?.parse().ok()
}

// Runs a program on some input, and looks every millisecond what it has used. What it prints is dropped.
pub fn watch(command: &mut Command, input: &[u8]) -> Option<Watched> {
    let mut child = command
        .stdin(Stdio::piped())
        .stdout(Stdio::null())
        .spawn()
        .ok()?;
    let process = child.id().to_string();
    let mut stdin = child.stdin.take()?;
    thread::scope(|scope| {
        // A program that ends early does not read all of it; its status says whether that is wrong.
        scope.spawn(move || stdin.write_all(input));
        let (mut time, mut peak) = (0, 0);
        loop {
            time = time.max(processor_time(&process).unwrap_or(0));
            peak = peak.max(peak_memory(&process).unwrap_or(0));
            if let Some(status) = child.try_wait().ok()? {
                return status.success().then_some(Watched { time, peak });
            }
            thread::sleep(Duration::from_millis(1));
        }
    })
}
