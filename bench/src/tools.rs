//! Other programs.

use std::io::Write;
use std::process::{Command, Stdio};
use std::thread;

// Runs a program on some input: what it prints, unless it cannot be run or fails.
pub fn run(command: &mut Command, input: &[u8]) -> Option<Vec<u8>> {
    let mut child = command
        .stdin(Stdio::piped())
        .stdout(Stdio::piped())
        .stderr(Stdio::null())
        .spawn()
        .ok()?;
    let mut stdin = child.stdin.take()?;
    let output = thread::scope(|scope| {
        // A program that ends early does not read all of it; its status says whether that is wrong.
        scope.spawn(move || stdin.write_all(input));
        child.wait_with_output()
    });
    let output = output.ok()?;
    output.status.success().then_some(output.stdout)
}

// The first line that a program prints.
pub fn first_line(program: &str, words: &[&str]) -> Option<String> {
    let printed = run(Command::new(program).args(words), &[])?;
    let printed = String::from_utf8_lossy(&printed).into_owned();
    printed.lines().next().map(str::to_string)
}
