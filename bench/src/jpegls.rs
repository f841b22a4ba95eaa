//! JPEG-LS, which codes each picture for itself, by the program that bench/jpegls.c is.

use crate::size::Coded;
use crate::tools;
use crate::video::{HEIGHT, Video, WIDTH};
use std::path::PathBuf;
use std::process::Command;

pub struct JpegLs {
    program: PathBuf,
}

impl JpegLs {
    pub fn new(program: PathBuf) -> Option<JpegLs> {
        program.exists().then_some(JpegLs { program })
    }

    pub fn code(&self, video: &Video, bound: u8) -> Option<Coded> {
        let mut command = Command::new(&self.program);
        command.args([WIDTH.to_string(), HEIGHT.to_string(), bound.to_string()]);
        let printed = tools::run(&mut command, &video.pixels)?;
        let printed = String::from_utf8(printed).ok()?;
        let (bytes, worst) = printed.trim().split_once(' ')?;
        Some(Coded {
            bytes: bytes.parse().ok()?,
            worst: worst.parse().ok()?,
            settings: String::new(),
        })
    }
}
