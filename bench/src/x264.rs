//! x264 through ffmpeg, at each quantiser and with several settings. What it made is kept in a file, since it takes
//! minutes and never changes.

use crate::size::Coded;
use crate::tools;
use crate::video::{HEIGHT, Video, WIDTH, worst_distance};
use std::collections::BTreeMap;
use std::fs::{self, OpenOptions};
use std::io::Write;
use std::path::Path;
use std::process::Command;

// Quantisers are tried up to this one, or until the worst pixel is well beyond the largest bound, which is 16.
const LARGEST_QUANTISER: u8 = 40;
const FAR: u8 = 24;

// What is tried beside `placebo` and `psnr`, which does without psychovisual choices. By default a key frame and a
// frame that others are predicted from have finer quantisers than the rest; with ratios of 1 all have the same.
const SETTINGS: [(&str, &str); 6] = [
    ("default", ""),
    ("ratios 1", ":ipratio=1:pbratio=1"),
    (
        "ratios 1, no trellis",
        ":ipratio=1:pbratio=1:trellis=0:no-dct-decimate=1",
    ),
    (
        "ratios 1, no trellis, no deadzone",
        ":ipratio=1:pbratio=1:trellis=0:no-dct-decimate=1:deadzone-inter=32:deadzone-intra=32",
    ),
    ("no B, ratio 1", ":bframes=0:ipratio=1"),
    (
        "no B, ratio 1, no trellis, no deadzone",
        ":bframes=0:ipratio=1:trellis=0:no-dct-decimate=1:deadzone-inter=32:deadzone-intra=32",
    ),
];

pub struct X264 {
    tried: Vec<Coded>,
}

fn ffmpeg() -> Command {
    let mut command = Command::new("ffmpeg");
    command.args("-hide_banner -loglevel error".split(' '));
    command
}

// The elementary stream, without the note of x264's version and settings.
fn encode(video: &Video, quantiser: u8, parameters: &str) -> Option<Vec<u8>> {
    let size = format!("{WIDTH}x{HEIGHT}");
    let parameters = format!("keyint=infinite:scenecut=0{parameters}");
    let mut command = ffmpeg();
    command
        .args("-f rawvideo -pix_fmt gray -color_range pc -r 10 -s".split(' '))
        .args([&size, "-i", "-"])
        .args("-c:v libx264 -threads 1 -preset placebo -tune psnr -pix_fmt gray".split(' '))
        .args(["-color_range", "pc", "-qp", &quantiser.to_string()])
        .args(["-x264-params", &parameters])
        .args("-bsf:v filter_units=remove_types=6 -f h264 -".split(' '));
    tools::run(&mut command, &video.pixels)
}

fn decode(stream: &[u8]) -> Option<Vec<u8>> {
    let mut command = ffmpeg();
    command.args("-f h264 -i - -fps_mode passthrough -f rawvideo -pix_fmt gray -".split(' '));
    tools::run(&mut command, stream)
}

// The bytes, and how far the worst pixel is off.
fn measure(video: &Video, quantiser: u8, parameters: &str) -> Option<(usize, u8)> {
    let stream = encode(video, quantiser, parameters)?;
    let shown = decode(&stream)?;
    (shown.len() == video.pixels.len())
        .then(|| (stream.len(), worst_distance(&shown, &video.pixels)))
}

// What was measured before, by what it was measured of.
struct Kept<'a> {
    path: &'a Path,
    results: BTreeMap<String, (usize, u8)>,
}

impl Kept<'_> {
    fn read(path: &Path) -> Kept<'_> {
        let text = fs::read_to_string(path).unwrap_or_default();
        let results = text.lines().filter_map(|line| {
            let mut words = line.rsplitn(3, ' ');
            let worst = words.next()?.parse().ok()?;
            let bytes = words.next()?.parse().ok()?;
            Some((words.next()?.to_string(), (bytes, worst)))
        });
        let results = results.collect();
        Kept { path, results }
    }

    fn get(
        &mut self,
        video: &Video,
        quantiser: u8,
        parameters: &str,
        salt: u64,
    ) -> Option<(usize, u8)> {
        let key = format!("{salt:016x} {quantiser} {parameters}");
        if let Some(result) = self.results.get(&key) {
            return Some(*result);
        }
        let (bytes, worst) = measure(video, quantiser, parameters)?;
        let mut file = OpenOptions::new()
            .create(true)
            .append(true)
            .open(self.path)
            .ok()?;
        writeln!(file, "{key} {bytes} {worst}").ok()?;
        self.results.insert(key, (bytes, worst));
        Some((bytes, worst))
    }
}

// A number that another video or another ffmpeg changes.
fn salt(video: &Video, version: &str) -> u64 {
    let mix = |hash: u64, byte: &u8| (hash ^ u64::from(*byte)).wrapping_mul(0x100_0000_01b3);
    let start = version.as_bytes().iter().fold(0xcbf2_9ce4_8422_2325, mix);
    video.pixels.iter().fold(start, mix)
}

impl X264 {
    // None where there is no ffmpeg with x264 for grey pictures, or where its quantiser 0 is not exact.
    pub fn new(video: &Video, kept: &Path) -> Option<X264> {
        let version = tools::first_line("ffmpeg", &["-version"])?;
        let salt = salt(video, &version);
        let mut kept = Kept::read(kept);
        let (_, off) = kept.get(video, 0, "", salt)?;
        if off > 0 {
            return None;
        }
        let mut tried = Vec::new();
        for (name, parameters) in SETTINGS {
            for quantiser in 0..=LARGEST_QUANTISER {
                let (bytes, worst) = kept.get(video, quantiser, parameters, salt)?;
                let settings = format!("qp {quantiser}, {name}");
                tried.push(Coded {
                    bytes,
                    worst,
                    settings,
                });
                if worst >= FAR {
                    break;
                }
            }
        }
        Some(X264 { tried })
    }

    // The fewest bytes whose worst pixel is within a bound.
    pub fn best(&self, bound: u8) -> Option<Coded> {
        let close = self.tried.iter().filter(|coded| coded.worst <= bound);
        close.min_by_key(|coded| coded.bytes).cloned()
    }
}
