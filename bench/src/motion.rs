//! Where the slope's bytes go: before the patch moves and after, and in which blocks.

use crate::ours::Session;
use crate::slope::{FIRST_MOVED, FRAMES, Rectangle, patch_at};
use crate::video::Video;
use harness::block::{Block, Prediction};
use harness::frame::{Format, decode};
use std::fmt::Write;

const STEPS: [i32; 3] = [5, 9, 17];

// How many blocks there are, and how many have levels, a vector that moves, or a flat prediction.
#[derive(Default)]
struct Blocks {
    all: usize,
    levels: usize,
    moved: usize,
    flat: usize,
}

impl Blocks {
    fn count(&mut self, block: &Block) {
        self.all += 1;
        self.levels += usize::from(block.levels != [0; 16]);
        match block.prediction {
            Prediction::Flat(_) => self.flat += 1,
            Prediction::Motion { dx: 0, dy: 0 } => {}
            Prediction::Motion { .. } => self.moved += 1,
        }
    }

    fn percent(&self, count: usize) -> String {
        format!("{:.2}", 100.0 * count as f64 / self.all as f64)
    }

    fn cells(&self) -> String {
        let [levels, moved, flat] =
            [self.levels, self.moved, self.flat].map(|count| self.percent(count));
        format!("{levels} | {moved} | {flat}")
    }
}

// Whether something moved in a block since the frame before.
fn is_touched(format: Format, frame: usize, block: usize) -> bool {
    let (left, top) = format.corner(block);
    let place = Rectangle {
        left,
        top,
        width: 4,
        height: 4,
    };
    let (now, before) = (patch_at(frame), patch_at(frame - 1));
    now != before && (place.overlaps(now) || place.overlaps(before))
}

#[derive(Default)]
struct Account {
    first_bytes: usize,
    still_bytes: usize,
    sliding_bytes: usize,
    // Blocks before the patch moves, and after: those in which something moved in that frame, and the others.
    still: Blocks,
    touched: Blocks,
    untouched: Blocks,
}

impl Account {
    fn count(&mut self, format: Format, frame: usize, blocks: &[Block]) {
        for (n, block) in blocks.iter().enumerate() {
            let class = if frame < FIRST_MOVED {
                &mut self.still
            } else if is_touched(format, frame, n) {
                &mut self.touched
            } else {
                &mut self.untouched
            };
            class.count(block);
        }
    }
}

fn account(video: &Video, format: Format) -> Account {
    let mut session = Session::new(format);
    let mut account = Account {
        first_bytes: session.push(true, video.frame(0)).len(),
        ..Account::default()
    };
    for frame in 1..FRAMES {
        let reference = session.reference.clone();
        let bytes = session.push(false, video.frame(frame));
        if frame < FIRST_MOVED {
            account.still_bytes += bytes.len();
        } else {
            account.sliding_bytes += bytes.len();
        }
        let blocks = decode(format, false, bytes, &reference).blocks;
        account.count(format, frame, &blocks);
    }
    account
}

pub fn bytes_table(video: &Video) -> String {
    let mut table = format!(
        "| Step | Frame 0, bytes | Frames 1 to {}, bytes/frame | Frames {FIRST_MOVED} to {}, bytes/frame |\n\
         |---:|---:|---:|---:|\n",
        FIRST_MOVED - 1,
        FRAMES - 1
    );
    for step in STEPS {
        let account = account(video, format_at(step));
        let still = account.still_bytes as f64 / (FIRST_MOVED - 1) as f64;
        let sliding = account.sliding_bytes as f64 / (FRAMES - FIRST_MOVED) as f64;
        writeln!(
            table,
            "| {step} | {} | {still:.1} | {sliding:.1} |",
            account.first_bytes
        )
        .expect("a string takes what is written");
    }
    table
}

pub fn blocks_table(video: &Video) -> String {
    let mut table = String::from(
        "| Step | Blocks | How many in all | with levels, % | with a vector other than 0, % | flat, % |\n\
         |---:|---|---:|---:|---:|---:|\n",
    );
    for step in STEPS {
        let account = account(video, format_at(step));
        for (name, blocks) in [
            ("before anything moves", &account.still),
            ("where something moved in that frame", &account.touched),
            ("elsewhere, after it began to move", &account.untouched),
        ] {
            writeln!(
                table,
                "| {step} | {name} | {} | {} |",
                blocks.all,
                blocks.cells()
            )
            .expect("a string takes what is written");
        }
    }
    table
}

fn format_at(step: i32) -> Format {
    Format {
        across: 16,
        down: 14,
        step,
    }
}
