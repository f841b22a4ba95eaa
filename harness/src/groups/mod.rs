//! What is compared, group by group.

mod coded;
mod damaged;
mod examples;
mod formats;
mod packets;
mod random_bytes;
mod rejections;
mod written;

use crate::random::Random;
use std::collections::BTreeMap;

// How often each thing was seen.
#[derive(Default)]
pub struct Tally(BTreeMap<&'static str, u64>);

impl Tally {
    pub fn count(&mut self, what: &'static str) {
        self.add(what, 1);
    }

    pub fn add(&mut self, what: &'static str, times: u64) {
        *self.0.entry(what).or_default() += times;
    }

    pub fn summary(&self) -> String {
        let counts: Vec<String> = self
            .0
            .iter()
            .map(|(what, times)| format!("{times} {what}"))
            .collect();
        counts.join(", ")
    }
}

pub struct Group {
    pub name: &'static str,
    // How many cases it has, in the short mode and in the full one.
    pub short: u64,
    pub full: u64,
    // Runs one case; the error says what differs.
    pub run: fn(&mut Random, &mut Tally) -> Result<(), String>,
}

pub const GROUPS: [Group; 8] = [
    Group {
        name: "examples",
        short: 1,
        full: 1,
        run: examples::run,
    },
    Group {
        name: "formats",
        short: 1,
        full: 1,
        run: formats::run,
    },
    Group {
        name: "written",
        short: 40_000,
        full: 1_000_000,
        run: written::run,
    },
    Group {
        name: "random-bytes",
        short: 60_000,
        full: 1_500_000,
        run: random_bytes::run,
    },
    Group {
        name: "damaged",
        short: 40_000,
        full: 1_000_000,
        run: damaged::run,
    },
    Group {
        name: "coded",
        short: 10_000,
        full: 300_000,
        run: coded::run,
    },
    Group {
        name: "packets",
        short: 3_000,
        full: 80_000,
        run: packets::run,
    },
    Group {
        name: "rejections",
        short: 20_000,
        full: 500_000,
        run: rejections::run,
    },
];
