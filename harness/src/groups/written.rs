//! Frames of random blocks that the plain writer wrote: the plain reader reads them back, and both decoders show the same.

use super::Tally;
use crate::block::write_block;
use crate::frame::{decode, write_frame};
use crate::material::{blocks, expect, format, picture, show_by_both};
use crate::random::Random;
use crate::range_coder::Writer;

pub fn run(random: &mut Random, tally: &mut Tally) -> Result<(), String> {
    let format = format(random);
    let key = random.one_in(3);
    let reference = picture(random, format);
    let blocks = blocks(random, format, key);
    let mut bytes = if random.one_in(8) {
        let mut writer = Writer::new();
        for block in &blocks {
            write_block(&mut writer, key, block, true);
        }
        writer.into_bytes()
    } else {
        write_frame(key, &blocks)
    };
    expect(bytes.last() != Some(&0), || {
        format!("{format:?} {blocks:?}: the last byte is 0")
    })?;
    expect(bytes.len() <= format.worst_case_size(), || {
        format!("{format:?} {blocks:?}: {} bytes", bytes.len())
    })?;
    let read = decode(format, key, &bytes, &reference);
    expect(read.blocks == blocks, || {
        format!("{format:?} {blocks:?}: read back as {:?}", read.blocks)
    })?;
    expect(read.at_bottom, || {
        format!("{format:?} {blocks:?}: not at the bottom of the range")
    })?;
    // Zero bytes at the end mean nothing.
    if random.one_in(4) {
        bytes.resize(bytes.len() + random.index(4), 0);
    }
    let valid = show_by_both(random, format, key, &bytes, &reference)?;
    tally.count(if valid { "valid" } else { "invalid" });
    tally.add("blocks", format.block_count() as u64);
    Ok(())
}
