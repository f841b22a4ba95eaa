//! Frames with bits turned, bytes lost and bytes added, and frames cut short.

use super::Tally;
use crate::material::{damage, format, frame, picture, show_by_both};
use crate::random::Random;

pub fn run(random: &mut Random, tally: &mut Tally) -> Result<(), String> {
    let format = format(random);
    let key = random.one_in(4);
    let reference = picture(random, format);
    let mut bytes = frame(random, format, key, &reference)?;
    if random.one_in(3) {
        bytes.truncate(random.index(bytes.len() + 1));
        tally.count("cut");
    } else {
        damage(random, &mut bytes);
        tally.count("damaged");
    }
    // The header is not part of the bytes, so it can be the wrong one.
    let key = if random.one_in(16) { !key } else { key };
    let valid = show_by_both(random, format, key, &bytes, &reference)?;
    tally.count(if valid { "valid" } else { "invalid" });
    Ok(())
}
