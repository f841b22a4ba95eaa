//! How many bytes are always enough, at every size and at sizes and steps that are rejected.

use super::Tally;
use crate::camera::{self, Answer, Numbers};
use crate::material::expect;
use crate::random::Random;
use crate::rejection::check_format;

const STEPS: [u64; 8] = [0, 1, 2, 63, 64, 65, 1 << 32, u64::MAX];
const LARGE: [u64; 5] = [255, 256, 1 << 32, 1 << 63, u64::MAX];

fn check(numbers: Numbers, tally: &mut Tally) -> Result<(), String> {
    let Numbers { across, down, step } = numbers;
    let answer = camera::worst_case(numbers)?;
    let expected = match check_format(across, down, step) {
        Ok(()) => Answer::Length(280 * across * down + 8),
        Err(rejection) => Answer::Rejected(rejection),
    };
    tally.count(if let Answer::Length(_) = expected {
        "lengths"
    } else {
        "rejected"
    });
    expect(answer == expected, || {
        format!("{numbers:?}: {answer:?}, expected {expected:?}")
    })
}

pub fn run(random: &mut Random, tally: &mut Tally) -> Result<(), String> {
    let sizes: Vec<u64> = (0..=70).chain(LARGE).collect();
    for &across in &sizes {
        for &down in &sizes {
            for step in STEPS {
                check(Numbers { across, down, step }, tally)?;
            }
        }
    }
    for _ in 0..10_000 {
        check(
            Numbers {
                across: random.next() >> random.below(64),
                down: random.next() >> random.below(64),
                step: random.next() >> random.below(64),
            },
            tally,
        )?;
    }
    Ok(())
}
