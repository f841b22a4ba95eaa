//! Times that other work on the machine disturbs little.

use std::time::Instant;

pub const ROUNDS: usize = 60;

// Nanoseconds that all cases take.
#[derive(Clone, Copy)]
pub struct Times {
    pub ours: f64,
    pub plain: f64,
    pub fast: f64,
}

fn time<T>(batch: &[T], work: &mut dyn FnMut(&T)) -> f64 {
    let began = Instant::now();
    for case in batch {
        work(case);
    }
    began.elapsed().as_nanos() as f64
}

// Ours, plain and fast in turn on each batch of cases, round after round; of each batch the shortest time counts.
// A batch takes well under a millisecond, so that some rounds are not interrupted. Between two turns at one batch are
// all the others, lest the processor learn its branches by heart.
pub fn race<T>(cases: &[T], batch: usize, mut works: [&mut dyn FnMut(&T); 3]) -> Times {
    let batches: Vec<&[T]> = cases.chunks(batch).collect();
    let mut best = vec![[f64::INFINITY; 3]; batches.len()];
    for _ in 0..ROUNDS {
        for (batch, best) in batches.iter().zip(&mut best) {
            for (work, best) in works.iter_mut().zip(best) {
                *best = best.min(time(batch, work));
            }
        }
    }
    let [ours, plain, fast] =
        std::array::from_fn(|i| best.iter().map(|times| times[i]).sum::<f64>());
    Times { ours, plain, fast }
}
