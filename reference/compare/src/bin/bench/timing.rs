//! Times of calls that are made in turn, by the monotonic clock.

use std::time::{Duration, Instant};

/// Something that is timed, with what it needs.
pub type Call = Box<dyn FnMut()>;

/// Least rounds, and least where they take far longer than there is patience for.
const ROUNDS: usize = 15;
const FEW_ROUNDS: usize = 3;

/// A sample is of so many microseconds at least, so that the clock is not what is
/// measured: short calls are made several times in a row.
const SAMPLE: f64 = 10.0;

/// How long the calls of one measure are repeated.
#[derive(Clone, Copy)]
pub struct Bench {
    pub patience: Duration,
}

/// The microseconds of one of so many calls in a row.
fn sample(call: &mut Call, many: usize) -> f64 {
    let start = Instant::now();
    for _ in 0..many {
        call();
    }
    start.elapsed().as_secs_f64() * 1e6 / many as f64
}

/// How many calls a sample has.
fn in_a_row(call: &mut Call) -> usize {
    let first = sample(call, 1);
    if first > 100.0 * SAMPLE {
        return 1;
    }
    let least = first.min(sample(call, 1)).max(0.001);
    (SAMPLE / least).ceil().clamp(1.0, 2_000.0) as usize
}

impl Bench {
    /// The median microseconds of each call, all in turn; the order of a round
    /// alternates.
    pub fn medians(&self, calls: &mut [Call]) -> Vec<f64> {
        let rows: Vec<usize> = calls.iter_mut().map(in_a_row).collect();
        let mut micros = vec![Vec::new(); calls.len()];
        let begin = Instant::now();
        for round in 0.. {
            let spent = begin.elapsed();
            let enough = round >= ROUNDS && spent >= self.patience;
            if enough || round >= FEW_ROUNDS && spent >= 4 * self.patience {
                break;
            }
            for turn in 0..calls.len() {
                let way = match round % 2 {
                    0 => turn,
                    _ => calls.len() - 1 - turn,
                };
                micros[way].push(sample(&mut calls[way], rows[way]));
            }
        }
        micros.into_iter().map(median).collect()
    }
}

fn median(mut all: Vec<f64>) -> f64 {
    all.sort_unstable_by(f64::total_cmp);
    all[all.len() / 2]
}

/// A proved call, the second implementation's, and a copy of the words that the call
/// is for; none where it is for the answer's numbers, or for marks of a grid.
pub struct Calls {
    pub proved: Call,
    pub second: Call,
    pub copy: Option<Call>,
}

/// Microseconds of a proved call, and of what it is beside.
#[derive(Clone, Copy, Debug)]
pub struct Measure {
    pub proved: f64,
    pub second: f64,
    pub copy: Option<f64>,
}

impl Measure {
    /// How often the second implementation's time goes into the proved call's.
    pub fn over_second(&self) -> f64 {
        self.proved / self.second
    }

    /// The same of the copy.
    pub fn over_copy(&self) -> Option<f64> {
        self.copy.map(|copy| self.proved / copy)
    }
}

impl Bench {
    pub fn measure(&self, calls: Calls) -> Measure {
        let mut all = vec![calls.proved, calls.second];
        all.extend(calls.copy);
        let medians = self.medians(&mut all);
        Measure {
            proved: medians[0],
            second: medians[1],
            copy: medians.get(2).copied(),
        }
    }
}
