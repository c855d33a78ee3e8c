//! Runs a workload on the engines in turn and keeps the times.

use crate::engine::{Engine, Sum};
use crate::workload::Workload;
use std::ffi::c_int;
use std::hint::black_box;

/// The times of one engine on one workload, in nanoseconds a call, one for each round.
#[derive(Clone, Debug, Default)]
pub struct Times {
    pub calls: Vec<f64>,
    /// The same scans without a snapshot, where the workload is scans.
    pub plain: Vec<f64>,
}

/// Every engine runs the list once a round, each round beginning with another engine, so that all meet the same moments
/// of the machine. Before the rounds each runs it once untimed. All hand out the same rows, epochs and tickets in every
/// round, or the name of the first that does not is answered.
pub fn measure(workload: &Workload, engines: &mut [Box<dyn Engine>], rounds: usize) -> Result<Vec<Times>, String> {
    let mut times = vec![Times::default(); engines.len()];
    let mut expected = None;
    for round in 0..=rounds {
        for turn in 0..engines.len() {
            let at = (round + turn) % engines.len();
            let engine = &mut engines[at];
            engine.reset();
            engine.play(&workload.before);
            let (spent, sum) = timed(workload, || engine.play(black_box(&workload.calls)));
            let plain = workload.scans.then(|| timed(workload, || engine.play_plain(black_box(&workload.calls))));
            let sums = [Some(sum), plain.map(|plain| plain.1)];
            for sum in sums.into_iter().flatten() {
                if *expected.get_or_insert(sum) != sum {
                    return Err(format!("{}: {} hands out other rows", workload.name, engine.name()));
                }
            }
            if round > 0 {
                times[at].calls.push(spent);
                times[at].plain.extend(plain.map(|plain| plain.0));
            }
        }
    }
    Ok(times)
}

/// Nanoseconds a call.
fn timed(workload: &Workload, run: impl FnOnce() -> Sum) -> (f64, Sum) {
    let start = running();
    let sum = black_box(run());
    ((running() - start) / workload.calls.len() as f64, sum)
}

#[repr(C)]
struct Moment {
    seconds: i64,
    nanoseconds: i64,
}

extern "C" {
    fn clock_gettime(clock: c_int, moment: *mut Moment) -> c_int;
}

const THREAD_CPU_TIME: c_int = 3;

/// Nanoseconds that this thread has run: moments at which the machine ran others do not count.
fn running() -> f64 {
    let mut moment = Moment { seconds: 0, nanoseconds: 0 };
    // Safety: one moment is written.
    assert_eq!(unsafe { clock_gettime(THREAD_CPU_TIME, &mut moment) }, 0, "no clock of a thread");
    moment.seconds as f64 * 1e9 + moment.nanoseconds as f64
}

/// The middle one; of an even number the lower of two.
pub fn median(values: impl IntoIterator<Item = f64>) -> f64 {
    quantile(values, 0.5)
}

pub fn quantile(values: impl IntoIterator<Item = f64>, part: f64) -> f64 {
    let mut values: Vec<f64> = values.into_iter().collect();
    values.sort_by(f64::total_cmp);
    values[((values.len() - 1) as f64 * part) as usize]
}

/// The median, over the rounds, of how many times as long as `ours` the other took in the same round.
pub fn ratio(ours: &[f64], other: &[f64]) -> f64 {
    median(ours.iter().zip(other).map(|(ours, other)| other / ours))
}
