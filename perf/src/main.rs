//! Measures the archive named by CHOMPHUREK_LIB beside the reference; see
//! perf/measure, which reads what is printed here.
//!
//!     perf time                    all workloads, a line each
//!     perf count SIDE NUMBER       one call of workload NUMBER, in `counted`

mod texts;
mod workloads;

use std::env;
use std::hint::black_box;
use std::process::ExitCode;
use std::time::{Duration, Instant};
use workloads::{Buffers, Side, Workload};

/// Passes over all workloads, and rounds of each in a pass: in a round both
/// sides are timed, one after the other.
const PASSES: usize = 9;
const ROUNDS: usize = 11;

/// What one timing of a round should take at least, so that the clock's own
/// time does not count.
const ROUND: Duration = Duration::from_micros(200);

fn timed(workload: &Workload, side: Side, calls: u32, buffers: &mut Buffers) -> Duration {
    if !workload.cleared {
        let start = Instant::now();
        for _ in 0..calls {
            black_box(workload.run(side, buffers));
        }
        return start.elapsed();
    }
    let mut sum = Duration::ZERO;
    for _ in 0..calls {
        buffers.clear();
        let start = Instant::now();
        black_box(workload.run(side, buffers));
        sum += start.elapsed();
    }
    sum
}

/// A workload under measurement: nanoseconds of a call, a number a round, for
/// the archive and the reference.
struct Measured {
    workload: Workload,
    units: u32,
    calls: [u32; 2],
    rounds: [Vec<f64>; 2],
}

const SIDES: [Side; 2] = [Side::Archive, Side::Reference];

impl Measured {
    fn new(workload: Workload, buffers: &mut Buffers) -> Measured {
        let units = workload.units();
        let once = SIDES.map(|side| timed(&workload, side, 3, buffers) / 3);
        let calls = once.map(|once| (ROUND.as_nanos() / once.as_nanos().max(1)) as u32 + 1);
        Measured { workload, units, calls, rounds: [Vec::new(), Vec::new()] }
    }

    fn round(&mut self, buffers: &mut Buffers) {
        for (at, side) in SIDES.into_iter().enumerate() {
            let time = timed(&self.workload, side, self.calls[at], buffers);
            self.rounds[at].push(time.as_nanos() as f64 / f64::from(self.calls[at]));
        }
    }

    fn show(mut self, number: usize) {
        let [archive, reference] = &mut self.rounds;
        let (archive, reference) = (median(archive), median(reference));
        let Workload { group, name, cleared, .. } = self.workload;
        let (buffers, units) = (if cleared { "cleared" } else { "kept" }, self.units);
        println!("{number}\t{group}\t{name}\t{buffers}\t{units}\t{archive:.1}\t{reference:.1}");
    }
}

fn median(times: &mut [f64]) -> f64 {
    times.sort_by(f64::total_cmp);
    times[times.len() / 2]
}

/// The rounds of one workload are spread over the whole run, so that what else
/// the machine does for a second does not fall on one of them alone.
fn time_all() {
    let buffers = &mut Buffers::new();
    let mut all: Vec<Measured> =
        workloads::all().into_iter().map(|workload| Measured::new(workload, buffers)).collect();
    for _ in 0..PASSES {
        for measured in &mut all {
            for _ in 0..ROUNDS {
                measured.round(buffers);
            }
        }
    }
    for (number, measured) in all.into_iter().enumerate() {
        measured.show(number);
    }
}

/// What callgrind is told to count.
#[no_mangle]
#[inline(never)]
pub fn counted(workload: &Workload, side: Side, buffers: &mut Buffers) -> u32 {
    workload.run(side, buffers)
}

fn count(side: &str, number: &str) -> Option<()> {
    let side = match side {
        "archive" => Side::Archive,
        "reference" => Side::Reference,
        _ => return None,
    };
    let workload = workloads::all().into_iter().nth(number.parse().ok()?)?;
    black_box(counted(&workload, side, &mut Buffers::new()));
    Some(())
}

fn main() -> ExitCode {
    let words: Vec<String> = env::args().skip(1).collect();
    let words: Vec<&str> = words.iter().map(String::as_str).collect();
    let done = match words[..] {
        ["time"] => {
            time_all();
            Some(())
        }
        ["count", side, number] => count(side, number),
        _ => None,
    };
    match done {
        Some(()) => ExitCode::SUCCESS,
        None => {
            eprintln!("usage: perf time | perf count archive|reference NUMBER");
            ExitCode::from(2)
        }
    }
}
