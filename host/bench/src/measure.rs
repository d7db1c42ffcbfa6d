//! Medians of repeated runs, in processor time, so that other programs on the
//! machine disturb little.

use std::hint::black_box;

use crate::cases::Bench;

/// Runs of each side.
const RUNS: usize = 31;
/// Runs of each side where a call takes more than a fifth of a second.
const SLOW_RUNS: usize = 3;
/// The least time of a run, in nanoseconds.
const LEAST: f64 = 5e5;

/// The processor time of this thread in nanoseconds.
#[cfg(target_os = "linux")]
fn now() -> f64 {
    #[repr(C)]
    struct Timespec {
        seconds: i64,
        nanoseconds: i64,
    }
    unsafe extern "C" {
        fn clock_gettime(clock: i32, time: *mut Timespec) -> i32;
    }
    const THREAD_CPUTIME: i32 = 3;
    let mut time = Timespec {
        seconds: 0,
        nanoseconds: 0,
    };
    // SAFETY: the pointer is that of a local with the layout of a timespec on
    // 64-bit Linux.
    unsafe { clock_gettime(THREAD_CPUTIME, &mut time) };
    time.seconds as f64 * 1e9 + time.nanoseconds as f64
}

#[cfg(not(target_os = "linux"))]
fn now() -> f64 {
    use std::sync::OnceLock;
    use std::time::Instant;
    static START: OnceLock<Instant> = OnceLock::new();
    START.get_or_init(Instant::now).elapsed().as_nanos() as f64
}

/// The time of `times` calls in nanoseconds.
fn time(call: &dyn Fn() -> u64, times: usize) -> f64 {
    let start = now();
    for _ in 0..times {
        black_box(call());
    }
    now() - start
}

/// How many calls make a run long enough.
fn repetitions(call: &dyn Fn() -> u64) -> usize {
    let mut times = 1;
    while time(call, times) < LEAST && times < 1 << 24 {
        times *= 2;
    }
    times
}

fn median(mut values: Vec<f64>) -> f64 {
    values.sort_by(f64::total_cmp);
    values[values.len() / 2]
}

/// The nanoseconds of one call of the archive and of the reference. The runs of
/// the two sides take turns.
pub fn medians(bench: &Bench) -> (f64, f64) {
    let archive_times = repetitions(&bench.archive);
    let reference_times = repetitions(&bench.reference);
    let mut archive = Vec::new();
    let mut reference = Vec::new();
    while reference.len() < RUNS {
        archive.push(time(&bench.archive, archive_times) / archive_times as f64);
        reference.push(time(&bench.reference, reference_times) / reference_times as f64);
        if reference.len() == SLOW_RUNS && reference[0].max(archive[0]) > 2e8 {
            break;
        }
    }
    (median(archive), median(reference))
}

pub fn time_text(nanoseconds: f64) -> String {
    match nanoseconds {
        ns if ns < 1e4 => format!("{ns:.1} ns"),
        ns if ns < 1e7 => format!("{:.1} us", ns / 1e3),
        ns => format!("{:.1} ms", ns / 1e6),
    }
}
