//! Timing of the two implementations side by side, for the programs in `benches/`.

use std::hint::black_box;
use std::time::{Duration, Instant};

const WARM_UP: Duration = Duration::from_millis(50);
const SAMPLE: Duration = Duration::from_millis(3);
const SAMPLES: usize = 25;
/// Of a call that takes long fewer samples are taken, together about as long as this, but not fewer than that.
const TOGETHER: Duration = Duration::from_secs(1);
const FEWEST: usize = 3;

/// Nanoseconds of one call.
struct Timing {
    median: f64,
    best: f64,
}

/// Prints a Markdown table, a row for each comparison.
pub struct Table;

impl Table {
    pub fn new(title: &str) -> Table {
        println!("\n### {title}\n");
        println!("| input | Rattle median | best | Rust median | best | Rattle/Rust (best) |");
        println!("|---|---:|---:|---:|---:|---:|");
        Table
    }

    /// Times two calls that give the same answer word, taking samples in turn. The
    /// ratio is that of the best times, which other work on the machine disturbs least.
    pub fn row(&self, input: &str, mut rattle: impl FnMut() -> u64, mut rust: impl FnMut() -> u64) {
        assert_eq!(rattle(), rust(), "the answers differ on {input}");
        let (rattle_count, rattle_samples) = calls_and_samples(&mut rattle);
        let (rust_count, rust_samples) = calls_and_samples(&mut rust);
        let (mut rattle_times, mut rust_times) = (Vec::new(), Vec::new());
        for _ in 0..rattle_samples.min(rust_samples) {
            rattle_times.push(time(&mut rattle, rattle_count));
            rust_times.push(time(&mut rust, rust_count));
        }
        let (rattle, rust) = (summary(rattle_times), summary(rust_times));
        println!(
            "| {input} | {} | {} | {} | {} | {:.2} |",
            shown(rattle.median),
            shown(rattle.best),
            shown(rust.median),
            shown(rust.best),
            rattle.best / rust.best
        );
    }
}

/// The best time of a call, in nanoseconds.
pub fn best(mut call: impl FnMut() -> u64) -> f64 {
    let (count, samples) = calls_and_samples(&mut call);
    summary((0..samples).map(|_| time(&mut call, count)).collect()).best
}

/// Warms up, and finds how many calls fill a sample, and how many samples are to be taken.
fn calls_and_samples(call: &mut impl FnMut() -> u64) -> (u32, usize) {
    let start = Instant::now();
    let mut calls = 0u32;
    while start.elapsed() < WARM_UP {
        black_box(call());
        calls += 1;
    }
    let each = start.elapsed().as_secs_f64() / f64::from(calls);
    let count = ((SAMPLE.as_secs_f64() / each) as u32).max(1);
    let samples = (TOGETHER.as_secs_f64() / (each * f64::from(count))) as usize;
    (count, samples.clamp(FEWEST, SAMPLES))
}

fn time(call: &mut impl FnMut() -> u64, calls: u32) -> f64 {
    let start = Instant::now();
    for _ in 0..calls {
        black_box(call());
    }
    start.elapsed().as_secs_f64() * 1e9 / f64::from(calls)
}

fn summary(mut times: Vec<f64>) -> Timing {
    times.sort_by(f64::total_cmp);
    Timing { median: times[times.len() / 2], best: times[0] }
}

pub fn shown(nanoseconds: f64) -> String {
    if nanoseconds < 10_000.0 {
        format!("{nanoseconds:.0} ns")
    } else {
        format!("{:.1} us", nanoseconds / 1_000.0)
    }
}
