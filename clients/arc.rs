//! What Rust's `Arc` costs beside `bench.c`: a clone and its drop, best and median of nine runs, in nanoseconds.
//!
//!     rustc -O arc.rs && ./arc

use std::hint::black_box;
use std::sync::Arc;
use std::time::Instant;

const COUNT: u32 = 2_000_000;
const RUNS: usize = 9;

fn main() {
    let object = Arc::new(1000_i64);
    let mut runs: Vec<f64> = (0..RUNS)
        .map(|_| {
            let begun = Instant::now();
            for _ in 0..COUNT {
                drop(black_box(Arc::clone(black_box(&object))));
            }
            begun.elapsed().as_nanos() as f64 / f64::from(COUNT)
        })
        .collect();
    runs.sort_by(f64::total_cmp);
    println!("{:<44} best {:8.1}  median {:8.1}", "Rust Arc clone + drop", runs[0], runs[RUNS / 2]);
}
