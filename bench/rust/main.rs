//! Measures the engine's kernels and the same loops in plain Rust.
//!
//!     bench time            a line for each row and side: row, side, nanoseconds of one operation, result
//!     bench count           does each row with few and with more turns, to be counted by callgrind; says in what order
//!
//! Both sides must give the same results; if they do not, it stops with status 1.

mod engine;
mod inputs;
mod loops;
mod plain;
mod rows;

use rows::{Row, Work};
use std::hint::black_box;
use std::process::exit;
use std::time::{Duration, Instant};

/// After so many turns the results of all programs are compared.
const COMPARED: u32 = 100;
/// A run should take so long: short enough that many are not interrupted.
const SHORT: Duration = Duration::from_micros(150);
/// Of so many runs the best one counts.
const RUNS: u32 = 40;

fn main() {
    let run = match std::env::args().nth(1).as_deref() {
        Some("time") => time,
        Some("count") => count,
        _ => {
            eprintln!("usage: bench time|count");
            exit(2);
        }
    };
    for mut row in rows::all() {
        let result = (row.engine)(COMPARED);
        if result != (row.plain)(COMPARED) {
            eprintln!("{}: the engine and the plain Rust differ", row.name);
            exit(1);
        }
        run(&mut row, &hex(&result));
    }
}

fn hex(bytes: &[u8]) -> String {
    bytes.iter().map(|byte| format!("{byte:02x}")).collect()
}

fn duration(work: &mut Work, turns: u32) -> Duration {
    let start = Instant::now();
    black_box(work(black_box(turns)));
    start.elapsed()
}

/// As many turns as take a short while.
fn calibrated(work: &mut Work) -> u32 {
    let mut turns = 1;
    while duration(work, turns) < SHORT {
        turns *= 2;
    }
    turns
}

/// The nanoseconds of one operation, at best.
fn best(work: &mut Work, operations: u32) -> f64 {
    let turns = calibrated(work);
    let shortest = (0..RUNS).map(|_| duration(work, turns)).min().expect("there are runs");
    shortest.as_secs_f64() * 1e9 / f64::from(turns) / f64::from(operations)
}

fn time(row: &mut Row, result: &str) {
    for (side, work) in [("engine", &mut row.engine), ("rust", &mut row.plain)] {
        let nanoseconds = best(work, row.operations);
        println!("{}\t{side}\t{nanoseconds:.3}\t{result}", row.name);
    }
}

/// The one function in which callgrind counts.
#[unsafe(no_mangle)]
#[inline(never)]
extern "C" fn counted(work: &mut Work, turns: u32) {
    black_box(work(black_box(turns)));
}

/// A shift and a round of checks take long.
fn turns_to_count(row: &Row) -> (u32, u32) {
    if row.name.starts_with("shift") || row.name.starts_with("check") {
        (1, 3)
    } else {
        (10, 110)
    }
}

fn count(row: &mut Row, _: &str) {
    let (few, more) = turns_to_count(row);
    for (side, work) in [("engine", &mut row.engine), ("rust", &mut row.plain)] {
        counted(work, few);
        counted(work, more);
        println!("{}\t{side}\t{}", row.name, (more - few) * row.operations);
    }
}
