//! `compare [--dry] [SCALE [SEED]]`: compares the engine with the second opinion.
//!
//! The last line is `0 differences`, or the count of them, and then the exit status is 1. With
//! `--dry` the second opinion is asked twice and the engine not at all.

use compare::driver::{Report, compare};
use compare::opinion::Own;
use std::process::ExitCode;

const USAGE: &str = "usage: compare [--dry] [SCALE [SEED]]   (1 and 1 if not given)";

/// What the command line asks for.
struct Wish {
    dry: bool,
    scale: f64,
    seed: u64,
}

fn main() -> ExitCode {
    let words: Vec<String> = std::env::args().skip(1).collect();
    let Some(wish) = understood(&words) else {
        eprintln!("{USAGE}");
        return ExitCode::from(2);
    };
    if wish.dry {
        let report = compare(&Own, &Own, wish.scale, wish.seed);
        println!("{report}");
        println!("a dry run: the engine was not asked, so nothing is known about it");
        return ExitCode::SUCCESS;
    }
    let Some(report) = engine_compared(&wish) else {
        eprintln!("built without the engine's library: see README.md, or use --dry");
        return ExitCode::from(2);
    };
    println!("{report}");
    println!("{} differences", report.differences());
    match report.differences() {
        0 => ExitCode::SUCCESS,
        _ => ExitCode::FAILURE,
    }
}

/// The comparison with the engine, if its library is linked.
#[cfg(feature = "engine")]
fn engine_compared(wish: &Wish) -> Option<Report> {
    use compare::engine::Engine;
    Some(compare(&Own, &Engine, wish.scale, wish.seed))
}

#[cfg(not(feature = "engine"))]
fn engine_compared(_: &Wish) -> Option<Report> {
    None
}

fn understood(words: &[String]) -> Option<Wish> {
    let (dry, words) = match words {
        [first, rest @ ..] if first == "--dry" => (true, rest),
        _ => (false, words),
    };
    let (scale, seed) = match words {
        [] => (1.0, 1),
        [scale] => (scale.parse().ok()?, 1),
        [scale, seed] => (scale.parse().ok()?, seed.parse().ok()?),
        _ => return None,
    };
    (scale > 0.0 && scale < 1e6).then_some(Wish { dry, scale, seed })
}
