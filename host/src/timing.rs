//! What the benchmarks share: rounds that take turns, and a table of ns with ratios.

use std::time::Instant;

/// The least ns of each side for each of `calls` calls, over so many rounds; the sides take turns.
pub fn least<const SIDES: usize>(rounds: usize, calls: usize, mut sides: [&mut dyn FnMut(); SIDES]) -> [f64; SIDES] {
    let mut best = [f64::MAX; SIDES];
    for _ in 0..rounds {
        for (best, round) in best.iter_mut().zip(&mut sides) {
            let start = Instant::now();
            round();
            *best = best.min(start.elapsed().as_secs_f64() * 1e9 / calls as f64);
        }
    }
    best
}

pub fn heading(what: &str, beside: &str, ours: &[&str]) {
    let ours: String = ours.iter().map(|name| format!(" {name:>9} {:>6}", "ratio")).collect();
    println!("{what:<46} {beside:>9}{ours}");
}

/// What stands beside first, then each of the proved code's with its ratio.
pub fn line(name: &str, best: &[f64]) {
    let ours: String = best[1..].iter().map(|ours| format!(" {ours:>9.1} {:>6.2}", ours / best[0])).collect();
    println!("{name:<46} {:>9.1}{ours}", best[0]);
}
