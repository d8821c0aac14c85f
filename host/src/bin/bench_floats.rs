//! Times root, floor and the table places of the proved code beside rustc's own, in one run.
//!
//! Prints ns for each call, the least of many rounds, and the ratio: throughput over an array of
//! inputs, and latency where each call waits for the one before. The proved code is called across
//! the C boundary; rustc's own is inlined, with its input held back from the optimiser.
use lighting_host::floats::{proved::*, signed_place, unsigned_place};
use lighting_host::patterns::Random;
use std::hint::black_box;
use std::time::Instant;

const INPUTS: usize = 1 << 12;
const ROUNDS: usize = 400;
const CHAIN: usize = 10_000;

/// The least ns for each of `calls` calls, over the rounds.
fn least(calls: usize, mut round: impl FnMut()) -> f64 {
    let time = |_| {
        let start = Instant::now();
        round();
        start.elapsed().as_secs_f64() * 1e9 / calls as f64
    };
    (0..ROUNDS).map(time).fold(f64::MAX, f64::min)
}

fn throughput(inputs: &[f32], f: impl Fn(f32) -> f32) -> f64 {
    let mut out = vec![0.0; inputs.len()];
    least(inputs.len(), || {
        for (o, x) in out.iter_mut().zip(inputs) {
            *o = f(*x);
        }
        black_box(&out);
    })
}

fn latency(f: impl Fn(f32) -> f32) -> f64 {
    least(CHAIN, || {
        let mut y = 3.7;
        for _ in 0..CHAIN {
            y = f(y) * 0.375 + 0.25;
        }
        black_box(y);
    })
}

fn line(name: &str, inputs: &[f32], ours: impl Fn(f32) -> f32, theirs: impl Fn(f32) -> f32) {
    let held = |x| theirs(black_box(x));
    let (a, b) = (throughput(inputs, &ours), throughput(inputs, held));
    let (c, d) = (latency(&ours), latency(held));
    println!("{name}: throughput {a:.2} and {b:.2} ns, ratio {:.2}; latency {c:.2} and {d:.2} ns, ratio {:.2}", a / b, c / d);
}

fn main() {
    let mut r = Random(1);
    let ordinary: Vec<f32> = (0..INPUTS).map(|_| f32::from_bits(r.ordinary())).collect();
    let to_four: Vec<f32> = ordinary.iter().map(|x| x.abs()).collect();
    let to_one: Vec<f32> = ordinary.iter().map(|x| x / 4.0).collect();
    let positive: Vec<f32> = (0..INPUTS).map(|_| f32::from_bits(r.below(0x7F80_0000))).collect();
    line("root, 0 to 4", &to_four, |x| compare_root(x), f32::sqrt);
    line("root, any positive number", &positive, |x| compare_root(x), f32::sqrt);
    line("floor, -4 to 4", &ordinary, |x| compare_floor(x), f32::floor);
    line("unsigned entry, -1 to 1", &to_one, |x| compare_unsigned_entry(x) as f32, |x| unsigned_place(x).0 as f32);
    line("unsigned delta, -1 to 1", &to_one, |x| compare_unsigned_delta(x), |x| unsigned_place(x).1);
    line("signed entry, -1 to 1", &to_one, |x| compare_signed_entry(x) as f32, |x| signed_place(x).0 as f32);
    line("signed delta, -1 to 1", &to_one, |x| compare_signed_delta(x), |x| signed_place(x).1);
}
