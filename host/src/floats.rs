//! Each float operation of the proved code on words, beside what rustc's own operations give.

use crate::{word, NAN};

/// The proved functions. None touches memory or can fail, so each is safe to call.
pub mod proved {
    unsafe extern "C" {
        pub safe fn compare_root(x: f32) -> f32;
        pub safe fn compare_word(n: u32) -> u32;
        pub safe fn compare_floor(x: f32) -> f32;
        pub safe fn compare_magnitude(x: f32) -> f32;
        pub safe fn compare_max(x: f32, y: f32) -> f32;
        pub safe fn compare_min(x: f32, y: f32) -> f32;
        pub safe fn compare_clamp(x: f32, low: f32, high: f32) -> f32;
        pub safe fn compare_unsigned_entry(x: f32) -> u8;
        pub safe fn compare_unsigned_delta(x: f32) -> f32;
        pub safe fn compare_signed_entry(x: f32) -> u8;
        pub safe fn compare_signed_delta(x: f32) -> f32;
        pub safe fn compare_quantized(x: f32) -> u32;
        pub safe fn compare_half(bits: u32) -> f32;
        pub safe fn compare_float20(bits: u32) -> f32;
        pub safe fn compare_count(mantissa: u32, exponent: u32, at: u32) -> u32;
        pub safe fn compare_fixed(value: u32) -> f32;
        pub safe fn compare_color(value: u32, at: u32) -> f32;
        pub safe fn compare_upload_value(word: u32) -> u32;
        pub safe fn compare_upload_step(word: u32) -> u32;
        pub safe fn compare_dot(a0: f32, a1: f32, a2: f32, b0: f32, b1: f32, b2: f32) -> f32;
        pub safe fn compare_cross(a0: f32, a1: f32, a2: f32, b0: f32, b1: f32, b2: f32, at: u32) -> f32;
        pub safe fn compare_normalized(v0: f32, v1: f32, v2: f32, at: u32) -> f32;
        pub safe fn compare_rotate(q0: f32, q1: f32, q2: f32, q3: f32, v0: f32, v1: f32, v2: f32, at: u32) -> f32;
    }
}

/// The inputs on which an operation is compared.
pub enum Domain {
    /// Every pattern of one input of so many bits.
    Every(u32),
    /// So many floats: every tuple of odd words, where there are at most three, and random ones.
    Floats(usize),
}

/// One operation: what the proved code gives on words, and what rustc's operations or the module give.
pub struct Comparison {
    pub name: &'static str,
    pub domain: Domain,
    pub both: fn(&[u32; 8]) -> (u32, u32),
}

const fn every(name: &'static str, bits: u32, both: fn(&[u32; 8]) -> (u32, u32)) -> Comparison {
    Comparison { name, domain: Domain::Every(bits), both }
}

const fn floats(name: &'static str, count: usize, both: fn(&[u32; 8]) -> (u32, u32)) -> Comparison {
    Comparison { name, domain: Domain::Floats(count), both }
}

fn f(n: u32) -> f32 {
    f32::from_bits(n)
}

/// `f32::max`, with the zeros as document 01 has them: rustc leaves open which of −0 and +0 it gives.
fn max(x: f32, y: f32) -> f32 {
    if x == 0.0 && y == 0.0 {
        x + y
    } else {
        x.max(y)
    }
}

/// `f32::min`, with −0 below +0 (IEEE 754's minimumNumber).
fn min(x: f32, y: f32) -> f32 {
    if x == 0.0 && y == 0.0 {
        -(-x + -y)
    } else {
        x.min(y)
    }
}

/// The unsigned table place as the module has it: an entry and a delta.
#[inline]
pub fn unsigned_place(x: f32) -> (u8, f32) {
    let entry = (x * 256.0).floor().clamp(0.0, 255.0);
    (entry as u8, x * 256.0 - entry)
}

/// The signed table place as the module has it.
#[inline]
pub fn signed_place(x: f32) -> (u8, f32) {
    let entry = (x * 128.0).floor().clamp(-128.0, 127.0);
    (entry as i8 as u8, x * 128.0 - entry)
}

/// What rustc's own max and min give of the two zeros, in either order; each call by itself, since the compiler may
/// take two orders for one.
pub fn zeros() -> String {
    use std::hint::black_box as held;
    let max = |x: f32, y: f32| held(x).max(held(y)).to_bits();
    let min = |x: f32, y: f32| held(x).min(held(y)).to_bits();
    let (maxes, mins) = ([max(-0.0, 0.0), max(0.0, -0.0)], [min(-0.0, 0.0), min(0.0, -0.0)]);
    format!("rustc's max of -0, +0 and of +0, -0: {maxes:08X?}; its min: {mins:08X?}")
}

/// One of three components: the first that differs, else the first.
#[cfg(oracle)]
fn components(ours: impl Fn(u32) -> f32, theirs: [f32; 3]) -> (u32, u32) {
    let both = |at: u32| (word(ours(at)), word(theirs[at as usize]));
    (0..3).map(both).find(|b| b.0 != b.1).unwrap_or_else(|| both(0))
}

/// The operations that rustc's own are enough for.
pub const ARITHMETIC: [Comparison; 12] = [
    every("word to float and back", 32, |i| (proved::compare_word(i[0]), word(f(i[0])))),
    every("root", 32, |i| (word(proved::compare_root(f(i[0]))), word(f(i[0]).sqrt()))),
    every("floor", 32, |i| (word(proved::compare_floor(f(i[0]))), word(f(i[0]).floor()))),
    every("magnitude", 32, |i| (word(proved::compare_magnitude(f(i[0]))), word(f(i[0]).abs()))),
    every("unsigned place, entry", 32, |i| (proved::compare_unsigned_entry(f(i[0])) as u32, unsigned_place(f(i[0])).0 as u32)),
    every("unsigned place, delta", 32, |i| (word(proved::compare_unsigned_delta(f(i[0]))), word(unsigned_place(f(i[0])).1))),
    every("signed place, entry", 32, |i| (proved::compare_signed_entry(f(i[0])) as u32, signed_place(f(i[0])).0 as u32)),
    every("signed place, delta", 32, |i| (word(proved::compare_signed_delta(f(i[0]))), word(signed_place(f(i[0])).1))),
    every("quantized", 32, |i| (proved::compare_quantized(f(i[0])), (f(i[0]).clamp(0.0, 1.0) * 255.0) as u8 as u32)),
    floats("max", 2, |i| (word(proved::compare_max(f(i[0]), f(i[1]))), word(max(f(i[0]), f(i[1]))))),
    floats("min", 2, |i| (word(proved::compare_min(f(i[0]), f(i[1]))), word(min(f(i[0]), f(i[1]))))),
    // rustc's clamp panics where the bounds are no range; there the two comparisons are written out
    floats("clamp", 3, |i| {
        let (mut x, low, high) = (f(i[0]), f(i[1]), f(i[2]));
        let theirs = if low <= high {
            x.clamp(low, high)
        } else {
            if x < low {
                x = low;
            }
            if x > high {
                x = high;
            }
            x
        };
        (word(proved::compare_clamp(f(i[0]), f(i[1]), f(i[2]))), word(theirs))
    }),
];

/// The operations that are compared with the module's own functions.
#[cfg(oracle)]
pub const MODULE: [Comparison; 9] = {
    use crate::oracle::access;
    [
        every("half", 16, |i| (word(proved::compare_half(i[0])), word(access::pica_float(i[0], 10, 5)))),
        every("20-bit float", 20, |i| (word(proved::compare_float20(i[0])), word(access::pica_float(i[0], 12, 7)))),
        every("spot component", 13, |i| (word(proved::compare_fixed(i[0])), word(access::fixed(i[0])))),
        every("colour, its three fields", 30, |i| components(|at| proved::compare_color(i[0], at), access::color(i[0]))),
        every("upload value and step", 24, |i| {
            let theirs = access::uploaded(i[0]);
            let value = proved::compare_upload_value(i[0]);
            if value == theirs[0] {
                (proved::compare_upload_step(i[0]), theirs[1])
            } else {
                (value, theirs[0])
            }
        }),
        floats("dot", 6, |i| {
            (
                word(proved::compare_dot(f(i[0]), f(i[1]), f(i[2]), f(i[3]), f(i[4]), f(i[5]))),
                word(access::dot([f(i[0]), f(i[1]), f(i[2])], [f(i[3]), f(i[4]), f(i[5])])),
            )
        }),
        floats("cross", 6, |i| {
            let theirs = access::cross([f(i[0]), f(i[1]), f(i[2])], [f(i[3]), f(i[4]), f(i[5])]);
            components(|at| proved::compare_cross(f(i[0]), f(i[1]), f(i[2]), f(i[3]), f(i[4]), f(i[5]), at), theirs)
        }),
        floats("normalized", 3, |i| {
            let theirs = access::normalized([f(i[0]), f(i[1]), f(i[2])]);
            components(|at| proved::compare_normalized(f(i[0]), f(i[1]), f(i[2]), at), theirs)
        }),
        floats("rotate", 7, |i| {
            let theirs = access::rotate([f(i[0]), f(i[1]), f(i[2]), f(i[3])], [f(i[4]), f(i[5]), f(i[6])]);
            components(|at| proved::compare_rotate(f(i[0]), f(i[1]), f(i[2]), f(i[3]), f(i[4]), f(i[5]), f(i[6]), at), theirs)
        }),
    ]
};

/// How many inputs were compared, how many of the results are NaN, and those that differ, the smallest of them with
/// both results.
#[derive(Default)]
pub struct Tally {
    pub compared: u64,
    pub nan: u64,
    pub differ: u64,
    pub smallest: Option<([u32; 8], u32, u32)>,
}

impl Tally {
    fn add(&mut self, input: &[u32; 8], both: (u32, u32)) {
        self.compared += 1;
        self.nan += (both.0 == NAN) as u64;
        if both.0 != both.1 {
            self.differ += 1;
            let found = (*input, both.0, both.1);
            if self.smallest.is_none_or(|s| found.0 < s.0) {
                self.smallest = Some(found);
            }
        }
    }
}

/// Compares on the operation's domain, or on at most `limit` inputs of it spread evenly, and, where it takes floats, on
/// every odd tuple and `random` others.
pub fn compare(c: &Comparison, limit: u64, random: u64, seed: u64) -> Tally {
    let mut tally = Tally::default();
    let mut input = [0u32; 8];
    match c.domain {
        Domain::Every(bits) => {
            let size = 1u64 << bits;
            let step = (size / limit.min(size)).max(1) | 1;
            let mut n = 0;
            while n < size {
                input[0] = n as u32;
                tally.add(&input, (c.both)(&input));
                n += if size <= limit { 1 } else { step };
            }
            if bits == 32 {
                for x in crate::patterns::ODD {
                    input[0] = x;
                    tally.add(&input, (c.both)(&input));
                }
            }
        }
        Domain::Floats(count) => {
            let odd = crate::patterns::ODD;
            if count <= 3 {
                for k in 0..odd.len().pow(count as u32) {
                    let mut rest = k;
                    for x in input.iter_mut().take(count) {
                        *x = odd[rest % odd.len()];
                        rest /= odd.len();
                    }
                    tally.add(&input, (c.both)(&input));
                }
            }
            let mut r = crate::patterns::Random(seed);
            for _ in 0..random {
                r.floats(&mut input[..count]);
                tally.add(&input, (c.both)(&input));
            }
        }
    }
    tally
}

/// One line for an operation.
pub fn report(c: &Comparison, t: &Tally) -> String {
    let mut line = format!("{}: {} compared, of them {} NaN, {} differ", c.name, t.compared, t.nan, t.differ);
    if let Some((input, ours, theirs)) = t.smallest {
        line += &format!("; the smallest at {input:08X?}: {ours:08X}, and not {theirs:08X}");
    }
    line
}
