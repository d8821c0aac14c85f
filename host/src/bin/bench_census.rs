//! Times the census: visiting every pattern, beside a plain count over the module's `pica_float`; and the library's call,
//! which visits none.
//!
//! Prints ns, the least of many rounds; of a count for each pattern.
fn main() {
    #[cfg(oracle)]
    {
        use lighting_host::census::{called, plain_count};
        use lighting_host::floats::proved::compare_count;
        use lighting_host::timing::{heading, least, line};
        use std::hint::black_box;
        const CALLS: usize = 1000;
        heading("a pattern visited, ns", "Rust", &["proved"]);
        for (name, mantissa, exponent) in [("half, 10 and 5", 10, 5), ("20-bit float, 12 and 7", 12, 7)] {
            let mut theirs = || {
                black_box(plain_count(black_box(mantissa), black_box(exponent)));
            };
            let mut ours = || {
                black_box(compare_count(black_box(mantissa), black_box(exponent), 3));
            };
            line(name, &least(200, 1 << (mantissa + exponent + 1), [&mut theirs, &mut ours]));
        }
        let mut calls = || {
            for _ in 0..CALLS {
                black_box(called(black_box(10), black_box(5)));
            }
        };
        println!("lighting_census, a call: {:.1} ns", least(200, CALLS, [&mut calls])[0]);
    }
    #[cfg(not(oracle))]
    println!("the Rust module is not at hand: nothing was timed (LIGHTING_RS names its file)");
}
