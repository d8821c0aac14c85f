//! Times the largest captures of the proved library call beside the Rust module fed the same bodies, in one run.
//!
//! Prints milliseconds for each call, the least of many rounds that take turns, and the ratio. Both work out the bytes
//! that are printed from the bytes of the input; the proved code checks what document 01 asks for, keeps a cache and a
//! copy, and reads the copy's block.
fn main() {
    #[cfg(oracle)]
    timed::main();
    #[cfg(not(oracle))]
    println!("the Rust module is not at hand: nothing was timed (LIGHTING_RS names its file)");
}

#[cfg(oracle)]
mod timed {
    use lighting_host::boundary::{self, bytes};
    use lighting_host::captures::{capture, largest, ordinary_fragments, theirs, Body, Tally, OUTPUT_BYTES};
    use lighting_host::patterns::Random;
    use std::hint::black_box;
    use std::time::Instant;

    const ROUNDS: usize = 200;

    fn milliseconds(work: impl FnOnce()) -> f64 {
        let start = Instant::now();
        work();
        start.elapsed().as_secs_f64() * 1e3
    }

    fn line(name: &str, input: &[u8]) {
        let (mut output, mut out, mut tally) = (vec![0; OUTPUT_BYTES], Vec::with_capacity(OUTPUT_BYTES), Tally::default());
        let mut printed = 0;
        let mut least = [f64::MAX; 2];
        for _ in 0..ROUNDS {
            let ours = milliseconds(|| {
                black_box(boundary::capture(black_box(input), &mut output, &mut printed));
            });
            let rust = milliseconds(|| {
                out.clear();
                black_box(theirs(black_box(input), &mut tally, &mut out));
            });
            least = [least[0].min(ours), least[1].min(rust)];
        }
        assert_eq!(output[..printed as usize], out, "{name}");
        let lines = out.iter().filter(|b| **b == b'\n').count();
        println!("{name}: {} bytes, {lines} lines, {:.3} and {:.3} ms, ratio {:.2}", input.len(), least[0], least[1], least[0] / least[1]);
    }

    pub fn main() {
        let mut r = Random(1);
        for (name, lights, all, restored) in [
            ("1 light, no tables", 1, false, false),
            ("1 light, all tables", 1, true, false),
            ("8 lights, no tables", 8, false, false),
            ("8 lights, all tables", 8, true, false),
            ("8 lights, all tables, a restore", 8, true, true),
        ] {
            line(name, &largest(lights, all, restored, &mut r));
        }
        line("off", &bytes(&capture(&[Body { kind: 2, words: ordinary_fragments(712, &mut r) }])));
        line("only writes", &bytes(&capture(&[Body { kind: 1, words: [0x142, 7].repeat(8190) }])));
    }
}
