//! Compares every float operation with rustc's own and with the module's.
//!
//! usage: compare_floats [LIMIT [RANDOM [SEED]]]
//! LIMIT caps the inputs of an operation with one input (all of them: 4294967296, the default),
//! RANDOM is how many random inputs the others get (100000000), SEED starts them (1).
use lighting_host::floats::{compare, report, zeros, ARITHMETIC};

fn main() {
    let mut args = std::env::args().skip(1).map(|a| a.parse::<u64>().expect("a number"));
    let limit = args.next().unwrap_or(1 << 32);
    let random = args.next().unwrap_or(100_000_000);
    let seed = args.next().unwrap_or(1);
    let mut differ = 0;
    let mut run = |list: &[lighting_host::floats::Comparison]| {
        for c in list {
            let tally = compare(c, limit, random, seed);
            differ += tally.differ;
            println!("{}", report(c, &tally));
        }
    };
    println!("{}", zeros());
    run(&ARITHMETIC);
    #[cfg(oracle)]
    run(&lighting_host::floats::MODULE);
    #[cfg(not(oracle))]
    println!("the Rust module was not at hand: its functions were not compared (LIGHTING_RS names its file)");
    std::process::exit((differ != 0) as i32);
}
