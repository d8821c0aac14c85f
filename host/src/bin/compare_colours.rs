//! Compares the colours of every call that shades with the Rust module's, and the refusals of damaged blocks and
//! lengths.
//!
//! usage: compare_colours [FRAGMENTS [SEED]]
//! FRAGMENTS is how many random fragments there are (10000000), SEED starts them (1).
fn main() {
    #[cfg(oracle)]
    {
        let mut args = std::env::args().skip(1).map(|a| a.parse::<u64>().expect("a number"));
        let fragments = args.next().unwrap_or(10_000_000);
        let tally = lighting_host::colours::compare(fragments, args.next().unwrap_or(1));
        println!("{tally:#?}");
        std::process::exit((tally.differ != 0) as i32);
    }
    #[cfg(not(oracle))]
    println!("the Rust module is not at hand: nothing was compared (LIGHTING_RS names its file)");
}
