//! Compares decoding with packing with the Rust module's, word for word.
//!
//! usage: compare_blocks [FILES [SEED]]
//! FILES is how many random register files there are (4000000), SEED starts them (1). Every half and
//! every 20-bit pattern is compared besides.
fn main() {
    #[cfg(oracle)]
    {
        use lighting_host::blocks::{compare, compare_patterns};
        let mut args = std::env::args().skip(1).map(|a| a.parse::<u64>().expect("a number"));
        let files = args.next().unwrap_or(4_000_000);
        let tallies = [compare_patterns(), compare(files, args.next().unwrap_or(1))];
        println!("{tallies:#?}");
        std::process::exit(tallies.iter().any(|t| t.differ != 0) as i32);
    }
    #[cfg(not(oracle))]
    println!("the Rust module is not at hand: nothing was compared (LIGHTING_RS names its file)");
}
