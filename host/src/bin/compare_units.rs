//! Compares hand-overs, cached reads and reads with document 01 and the Rust module's blocks: the library's, with a
//! lent cache, and those on the structs.
//!
//! usage: compare_units [CALLS [SEED]]
//! CALLS is how many calls of two to six hand-overs on the structs there are (1000000), each with the library's calls
//! of the same files beside it; SEED starts them (1).
fn main() {
    #[cfg(oracle)]
    {
        let mut args = std::env::args().skip(1).map(|a| a.parse::<u64>().expect("a number"));
        let calls = args.next().unwrap_or(1_000_000);
        let tally = lighting_host::units::compare(calls, args.next().unwrap_or(1));
        println!("{tally:#?}");
        std::process::exit((tally.differ != 0) as i32);
    }
    #[cfg(not(oracle))]
    println!("the Rust module is not at hand: nothing was compared (LIGHTING_RS names its file)");
}
