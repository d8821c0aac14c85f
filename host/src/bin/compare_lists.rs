//! Runs random lists of calls on one unit and copy beside the Rust module and the plain machine of document 01.
//!
//! usage: compare_lists [CALLS [SEED]]
//! CALLS is how many calls there are (1000000), SEED starts them (1). After every call the number and all slices are
//! compared, and after each accepted hand-over the colours of some fragments.
fn main() {
    #[cfg(oracle)]
    {
        let mut args = std::env::args().skip(1).map(|a| a.parse::<u64>().expect("a number"));
        let calls = args.next().unwrap_or(1_000_000);
        let tally = lighting_host::lists::compare(calls, args.next().unwrap_or(1));
        println!("{tally:#?}");
        std::process::exit((tally.differ != 0) as i32);
    }
    #[cfg(not(oracle))]
    println!("the Rust module is not at hand: nothing was compared (LIGHTING_RS names its file)");
}
