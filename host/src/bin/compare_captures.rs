//! Compares what captures print with the Rust module fed the same bodies, byte for byte.
//!
//! usage: compare_captures [CAPTURES [SEED]]
//! CAPTURES is how many random captures there are (40000), one in four of them damaged; SEED starts them (1).
//! Each is run with room for all that it prints and with an output of an awkward length.
fn main() {
    #[cfg(oracle)]
    {
        let mut args = std::env::args().skip(1).map(|a| a.parse::<u64>().expect("a number"));
        let captures = args.next().unwrap_or(40_000);
        let tally = lighting_host::captures::compare(captures, args.next().unwrap_or(1));
        println!("{tally:#?}");
        std::process::exit((tally.differ != 0) as i32);
    }
    #[cfg(not(oracle))]
    println!("the Rust module is not at hand: nothing was compared (LIGHTING_RS names its file)");
}
