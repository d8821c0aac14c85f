//! Compares writes, lists of writes, uploads, restores, saves and lookups with the Rust module's.
//!
//! usage: compare_tables [WRITES [SEED]]
//! WRITES is how many random writes there are (4000000), SEED starts them (1). After each write the
//! answer, the file, the generation and all entries are compared.
fn main() {
    #[cfg(oracle)]
    {
        let mut args = std::env::args().skip(1).map(|a| a.parse::<u64>().expect("a number"));
        let writes = args.next().unwrap_or(4_000_000);
        let tally = lighting_host::tables::compare(writes, args.next().unwrap_or(1));
        println!("{tally:#?}");
        std::process::exit((tally.differ != 0) as i32);
    }
    #[cfg(not(oracle))]
    println!("the Rust module is not at hand: nothing was compared (LIGHTING_RS names its file)");
}
