//! Prints the list of calls and answers that the program `table_replay` replays.
//!
//! usage: make_table_replay [SEED] > crates/table_replay/data/calls.txt
//! SEED starts the random calls (1).
fn main() {
    #[cfg(oracle)]
    print!("{}", lighting_host::tables::replay_list(std::env::args().nth(1).map_or(1, |a| a.parse().expect("a number"))));
    #[cfg(not(oracle))]
    eprintln!("the Rust module is not at hand: there is no list (LIGHTING_RS names its file)");
}
