//! Prints the list of register files and blocks that the program `block_replay` replays.
//!
//! usage: make_block_replay [SEED] > crates/block_replay/data/files.txt
//! SEED starts the random files (1).
fn main() {
    #[cfg(oracle)]
    print!("{}", lighting_host::blocks::replay_list(std::env::args().nth(1).map_or(1, |a| a.parse().expect("a number"))));
    #[cfg(not(oracle))]
    eprintln!("the Rust module is not at hand: there is no list (LIGHTING_RS names its file)");
}
