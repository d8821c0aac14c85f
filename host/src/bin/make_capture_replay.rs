//! Prints the list of captures that the program `capture_replay` runs, or what they print by the Rust module.
//!
//! usage: make_capture_replay list [SEED] > crates/capture_replay/data/captures.txt
//!        make_capture_replay answers [SEED] > crates/capture_replay/stdout
//! SEED starts the random captures (1).
fn main() {
    #[cfg(oracle)]
    {
        use lighting_host::captures::{answers_text, replay_list};
        let seed = std::env::args().nth(2).map_or(1, |a| a.parse().expect("a number"));
        match std::env::args().nth(1).as_deref() {
            Some("list") => print!("{}", replay_list(seed)),
            Some("answers") => print!("{}", answers_text(seed)),
            _ => eprintln!("usage: make_capture_replay list|answers [SEED]"),
        }
    }
    #[cfg(not(oracle))]
    eprintln!("the Rust module is not at hand: there is no list (LIGHTING_RS names its file)");
}
