//! Compares the check of a block with a checker written from document 01's sentence on well-formed blocks.
//!
//! usage: compare_forms [BLOCKS [SEED]]
//! Every damage to every single word of the blocks that the gate takes, then BLOCKS random blocks (4000000) with one to
//! three words damaged, which SEED starts (1).
use lighting_host::forms::{compare_each, compare_random};

fn main() {
    let mut args = std::env::args().skip(1).map(|a| a.parse::<u64>().expect("a number"));
    let blocks = args.next().unwrap_or(4_000_000);
    let tallies = [compare_each(), compare_random(blocks, args.next().unwrap_or(1))];
    println!("{tallies:#?}");
    std::process::exit(tallies.iter().any(|t| t.differ != 0) as i32);
}
