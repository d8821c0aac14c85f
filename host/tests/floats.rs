//! A sample of `compare_floats`, for every run of the gate.
use lighting_host::floats::{compare, report, Comparison, ARITHMETIC};

fn all_agree(list: &[Comparison]) {
    let mut bad = vec![];
    for c in list {
        let tally = compare(c, 2_000_000, 500_000, 7);
        assert!(tally.compared > 1000, "{} compared hardly anything", c.name);
        if tally.differ != 0 {
            bad.push(report(c, &tally));
        }
    }
    assert!(bad.is_empty(), "{bad:#?}");
}

#[test]
fn arithmetic_agrees_with_rustc() {
    all_agree(&ARITHMETIC);
}

#[cfg(oracle)]
#[test]
fn fields_and_vectors_agree_with_the_module() {
    all_agree(&lighting_host::floats::MODULE);
}

#[cfg(not(oracle))]
#[test]
fn the_module_is_at_hand() {
    let line = "the Rust module is not at hand: LIGHTING_RS names its file; its functions were not compared";
    assert!(std::env::var("CI").is_err(), "{line}");
    println!("{line}");
}
