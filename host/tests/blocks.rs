//! A sample of `compare_blocks`, for every run of the gate.
#[cfg(oracle)]
#[test]
fn packed_words_agree_with_the_module() {
    let tally = lighting_host::blocks::compare(200_000, 7);
    assert_eq!(tally.differ, 0, "{tally:#?}");
    let met = [tally.off, tally.with_nan, tally.refused];
    assert!(met.iter().chain(&tally.lit).all(|n| *n > 1000), "a case was hardly met: {tally:#?}");
}

#[cfg(oracle)]
#[test]
fn every_short_float_agrees_with_the_module() {
    let tally = lighting_host::blocks::compare_patterns();
    assert_eq!(tally.differ, 0, "{tally:#?}");
}
