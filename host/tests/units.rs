//! Hand-overs of register files in turn, held to document 01 with the module's blocks, for every run of the gate.
#[cfg(oracle)]
#[test]
fn hand_overs_agree_with_the_module() {
    let tally = lighting_host::units::compare(30_000, 7);
    println!("hand-overs: {tally:?}");
    assert_eq!(tally.differ, 0, "{tally:#?}");
    let refused = [tally.refused[1], tally.refused[2], tally.refused[6]];
    let met = [tally.taken, tally.kept, tally.off, tally.wrong_size];
    assert!(met.iter().chain(&refused).all(|n| *n > 500), "a case was hardly met: {tally:#?}");
}
