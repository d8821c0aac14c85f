//! A sample of `compare_captures`, for every run of the gate.
#[cfg(oracle)]
#[test]
fn captures_print_as_the_module_does() {
    let tally = lighting_host::captures::compare(3_000, 7);
    assert_eq!(tally.differ, 0, "{tally:#?}");
    let met = [tally.numbers[0], tally.numbers[3], tally.numbers[8], tally.empty, tally.lit, tally.off];
    let room = [tally.no_room, tally.refused_no_room, tally.just_room, tally.more_room];
    assert!(met.iter().chain(&tally.bodies[1..]).chain(&room).all(|n| *n > 10), "a case was hardly met: {tally:#?}");
}
