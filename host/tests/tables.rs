//! A sample of `compare_tables`, for every run of the gate.
#[cfg(oracle)]
#[test]
fn writes_agree_with_the_module() {
    let tally = lighting_host::tables::compare(600_000, 7);
    assert_eq!(tally.differ, 0, "{tally:#?}");
    assert_eq!(tally.named, 32 * 256, "not every table and entry was named");
    let met = [tally.changed, tally.equal, tally.nowhere, tally.registers, tally.lists, tally.stopped, tally.restores, tally.saves, tally.lookups];
    assert!(met.iter().chain(&tally.refused[1..]).all(|n| *n > 10), "a case was hardly met: {tally:#?}");
}
