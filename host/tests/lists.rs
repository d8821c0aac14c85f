//! A sample of `compare_lists`, for every run of the gate.
#[cfg(oracle)]
#[test]
fn lists_agree_with_the_module_and_the_machine() {
    let tally = lighting_host::lists::compare(40_000, 7);
    println!("lists: {tally:?}");
    assert_eq!(tally.differ, 0, "{tally:#?}");
    let kinds = [tally.writes, tally.write_lists, tally.restores, tally.saves, tally.reads, tally.cached_reads, tally.hand_overs];
    let refused = [1, 2, 3, 5, 6, 7].map(|number| tally.refused[number]);
    let met = [tally.wrong_size, tally.foreign, tally.anew, tally.lit, tally.off, tally.between, tally.typed, tally.typed_fragments];
    assert!(kinds.iter().chain(&refused).chain(&met).all(|n| *n > 100), "a case was hardly met: {tally:#?}");
}
