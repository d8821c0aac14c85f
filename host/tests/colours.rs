//! A sample of `compare_colours`, for every run of the gate.
#[cfg(oracle)]
#[test]
fn colours_agree_with_the_module() {
    let tally = lighting_host::colours::compare(400_000, 7);
    println!("colours: {tally:?}");
    assert_eq!(tally.differ, 0, "{tally:#?}");
    let scenes = tally.configurations.iter().chain(&tally.lights).chain(&tally.bumps).chain(&tally.tables).chain(&tally.inputs);
    let flags = [tally.shadows, tally.repeated, tally.with_nan, tally.spotlights, tally.distances];
    assert!(scenes.chain(&flags).all(|n| *n > 500), "a case was hardly met: {tally:#?}");
    let refused = [1, 6, 2, 9, 7].map(|number| tally.refused[number]);
    assert!(refused.iter().chain(&[tally.damaged, tally.off, tally.lists]).all(|n| *n > 500), "a case was hardly met: {tally:#?}");
    assert!(tally.between > 150_000, "few colours between: {tally:#?}");
}
