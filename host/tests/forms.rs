//! A sample of `compare_forms`, for every run of the gate.
use lighting_host::forms::{compare_each, compare_random, Tally};

fn agrees(name: &str, tally: Tally) {
    println!("{name}: {tally:?}");
    assert_eq!(tally.differ, 0, "{tally:#?}");
    let met = [tally.nan_free, tally.with_nan, tally.not_well_formed];
    assert!(met.iter().all(|n| *n > 10_000), "a case was hardly met: {tally:#?}");
}

#[test]
fn every_damage_to_one_word_is_told() {
    let tally = compare_each();
    assert!(tally.off > 0 && tally.wrong_length > 100, "a case was hardly met: {tally:#?}");
    agrees("one word damaged", tally);
}

#[test]
fn damages_to_random_blocks_are_told() {
    agrees("random blocks damaged", compare_random(500_000, 7));
}

/// Document 01: words "hold only values `pack` can write for a lighting that `read` gives". The checker's lists are
/// those values.
#[cfg(oracle)]
#[test]
fn the_checkers_lists_are_what_the_module_writes() {
    use lighting_host::forms::{written, Allowed, Checker};
    let checker = Checker::default();
    let mut lists = 0;
    for (at, (allowed, found)) in checker.head.iter().chain(&checker.slot).zip(written()).enumerate() {
        if let Allowed::Among(words) = allowed {
            let words = words.iter().copied().collect();
            lists += 1;
            assert_eq!(found, words, "at word {at}");
        }
    }
    assert_eq!(lists, 50);
}
