//! The census of short floats, whole: every pair of widths is compared in every run of the gate.
use lighting_host::boundary;
use lighting_host::census::*;
use lighting_host::patterns::Random;

#[cfg(oracle)]
#[test]
fn all_widths_agree_with_a_plain_count_over_the_module() {
    let (mut compared, mut patterns) = (0, 0u64);
    for (mantissa, exponent) in widths() {
        let due = plain_count(mantissa, exponent);
        for (way, totals) in [("call", called(mantissa, exponent)), ("crate", typed(mantissa, exponent)), ("visit", visited(mantissa, exponent))] {
            assert_eq!(totals, due, "{mantissa} and {exponent}, by {way}");
        }
        let (out, error) = printed(&[&mantissa.to_string(), &exponent.to_string()]);
        assert_eq!((out, error), (line(due), String::new()), "{mantissa} and {exponent}, by the program");
        compared += 1;
        patterns += due.iter().map(|total| u64::from(*total)).sum::<u64>();
    }
    println!("census: {compared} pairs of widths, {patterns} patterns, four ways, 0 differ");
    assert_eq!(compared, 72);
}

#[test]
fn the_half_is_document_02s_line() {
    assert_eq!(line(called(10, 5)), "2 2 2046 63486\n");
    assert_eq!(printed(&[]), ("2 2 2046 63486\n".into(), String::new()));
}

#[test]
fn other_widths_give_four_zeros() {
    let near = (0..=64).flat_map(|mantissa| (0..=64).map(move |exponent| (mantissa, exponent)));
    let mut r = Random(7);
    let far = (0..100_000).map(|_| (r.word() >> r.below(32), r.word() >> r.below(32)));
    let ends = [(0, u32::MAX), (u32::MAX, 0), (u32::MAX, u32::MAX), (u32::MAX, 5), (10, u32::MAX), (1 << 31, 1 << 31)];
    let (mut counted, mut others) = (0, 0);
    for (mantissa, exponent) in near.chain(far.collect::<Vec<_>>()).chain(ends) {
        let is = (1..=12).contains(&mantissa) && (2..=7).contains(&exponent);
        for totals in [called(mantissa, exponent), typed(mantissa, exponent), visited(mantissa, exponent)] {
            assert_eq!(totals != [0; 4], is, "{mantissa} and {exponent}");
        }
        counted += is as u32;
        others += !is as u32;
    }
    assert!(counted >= 72 && others > 4000, "{counted} counted, {others} not");
    println!("census: {others} other widths, four zeros each");
}

#[test]
fn another_place_than_four_words_is_refused_and_left() {
    for words in (0..16).filter(|words| *words != 4) {
        for (mantissa, exponent) in [(10, 5), (0, 0), (13, 8)] {
            let mut totals = vec![7; words];
            assert_eq!(boundary::census(mantissa, exponent, &mut totals), boundary::WRONG_SIZE, "{words} words");
            assert_eq!(totals, vec![7; words]);
        }
    }
}

#[test]
fn the_program_takes_two_widths_or_none() {
    for zeros in [["0", "5"], ["13", "5"], ["10", "1"], ["10", "8"], ["999", "5"], ["10", "1000"], ["99999999999999999999", "5"], ["4294967306", "5"]]
    {
        assert_eq!(printed(&zeros), ("0 0 0 0\n".into(), String::new()), "{zeros:?}");
    }
    // a width may have zeros in front
    assert_eq!(printed(&["010", "005"]), ("2 2 2046 63486\n".into(), String::new()));
    let wrong: [&[&str]; 12] = [
        &["10"],
        &["10", "5", "1"],
        &["", "5"],
        &["10", ""],
        &["ten", "5"],
        &["10", "-5"],
        &["+10", "5"],
        &["10 ", "5"],
        &["1/", "5"],
        &["1:", "5"],
        &["0xA", "5"],
        &["--help"],
    ];
    for arguments in wrong {
        let (out, error) = printed(arguments);
        assert_eq!(out, "", "{arguments:?}");
        assert!(error.starts_with("usage: census [MANTISSA EXPONENT]"), "{arguments:?}: {error}");
    }
}
