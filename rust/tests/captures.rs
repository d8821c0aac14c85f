//! Captures, as `lightshow` prints them; and that the types give the same colours when they run a capture's bodies.
mod common;

use common::*;
use lighting::{print_capture, Fragment, HardwareCopy, Refusal, Unit};
use std::fmt::Write;
use std::path::Path;

fn bytes(words: &[u32]) -> Vec<u8> {
    words.iter().flat_map(|word| word.to_le_bytes()).collect()
}

fn words(bytes: &[u8]) -> Vec<u32> {
    bytes.chunks(4).map(|word| u32::from_le_bytes(word.try_into().unwrap())).collect()
}

/// Document 01's whole case.
fn whole_case() -> Vec<u32> {
    let mut words = vec![2, 1, 7, 0xA, 2, 0x11, 0x17];
    words.extend(WHOLE_CASE.iter().flatten());
    words.extend([0; 23]);
    words
}

/// Runs the bodies of a capture that is not refused on a unit and a copy.
fn run(capture: &[u32]) -> String {
    let (mut unit, mut copy) = (Unit::new(), HardwareCopy::new());
    let mut printed = String::new();
    for triple in capture[1..][..3 * capture[0] as usize].chunks(3) {
        let body = &capture[triple[1] as usize..][..triple[2] as usize];
        match triple[0] {
            1 => unit.write_all(&body.chunks(2).map(|pair| [pair[0], pair[1]]).collect::<Vec<_>>()).unwrap(),
            2 => {
                unit.hand_over(&mut copy);
                for fragment in body.chunks(23) {
                    match copy.shade(&Fragment::from_words(fragment.try_into().unwrap())) {
                        Some(colours) => writeln!(printed, "{colours}").unwrap(),
                        None => printed += "off\n",
                    }
                }
            }
            3 => unit.restore(body.try_into().unwrap()).unwrap(),
            kind => panic!("no body is of kind {kind}"),
        }
    }
    printed
}

#[test]
fn the_whole_case_prints_its_line() {
    let mut capture = whole_case();
    assert_eq!(print_capture(&bytes(&capture)), Ok(format!("{WHITE}\n")));
    // the first pair's value
    capture[8] = 0;
    assert_eq!(print_capture(&bytes(&capture)), Ok("off\n".into()));
}

#[test]
fn bad_captures_are_refused() {
    let good = bytes(&whole_case());
    let with = |at: usize, word: u32| {
        let mut words = whole_case();
        words[at] = word;
        print_capture(&bytes(&words)).map_err(Refusal::number)
    };
    assert_eq!(print_capture(&[]), Err(Refusal::BadCapture));
    assert_eq!(Refusal::BadCapture.number(), 8);
    assert_eq!(print_capture(&good[..good.len() - 1]), Err(Refusal::BadCapture));
    assert_eq!(print_capture(&good[..good.len() - 4]), Err(Refusal::BadCapture));
    assert_eq!(print_capture(&[&good[..], &[0; 4]].concat()), Err(Refusal::BadCapture));
    assert_eq!(print_capture(&vec![0; 65_540]), Err(Refusal::BadCapture));
    assert_eq!(with(0, 17), Err(8));
    assert_eq!(with(1, 4), Err(8));
    assert_eq!(with(2, 8), Err(8));
    assert_eq!(with(3, 9), Err(8));
    assert_eq!(with(6, 22), Err(8));
}

#[test]
fn a_register_too_high_is_refused_after_a_bad_capture() {
    let mut capture = whole_case();
    capture[15] = 474;
    assert_eq!(print_capture(&bytes(&capture)), Err(Refusal::HighRegister));
    assert_eq!(Refusal::HighRegister.number(), 3);
    capture.push(0);
    assert_eq!(print_capture(&bytes(&capture)), Err(Refusal::BadCapture));
    assert_eq!(print_capture(&bytes(&[0])), Ok(String::new()));
}

#[test]
fn the_largest_print_has_room() {
    let mut capture = vec![1, 2, 4, 712 * 23];
    capture.resize(4 + 712 * 23, 0);
    assert_eq!(print_capture(&bytes(&capture)), Ok("off\n".repeat(712)));

    // a light whose two colours are white, so that every line is of the longest
    let writes: Vec<u32> = WHOLE_CASE.iter().flatten().copied().chain([0x140, 0x0FF3_FCFF]).collect();
    let mut capture = vec![2, 1, 7, 12, 2, 19, 711 * 23];
    capture.extend(writes);
    capture.resize(19 + 711 * 23, 0);
    assert_eq!(print_capture(&bytes(&capture)), Ok("255 255 255 255 255 255 255 255\n".repeat(711)));
}

#[test]
fn the_types_give_what_a_capture_prints() {
    assert_eq!(run(&whole_case()), format!("{WHITE}\n"));

    let mut random = Random(7);
    for _ in 0..10 {
        let saved = random.unit();
        let mut writes: Vec<u32> = (0x140..0x1C5).chain(0x1D0..0x1DA).flat_map(|register| [register, saved.registers()[register as usize]]).collect();
        writes.extend([0x08F, 1]);
        let fragments: Vec<u32> = (0..40).flat_map(|_| random.fragment().to_words()).collect();
        let mut capture = vec![4, 2, 13, 23, 3, 36, 12_288, 1, 12_324, writes.len() as u32];
        capture.extend([2, 12_324 + writes.len() as u32, fragments.len() as u32]);
        capture.extend(fragments[..23].iter().chain(saved.tables()).chain(&writes).chain(&fragments));
        let printed = print_capture(&bytes(&capture)).unwrap();
        assert_eq!(printed.lines().count(), 41);
        assert!(printed.starts_with("off\n") && !printed.ends_with("off\n"));
        assert_eq!(printed, run(&capture));
    }
}

/// The repository's examples, each a capture with what `lightshow` prints of it.
#[test]
fn the_examples_print_as_recorded() {
    let examples = Path::new(env!("CARGO_MANIFEST_DIR")).join("../examples");
    let mut compared = 0;
    for file in std::fs::read_dir(examples).unwrap() {
        let path = file.unwrap().path();
        if path.extension().map_or(false, |extension| extension == "capture") {
            let capture = std::fs::read(&path).unwrap();
            let recorded = std::fs::read_to_string(path.with_extension("out")).unwrap();
            assert_eq!(print_capture(&capture), Ok(recorded.clone()), "{}", path.display());
            assert_eq!(run(&words(&capture)), recorded, "{}", path.display());
            compared += 1;
        }
    }
    assert!(compared > 0);
}
