use super::random::Random;
use super::{capture, errors, lightshow, Folder};
use lighting_tools::bodies::{bytes, layout, words, Body, Kind};
use lighting_tools::drawing::run;
use lighting_tools::pack::pack;
use lighting_tools::unpack::unpack;
use std::path::Path;

/// Unpacking knows what lightshow refuses, and with which number; what can be read still packs.
#[test]
fn damaged_captures_break_where_lightshow_refuses() {
    let mut r = Random(4);
    let mut met = [0; 9];
    for at in 0..500 {
        let input = r.damaged();
        let unpacked = unpack(&input);
        let output = run(&lightshow(), &input).unwrap();
        let printed = output.strip_prefix("refused ").map(|number| number.trim_end().parse().unwrap());
        assert_eq!(unpacked.refusal, printed, "capture {at}: {:?}", unpacked.breaks);
        assert_eq!(unpacked.refusal.is_none(), unpacked.breaks.is_empty());
        met[printed.unwrap_or(0) as usize] += 1;
        let again = pack(&unpacked.text, Path::new("")).unwrap_or_else(|wrong| panic!("capture {at}: {wrong}"));
        let there = layout(&input).bodies;
        assert!(again.len() == there.len() && again.iter().zip(&there).all(|(a, (_, b))| a.kind == b.kind), "capture {at}");
    }
    assert!([0, 3, 8].iter().all(|number| met[*number] > 20), "a case was hardly met: {met:?}");
}

/// The whole case with a lamp before it: contents 10 words, then 4, 10 and 23.
fn good() -> Vec<u32> {
    let pairs = |words: &[u32]| Body { kind: Kind::Writes, words: words.to_vec() };
    let whole = [0x8F, 1, 0x142, 0x0FF3_FCFF, 0x145, 0x3C00, 0x149, 1, 0x1C4, 0xFFFF_FFFF];
    let bodies = [pairs(&[0x1C0, 5, 0x1C2, 0]), pairs(&whole), Body { kind: Kind::Fragments, words: vec![0; 23] }];
    words(&bytes(&bodies))
}

#[test]
fn the_place_is_named() {
    let folder = Folder::new();
    let with = |at: usize, word: u32| {
        let mut words = good();
        words[at] = word;
        words
    };
    let seen = "write global_ambient 5";
    let cases = [
        (with(0, 17), "word 0 (byte 0): the capture says that it has 17 bodies", ""),
        (with(0, 9), "word 1 (byte 4)", ""),
        (with(1, 9), "word 1 (byte 4): body 1 is of kind 9", ""),
        (with(4, 0), "word 4 (byte 16): body 2 is of kind 0", seen),
        (with(5, 15), "word 5 (byte 20): body 2 is said to start at word 15, and what stands before it ends at word 14", seen),
        (with(6, 9), "word 6 (byte 24): body 2 is said to have 9 words, and register and value come in pairs", "write light0.flags directional"),
        (with(9, 22), "word 9 (byte 36): body 3 is said to have 22 words, and a fragment has 23", "hand over"),
        (with(9, 46), "word 47 (byte 188): body 3 goes on to word 70, and the file ends before", "fragment 0 0 0 0, 0 0 0"),
        ([good(), vec![7, 7]].concat(), "word 47 (byte 188): 2 words stand after the last body", "fragment 0 0 0 0, 0 0 0"),
        (good()[..20].to_vec(), "word 20 (byte 80): body 2 goes on to word 24, and the file ends before", "write light0.position_z half(1)"),
        (good()[..5].to_vec(), "word 5 (byte 20): the contents of 3 bodies are 9 words, and the file ends before", ""),
        (
            with(16, 500),
            "word 16 (byte 64): register 500 is above 473, the last",
            "# no register: write 500 0x0FF3FCFF\nwrite light0.position_z half(1)",
        ),
    ];
    for (words, place, last) in cases {
        let input: Vec<u8> = words.iter().flat_map(|word| word.to_le_bytes()).collect();
        let output = capture("unpack", &folder.file("a.capture", &input));
        let (said, text) = (errors(&output), String::from_utf8_lossy(&output.stdout).into_owned());
        assert_eq!(output.status.code(), Some(1), "{said}");
        if place.contains(": ") {
            assert!(said.contains(place), "{said}");
        }
        let number = if place.contains("register 500") { 3 } else { 8 };
        assert!(said.contains(&format!("lightshow refuses this capture with {number}")), "{said}");
        assert!(text.contains(last), "{text}");
    }
    let empty = capture("unpack", &folder.file("empty.capture", []));
    assert!(empty.status.code() == Some(1) && errors(&empty).contains("word 0 (byte 0): the first word, the number of bodies, is not there"));
    let odd = capture("unpack", &folder.file("odd.capture", &bytes(&[])[..3]));
    assert!(errors(&odd).contains("the file ends after 3 of the four bytes of a word"));
}
