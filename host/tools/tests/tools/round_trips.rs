use super::random::Random;
use super::{capture, errors, lightshow, Folder};
use lighting_tools::bodies::{bytes, Body, Kind};
use lighting_tools::drawing::run;
use lighting_tools::pack::pack;
use lighting_tools::unpack::unpack;
use std::path::Path;

/// A capture's text, and the bytes that it packs to.
fn again(input: &[u8]) -> (String, Vec<u8>) {
    let unpacked = unpack(input);
    assert_eq!(unpacked.refusal, None, "{}", unpacked.text);
    let packed = pack(&unpacked.text, Path::new("")).unwrap_or_else(|wrong| panic!("{wrong}\n{}", unpacked.text));
    (unpacked.text, bytes(&packed))
}

#[test]
fn unpacking_and_packing_gives_the_same_bytes() {
    let mut r = Random(1);
    let (mut none, mut empty, mut alike, mut restores, mut largest) = (0, 0, 0, 0, 0);
    for at in 0..5_000 {
        let bodies = r.bodies();
        let input = bytes(&bodies);
        let (text, packed) = again(&input);
        assert!(packed == input, "capture {at}:\n{text}");
        largest = largest.max(text.len());
        none += bodies.is_empty() as u32;
        empty += bodies.iter().filter(|body| body.words.is_empty()).count();
        alike += bodies.windows(2).filter(|two| two[0].kind == two[1].kind).count();
        restores += bodies.iter().filter(|body| body.kind == Kind::Restore).count();
        // now and then it is asked whether it is a capture at all
        if at % 50 == 0 {
            let output = run(&lightshow(), &input).unwrap();
            assert!(!output.starts_with("refused"), "capture {at}: {output}");
        }
    }
    assert!(none > 300 && empty > 1_000 && alike > 1_000 && restores > 100, "hardly met: {none}, {empty}, {alike}, {restores}");
    assert!(largest < 500_000, "a text of {largest} bytes");
}

/// Every register takes every form of value, and every float any bits.
#[test]
fn every_register_survives() {
    let mut r = Random(2);
    for register in 0..474 {
        let values = (0..32).map(|bit| 1 << bit).chain((0..32).map(|bit| u32::MAX >> bit)).chain((0..100).map(|_| r.word()));
        let words = values.flat_map(|value| [register, value]).collect();
        let input = bytes(&[Body { kind: Kind::Writes, words }]);
        assert!(again(&input).1 == input, "register {register:03X}");
    }
}

#[test]
fn by_the_program() {
    let (folder, mut r) = (Folder::new(), Random(3));
    for _ in 0..20 {
        let input = bytes(&r.bodies());
        let text = capture("unpack", &folder.file("a.capture", &input));
        assert!(text.status.success(), "{}", errors(&text));
        let packed = capture("pack", &folder.file("a.txt", &text.stdout));
        assert!(packed.status.success(), "{}", errors(&packed));
        assert!(packed.stdout == input);
    }
}

/// Bodies follow from the order of lines; `writes` and `hand over` begin one where the order does not.
#[test]
fn bodies_from_the_order_of_lines() {
    let kinds =
        |text: &str| -> Vec<(u32, usize)> { pack(text, Path::new("")).unwrap().iter().map(|body| (body.kind.number(), body.words.len())).collect() };
    assert_eq!(kinds(""), []);
    assert_eq!(kinds("# nothing\n\n"), []);
    assert_eq!(kinds("write enable 1\nwrite 0 0\nfragment\nfragment\nwrite 1 1"), [(1, 4), (2, 46), (1, 2)]);
    assert_eq!(kinds("writes\nwrite enable 1\nwrites\nwrites\nhand over\nhand over\nfragment"), [(1, 2), (1, 0), (1, 0), (2, 0), (2, 23)]);
    assert_eq!(kinds("fragment\nrestore\r\nwrite lights 0 1\n"), [(2, 23), (3, 12_288), (1, 4)]);
    assert_eq!(kinds("restore zero\ntable spot0 constant 1\nupload spot0 constant 1"), [(3, 12_288), (1, 514)]);
    assert_eq!(kinds("\u{FEFF}\tfragment 0 0 0 1 # a tab, a mark at the start"), [(2, 23)]);
}
