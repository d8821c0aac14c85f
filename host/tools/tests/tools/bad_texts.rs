use super::random::Random;
use super::{capture, errors, repository, Folder};
use lighting_tools::bodies::{bytes, Body, Kind};
use lighting_tools::pack::pack;
use lighting_tools::unpack::unpack;
use std::fs;
use std::path::Path;

/// Texts, the line that is wrong, and what is said of it.
const BAD: [(&str, usize, &str); 76] = [
    ("wrtie enable 1", 1, "no line begins with 'wrtie'; is it 'write'?"),
    ("\n# fine\nwrite enable 1\nfrobnicate", 4, "no line begins with 'frobnicate'"),
    ("lights 0 1", 1, "a register is set by 'write lights ...'"),
    ("light0.diffuse rgb(1 2 3)", 1, "a register is set by 'write light0.diffuse ...'"),
    ("write", 1, "a write has a register and a value"),
    ("write enable", 1, "the value is missing; it is a word, as 1 or 0x1"),
    ("write light0.diffuse #FF8000", 1, "the value is missing; a colour is rgb(255 128 0)"),
    ("write enable 1 2", 1, "'2' stands after the value"),
    ("write enable yes", 1, "'yes' is no value for this register; it is a word, as 1 or 0x1"),
    ("write enable -1", 1, "'-1' is no word: a word is 0 to 4294967295, or 0x0 to 0xFFFFFFFF"),
    ("write enable 4294967296", 1, "'4294967296' is no word"),
    ("write enable 0x", 1, "'0x' is no word"),
    ("write enable 0x1FFFFFFFF", 1, "'0x1FFFFFFFF' is no word"),
    ("write enable 1.5", 1, "'1.5' is no word"),
    ("write 474 1", 1, "register 474 is above 473 (0x1D9), the last"),
    ("write 0x1DA 1", 1, "register 474 is above 473 (0x1D9), the last"),
    ("write lihgt0.diffuse 1", 1, "no register is called 'lihgt0.diffuse'; is it 'light0.diffuse'?"),
    ("write light8.diffuse 1", 1, "no register is called 'light8.diffuse'"),
    ("write x 1", 1, "no register is called 'x'"),
    ("write light0.diffuse 255 128 0", 1, "'255 128 0' is no value for this register; a colour is rgb(255 128 0)"),
    ("write light0.diffuse rgb(255 128)", 1, "'rgb(255 128)' is no value for this register; a colour is rgb(255 128 0)"),
    ("write light0.diffuse rgb(255 128 1024)", 1, "'1024' is not a whole number from 0 to 1023"),
    ("write light0.diffuse rgb(255 128 0", 1, "the bracket is not closed"),
    ("write light0.diffuse hsv(1 2 3)", 1, "'hsv(1 2 3)' is no value for this register; a colour is rgb(255 128 0)"),
    ("write light0.diffuse half(1 2)", 1, "'half(1 2)' is no value for this register; a colour is rgb(255 128 0)"),
    ("write light0.position_z half(1 2)", 1, "'half(1 2)' is no value for this register; z is half(0.5)"),
    ("write enable rgb(255 0 0)", 1, "'rgb(255 0 0)' is no value for this register; it is a word, as 1 or 0x1"),
    ("write config0 rgb(255 0 0)", 1, "'rgb(255 0 0)' is no value for this register; it has names for its fields, or is a word"),
    ("write light0.position_z 0.5", 1, "'0.5' is no word: a word is 0 to 4294967295, or 0x0 to 0xFFFFFFFF; z is half(0.5)"),
    ("write light0.position_z half(1e9)", 1, "1e9 is above 65504, the largest half"),
    ("write light0.position_z half(nan)", 1, "'nan' is not a number"),
    ("write light0.position 1 2", 1, "a position is three numbers, x, y and z"),
    ("write light0.position half(1 2 3)", 1, "these are plain numbers, without a bracket"),
    ("write light0.spot 0 0 3", 1, "3 is not between -2 and 2"),
    ("write light0.distance 1", 1, "a distance is two numbers, the bias and the scale"),
    ("write lights", 1, "the lights are one to eight light numbers"),
    ("write lights 0 1 2 3 4 5 6 7 0", 1, "the lights are one to eight light numbers"),
    ("write lights 8", 1, "'8' is not a whole number from 0 to 7"),
    ("write config0 shaddow", 1, "the register has no field 'shaddow'; is it 'shadow'?"),
    ("write config0 shadow=1", 1, "shadow is set by its name alone"),
    ("write config0 configuration", 1, "configuration needs a number, as configuration=1"),
    ("write config0 configuration=16", 1, "'16' is not a whole number from 0 to 15"),
    ("write config0 bump=round", 1, "'round' is not a whole number from 0 to 3, or one of normal tangent"),
    ("write config1 no_spot no_spot3", 1, "no_spot3 sets a bit that is set before it on the line"),
    ("write table_data entry(4096 0)", 1, "'4096' is not a whole number from 0 to 4095"),
    ("write table_data entry(0 2048)", 1, "'2048' is not a whole number from -2047 to 2047"),
    ("writes 3", 1, "'3' stands after 'writes'"),
    ("hand-over", 1, "no line begins with 'hand-over'; is it 'hand over'?"),
    ("handover", 1, "no line begins with 'handover'; is it 'hand over'?"),
    ("hand over 2", 1, "the line is 'hand over', without a number"),
    ("fragment 0 0 0", 1, "in all 4, 7, 11, 15, 19 or 23, not 3"),
    ("fragment 0 0 0 1, 0 0", 1, "the view has 3 numbers, not 2"),
    ("fragment 0 0 0 1, 0 0 1, 1 1 1", 1, "texel 0 has 4 numbers, not 3"),
    ("fragment 0 0 0 1, 0 0 1, 0 0 0 0, 0 0 0 0, 0 0 0 0, 0 0 0 0, 0 0 0 0", 1, "a fragment has six parts"),
    ("fragment 0 0 0 one", 1, "'one' is not a number"),
    ("fragment 0 0 0 1e39", 1, "1e39 is too large for a float"),
    ("fragment 0 0 0 1e400", 1, "1e400 is too large"),
    ("fragment 0 0 0 0x123456789", 1, "'0x123456789' is no word"),
    ("restore now", 1, "a restore is 'restore', 'restore zero' or 'restore file NAME'"),
    ("restore file nowhere.tables", 1, "nowhere.tables cannot be read"),
    ("restore file short.tables", 1, "short.tables has 4 bytes, and a restore has 49152"),
    ("write enable 1\ntable spot0 constant 1", 2, "the line belongs below a 'restore'"),
    ("restore\ntable spt0 constant 1", 2, "no table is called 'spt0'; is it 'spot0'?"),
    ("restore\ntable 24 constant 1", 2, "no table is called '24'"),
    ("restore\ntable +5 constant 1", 2, "no table is called '+5'"),
    ("restore\ntable spot0", 2, "the curve is missing"),
    ("restore\ntable spot0 wave 1", 2, "no curve is called 'wave'"),
    ("restore\ntable spot0 ramp 1", 2, "ramp takes two numbers"),
    ("restore\ntable spot0 constant 1e39", 2, "the curve is too large for floats near entry 0"),
    ("restore\ntable spot0 ramp -1e308 1e308", 2, "the curve is too large for floats near entry 0"),
    ("restore\nentries spot0 0 1", 2, "each entry has a value and a step, and the count of numbers here is 1"),
    ("restore\nentries spot0 255 1 2 3 4", 2, "the last of these entries is above 255"),
    ("restore\nentries spot0 9..3 1 2", 2, "from the lower entry to the higher"),
    ("upload spot0 ramp 0 2", 1, "the curve has 1.0078125 near entry 128, and an upload holds 0 to 1"),
    ("upload spot0 cone 0.9 0.5", 1, "is below the second"),
    ("restore\nrestore", 2, "with this line the capture has 98332 bytes, and 65536 is the most"),
];

#[test]
fn a_bad_text_gives_its_line_and_no_capture() {
    let folder = Folder::new();
    folder.file("short.tables", [0; 4]);
    for (text, line, what) in BAD {
        let path = folder.file("scene.txt", text);
        let output = capture("pack", &path);
        let said = errors(&output);
        assert_eq!(output.status.code(), Some(1), "{text}");
        assert!(output.stdout.is_empty(), "{text}");
        assert!(said.starts_with(&format!("{}:{line}: ", path.display())) && said.contains(what), "{text}\n{said}");
        assert_eq!(said.lines().count(), 1, "{said}");
    }
}

#[test]
fn a_text_that_grows_too_large_says_where() {
    let folder = Folder::new();
    let said = |text: String| {
        let output = capture("pack", &folder.file("scene.txt", text));
        assert!(output.status.code() == Some(1) && output.stdout.is_empty());
        errors(&output)
    };
    // 712 fragments fit: 4 words of contents and 16,376 of fragments
    assert!(capture("pack", &folder.file("scene.txt", "fragment\n".repeat(712))).status.success());
    assert!(said("fragment\n".repeat(713)).contains("scene.txt:713: with this line the capture has 65612 bytes"));
    assert!(capture("pack", &folder.file("scene.txt", "hand over\n".repeat(16))).status.success());
    assert!(said("hand over\n".repeat(17)).contains("scene.txt:17: this line begins a seventeenth body"));
}

/// However long a word is, and whatever stands in it, what is said of it can be read.
#[test]
fn an_endless_word_is_said_shortly() {
    let said = |line: &str| pack(line, Path::new("")).unwrap_err().what;
    let endless = "a".repeat(1_000_000);
    for line in ["write {} 1", "write enable {}", "write config0 {}", "{}", "fragment 0 0 0 {}", "upload {} constant 1", "restore file {}"] {
        let said = said(&line.replace("{}", &endless));
        assert!(said.contains("aaa ... ") && said.chars().count() < 500, "{said}");
    }
    assert_eq!(said("write \x1B[2J 1"), "no register is called '?[2J'");
}

#[test]
fn other_files_are_told_apart() {
    let folder = Folder::new();
    let input = bytes(&[Body { kind: Kind::Writes, words: vec![0x8F, 1] }]);
    let output = capture("pack", &folder.file("a.capture", input));
    assert!(output.status.code() == Some(1) && output.stdout.is_empty());
    assert!(errors(&output).contains("if it is a capture, 'capture unpack' gives its text"));
    let output = capture("pack", &folder.file("a.txt", "write enable 1\nwrite \0enable 1\n"));
    assert!(output.status.code() == Some(1) && errors(&output).contains("a.txt:2: a byte is 0, so this is no text"));
    let output = capture("unpack", &folder.file("a.txt", "write enable 1\n"));
    assert!(output.status.code() == Some(1) && output.stdout.is_empty());
    assert!(
        errors(&output).ends_with("a.txt: this looks like a text; 'capture pack' makes a capture of it\n") && errors(&output).lines().count() == 1
    );
    let output = capture("pack", &folder.file("a.txt", b"write enable 1\nwrite \xFF 1\n"));
    assert!(output.status.code() == Some(1) && errors(&output).contains("a.txt:2: the line is not UTF-8"));
    let output = capture("pack", &folder.0.join("none.txt"));
    assert!(output.status.code() == Some(1) && errors(&output).contains("none.txt: "));
}

/// Whatever a text has become, it is packed or refused; what is packed is a capture.
#[test]
fn texts_with_slips_are_packed_or_refused() {
    let mut r = Random(6);
    let names = ["lamp", "lantern", "spotlight", "eight_lights", "bump_and_shadow", "whole_case"];
    let texts = names.map(|name| fs::read_to_string(repository().join(format!("examples/{name}.txt"))).unwrap());
    let more = "restore\ntable spot0 signed cone -0.5 0.5\nentries 3 4..9 1 -2\nentries fresnel 250 1 2 3 4\nhand over\nwrites\nwrite 0x1D9 7\n";
    let (mut packed, mut refused) = (0, 0);
    for _ in 0..4_000 {
        let mut text: Vec<char> = [&texts[r.below(6) as usize], more].concat().chars().collect();
        // only a few lines, so that most slips are met
        let from = r.below(text.len() as u32) as usize;
        text = text[from..].iter().copied().skip_while(|c| *c != '\n').take(200).collect();
        for _ in 0..r.below(4) {
            let at = r.below(text.len().max(1) as u32) as usize;
            let slip = ['0', '9', '-', '.', ' ', '\n', '(', ')', ',', '=', 'x', 'e', 'é', '\u{0}', '#'][r.below(15) as usize];
            match r.below(3) {
                0 if at < text.len() => drop(text.remove(at)),
                1 if at < text.len() => text[at] = slip,
                _ => text.insert(at, slip),
            }
        }
        let text: String = text.into_iter().collect();
        match pack(&text, Path::new("")) {
            Ok(bodies) => {
                packed += 1;
                assert_eq!(unpack(&bytes(&bodies)).refusal, None, "{text}");
            }
            Err(wrong) => {
                refused += 1;
                assert!((1..=text.lines().count()).contains(&wrong.line) && !wrong.what.is_empty(), "{wrong}\n{text}");
            }
        }
    }
    assert!(packed > 500 && refused > 500, "{packed} packed, {refused} refused");
}
