use super::Folder;
use lighting_tools::bodies::{bytes, words, Body, Kind};
use lighting_tools::names::{form, Form};
use lighting_tools::pack::pack;
use lighting_tools::unpack::unpack;
use lighting_tools::values::{float, float_text, value, value_text};
use std::path::Path;

fn bodies(text: &str) -> Vec<Body> {
    pack(text, Path::new("")).unwrap_or_else(|wrong| panic!("{wrong}"))
}

/// The register and value pairs of a text with one body.
fn writes(text: &str) -> Vec<[u32; 2]> {
    let bodies = bodies(text);
    assert!(bodies.len() == 1 && bodies[0].kind == Kind::Writes);
    bodies[0].words.chunks(2).map(|pair| [pair[0], pair[1]]).collect()
}

#[test]
fn the_whole_case_by_names() {
    let text = "write enable 1\nwrite light0.diffuse rgb(255 255 255)\nwrite light0.position_z half(1)\nwrite light0.flags directional\n\
                write config1 0xFFFFFFFF\nfragment\n";
    let bodies = bodies(text);
    assert_eq!(bodies[0].words, [0x8F, 1, 0x142, 0x0FF3_FCFF, 0x145, 0x3C00, 0x149, 1, 0x1C4, 0xFFFF_FFFF]);
    assert_eq!(bodies[1].words, [0; 23]);
}

#[test]
fn registers_by_name_and_by_number() {
    for (name, register) in [
        ("enable", 0x8F),
        ("light0.specular0", 0x140),
        ("light3.diffuse", 0x172),
        ("light7.distance_scale", 0x1BB),
        ("light5.flags", 0x199),
        ("global_ambient", 0x1C0),
        ("light_count", 0x1C2),
        ("config0", 0x1C3),
        ("config1", 0x1C4),
        ("table_index", 0x1C5),
        ("disable", 0x1C6),
        ("table_data", 0x1C8),
        ("table_data0", 0x1C8),
        ("table_data7", 0x1CF),
        ("table_absolute", 0x1D0),
        ("table_input", 0x1D1),
        ("table_scale", 0x1D2),
        ("slots", 0x1D9),
        ("0x1d9", 0x1D9),
        ("473", 0x1D9),
        ("0", 0),
    ] {
        assert_eq!(writes(&format!("write {name} 7")), [[register, 7]], "{name}");
    }
}

/// Document 01's cases of short floats and spot components, and the forms' other ends.
#[test]
fn value_forms() {
    for (register, text, word) in [
        (0x145, "half(1)", 0x3C00),
        (0x145, "half(-0)", 0x8000),
        (0x145, "half(0.00003054738)", 0x0001),
        (0x145, "half(inf)", 0x7C00),
        (0x145, "half(65504)", 0x7BFF),
        (0x144, "half(0.1 -2)", 0xC000_2E66),
        (0x14A, "float20(1)", 0x3F000),
        (0x14A, "float20(0.25)", 0x3D000),
        (0x14B, "float20(-inf)", 0xFF000),
        (0x146, "fixed(-0.00048852 1)", 0x07FF_1FFF),
        (0x147, "fixed(-1)", 0x1801),
        (0x142, "rgb(1023 0 1)", 0x3FF0_0001),
        (0x142, "rgb(1, 2, 3)", 0x0010_0803),
        (0x1C8, "entry(4095 -0)", 0x0080_0FFF),
        (0x1C8, "entry(0 -2047)", 0x00FF_F000),
        (0x1C3, "configuration=5 bump=tangent bump_unit=3 shadow", 0x20C0_0051),
        (0x1C4, "no_shadow1 no_spot no_reflect no_distance7", 0x8070_FF02),
        (0x1C5, "table=distance2 entry=255", 0x12FF),
        (0x1D0, "signed_spot signed_reflect_red", 0x0200_0200),
        (0x1D1, "spot=light_spot fresnel=normal_view", 0x2400),
        (0x1D2, "distribution0=x0.25 reflect_red=x8", 0x0300_0006),
        (0x149, "two_sided geometric1", 0xA),
    ] {
        assert_eq!(value(form(register), text), Ok(word), "{text}");
    }
    assert_eq!(writes("write light2.position 1 -2 0.5"), [[0x164, 0xC000_3C00], [0x165, 0x3800]]);
    assert_eq!(writes("write light2.spot 0 1, -1"), [[0x166, 0x07FF_0000], [0x167, 0x1801]]);
    assert_eq!(writes("write light2.distance 0 0.25"), [[0x16A, 0], [0x16B, 0x3D000]]);
    assert_eq!(writes("write lights 3 1 7 7"), [[0x1C2, 3], [0x1D9, 0x7713]]);
}

/// Every number that a register can hold is printed as a number, and reads back as the same bits.
#[test]
fn every_pattern_of_a_form_is_printed_readably() {
    let plain = |form: Form, word: u32| {
        let text = value_text(form, word);
        assert_eq!(value(form, &text), Ok(word));
        !text.starts_with("0x")
    };
    // only a NaN has no number
    assert!((0..1 << 16).all(|word| plain(Form::Halves(1), word) == (word & 0x7FFF <= 0x7C00)));
    assert!((0..1 << 20).step_by(5).all(|word| plain(Form::Float20, word) == (word & 0x7FFFF <= 0x7F000)));
    assert!((0..1 << 13).all(|word| plain(Form::Fixed(1), word) && plain(Form::Fixed(2), word << 16 | 5)));
    assert!((0..1 << 24).step_by(37).all(|word| plain(Form::Entry, word)));
    assert!((0..1 << 30).step_by(4_001).all(|word| plain(Form::Colour, word)));
}

/// A number between two of a form becomes the nearer, and of two as near the even one.
#[test]
fn numbers_are_rounded_to_the_nearest() {
    for (form, text, word) in [
        (Form::Halves(1), "half(1.00048828125)", 0x3C00),
        (Form::Halves(1), "half(1.0004883)", 0x3C01),
        (Form::Halves(1), "half(1.00146484375)", 0x3C02),
        (Form::Halves(1), "half(0.0000152)", 0x0000),
        (Form::Halves(1), "half(0.0000153)", 0x0001),
        (Form::Float20, "float20(1.0001220703125)", 0x3F000),
        (Form::Float20, "float20(1.0001221)", 0x3F001),
        (Form::Fixed(1), "fixed(0.0002442)", 0),
        (Form::Fixed(1), "fixed(0.0002443)", 1),
    ] {
        assert_eq!(value(form, text), Ok(word), "{text}");
    }
}

#[test]
fn floats_keep_their_bits() {
    for (text, bits) in
        [("1", 0x3F80_0000), ("-0", 0x8000_0000), ("0.1", 0x3DCC_CCCD), ("1e-45", 1), ("inf", 0x7F80_0000), ("0xFFFFFFFF", !0), (".5", 0x3F00_0000)]
    {
        assert_eq!(float(text), Ok(bits), "{text}");
    }
    assert_eq!(float_text(0x3F80_0000), "1");
    assert_eq!(float_text(0x7FC0_0001), "0x7FC00001");
    assert_eq!(float_text(0xFF80_0000), "-inf");
    for bits in (0..u32::MAX).step_by(65_537) {
        assert_eq!(float(&float_text(bits)), Ok(bits));
    }
}

#[test]
fn curves_and_restores() {
    let restored = |text: &str| words(&bytes(&bodies(text)))[4..].to_vec();
    let table = |text: &str, table: usize| {
        restored(&format!("restore\n{text}"))[512 * table..][..512].iter().map(|word| f32::from_bits(*word)).collect::<Vec<_>>()
    };
    assert!(restored("restore").iter().all(|word| *word == 0) && restored("restore zero").len() == 12_288);
    let ramp = table("table 2 ramp 1 0", 2);
    assert!((0..256).all(|i| ramp[2 * i] == 1.0 - i as f32 / 256.0 && ramp[2 * i + 1] == -1.0 / 256.0));
    let square = table("table reflect_red power 2", 6);
    assert!((0..256).all(|i| square[2 * i] == (i * i) as f32 / 65_536.0 && square[2 * i + 1] == (2 * i + 1) as f32 / 65_536.0));
    // a signed table has 0 to 1 in its first half and −1 to 0 in its second
    let signed = table("table spot0 signed ramp 0 1", 8);
    assert_eq!([signed[0], signed[254], signed[256], signed[510]], [0.0, 127.0 / 128.0, -1.0, -1.0 / 128.0]);
    let cone = table("table spot7 cone 0.25 0.75", 15);
    assert_eq!([cone[0], cone[2 * 64], cone[2 * 128], cone[2 * 192], cone[510]], [0.0, 0.0, 0.5, 1.0, 1.0]);
    let falloff = table("table distance0 falloff 3", 16);
    assert_eq!([falloff[0], falloff[2 * 128]], [1.0, 1.0 / 1.75]);
    let steps = table("table distribution1 steps 3", 1);
    assert_eq!([steps[0], steps[2 * 100], steps[2 * 85 + 1], steps[510]], [0.0, 0.5, 0.5, 1.0]);
    let fresnel = table("table fresnel fresnel 0.5", 3);
    assert_eq!([fresnel[0], fresnel[2 * 128]], [1.0, 0.5 + 0.5 / 32.0]);
    let entries = table("table 0 constant 3\nentries 0 10..12 0.5 -1\nentries distribution0 254 1 2 3 0xFFFFFFFF", 0);
    assert_eq!(entries[18..28], [3.0, 0.0, 0.5, -1.0, 0.5, -1.0, 0.5, -1.0, 3.0, 0.0]);
    assert_eq!(entries[506..511], [3.0, 0.0, 1.0, 2.0, 3.0]);
    assert_eq!(entries[511].to_bits(), u32::MAX);
}

#[test]
fn a_restore_from_a_file() {
    let folder = Folder::new();
    let saved: Vec<u8> = (0..49_152u32).map(|i| (i % 251) as u8).collect();
    folder.file("saved.tables", &saved);
    let bodies = pack("restore file saved.tables\nentries 23 255 1 2", &folder.0).unwrap();
    assert_eq!(bodies[0].words[..12_286], words(&saved)[..12_286]);
    assert_eq!(bodies[0].words[12_286..], [1.0f32.to_bits(), 2.0f32.to_bits()]);
}

#[test]
fn an_upload_is_257_writes() {
    let all = writes("upload distance1 ramp 0 1");
    assert_eq!((all.len(), all[0]), (257, [0x1C5, 0x1100]));
    for (i, [register, word]) in all[1..].iter().enumerate() {
        let (value, next) = ((i as f64 * 4095.0 / 256.0).round(), ((i + 1) as f64 * 4095.0 / 256.0).round());
        assert_eq!(*register, 0x1C8);
        assert_eq!((word & 0xFFF, word >> 12), (value as u32, ((next - value) * 2047.0 / 4095.0).round() as u32));
    }
    assert_eq!(writes("upload 17 ramp 0 1"), all);
    assert_eq!(writes("upload 0x11 ramp 0 1"), all);
    let falling = writes("upload 0 ramp 1 0");
    assert!(falling[1..].iter().all(|[_, word]| word >> 23 == 1));
    assert_eq!(falling[1][1], 0x0080_8FFF);
}

/// A restore's text has no line for what is zero, one for each run, and four other entries to a line.
#[test]
fn a_restore_is_printed_by_runs() {
    let text = "restore\ntable distribution0 steps 3\nentries 2 5 1 2 3 4 5 6 7 8 9 10\n";
    let printed = unpack(&bytes(&bodies(text))).text;
    let lines: Vec<&str> = printed.lines().skip_while(|line| *line != "restore").collect();
    let expected = [
        "restore",
        "entries distribution0 85 0 0.5",
        "entries distribution0 86..169 0.5 0",
        "entries distribution0 170 0.5 0.5",
        "entries distribution0 171..255 1 0",
        "entries 2 5 1 2 3 4 5 6 7 8",
        "entries 2 9 9 10",
    ];
    assert_eq!(lines, expected);
}
