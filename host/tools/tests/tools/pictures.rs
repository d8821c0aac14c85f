use super::random::Random;
use super::{errors, picture, repository, Folder};
use std::fs;
use std::path::Path;
use std::process::{Command, Output};

fn example(name: &str) -> String {
    repository().join("examples").join(name).display().to_string()
}

fn said(output: &Output) -> String {
    assert!(output.status.success(), "{}", errors(output));
    String::from_utf8_lossy(&output.stdout).into_owned()
}

/// Small pictures of the examples, held to stored ones byte for byte.
#[test]
fn pictures_are_the_stored_ones() {
    let folder = Folder::new();
    for (stored, scene, options) in [
        ("lamp", "lamp.txt", &["--size", "24"][..]),
        ("lantern_before", "lantern.txt", &["--size", "16", "--shape", "both", "--hand-over", "1"]),
        ("lantern_after", "lantern.txt", &["--size", "16", "--shape", "both"]),
        ("spotlight", "spotlight.txt", &["--size", "24", "--shape", "plane"]),
        ("eight_lights", "eight_lights.txt", &["--size", "24"]),
        ("bump_and_shadow", "bump_and_shadow.txt", &["--size", "24", "--shape", "both"]),
    ] {
        let out = folder.0.join("out.png");
        let scene = example(scene);
        let arguments = [&[&scene, out.to_str().unwrap(), "--no-rust"], options].concat();
        said(&picture(&arguments));
        let path = Path::new(env!("CARGO_MANIFEST_DIR")).join("tests/pictures").join(format!("{stored}.png"));
        let drawn = fs::read(&out).unwrap();
        assert!(Some(&drawn) == fs::read(&path).ok().as_ref(), "{stored}: another picture than {}", path.display());
    }
}

/// No pixel of any example differs from the Rust module's.
#[test]
fn pictures_are_the_rust_modules() {
    if cfg!(not(oracle)) {
        assert!(std::env::var_os("CI").is_none(), "the Rust module is not at hand (LIGHTING_RS names its file)");
        println!("the Rust module is not at hand: no picture was compared with it (LIGHTING_RS names its file)");
        return;
    }
    let folder = Folder::new();
    let out = folder.0.join("out.png");
    for scene in ["lamp.txt", "lantern.txt", "spotlight.txt", "eight_lights.txt", "bump_and_shadow.txt", "whole_case.txt"] {
        for shape in ["sphere", "both"] {
            let output = picture(&[&example(scene), out.to_str().unwrap(), "--size", "40", "--shape", shape]);
            let pixels = if shape == "both" { 1600 } else { 928 };
            assert!(said(&output).contains(&format!("0 of {pixels} pixels differ from the Rust module's")), "{}", said(&output));
            // three rows of three panels, with margins of one
            assert_eq!(header(&fs::read(&out).unwrap()), (124, 124));
        }
    }
}

/// A program that colours its first fragment otherwise is found out, and the picture shows where.
#[cfg(all(oracle, unix))]
#[test]
fn a_pixel_that_differs_is_counted() {
    use std::os::unix::fs::PermissionsExt;
    let folder = Folder::new();
    let script = format!("#!/bin/sh\n'{}' | sed '1s/[0-9]* /7 /'\n", super::lightshow().display());
    let wrong = folder.file("wrong", script);
    fs::set_permissions(&wrong, fs::Permissions::from_mode(0o755)).unwrap();
    let out = folder.0.join("out.png");
    let scene = example("lamp.txt");
    let output = picture(&[&scene, out.to_str().unwrap(), "--size", "16", "--shape", "plane", "--lightshow", wrong.to_str().unwrap()]);
    assert_eq!(output.status.code(), Some(1));
    assert!(String::from_utf8_lossy(&output.stdout).contains("1 of 256 pixels differ from the Rust module's"), "{}", errors(&output));
    // three rows of 52 pixels by 18, margins of one: the third row's panels are black but for the first pixel of the primary and of the sum
    let pixels = read(&fs::read(&out).unwrap(), 52);
    let first = (1 + 2 * 17) * 52 + 1;
    let white: Vec<usize> = (first..52 * 52).filter(|at| pixels[3 * at..3 * at + 3] == [255; 3]).collect();
    assert_eq!(white, [first, first + 2 * 17]);
}

/// The program's path counts from where picture is run, also without a folder in it.
#[test]
fn a_program_in_this_folder_is_run() {
    let (folder, lightshow) = (Folder::new(), super::lightshow());
    let mut command = Command::new(env!("CARGO_BIN_EXE_picture"));
    command.args([&example("lamp.txt"), "--size", "8", "--lightshow", "lightshow"]).arg(folder.0.join("out.png"));
    said(&command.current_dir(lightshow.parent().unwrap()).output().unwrap());
}

#[test]
fn what_cannot_be_drawn_is_said() {
    let folder = Folder::new();
    let out = folder.0.join("out.png").display().to_string();
    let lamp = example("lamp.txt");
    let wrong = folder.file("wrong.txt", "write enable 1\nwrite lights zero\n").display().to_string();
    let full = folder.file("full.txt", "writes\n".repeat(16)).display().to_string();
    let large = folder.file("large.txt", "write 0 0\n".repeat(8_185)).display().to_string();
    for (arguments, what) in [
        (&[lamp.as_str()][..], "picture is run as"),
        (&[&lamp, "out.jpg"], "out.jpg does not end in .png"),
        (&[&lamp, &out, "--size", "0"], "'0' is not a size from 1 to 1024"),
        (&[&lamp, &out, "--shape", "cube"], "there are sphere, plane and both"),
        (&[&lamp, &out, "--hand-over", "2"], "there is no hand-over 2 in the scene: it has 1"),
        (&[&lamp, &out, "--lightshow", "/nowhere"], "there is no lightshow at /nowhere"),
        (&[&lamp, &out, "--lightshow", "/bin/false"], "ended with exit status: 1"),
        (&[&lamp, &out, "--lightshow", "/bin/true"], "is it lightshow?"),
        (&[&lamp, &out, "--lightshow", "/bin/cat"], "is it lightshow?"),
        (&[&lamp, &out, "--frame"], "there is no option --frame"),
        (&[&wrong, &out], "wrong.txt:2: 'zero' is not a whole number from 0 to 7"),
        (&[&full, &out], "the scene has 16 bodies"),
        (&[&large, &out], "leaves no room for a fragment"),
        (&["nowhere.txt", &out], "nowhere.txt: "),
    ] {
        let output = picture(arguments);
        assert_eq!(output.status.code(), Some(1), "{arguments:?}");
        assert!(errors(&output).contains(what), "{arguments:?}\n{}", errors(&output));
        assert!(!Path::new(&out).exists(), "{arguments:?}");
    }
    let off = folder.file("off.txt", "write enable 0\n").display().to_string();
    assert!(said(&picture(&[&off, &out, "--size", "8"])).contains("the lighting is off"));
    // the distance table of a fresh unit is zero
    let black = folder.file("black.txt", "write enable 1\nwrite light0.diffuse rgb(255 255 255)\n").display().to_string();
    assert!(said(&picture(&[&black, &out, "--size", "8"])).contains("every pixel is black"));
}

fn header(file: &[u8]) -> (u32, u32) {
    let word = |at: usize| u32::from_be_bytes(file[at..at + 4].try_into().unwrap());
    (word(16), word(20))
}

/// Pixels of every kind come back out of a file.
#[test]
fn png_files_hold_their_pixels() {
    let mut r = Random(5);
    for (width, height) in [(1, 1), (1, 300), (300, 1), (64, 64), (200, 150)] {
        for kind in 0..4 {
            let pixel = |i: usize, r: &mut Random| match kind {
                0 => 0,
                1 => r.word() as u8,
                2 => (i / 7) as u8,
                _ => [0, 0, 0, 255, (i % 50) as u8][r.below(5) as usize],
            };
            let pixels: Vec<u8> = (0..3 * width * height).map(|i| pixel(i, &mut r)).collect();
            let file = lighting_tools::png::file(width, height, &pixels);
            assert_eq!(header(&file), (width as u32, height as u32));
            assert!(read(&file, width) == pixels, "{width} x {height}, kind {kind}");
        }
    }
}

/// The pixels of a file of one IDAT chunk.
fn read(file: &[u8], width: usize) -> Vec<u8> {
    let length = u32::from_be_bytes(file[33..37].try_into().unwrap()) as usize;
    assert_eq!(&file[37..41], b"IDAT");
    let rows = inflated(&file[43..41 + length - 4]);
    let adler = rows.iter().fold([1u32, 0], |[a, b], byte| [(a + *byte as u32) % 65_521, (b + a + *byte as u32) % 65_521]);
    assert_eq!(file[41 + length - 4..41 + length], (adler[1] << 16 | adler[0]).to_be_bytes());
    let mut pixels: Vec<u8> = vec![];
    let bytes = 3 * width;
    for (y, row) in rows.chunks(bytes + 1).enumerate() {
        for x in 0..bytes {
            let left = if x < 3 { 0 } else { pixels[y * bytes + x - 3] as i32 };
            let above = if y == 0 { 0 } else { pixels[(y - 1) * bytes + x] as i32 };
            let corner = if x < 3 || y == 0 { 0 } else { pixels[(y - 1) * bytes + x - 3] as i32 };
            let nearest = *[left, above, corner].iter().min_by_key(|c| (left + above - corner - **c).abs()).unwrap();
            let guess = [0, left, above, (left + above) / 2, nearest][row[0] as usize];
            pixels.push((row[1 + x] as i32 + guess) as u8);
        }
    }
    pixels
}

/// Inflates one block with codes of its own (RFC 1951), whose code lengths are written without repeats.
fn inflated(data: &[u8]) -> Vec<u8> {
    let mut at = 0;
    let mut bits = |count: usize| {
        at += count;
        (at - count..at).rev().fold(0, |n, i| n << 1 | (data[i / 8] >> (i % 8) & 1) as usize)
    };
    assert_eq!(bits(3), 0b101);
    let [symbols, distances, lengths] = [257 + bits(5), 1 + bits(5), 4 + bits(4)];
    let mut code_lengths = [0; 19];
    for at in [16, 17, 18, 0, 8, 7, 9, 6, 10, 5, 11, 4, 12, 3, 13, 2, 14, 1, 15].into_iter().take(lengths) {
        code_lengths[at] = bits(3);
    }
    // each symbol by its code's length and bits
    let codes = |lengths: &[usize]| {
        let (mut code, mut out) = (0, std::collections::HashMap::new());
        for length in 1..16 {
            for (symbol, _) in lengths.iter().enumerate().filter(|(_, l)| **l == length) {
                out.insert((length, code), symbol);
                code += 1;
            }
            code <<= 1;
        }
        out
    };
    let first = codes(&code_lengths);
    let next = |codes: &std::collections::HashMap<(usize, usize), usize>, bits: &mut dyn FnMut(usize) -> usize| {
        let mut code = 0;
        for length in 1..16 {
            code = code << 1 | bits(1);
            if let Some(symbol) = codes.get(&(length, code)) {
                return *symbol;
            }
        }
        panic!("no code");
    };
    let all: Vec<usize> = (0..symbols + distances).map(|_| next(&first, &mut bits)).collect();
    let (symbol_codes, distance_codes) = (codes(&all[..symbols]), codes(&all[symbols..]));
    const LENGTHS: [usize; 29] = [3, 4, 5, 6, 7, 8, 9, 10, 11, 13, 15, 17, 19, 23, 27, 31, 35, 43, 51, 59, 67, 83, 99, 115, 131, 163, 195, 227, 258];
    const DISTANCES: [usize; 30] = [
        1, 2, 3, 4, 5, 7, 9, 13, 17, 25, 33, 49, 65, 97, 129, 193, 257, 385, 513, 769, 1025, 1537, 2049, 3073, 4097, 6145, 8193, 12289, 16385, 24577,
    ];
    let mut out: Vec<u8> = vec![];
    loop {
        match next(&symbol_codes, &mut bits) {
            256 => return out,
            byte @ 0..256 => out.push(byte as u8),
            symbol => {
                let length = LENGTHS[symbol - 257] + if symbol == 285 { 0 } else { bits(((symbol - 257) / 4).saturating_sub(1)) };
                let code = next(&distance_codes, &mut bits);
                let from = out.len() - DISTANCES[code] - bits((code / 2).saturating_sub(1));
                (from..from + length).for_each(|i| out.push(out[i]));
            }
        }
    }
}
