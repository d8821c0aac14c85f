use super::{errors, repository, Folder};
use std::ffi::OsStr;
use std::fs;
use std::process::{Command, Output};

const CAPTURE: &str = env!("CARGO_BIN_EXE_capture");
const PICTURE: &str = env!("CARGO_BIN_EXE_picture");

/// Runs a program in a folder with a file as its standard input.
fn run(program: &str, folder: &Folder, arguments: &[&OsStr], input: &str) -> Output {
    let input = fs::File::open(folder.0.join(input)).unwrap();
    Command::new(program).args(arguments).current_dir(&folder.0).stdin(input).output().unwrap()
}

/// A scene in a folder, and the capture that it makes.
fn scene() -> (Folder, Vec<u8>) {
    let folder = Folder::new();
    for name in ["lamp.txt", "lamp.capture"] {
        fs::copy(repository().join("examples").join(name), folder.0.join(name)).unwrap();
    }
    let capture = fs::read(folder.0.join("lamp.capture")).unwrap();
    (folder, capture)
}

#[test]
fn the_standard_input_is_read() {
    let (folder, capture) = scene();
    let words = |texts: &[&'static str]| texts.iter().map(|text| OsStr::new(*text)).collect::<Vec<_>>();
    assert!(run(CAPTURE, &folder, &words(&["pack", "-"]), "lamp.txt").stdout == capture);
    let text = run(CAPTURE, &folder, &words(&["unpack", "-"]), "lamp.capture");
    folder.file("again.txt", &text.stdout);
    assert!(run(CAPTURE, &folder, &words(&["pack", "-"]), "again.txt").stdout == capture);
    let drawn = run(PICTURE, &folder, &words(&["-", "out.png", "--size", "8"]), "lamp.txt");
    assert!(drawn.status.success() && folder.0.join("out.png").is_file(), "{}", errors(&drawn));
    folder.file("wrong.txt", "write enable 1\nwrite enabel 1\n");
    let wrong = run(PICTURE, &folder, &words(&["-", "wrong.png"]), "wrong.txt");
    assert_eq!(errors(&wrong), "standard input:2: no register is called 'enabel'; is it 'enable'?\n");
    assert!(wrong.status.code() == Some(1) && !folder.0.join("wrong.png").exists());
    // a restore's file is then looked for where the program runs
    folder.file("saved.tables", [7; 49_152]);
    folder.file("restore.txt", "restore file saved.tables\n");
    assert!(run(CAPTURE, &folder, &words(&["pack", "-"]), "restore.txt").stdout[16..] == [7; 49_152]);
}

#[cfg(unix)]
#[test]
fn a_file_name_may_be_any_bytes() {
    use std::os::unix::ffi::OsStrExt;
    let (folder, capture) = scene();
    let [text, out, gone] = [b"\xFF.txt", b"\xFF.png", b"\xFE.txt"].map(|name| OsStr::from_bytes(name));
    fs::copy(folder.0.join("lamp.txt"), folder.0.join(text)).unwrap();
    assert!(run(CAPTURE, &folder, &[OsStr::new("pack"), text], "lamp.txt").stdout == capture);
    let drawn = run(PICTURE, &folder, &[text, out, OsStr::new("--size"), OsStr::new("8")], "lamp.txt");
    assert!(drawn.status.success() && folder.0.join(out).is_file(), "{}", errors(&drawn));
    for (program, arguments) in [(CAPTURE, [OsStr::new("pack"), gone]), (CAPTURE, [gone, text]), (PICTURE, [gone, out]), (PICTURE, [text, gone])] {
        let output = run(program, &folder, &arguments, "lamp.txt");
        assert!(output.status.code() == Some(1) && output.stdout.is_empty(), "{}", errors(&output));
    }
}

/// What cannot be written is status 1, and where nobody reads on is no failure.
#[cfg(target_os = "linux")]
#[test]
fn full_and_closed_outputs_are_no_panic() {
    let (folder, _) = scene();
    folder.file("wrong.txt", "write enabel 1\n");
    let status = |line: &str| {
        let line = format!("capture='{CAPTURE}'; picture='{PICTURE}'; {line}");
        Command::new("bash").args(["-o", "pipefail", "-c", &line]).current_dir(&folder.0).output().unwrap().status.code()
    };
    for line in [
        "$capture pack lamp.txt > /dev/full",
        "$capture unpack lamp.capture > /dev/full",
        "$capture --help > /dev/full",
        "$picture --help > /dev/full",
        "$picture lamp.txt out.png --size 8 > /dev/full",
        "$picture lamp.txt nowhere/out.png --size 8",
        "$capture pack wrong.txt 2> /dev/full",
        "$capture unpack wrong.txt 2> /dev/full",
        "$picture wrong.txt out.png 2> /dev/full",
    ] {
        assert_eq!(status(line), Some(1), "{line}");
    }
    for line in ["$capture unpack lamp.capture | true", "$picture lamp.txt out.png --size 8 | true", "$capture pack lamp.txt >&- 2>&-"] {
        assert_eq!(status(line), Some(0), "{line}");
    }
}

/// What has no end is not read to it.
#[cfg(target_os = "linux")]
#[test]
fn endless_files_are_refused() {
    let (folder, _) = scene();
    folder.file("restore.txt", "restore file /dev/zero\n");
    let restore = run(CAPTURE, &folder, &[OsStr::new("pack"), OsStr::new("restore.txt")], "lamp.txt");
    assert_eq!(errors(&restore), "restore.txt:1: /dev/zero has more than the 49152 bytes of a restore\n");
    for how in ["pack", "unpack"] {
        let endless = run(CAPTURE, &folder, &[OsStr::new(how), OsStr::new("/dev/zero")], "lamp.txt");
        assert_eq!(errors(&endless), "/dev/zero: more than 64 MiB, which no text and no capture has\n");
        assert!(endless.status.code() == Some(1) && endless.stdout.is_empty());
    }
}
