//! The tools as their users run them: round trips, values, bad texts, damaged captures, the examples, small pictures, files and streams.

mod bad_texts;
mod damaged;
mod documents;
mod examples;
mod files;
mod pictures;
mod random;
mod round_trips;
mod values;

use std::path::{Path, PathBuf};
use std::process::{Command, Output};
use std::sync::atomic::{AtomicUsize, Ordering};
use std::{env, fs};

/// The proved program; the tests need it.
fn lightshow() -> PathBuf {
    lighting_tools::drawing::lightshow(None).unwrap()
}

fn repository() -> PathBuf {
    Path::new(env!("CARGO_MANIFEST_DIR")).join("../..")
}

/// A folder that goes when the test ends.
struct Folder(PathBuf);

impl Folder {
    fn new() -> Folder {
        static COUNT: AtomicUsize = AtomicUsize::new(0);
        let path = env::temp_dir().join(format!("lighting-tools-{}-{}", std::process::id(), COUNT.fetch_add(1, Ordering::Relaxed)));
        fs::create_dir_all(&path).unwrap();
        Folder(path)
    }

    /// Writes a file and gives its path.
    fn file(&self, name: &str, contents: impl AsRef<[u8]>) -> PathBuf {
        let path = self.0.join(name);
        fs::write(&path, contents).unwrap();
        path
    }
}

impl Drop for Folder {
    fn drop(&mut self) {
        let _ = fs::remove_dir_all(&self.0);
    }
}

fn capture(how: &str, file: &Path) -> Output {
    Command::new(env!("CARGO_BIN_EXE_capture")).arg(how).arg(file).output().unwrap()
}

fn picture(arguments: &[&str]) -> Output {
    Command::new(env!("CARGO_BIN_EXE_picture")).args(arguments).output().unwrap()
}

fn errors(output: &Output) -> String {
    String::from_utf8_lossy(&output.stderr).into_owned()
}

#[test]
fn help_is_ten_lines() {
    for program in [env!("CARGO_BIN_EXE_capture"), env!("CARGO_BIN_EXE_picture")] {
        let output = Command::new(program).arg("--help").output().unwrap();
        let text = String::from_utf8(output.stdout).unwrap();
        for arguments in [&["-h"][..], &["help"], &["pack", "--help"], &["scene.txt", "out.png", "--size", "-h"]] {
            assert_eq!(Command::new(program).args(arguments).output().unwrap().stdout, text.as_bytes(), "{arguments:?}");
        }
        assert!(output.status.success() && text.lines().count() == 10, "{text}");
        assert!(text.lines().all(|line| line.len() <= 80), "{text}");
        let unknown = Command::new(program).arg("--nothing").output().unwrap();
        assert_eq!(unknown.status.code(), Some(1));
    }
}
