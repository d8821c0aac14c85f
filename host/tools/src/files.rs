//! What the tools read and print.

use std::ffi::{OsStr, OsString};
use std::fs;
use std::io::{self, Read, Write};
use std::path::{Path, PathBuf};
use std::process::ExitCode;

/// A file's bytes, what it is called, and the folder that it stands in.
pub struct Input {
    pub name: String,
    pub folder: PathBuf,
    pub bytes: Vec<u8>,
}

/// No text or capture has more bytes: what does is not read to its end, since it may have none.
const MOST_BYTES: u64 = 1 << 26;

/// At most so many bytes of a file, and one more where it has more.
pub fn bounded(path: &Path, most: u64) -> io::Result<Vec<u8>> {
    let mut bytes = vec![];
    fs::File::open(path)?.take(most + 1).read_to_end(&mut bytes)?;
    Ok(bytes)
}

/// Reads a file, or the standard input for `-`.
pub fn read(path: &OsStr) -> Result<Input, String> {
    let (read, name) = match path.as_encoded_bytes() {
        b"-" => {
            let mut bytes = vec![];
            (io::stdin().take(MOST_BYTES + 1).read_to_end(&mut bytes).map(|_| bytes), "standard input".into())
        }
        _ => (bounded(Path::new(path), MOST_BYTES), path.display().to_string()),
    };
    let bytes = read.map_err(|e| format!("{name}: {e}"))?;
    if bytes.len() as u64 > MOST_BYTES {
        return Err(format!("{name}: more than 64 MiB, which no text and no capture has"));
    }
    let folder = Path::new(path).parent().unwrap_or(Path::new("")).to_path_buf();
    Ok(Input { name, folder, bytes })
}

/// Prints bytes; that nobody reads on is no failure.
pub fn print(output: &[u8]) -> Result<(), String> {
    let mut out = io::stdout().lock();
    match out.write_all(output).and_then(|()| out.flush()) {
        Err(e) if e.kind() != io::ErrorKind::BrokenPipe => Err(format!("the output cannot be written: {e}")),
        _ => Ok(()),
    }
}

/// Prints on the standard error, as far as it can be written.
pub fn tell(text: &str) {
    let _ = io::stderr().write_all(text.as_bytes());
}

/// Whether help is asked for, anywhere among the arguments.
pub fn help_wanted(arguments: &[OsString]) -> bool {
    arguments.first().is_some_and(|first| first == "help") || arguments.iter().any(|argument| argument == "--help" || argument == "-h")
}

/// Ends a program: the status it gives itself, or 1 after what went wrong.
pub fn end(done: Result<ExitCode, String>) -> ExitCode {
    done.unwrap_or_else(|what| {
        tell(&format!("{what}\n"));
        ExitCode::FAILURE
    })
}
