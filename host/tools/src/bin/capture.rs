//! Captures from text and back.

use lighting_tools::bodies::bytes;
use lighting_tools::files::{end, help_wanted, print, read, tell};
use lighting_tools::pack::pack_file;
use lighting_tools::unpack::{counted, unpack};
use std::env;
use std::ffi::{OsStr, OsString};
use std::io::{self, IsTerminal};
use std::process::ExitCode;

const HELP: &str = "\
capture pack TEXT > FILE      makes a capture for lightshow from a text
capture unpack FILE > TEXT    makes the text of a capture

A text has a line for each register write, fragment and restore:
    write light0.diffuse rgb(255 200 120)  # by name, or write 0x142 0x0FF32078
    fragment 0 0 0 1, 0 0 3                # quaternion, view, up to four texels
    restore                                # tables, by curves or by words

Unpacking and packing gives the same bytes. A text that is wrong gives the line
and what is wrong there, exit status 1, and no capture. All forms: docs/TEXT.md
";

fn main() -> ExitCode {
    let arguments: Vec<OsString> = env::args_os().skip(1).collect();
    let done = match &arguments[..] {
        _ if help_wanted(&arguments) => print(HELP.as_bytes()),
        [how, text] if how == "pack" => packed(text),
        [how, file] if how == "unpack" => unpacked(file),
        _ => Err(format!("capture is run as\n{}", HELP.lines().take(2).collect::<Vec<_>>().join("\n"))),
    };
    end(done.map(|()| ExitCode::SUCCESS))
}

fn packed(text: &OsStr) -> Result<(), String> {
    let input = read(text)?;
    let bodies = pack_file(&input)?;
    if io::stdout().is_terminal() {
        return Err(format!("a capture is no text for a terminal: capture pack {} > FILE", text.display()));
    }
    print(&bytes(&bodies))
}

fn unpacked(file: &OsStr) -> Result<(), String> {
    let input = read(file)?;
    let (name, bytes) = (&input.name, &input.bytes);
    // a capture's first word has zero bytes, a text has none
    if !bytes.is_empty() && !bytes.contains(&0) && std::str::from_utf8(bytes).is_ok() {
        return Err(format!("{name}: this looks like a text; 'capture pack' makes a capture of it"));
    }
    let unpacked = unpack(bytes);
    print(unpacked.text.as_bytes())?;
    let Some(number) = unpacked.refusal else {
        return Ok(());
    };
    for refusal in [8, 3] {
        let places: Vec<_> = unpacked.breaks.iter().filter(|place| place.refusal == refusal).collect();
        for place in places.iter().take(3) {
            tell(&format!("{name}: word {} (byte {}): {}\n", place.word, 4 * place.word, place.what));
        }
        if places.len() > 3 {
            tell(&format!("{name}: and {} like it\n", counted(places.len() - 3, "place", "places")));
        }
    }
    Err(format!("{name}: lightshow refuses this capture with {number}; the text goes as far as it can be read"))
}
