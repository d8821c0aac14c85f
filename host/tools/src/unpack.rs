//! From a capture's bytes to its text.

use crate::bodies::{layout, Body, Break, Kind, FRAGMENT_WORDS, PARTS};
use crate::names::{form, register_name, table_text, REGISTERS};
use crate::values::{float_text, value_text};
use std::fmt::Write;

/// A capture's text, the places where it breaks, and the refusal that lightshow prints of it, if any.
#[derive(Debug)]
pub struct Unpacked {
    pub text: String,
    pub breaks: Vec<Break>,
    pub refusal: Option<u32>,
}

/// The text of a capture, as far as it goes. Packed, the text of a capture that lightshow accepts gives the same bytes.
pub fn unpack(input: &[u8]) -> Unpacked {
    let found = layout(input);
    let refusal = found.refusal();
    let mut text = format!("# {}, {}\n", counted(found.count as usize, "body", "bodies"), counted(input.len(), "byte", "bytes"));
    for (i, (_, body)) in found.bodies.iter().enumerate() {
        let what = match body.kind {
            Kind::Writes => counted(body.words.len() / 2, "write", "writes"),
            Kind::Fragments => format!("a hand-over and {}", counted(body.words.len() / FRAGMENT_WORDS, "fragment", "fragments")),
            Kind::Restore => "a restore".into(),
        };
        text += &format!("\n# body {}: {what}\n", i + 1);
        text += match body.kind {
            Kind::Writes => "writes\n",
            Kind::Fragments => "hand over\n",
            Kind::Restore => "restore\n",
        };
        text += &lines(body);
    }
    if let Some(place) = found.breaks.iter().find(|place| place.refusal == 8) {
        text += &format!("\n# the capture breaks here, at word {}: {}\n", place.word, place.what);
    }
    Unpacked { text, breaks: found.breaks, refusal }
}

pub fn counted(n: usize, one: &str, many: &str) -> String {
    match n {
        0 => format!("no {one}"),
        1 => format!("1 {one}"),
        n => format!("{n} {many}"),
    }
}

fn lines(body: &Body) -> String {
    match body.kind {
        Kind::Writes => body.words.chunks_exact(2).map(|pair| write_line(pair[0], pair[1])).collect(),
        Kind::Fragments => body.words.chunks_exact(FRAGMENT_WORDS).map(fragment_line).collect(),
        Kind::Restore => body.words.chunks(512).enumerate().map(|(table, words)| table_lines(table, words)).collect(),
    }
}

fn write_line(register: u32, value: u32) -> String {
    if register >= REGISTERS {
        return format!("# no register: write {register} 0x{value:08X}\n");
    }
    let name = register_name(register).map_or_else(|| format!("0x{register:03X}"), str::to_string);
    format!("write {name} {}\n", value_text(form(register), value))
}

/// Quaternion and view, and the texels as far as they are not zero.
fn fragment_line(words: &[u32]) -> String {
    let parts = PARTS.map(|(_, place)| &words[place]);
    let last = parts.iter().rposition(|part| part.iter().any(|word| *word != 0)).unwrap_or(0).max(1);
    let texts = parts[..=last].iter().map(|part| part.iter().map(|word| float_text(*word)).collect::<Vec<_>>().join(" "));
    format!("fragment {}\n", texts.collect::<Vec<_>>().join(", "))
}

/// A table's entries that are not zero: runs of equal ones by their ends, others four in a line.
fn table_lines(table: usize, words: &[u32]) -> String {
    let name = table_text(table);
    let entries: Vec<&[u32]> = words.chunks_exact(2).collect();
    let run = |at: usize| entries[at..].iter().take_while(|entry| **entry == entries[at]).count();
    let numbers = |entry: &[u32]| format!(" {} {}", float_text(entry[0]), float_text(entry[1]));
    let (mut text, mut at) = (String::new(), 0);
    while at < entries.len() {
        let equal = run(at);
        if entries[at] == [0, 0] {
            at += equal;
        } else if equal > 2 {
            let _ = writeln!(text, "entries {name} {at}..{}{}", at + equal - 1, numbers(entries[at]));
            at += equal;
        } else {
            // a row ends where a run begins
            let end = (at + 1..entries.len().min(at + 4)).find(|next| run(*next) > 2).unwrap_or(entries.len().min(at + 4));
            let row: String = entries[at..end].iter().map(|entry| numbers(entry)).collect();
            let _ = writeln!(text, "entries {name} {at}{row}");
            at = end;
        }
    }
    text
}
