//! From a text to the bodies of a capture.

use crate::bodies::{total_words, words, Body, Kind, FRAGMENT_WORDS, MOST_BODIES, MOST_WORDS, PARTS, RESTORE_WORDS};
use crate::curves::Curve;
use crate::files::{bounded, Input};
use crate::names::{self, hint, REGISTERS, TABLE_DATA, TABLE_INDEX, TABLE_NAMES};
use crate::values::{float, pair_writes, value, whole, word};
use std::fmt;
use std::path::Path;

/// What is wrong with a text, and in which line, counted from 1.
#[derive(Clone, Debug, PartialEq, Eq)]
pub struct Wrong {
    pub line: usize,
    pub what: String,
}

impl fmt::Display for Wrong {
    fn fmt(&self, f: &mut fmt::Formatter) -> fmt::Result {
        write!(f, "line {}: {}", self.line, self.what)
    }
}

/// The bodies of a text; a file that it names is looked for in `folder`.
pub fn pack(text: &str, folder: &Path) -> Result<Vec<Body>, Wrong> {
    let mut packer = Packer { bodies: vec![], folder };
    for (at, line) in text.trim_start_matches('\u{FEFF}').lines().enumerate() {
        let line = line.split_once('#').map_or(line, |(before, _)| before).trim();
        packer.line(line).map_err(|what| Wrong { line: at + 1, what: shown(&what) })?;
    }
    Ok(packer.bodies)
}

/// What is said of a line: without the characters that steer a terminal, and of an endless word only its ends.
fn shown(what: &str) -> String {
    let letters: Vec<char> = what.chars().map(|c| if c.is_control() { '?' } else { c }).collect();
    match letters.len() {
        0..=400 => letters.iter().collect(),
        length => letters[..200].iter().chain(&[' ', '.', '.', '.', ' ']).chain(&letters[length - 200..]).collect(),
    }
}

/// The bodies of a text's file; what is wrong is said with the file's name and the line.
pub fn pack_file(input: &Input) -> Result<Vec<Body>, String> {
    let Input { name, folder, bytes } = input;
    let line = |at: usize| 1 + bytes[..at].iter().filter(|byte| **byte == b'\n').count();
    if let Some(at) = bytes.iter().position(|byte| *byte == 0) {
        return Err(format!("{name}:{}: a byte is 0, so this is no text; if it is a capture, 'capture unpack' gives its text", line(at)));
    }
    let text = std::str::from_utf8(bytes).map_err(|e| format!("{name}:{}: the line is not UTF-8", line(e.valid_up_to())))?;
    pack(text, folder).map_err(|wrong| format!("{name}:{}: {}", wrong.line, wrong.what))
}

/// What a line can begin with.
const LINES: [&str; 8] = ["write", "writes", "upload", "fragment", "hand over", "restore", "table", "entries"];

struct Packer<'a> {
    bodies: Vec<Body>,
    folder: &'a Path,
}

impl Packer<'_> {
    fn line(&mut self, line: &str) -> Result<(), String> {
        let (first, rest) = line.split_once(char::is_whitespace).map_or((line, ""), |(first, rest)| (first, rest.trim()));
        let alone = |what: &str| if rest.is_empty() { Ok(()) } else { Err(format!("'{rest}' stands after '{what}', which stands alone")) };
        match first {
            "" => return Ok(()),
            "write" => self.write(rest)?,
            "upload" => self.upload(rest)?,
            "writes" => alone("writes").and_then(|()| self.begin(Kind::Writes, vec![]))?,
            "hand" if rest == "over" => self.begin(Kind::Fragments, vec![])?,
            "hand" => return Err("the line is 'hand over', without a number".into()),
            "fragment" => {
                let words = fragment(rest)?;
                self.open(Kind::Fragments)?.extend(words);
            }
            "restore" => self.restore(rest)?,
            "table" => self.table(rest)?,
            "entries" => self.entries(rest)?,
            other if names::register(other).is_some() || names::pair(other).is_some() => {
                return Err(format!("a register is set by 'write {other} ...'"));
            }
            other => return Err(format!("no line begins with '{other}'{}", hint(other, LINES.iter()))),
        }
        match total_words(&self.bodies) {
            total if total > MOST_WORDS => Err(format!("with this line the capture has {} bytes, and 65536 is the most", 4 * total)),
            _ => Ok(()),
        }
    }

    /// Begins a body with these words.
    fn begin(&mut self, kind: Kind, words: Vec<u32>) -> Result<(), String> {
        if self.bodies.len() == MOST_BODIES {
            return Err("this line begins a seventeenth body, and 16 is the most".into());
        }
        self.bodies.push(Body { kind, words });
        Ok(())
    }

    /// The words of the last body, which is of this kind: a new one if it must be.
    fn open(&mut self, kind: Kind) -> Result<&mut Vec<u32>, String> {
        if self.bodies.last().is_none_or(|body| body.kind != kind) {
            self.begin(kind, vec![])?;
        }
        let last = self.bodies.len() - 1;
        Ok(&mut self.bodies[last].words)
    }

    fn write(&mut self, rest: &str) -> Result<(), String> {
        let (name, text) = rest.split_once(char::is_whitespace).map_or((rest, ""), |(name, text)| (name, text.trim()));
        if name.is_empty() {
            return Err("a write has a register and a value".into());
        }
        let writes = match names::pair(name) {
            Some(pair) => pair_writes(pair, text)?.to_vec(),
            None => {
                let register = register(name)?;
                vec![(register, value(names::form(register), text)?)]
            }
        };
        self.open(Kind::Writes)?.extend(writes.iter().flat_map(|(register, value)| [*register, *value]));
        Ok(())
    }

    fn upload(&mut self, rest: &str) -> Result<(), String> {
        let (table, curve) = curved(rest)?;
        let uploads = curve.uploads()?;
        let words = self.open(Kind::Writes)?;
        words.extend([TABLE_INDEX, (table as u32) << 8]);
        words.extend(uploads.iter().flat_map(|upload| [TABLE_DATA, *upload]));
        Ok(())
    }

    fn restore(&mut self, rest: &str) -> Result<(), String> {
        let saved = match rest.split_once(char::is_whitespace).map_or((rest, ""), |(how, path)| (how, path.trim())) {
            ("" | "zero", "") => vec![0; RESTORE_WORDS],
            ("file", path) if !path.is_empty() => {
                let due = 4 * RESTORE_WORDS;
                let bytes = bounded(&self.folder.join(path), due as u64).map_err(|e| format!("{path} cannot be read: {e}"))?;
                match bytes.len() {
                    size if size > due => return Err(format!("{path} has more than the {due} bytes of a restore")),
                    size if size < due => return Err(format!("{path} has {size} bytes, and a restore has {due}")),
                    _ => words(&bytes),
                }
            }
            _ => return Err("a restore is 'restore', 'restore zero' or 'restore file NAME'".into()),
        };
        self.begin(Kind::Restore, saved)
    }

    /// The words of a table in the restore above.
    fn restored(&mut self, table: usize) -> Result<&mut [u32], String> {
        let body = self.bodies.last_mut().filter(|body| body.kind == Kind::Restore);
        let words = body.and_then(|body| body.words.get_mut(512 * table..512 * (table + 1)));
        words.ok_or_else(|| "the line belongs below a 'restore'; to upload a table there is 'upload'".into())
    }

    fn table(&mut self, rest: &str) -> Result<(), String> {
        let (table, curve) = curved(rest)?;
        self.restored(table)?.copy_from_slice(&curve.words()?);
        Ok(())
    }

    fn entries(&mut self, rest: &str) -> Result<(), String> {
        let texts: Vec<&str> = rest.split_whitespace().collect();
        let [name, at, numbers @ ..] = &texts[..] else {
            return Err("entries have a table, the first entry, and a value and a step for each".into());
        };
        let table = self.restored(table(name)?)?;
        let words = numbers.iter().map(|text| float(text)).collect::<Result<Vec<u32>, String>>()?;
        if words.is_empty() || words.len() % 2 != 0 {
            return Err(format!("each entry has a value and a step, and the count of numbers here is {}", words.len()));
        }
        if let Some((from, to)) = at.split_once("..") {
            let (from, to) = (whole(from, 255)? as usize, whole(to, 255)? as usize);
            if from > to || words.len() != 2 {
                return Err(format!("entries {at} are one value and one step for all of them, from the lower entry to the higher"));
            }
            table[2 * from..2 * (to + 1)].chunks_mut(2).for_each(|entry| entry.copy_from_slice(&words));
        } else {
            let from = 2 * whole(at, 255)? as usize;
            let place = table.get_mut(from..from + words.len()).ok_or("the last of these entries is above 255")?;
            place.copy_from_slice(&words);
        }
        Ok(())
    }
}

fn register(name: &str) -> Result<u32, String> {
    if name.starts_with(|c: char| c.is_ascii_digit()) {
        return match word(name)? {
            register if register < REGISTERS => Ok(register),
            register => Err(format!("register {register} is above 473 (0x1D9), the last")),
        };
    }
    names::register(name).ok_or_else(|| {
        let known = names::registers().iter().map(|register| &register.name).chain(names::pairs().iter().map(|(name, _)| name));
        format!("no register is called '{name}'{}", hint(name, known))
    })
}

fn table(name: &str) -> Result<usize, String> {
    let known = TABLE_NAMES.iter().map(|(name, _)| name);
    names::table(name).ok_or_else(|| format!("no table is called '{name}'{}", hint(name, known)))
}

/// A table and the curve for it.
fn curved(rest: &str) -> Result<(usize, Curve), String> {
    let texts: Vec<&str> = rest.split_whitespace().collect();
    match &texts[..] {
        [name, curve @ ..] => Ok((table(name)?, Curve::of(curve)?)),
        [] => Err("a table and a curve are missing, as 'distance0 falloff 8'".into()),
    }
}

/// A fragment's words. Parts are told apart by commas, or by counting; those left out at the end are zero.
fn fragment(rest: &str) -> Result<[u32; FRAGMENT_WORDS], String> {
    let mut numbers: Vec<&str> = vec![];
    if rest.contains(',') {
        for (i, part) in rest.split(',').enumerate() {
            let (name, place) = PARTS.get(i).ok_or("a fragment has six parts: quaternion, view and four texels")?;
            numbers.extend(part.split_whitespace());
            if numbers.len() != place.end {
                return Err(format!("{name} has {} numbers, not {}", place.len(), numbers.len() - place.start));
            }
        }
    } else {
        numbers.extend(rest.split_whitespace());
        if !numbers.is_empty() && PARTS.iter().all(|(_, place)| place.end != numbers.len()) {
            let parts = "4 numbers for the quaternion, 3 for the view and 4 for each of four texels";
            return Err(format!("a fragment has {parts}, in all 4, 7, 11, 15, 19 or 23, not {}", numbers.len()));
        }
    }
    let mut words = [0; FRAGMENT_WORDS];
    for (word, text) in words.iter_mut().zip(numbers) {
        *word = float(text)?;
    }
    Ok(words)
}
