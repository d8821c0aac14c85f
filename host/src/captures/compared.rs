//! The module's side, what was compared, and the captures to time.

use super::*;
use crate::boundary::{self, words, WRONG_SIZE};
use crate::colours::{eight, Fragment};
use crate::oracle::{LastLighting, Tables};
use crate::tables::INDEX;

/// The words of an input that can be a capture by its size.
fn sized(input: &[u8]) -> Result<Vec<u32>, u32> {
    if input.is_empty() || input.len() > 4 * WORDS || !input.len().is_multiple_of(4) {
        return Err(8);
    }
    Ok(words(input))
}

/// What stands in document 01's 'Capture' refusals, in its order; past them the bodies, each with its kind.
fn checked(words: &[u32]) -> Result<Vec<(u32, &[u32])>, u32> {
    let count = words[0] as usize;
    if count > 16 || words.len() < 1 + 3 * count {
        return Err(8);
    }
    let mut end = 1 + 3 * count;
    let mut bodies = vec![];
    for triple in words[1..1 + 3 * count].chunks(3) {
        let [kind, offset, length] = [triple[0], triple[1], triple[2]];
        let right = match kind {
            1 => length % 2 == 0,
            2 => length % 23 == 0,
            3 => length == 12_288,
            _ => false,
        };
        if !right || offset as usize != end || words.len() - end < length as usize {
            return Err(8);
        }
        bodies.push((kind, &words[end..end + length as usize]));
        end += length as usize;
    }
    if end != words.len() {
        return Err(8);
    }
    let high = |(kind, body): &(u32, &[u32])| *kind == 1 && body.chunks(2).any(|pair| pair[0] >= 474);
    if bodies.iter().any(high) {
        return Err(3);
    }
    Ok(bodies)
}

/// A number below 1000 in decimal.
fn push_decimal(out: &mut Vec<u8>, k: u32) {
    let digit = |n: u32| b'0' + n as u8;
    match k {
        0..10 => out.push(digit(k)),
        10..100 => out.extend([digit(k / 10), digit(k % 10)]),
        _ => out.extend([digit(k / 100), digit(k / 10 % 10), digit(k % 10)]),
    }
}

fn push_line(out: &mut Vec<u8>, k: [u32; 8]) {
    for (i, k) in k.into_iter().enumerate() {
        push_decimal(out, k);
        out.push(if i == 7 { b'\n' } else { b' ' });
    }
}

/// What the bodies print, run by the module.
fn run(bodies: &[(u32, &[u32])], tally: &mut Tally, out: &mut Vec<u8>) {
    let mut file = vec![0; 474];
    let mut tables = Tables::default();
    let mut last = LastLighting::default();
    for (kind, body) in bodies {
        tally.bodies[*kind as usize] += 1;
        match kind {
            1 => {
                for pair in body.chunks(2) {
                    if (0x1C8..=0x1CF).contains(&pair[0]) {
                        tables.write(&mut file, pair[1]);
                    } else {
                        file[pair[0] as usize] = pair[1];
                    }
                }
            }
            2 => {
                let lighting = last.read(&file);
                tally.empty += body.is_empty() as u64;
                for fragment in body.chunks(FRAGMENT_WORDS) {
                    if let Some(lighting) = &lighting {
                        push_line(out, eight(lighting, &tables, &Fragment::of(fragment)));
                        tally.lit += 1;
                    } else {
                        out.extend(b"off\n");
                        tally.off += 1;
                    }
                }
            }
            _ => {
                let pairs: Vec<[f32; 2]> = body.as_chunks().0.iter().map(|entry| entry.map(f32::from_bits)).collect();
                assert!(tables.restore(&pairs));
            }
        }
    }
}

/// What a capture prints, by the module, and its number.
pub fn theirs(input: &[u8], tally: &mut Tally, out: &mut Vec<u8>) -> u32 {
    let words = sized(input);
    let bodies = words.as_deref().map_err(|number| *number).and_then(checked);
    match bodies {
        Ok(bodies) => {
            run(&bodies, tally, out);
            0
        }
        Err(number) => {
            out.extend(format!("refused {number}\n").bytes());
            number
        }
    }
}

/// What was compared, and the first difference.
#[derive(Default, Debug)]
pub struct Tally {
    pub captures: u64,
    /// captures by their number
    pub numbers: [u64; 9],
    /// bodies that ran, by their kind
    pub bodies: [u64; 4],
    /// fragment bodies without a fragment
    pub empty: u64,
    /// lines with colours, and lines that say off
    pub lit: u64,
    pub off: u64,
    /// outputs without room, of captures that are accepted and of those that are refused; with just enough room; with
    /// more
    pub no_room: u64,
    pub refused_no_room: u64,
    pub just_room: u64,
    pub more_room: u64,
    pub differ: u64,
    pub first: Option<String>,
}

/// A count of bytes that no capture prints, to see that it stays.
const UNTOLD: u64 = 0xAAAA_AAAA_AAAA_AAAA;

impl Tally {
    fn differs(&mut self, what: String, input: &[u8]) {
        self.differ += 1;
        self.first.get_or_insert_with(|| format!("{what}, of {:08X?} in {} bytes", words(input), input.len()));
    }

    fn capture(&mut self, input: &[u8], r: &mut Random) {
        let mut text = vec![];
        let number = theirs(input, self, &mut text);
        self.captures += 1;
        self.numbers[number as usize] += 1;
        self.output(input, number, &text, OUTPUT_BYTES + r.below(40) as usize);
        let near = [0, 1, text.len().saturating_sub(1), text.len(), text.len() + 1, text.len() + 31, text.len() / 2];
        self.output(input, number, &text, near[r.below(7) as usize]);
        let printed = lighting::print_capture(input);
        let due = if number == 0 { Ok(String::from_utf8(text).unwrap()) } else { Err(number) };
        if printed.clone().map_err(|refusal| refusal.number()) != due {
            self.differs(format!("the crate prints {printed:?}"), input);
        }
    }

    /// A call with an output of so many bytes: what it prints and its length where there is room, else both as they
    /// were.
    fn output(&mut self, input: &[u8], number: u32, text: &[u8], size: usize) {
        let (mut output, mut printed) = (vec![b'?'; size], UNTOLD);
        let given = boundary::capture(input, &mut output, &mut printed);
        let room = size >= text.len();
        let counted = match (room, number) {
            (false, 0) => &mut self.no_room,
            (false, _) => &mut self.refused_no_room,
            _ if size == text.len() => &mut self.just_room,
            _ => &mut self.more_room,
        };
        *counted += 1;
        let due = if !room && number == 0 { WRONG_SIZE } else { number };
        let (text, length) = if room { (text, text.len() as u64) } else { (&[][..], UNTOLD) };
        let (begun, rest) = output.split_at(text.len());
        if given != due || begun != text || printed != length || rest.iter().any(|b| *b != b'?') {
            self.differs(format!("{given}, and not {due}, with {size} bytes for the output, {printed} printed"), input);
        }
    }
}

/// So many random captures, one in four damaged; each with room for all, and with an output of an awkward length.
pub fn compare(captures: u64, seed: u64) -> Tally {
    let (mut r, mut tally) = (Random(seed), Tally::default());
    for _ in 0..captures {
        let bodies = bodies(&mut r);
        let input = if r.below(4) == 0 { damaged(&bodies, &mut r) } else { bytes(&capture(&bodies)) };
        tally.capture(&input, &mut r);
    }
    tally
}

/// The pairs of a lighting with one light or eight, without tables or with all of them.
fn scene(lights: u32, all: bool, r: &mut Random) -> Vec<u32> {
    let mut pairs = vec![0x08F, 1, 0x1C0, 0x50_5050, 0x1C2, lights - 1, 0x1D0, 0x202_0000, 0x1D9, 0x7654_3210];
    // configuration 8, fresnel on both alphas, clamped highlights; with eight lights a shadow and a bump map besides
    let config = match (all, lights) {
        (false, _) => 0,
        (_, 1) => 0x800_008C,
        _ => 0x1803_008D,
    };
    pairs.extend([0x1C3, config, 0x1C4, if all { 0 } else { u32::MAX }, 0x1D1, if all { 0x12_0312 } else { 0 }]);
    for light in 0..lights {
        let at = 0x140 + 0x10 * light;
        let half = |r: &mut Random| r.word() & 0x83FF | (13 + r.below(4)) << 10;
        (0..4).for_each(|i| pairs.extend([at + i, r.word() & 0xFC3_F0FC]));
        pairs.extend([at + 4, half(r) | half(r) << 16, at + 5, half(r), at + 6, r.word(), at + 7, r.word()]);
        pairs.extend([at + 9, if all { r.word() & 0xE } else { 1 }, at + 11, 0x3_D000 | r.below(4096)]);
    }
    pairs
}

/// A capture of 65,536 bytes to time: a lighting, then tables by uploads or by a restore if they are used, then as many
/// fragments as fit; what is left over is taken by writes.
pub fn largest(lights: u32, all: bool, restored: bool, r: &mut Random) -> Vec<u8> {
    let mut writes = scene(lights, all, r);
    let mut bodies = vec![];
    if restored {
        bodies.push(Body { kind: 3, words: restore_words(r) });
    } else if all {
        // the entries around the middle of every table
        for entry in (0..24 * 256).step_by(32) {
            writes.extend([INDEX as u32, entry, 0x1C8, r.word()]);
        }
    }
    let left = WORDS - 1 - 3 * (bodies.len() + 2) - bodies.iter().map(|b| b.words.len()).sum::<usize>() - writes.len();
    let count = (left - left % FRAGMENT_WORDS) / FRAGMENT_WORDS;
    let count = count - (left - FRAGMENT_WORDS * count) % 2;
    while writes.len() + FRAGMENT_WORDS * count + 1 + 3 * (bodies.len() + 2) + bodies.iter().map(|b| b.words.len()).sum::<usize>() < WORDS {
        writes.extend([0x100, r.word()]);
    }
    bodies.push(Body { kind: 1, words: writes });
    bodies.push(Body { kind: 2, words: ordinary_fragments(count, r) });
    bytes(&capture(&bodies))
}
