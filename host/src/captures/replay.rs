//! The list of captures that the program `capture_replay` runs, and what they print by the module.

use super::compared::{theirs, Tally};
use super::*;
use crate::tables::generated;

/// A part of a capture in the list: its words, or how many follow from a seed, as any words or as numbers.
enum Part {
    Words(Vec<u32>),
    Any(u32, u32),
    Numbers(u32, u32),
}

impl Part {
    /// A float between a half and one, or between minus one and minus a half.
    fn number(x: u32) -> u32 {
        x & 0x8000_0000 | 0x3F00_0000 | x >> 8 & 0x7F_FFFF
    }

    fn words(&self) -> Vec<u32> {
        match self {
            Part::Words(words) => words.clone(),
            Part::Any(count, seed) => generated(*seed, *count as usize),
            Part::Numbers(count, seed) => generated(*seed, *count as usize).into_iter().map(Part::number).collect(),
        }
    }

    fn text(&self) -> String {
        match self {
            Part::Words(words) => {
                let lines: Vec<String> =
                    words.chunks(8).map(|line| line.iter().map(|w| format!("{w:08X}")).collect::<Vec<_>>().join(" ") + "\n").collect();
                format!("00000000 {:08X}\n{}", words.len(), lines.concat())
            }
            Part::Any(count, seed) => format!("00000001 {count:08X} {seed:08X}\n"),
            Part::Numbers(count, seed) => format!("00000002 {count:08X} {seed:08X}\n"),
        }
    }
}

/// A capture of the list: what it shows, its parts, and how many bytes of them count.
struct Listed {
    what: String,
    parts: Vec<Part>,
    bytes: usize,
}

impl Listed {
    fn new(what: &str, parts: Vec<Part>) -> Listed {
        let bytes = parts.iter().map(|part| 4 * part.words().len()).sum();
        Listed { what: what.into(), parts, bytes }
    }

    fn words(what: &str, words: &[u32]) -> Listed {
        Listed::new(what, vec![Part::Words(words.to_vec())])
    }

    fn input(&self) -> Vec<u8> {
        let words: Vec<u32> = self.parts.iter().flat_map(Part::words).collect();
        bytes(&words)[..self.bytes].to_vec()
    }
}

/// Document 01's whole case.
const WHOLE_CASE: [u32; 17] = [2, 1, 7, 0xA, 2, 0x11, 0x17, 0x8F, 1, 0x142, 0xFF3_FCFF, 0x145, 0x3C00, 0x149, 1, 0x1C4, 0xFFFF_FFFF];

/// The whole case, with a word of it changed, and so many zeros behind.
fn whole_case(change: Option<(usize, u32)>, zeros: usize) -> Vec<u32> {
    let mut words = WHOLE_CASE.to_vec();
    if let Some((at, word)) = change {
        words[at] = word;
    }
    words.resize(WHOLE_CASE.len() + zeros, 0);
    words
}

/// The captures that document 01 names: the whole case, every refusal, and the ends of what is allowed.
fn named() -> Vec<Listed> {
    let with = |what, at, word| Listed::words(what, &whole_case(Some((at, word)), 23));
    let cut = |what, words: &[u32], bytes| Listed { bytes, ..Listed::words(what, words) };
    let on = [0x8F, 1, 0x142, 0xFF3_FCFF, 0x145, 0x3C00, 0x149, 1, 0x1C4, 0xFFFF_FFFF];
    let body = |kind, words: &[u32]| Body { kind, words: words.to_vec() };
    let pairs = |count: usize| body(1, &on.repeat(count));
    let fragments = body(2, &[0; 46]);
    let coloured = |i: u32| [on.as_slice(), &[0x142, ((17 * i) << 20) | (255 - i), 0x8F, (i != 6) as u32]].concat();
    let sixteen: Vec<Body> = (0..16).map(|i| if i % 2 == 0 { body(1, &coloured(i)) } else { body(2, &[0; 23]) }).collect();
    let seventeen: Vec<Body> = (0..17).map(|_| body(1, &on)).collect();
    // distribution 0, with uploads into its last two entries, and a fragment seen from straight ahead, for which it
    // reads the last
    let uploads = [0x1C5, 0xFE, 0x1C8, 0x800, 0x1CF, 0xC00, 0x140, 0xFF3_FCFF, 0x1C3, 0x0, 0x1C4, 0xFFFE_FFFF];
    let mut ahead = body(2, &[0; 46]);
    ahead.words[6] = 0x3F80_0000;
    vec![
        Listed::words("the whole case of document 01", &whole_case(None, 23)),
        with("the whole case with the first pair's value 0", 8, 0),
        Listed::words("no body", &[0]),
        Listed::words("one body of nothing", &[1, 1, 4, 0]),
        Listed::words("a fragment body without a fragment", &capture(&[pairs(1), body(2, &[])])),
        Listed::words(
            "a fragment body without a fragment before others",
            &capture(&[pairs(1), body(2, &[]), body(1, &[0x8F, 0]), fragments.clone()]),
        ),
        Listed::words("fragments before any write", &capture(std::slice::from_ref(&fragments))),
        Listed::words("off by 1C6", &capture(&[pairs(1), body(1, &[0x1C6, 1]), fragments.clone()])),
        Listed::words("16 bodies", &capture(&sixteen)),
        Listed::words(
            "uploads between draws",
            &capture(&[pairs(1), body(1, &uploads), ahead.clone(), body(1, &[0x1C5, 0xFF, 0x1C8, 0x400]), ahead.clone()]),
        ),
        Listed::new(
            "a restore",
            vec![
                Part::Words(vec![4, 1, 13, 22, 3, 35, 12_288, 2, 12_323, 46, 2, 12_369, 0]),
                Part::Words([on.as_slice(), &uploads].concat()),
                Part::Numbers(12_288, 5),
                Part::Words(vec![0; 23]),
                Part::Numbers(23, 6),
            ],
        ),
        Listed::new(
            "the largest size",
            vec![
                Part::Words([[2, 1, 7, 16_377 - 23 * 711, 2, 16_384 - 23 * 711, 23 * 711].as_slice(), &on, &[0x100; 14]].concat()),
                Part::Numbers(23 * 711, 7),
            ],
        ),
        Listed::new("one word more", vec![Part::Words(vec![1, 2, 4, 23 * 712, 0]), Part::Numbers(23 * 712 + 4, 8)]),
        Listed { bytes: 65_537, ..Listed::new("one byte more", vec![Part::Words(vec![1, 2, 4, 23 * 712]), Part::Any(23 * 712 + 5, 9)]) },
        cut("no input", &[], 0),
        cut("three bytes", &[0], 3),
        cut("a byte short", &whole_case(None, 23), 159),
        Listed::words("17 bodies", &capture(&seventeen)),
        with("more bodies than there are", 0, 3),
        with("fewer bodies than there are", 0, 1),
        with("a count of any bits", 0, u32::MAX),
        with("kind 0", 1, 0),
        with("kind 4", 1, 4),
        with("a kind of any bits", 4, u32::MAX),
        with("an offset too low", 2, 6),
        with("an offset too high", 5, 0x12),
        with("an odd number of words for pairs", 3, 9),
        with("fragments of other lengths", 6, 22),
        with("a length of any bits", 6, u32::MAX),
        Listed::words("a word after the last body", &whole_case(None, 24)),
        Listed::words("a body past the end", &whole_case(None, 22)),
        Listed::words("contents past the end", &[2, 1, 7, 0, 2, 7]),
        Listed::words("contents alone", &[2, 1, 7, 0, 2, 7, 0]),
        Listed::new("a restore too short", vec![Part::Words(vec![1, 3, 4, 12_286]), Part::Any(12_286, 10)]),
        Listed::new("a restore too long", vec![Part::Words(vec![1, 3, 4, 12_290]), Part::Any(12_290, 11)]),
        Listed::words("register 474", &capture(&[pairs(1), fragments.clone(), body(1, &[473, 1, 474, 1])])),
        Listed::words("a register of any bits", &capture(&[pairs(1), fragments.clone(), body(1, &[u32::MAX, 1])])),
        Listed::words("a register too high before a word after the last body", &[capture(&[body(1, &[474, 1])]), vec![0]].concat()),
        Listed::words("a fragment's words that would be registers too high", &capture(&[body(2, &[u32::MAX; 23])])),
    ]
}

/// A random capture: lightings, some uploads, few fragments, now and then a restore.
fn listed(at: u32, r: &mut Random) -> Listed {
    let count = 2 + r.below(4) as usize;
    let mut contents = vec![count as u32];
    let mut parts = vec![];
    let mut end = 1 + 3 * count;
    let mut restored = false;
    for i in 0..count {
        let kind = if i == 0 { 1 } else { [1, 2, 2, 3][r.below(4) as usize] };
        let (kind, part) = match kind {
            3 if !restored => {
                restored = true;
                (3, if r.below(4) == 0 { Part::Any(12_288, r.word()) } else { Part::Numbers(12_288, r.word()) })
            }
            1 => {
                let mut pairs = lighting_pairs(r);
                for _ in 0..r.below(6) {
                    let (register, value) = random_write(r);
                    pairs.extend([register % 474, value]);
                }
                (1, Part::Words(pairs))
            }
            _ if r.below(3) == 0 => (2, Part::Numbers(23 * (1 + r.below(4)), r.word())),
            _ => (2, Part::Words(fragments(1 + r.below(2) as usize, r))),
        };
        let words = part.words().len();
        contents.extend([kind, end as u32, words as u32]);
        end += words;
        parts.push(part);
    }
    parts.insert(0, Part::Words(contents));
    Listed::new(&format!("random {at}"), parts)
}

/// A random capture with one thing wrong, or one that only looks so; no restore is in it.
fn listed_damaged(at: u32, r: &mut Random) -> Listed {
    let bodies = [Body { kind: 1, words: lighting_pairs(r) }, Body { kind: 2, words: fragments(1, r) }];
    let mut input = damaged(&bodies, r);
    let bytes = input.len();
    input.resize(bytes.next_multiple_of(4), 0);
    let words: Vec<u32> = input.as_chunks().0.iter().map(|w| u32::from_le_bytes(*w)).collect();
    Listed { bytes, ..Listed::words(&format!("damaged {at}"), &words) }
}

fn list(seed: u64) -> Vec<Listed> {
    let mut r = Random(seed);
    let mut list = named();
    list.extend((0..72).map(|at| listed(at, &mut r)));
    list.extend((0..24).map(|at| listed_damaged(at, &mut r)));
    list
}

const REPLAY_HEADER: &str = "\
# Captures, for the program capture_replay (hexadecimal words). What each prints stands in the file stdout, as the Rust module has it.
# A capture is put together from parts, and ends with 3 and how many of its bytes count. A part is 0, how many words, and those; or
# 1, how many words, and a seed that they follow from; or 2, the same, for numbers. Each word follows from the one before, times
# 1664525 plus 1013904223, cut to 32 bits, and the first so from the seed. A number is such a word x as the float of sign bit 31 of x,
# exponent 7E and bits 8 to 30 of x.
";

/// The list that the program `capture_replay` runs.
pub fn replay_list(seed: u64) -> String {
    let mut text = format!("{REPLAY_HEADER}# made by make_capture_replay list {seed}\n");
    for (at, listed) in list(seed).iter().enumerate() {
        let parts: String = listed.parts.iter().map(Part::text).collect();
        text += &format!("\n# {}: {}\n{parts}00000003 {:08X}\n", at + 1, listed.what, listed.bytes);
    }
    text
}

/// What it prints, by the module.
pub fn answers_text(seed: u64) -> String {
    let (mut text, mut tally) = (vec![], Tally::default());
    let list = list(seed);
    for (at, listed) in list.iter().enumerate() {
        text.extend(format!("capture {}\n", at + 1).bytes());
        theirs(&listed.input(), &mut tally, &mut text);
    }
    text.extend(format!("{} captures\n", list.len()).bytes());
    String::from_utf8(text).unwrap()
}
