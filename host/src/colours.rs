//! Shading of the proved code, beside the Rust module's `Lighting::shade`: by each of the library's calls, and by the
//! calls on the structs.
//!
//! The module's `max` gives −0 of −0 and +0 where IEEE 754 and the proved code give +0 (docs/DIFFERENCES.md). No colour
//! shows it: of a facing and of a table's input no later step asks the sign or the reciprocal, and what the rebuilt z
//! comes from is never −0. So nothing is left out of the comparison.
#![cfg(oracle)]

mod scenes;
pub use scenes::{eight, fragment, ordinary_fragment, scene, table_words, Fragment};

use crate::blocks::theirs;
use crate::boundary::{self, bytes, words, ANSWER_WORDS, FRAGMENT_WORDS, OFF};
use crate::forms::{damage, Checker, NAN_FREE, NOT_WELL_FORMED, WITH_NAN};
use crate::machine::first_of;
use crate::oracle::{access, Lighting, Tables};
use crate::patterns::Random;
use crate::structs;
use lighting::{BLOCK_WORDS, TABLE_WORDS};
use scenes::{register_words, retable};

/// The calls that shade one fragment or many from slices of words.
#[derive(Clone, Copy, Debug)]
enum Way {
    /// `lighting_shade_fragments`
    Fragments,
    /// block shading on the structs
    Block,
    /// block read and shade on the structs
    Reading,
    /// read and shade on the structs, of a register file in the block's place
    File,
}

const BLOCK_WAYS: [Way; 3] = [Way::Fragments, Way::Block, Way::Reading];

/// What a call is given but for the answer: a block, or a register file in its place.
#[derive(Clone)]
struct Given<'a> {
    block: &'a [u32],
    tables: &'a [u32],
    fragments: &'a [u32],
}

impl Given<'_> {
    fn shade(&self, way: Way, answer: &mut [u32]) -> u32 {
        let Given { block, tables, fragments } = *self;
        match way {
            Way::Fragments => boundary::shade_fragments(block, tables, fragments, answer),
            Way::Block => structs::shade_block(block, tables, fragments, answer),
            Way::Reading => structs::shade_reading(block, tables, fragments, answer),
            Way::File => structs::shade_file(block, tables, fragments, answer),
        }
    }

    /// The number that is due of what the block, of a right length, reads as: 0, 7 or off.
    fn due(&self, way: Way, reads: u32, answer_words: usize) -> u32 {
        let (block, tables) = (self.block.len() != BLOCK_WORDS, self.tables.len() != TABLE_WORDS);
        let (fragment, answer) = (self.fragments.len() != FRAGMENT_WORDS, answer_words != ANSWER_WORDS);
        let fragments = !self.fragments.len().is_multiple_of(FRAGMENT_WORDS);
        let answers = answer_words != self.fragments.len() / FRAGMENT_WORDS * ANSWER_WORDS;
        let order = match way {
            Way::Fragments => vec![(block, 6), (tables, 2), (fragments || answers, 9), (true, reads)],
            Way::Block => vec![(block, 6), (tables, 2), (fragment || answer, 9), (true, reads)],
            // shade's own refusals come after the reading's
            Way::Reading => vec![(fragment, 9), (block, 6), (reads != 0, reads), (tables, 2), (answer, 9)],
            Way::File => vec![(fragment, 9), (self.block.len() < 474, 1), (reads != 0, reads), (tables, 2), (answer, 9)],
        };
        first_of(&order)
    }

    fn shown(&self) -> String {
        format!("{} words {:08X?} with {} of tables, fragment {:08X?}", self.block.len(), self.block, self.tables.len(), self.fragments)
    }
}

/// What was compared, and the first difference.
#[derive(Default, Debug)]
pub struct Tally {
    pub scenes: u64,
    /// fragments, each shaded by every call
    pub fragments: u64,
    /// lists of fragments in one call, and how many fragments they have in all
    pub lists: u64,
    pub listed: u64,
    /// fragments with a k other than 0 and 255, and those of damaged blocks that are still well formed
    pub between: u64,
    pub damaged: u64,
    /// scenes by configuration, by lights, by bump (none, normals, tangents), with a shadow, with a light in two slots,
    /// with a NaN in the block
    pub configurations: [u64; 16],
    pub lights: [u64; 8],
    pub bumps: [u64; 3],
    pub shadows: u64,
    pub repeated: u64,
    pub with_nan: u64,
    /// scenes by the tables that are there (both distributions, fresnel, the reflections of red, green and blue), by
    /// the inputs that these and the spotlights read, with a spotlight and with a distance
    pub tables: [u64; 6],
    pub inputs: [u64; 8],
    pub spotlights: u64,
    pub distances: u64,
    /// calls by what was due: 1, 6, 2, 9, 7 and off
    pub refused: [u64; 10],
    pub off: u64,
    pub differ: u64,
    pub first: Option<String>,
}

impl Tally {
    fn differs(&mut self, what: String) {
        self.differ += 1;
        self.first.get_or_insert(what);
    }

    fn scene(&mut self, block: &[u32]) {
        self.scenes += 1;
        self.configurations[block[0] as usize] += 1;
        self.lights[block[1] as usize - 1] += 1;
        self.bumps[block[2] as usize & 3] += 1;
        self.shadows += (block[3] != 0) as u64;
        let number = |slot: u32| block[40 + 36 * slot as usize + 33];
        self.repeated += (1..block[1]).any(|s| (0..s).any(|t| number(s) == number(t))) as u64;
        self.with_nan += block.contains(&crate::NAN) as u64;
        let flagged = |flag: u32| (0..block[1]).any(|slot| block[40 + 36 * slot as usize + 32] & flag != 0);
        self.distances += flagged(16) as u64;
        self.spotlights += flagged(32) as u64;
        for (k, lookup) in block[8..36].chunks(4).enumerate() {
            let there = if k == 6 { flagged(32) } else { lookup[0] == 1 };
            if there && k < 6 {
                self.tables[k] += 1;
            }
            self.inputs[lookup[1] as usize] += there as u64;
        }
    }

    /// A call on words, with so many for the answer: its number, and the answer, which stays but for 0.
    fn call(&mut self, way: Way, given: &Given, number: u32, due: &[u32], answer_words: usize) {
        if number == OFF {
            self.off += 1;
        } else {
            self.refused[number as usize] += (number != 0) as u64;
        }
        let mut answer = vec![0xAAAA_AAAA; answer_words];
        let got = given.shade(way, &mut answer);
        let same = if number == 0 { answer == due } else { answer.iter().all(|w| *w == 0xAAAA_AAAA) };
        if got != number || !same {
            self.differs(format!("{way:?}: {got} and {answer:?}, and not {number} and {due:?}, of {}", given.shown()));
        }
    }

    /// The call on bytes in the same way.
    fn byte_call(&mut self, given: [&[u8]; 3], number: u32, due: &[u32], answer_bytes: usize) {
        if number == OFF {
            self.off += 1;
        } else {
            self.refused[number as usize] += (number != 0) as u64;
        }
        let mut answer = vec![0xAA; answer_bytes];
        let [block, tables, fragment] = given;
        let got = boundary::shade_block(block, tables, fragment, &mut answer);
        let same = if number == 0 { words(&answer) == due } else { answer.iter().all(|b| *b == 0xAA) };
        if got != number || !same {
            let sizes = given.map(<[u8]>::len);
            let (block, fragment) = (words(block), words(fragment));
            self.differs(format!("bytes: {got}, and not {number} and {due:?}, of block {block:08X?}, fragment {fragment:08X?}, in {sizes:?} bytes"));
        }
    }

    fn colours(&mut self, due: [u32; 8]) {
        self.fragments += 1;
        self.between += due.iter().any(|k| !matches!(k, 0 | 255)) as u64;
    }
}

/// A slice of a length that is refused.
fn resized<T: Copy + Default>(slice: &[T], lengths: [usize; 8], r: &mut Random) -> Vec<T> {
    let mut slice = slice.to_vec();
    slice.resize(lengths[r.below(8) as usize], T::default());
    slice
}

/// Some of the slices of another length, as words and as bytes, whole words or not: the first number that is due.
fn lengths(tally: &mut Tally, ways: &[Way], given: &Given, reads: u32, due: &[u32], r: &mut Random) {
    let wrong: [bool; 4] = std::array::from_fn(|_| r.below(2) == 0);
    let answer = [0; ANSWER_WORDS];
    let slices: [&[u32]; 4] = [given.block, given.tables, given.fragments, &answer];
    for way in ways {
        let [block, tables, fragments, answer]: [Vec<u32>; 4] = std::array::from_fn(|at| {
            let n = slices[at].len();
            if wrong[at] {
                resized(slices[at], [0, 1, 7, n - 2, n - 1, n + 1, n + 2, 2 * n], r)
            } else {
                slices[at].to_vec()
            }
        });
        let lent = Given { block: &block, tables: &tables, fragments: &fragments };
        let number = lent.due(*way, reads, answer.len());
        // several lengths are right for a file or for a list of fragments
        if number != 0 {
            tally.call(*way, &lent, number, due, answer.len());
        }
    }
    if !matches!(ways, [Way::File]) {
        let slices = slices.map(bytes);
        let [block, tables, fragment, answer]: [Vec<u8>; 4] = std::array::from_fn(|at| {
            let n = slices[at].len();
            if wrong[at] {
                resized(&slices[at], [0, 1, n - 4, n - 1, n + 1, n + 2, n + 4, 2 * n], r)
            } else {
                slices[at].clone()
            }
        });
        let number = match wrong {
            [true, ..] => 6,
            [_, true, ..] => 2,
            [.., true, _] | [.., true] => 9,
            _ => reads,
        };
        tally.byte_call([&block, &tables, &fragment], number, due, answer.len());
    }
}

/// One to three words of the block damaged: 7 or off by the checker, else the colours of what the block still says.
fn damaged(tally: &mut Tally, checker: &Checker, given: &Given, tables: (&Tables, &[u8]), r: &mut Random) {
    let block = damage(given.block, r);
    let given = Given { block: &block, ..given.clone() };
    let (reads, due) = match checker.form(&block) {
        number @ (NOT_WELL_FORMED | OFF) => (number, [0; 8]),
        NAN_FREE | WITH_NAN => {
            let due = eight(&access::lighting_of(&block), tables.0, &Fragment::of(given.fragments));
            tally.damaged += 1;
            tally.colours(due);
            (0, due)
        }
        number => unreachable!("a block of 328 words reads as {number}"),
    };
    tally.byte_call([&bytes(&block), tables.1, &bytes(given.fragments)], reads, &due, 4 * ANSWER_WORDS);
    BLOCK_WAYS.iter().for_each(|way| tally.call(*way, &given, reads, &due, ANSWER_WORDS));
    if reads != 0 {
        lengths(tally, &BLOCK_WAYS, &given, reads, &due, r);
    }
}

/// A scene's fragments one by one through every call, then in lists of none, one and some.
fn shaded(tally: &mut Tally, checker: &Checker, file: &[u32], tables: (&Tables, &[u32], &[u8]), r: &mut Random) {
    let (lighting, block) = (Lighting::read(file).expect("a lighting that is on"), theirs(file).expect("a lighting that is on"));
    let (block_bytes, wild) = (bytes(&block), r.below(2) == 0);
    tally.scene(&block);
    let (mut all, mut answers) = (vec![], vec![]);
    for _ in 0..32 {
        let words = fragment(wild, r);
        let due = eight(&lighting, tables.0, &Fragment::of(&words));
        tally.colours(due);
        tally.byte_call([&block_bytes, tables.2, &bytes(&words)], 0, &due, 4 * ANSWER_WORDS);
        let given = Given { block: &block, tables: tables.1, fragments: &words };
        BLOCK_WAYS.iter().for_each(|way| tally.call(*way, &given, 0, &due, ANSWER_WORDS));
        tally.call(Way::File, &Given { block: file, ..given.clone() }, 0, &due, ANSWER_WORDS);
        match r.below(16) {
            0 => {
                lengths(tally, &BLOCK_WAYS, &given, 0, &due, r);
                lengths(tally, &[Way::File], &Given { block: file, ..given.clone() }, 0, &due, r);
            }
            1..4 => damaged(tally, checker, &given, (tables.0, tables.2), r),
            _ => {}
        }
        all.extend(words);
        answers.extend(due);
    }
    // bytes may stand at any address
    let shifted = |bytes: &[u8], by: usize| [&[0; 3][..by], bytes].concat();
    let [b, t, f] = [1 + r.below(3), r.below(4), r.below(4)].map(|by| by as usize);
    let (block_at, tables_at, fragment_at) = (shifted(&block_bytes, b), shifted(tables.2, t), shifted(&bytes(&all[..FRAGMENT_WORDS]), f));
    tally.byte_call([&block_at[b..], &tables_at[t..], &fragment_at[f..]], 0, &answers[..ANSWER_WORDS], 4 * ANSWER_WORDS);
    for count in [0, 1, 2 + r.below(30) as usize, 32] {
        let from = r.below(33 - count as u32) as usize;
        let fragments = &all[FRAGMENT_WORDS * from..][..FRAGMENT_WORDS * count];
        let given = Given { block: &block, tables: tables.1, fragments };
        let due = &answers[ANSWER_WORDS * from..][..ANSWER_WORDS * count];
        tally.lists += 1;
        tally.listed += count as u64;
        tally.call(Way::Fragments, &given, 0, due, due.len());
        // not whole fragments, and answers for more or fewer of them
        let mut cut = fragments.to_vec();
        cut.resize(cut.len() + 1 + r.below(22) as usize, 0);
        tally.call(Way::Fragments, &Given { fragments: &cut, ..given.clone() }, 9, &[], due.len());
        let wrong = [due.len() + 1, due.len() + 8, due.len().saturating_sub(1), due.len().saturating_sub(8)][r.below(4) as usize];
        if wrong != due.len() {
            tally.call(Way::Fragments, &given, 9, &[], wrong);
        }
    }
}

/// So many fragments, and beside them damaged blocks and other lengths.
pub fn compare(fragments: u64, seed: u64) -> Tally {
    let (checker, mut r, mut tally) = (Checker::default(), Random(seed), Tally::default());
    let mut tables = Tables::default();
    while tally.fragments < fragments {
        retable(&mut tables, &mut r);
        let entries = table_words(&tables);
        let entry_bytes = bytes(&entries);
        for _ in 0..4 {
            let file = register_words(&mut r);
            shaded(&mut tally, &checker, &file, (&tables, &entries, &entry_bytes), &mut r);
        }
        let (words, mut file) = (fragment(true, &mut r), register_words(&mut r));
        let off = Given { block: &[0; BLOCK_WORDS], tables: &entries, fragments: &words };
        tally.byte_call([&[0; 4 * BLOCK_WORDS], &entry_bytes, &bytes(&words)], OFF, &[], 4 * ANSWER_WORDS);
        BLOCK_WAYS.iter().for_each(|way| tally.call(*way, &off, OFF, &[], ANSWER_WORDS));
        tally.call(Way::Fragments, &Given { fragments: &[], ..off.clone() }, OFF, &[], 0);
        lengths(&mut tally, &BLOCK_WAYS, &off, OFF, &[], &mut r);
        file[[0x08F, 0x1C6][r.below(2) as usize]] ^= 1;
        let off = Given { block: &file, ..off };
        tally.call(Way::File, &off, OFF, &[], ANSWER_WORDS);
        lengths(&mut tally, &[Way::File], &off, OFF, &[], &mut r);
    }
    tally
}
