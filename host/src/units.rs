//! Cached reads and hand-overs of the proved code, beside the Rust module's `LastLighting::read` and `pack`: the
//! library's, with a lent cache, and those on the structs, with a cache that is a struct.
#![cfg(oracle)]

use crate::blocks::{register_file, theirs};
use crate::boundary::{hand_over, read_file, Copy, Unit, CACHE_WORDS, OFF, WRONG_SIZE};
use crate::machine::first_of;
use crate::oracle::{LastLighting, Lighting};
use crate::patterns::Random;
use crate::structs;
use crate::tables::generated;
use lighting::{BLOCK_WORDS, REGISTERS, TABLE_WORDS};

/// A copy that the module's own cached read and packing fill, and a plain copy of the tables.
#[derive(Default)]
pub struct TheirCopy {
    last: LastLighting,
    block: Vec<u32>,
    tables: Vec<u32>,
    generation: u64,
}

impl TheirCopy {
    #[inline]
    pub fn hand_over(&mut self, file: &[u32], tables: &[u32], generation: u64) {
        self.block.clear();
        match self.last.read(file) {
            Some(lighting) => lighting.pack(&mut self.block),
            None => self.block.resize(BLOCK_WORDS, 0),
        }
        if generation != self.generation {
            self.tables.clear();
            self.tables.extend_from_slice(tables);
            self.generation = generation;
        }
    }
}

/// The module's read of a file whose lighting is on, packed into `block`.
#[inline]
pub fn their_read(file: &[u32], block: &mut Vec<u32>) {
    block.clear();
    Lighting::read(file).expect("a lighting").pack(block);
}

/// What was compared, and the first difference.
#[derive(Default, Debug)]
pub struct Tally {
    /// calls of pairs of hand-overs on the structs, and hand-overs of the library
    pub in_structs: u64,
    pub lent: u64,
    /// hand-overs of either that took the tables, found them of the same generation, and packed a lighting that is off
    pub taken: u64,
    pub kept: u64,
    pub off: u64,
    /// pairs of cached reads on the structs, the library's cached reads, and its reads
    pub struct_reads: u64,
    pub cached_reads: u64,
    pub reads: u64,
    /// refusals by their number, and of 101
    pub refused: [u64; 7],
    pub wrong_size: u64,
    pub differ: u64,
    pub first: Option<String>,
}

/// The block of a file as the library hands it over: all zero where the lighting is off.
fn block_of(file: &[u32]) -> Vec<u32> {
    theirs(file).unwrap_or(vec![0; BLOCK_WORDS])
}

/// What one hand-over leaves, from document 01 and the module: its number, and the copy.
fn handed(file: &[u32], tables: &[u32], generation: u64, cache_words: usize, copy: &mut Copy) -> u32 {
    let number = first_of(&[
        (file.len() < REGISTERS, 1),
        (tables.len() != TABLE_WORDS, 2),
        (copy.tables.len() != TABLE_WORDS, 2),
        (copy.block.len() != BLOCK_WORDS, 6),
        (cache_words != CACHE_WORDS, WRONG_SIZE),
    ]);
    if number == 0 {
        copy.block = block_of(file);
        if copy.generation != generation {
            copy.tables.copy_from_slice(tables);
            copy.generation = generation;
        }
    }
    number
}

/// Two files, and what else a hand-over takes, some of it of another length.
struct Given {
    files: [Vec<u32>; 2],
    tables: Vec<u32>,
    generations: [u64; 2],
    copy: Copy,
    cache_words: usize,
}

impl Given {
    /// Files that mostly differ in a few registers; one in sixteen with slices of other lengths.
    fn draw(tables: &[u32], copy: &Copy, r: &mut Random) -> Given {
        let file = register_file(r);
        let mut other = file.clone();
        for _ in 0..r.below(3) {
            let at = if r.below(2) == 0 { [0x08F, 0x140, 0x1C4, 0x1C6, 0x1D0, 0x1D2, 0x1D9][r.below(7) as usize] } else { r.below(474) as usize };
            other[at] ^= 1 << r.below(32);
        }
        let generations = [0; 2].map(|_| [copy.generation, r.below(3) as u64, u64::MAX, r.draw()][r.below(4) as usize]);
        let mut given = Given { files: [file, other], tables: tables.to_vec(), generations, copy: copy.clone(), cache_words: CACHE_WORDS };
        if r.below(16) == 0 {
            let mut resized = |slice: &mut Vec<u32>, words: &[usize]| {
                if r.below(2) == 0 {
                    slice.resize(words[r.below(words.len() as u32) as usize], 3);
                }
            };
            resized(&mut given.files[1], &[0, 1, 473, 475, 600]);
            resized(&mut given.tables, &[0, 1, 12_287, 12_289]);
            resized(&mut given.copy.tables, &[0, 1, 12_287, 12_289]);
            resized(&mut given.copy.block, &[0, 1, 40, 327, 329]);
            given.cache_words = [CACHE_WORDS, CACHE_WORDS, 0, 1, 467, 469][r.below(6) as usize];
        }
        given
    }
}

impl Tally {
    fn refuse(&mut self, number: u32) {
        if number == WRONG_SIZE {
            self.wrong_size += 1;
        } else if number != OFF {
            self.refused[number as usize] += (number != 0) as u64;
        }
    }

    fn count(&mut self, number: u32, raised: bool, copy: &Copy) {
        if number == 0 {
            *if raised { &mut self.taken } else { &mut self.kept } += 1;
            self.off += copy.block.iter().all(|w| *w == 0) as u64;
        }
        self.refuse(number);
    }

    fn check(&mut self, same: bool, what: &str, numbers: (u32, u32), given: &Given) {
        if !same {
            self.differ += 1;
            let (ours, due) = numbers;
            self.first.get_or_insert_with(|| format!("{what}: {ours}, and not {due}, of {:08X?}", given.files));
        }
    }

    /// One to three pairs of hand-overs on the structs. The copy afterwards.
    fn in_structs(&mut self, given: &Given, pairs: u32) -> Copy {
        let [file, other] = &given.files;
        let (mut ours, mut due) = (given.copy.clone(), given.copy.clone());
        let number = structs::hand_overs([file, other], &given.tables, given.generations, &mut ours, pairs);
        let mut expected = 0;
        for _ in 0..pairs {
            for (file, generation) in given.files.iter().zip(given.generations) {
                let before = due.generation;
                expected = handed(file, &given.tables, generation, CACHE_WORDS, &mut due);
                self.count(expected, before != generation, &due);
            }
        }
        self.in_structs += 1;
        self.check(number == expected && ours == due, &format!("{pairs} pairs of hand-overs on the structs"), (number, expected), given);
        due
    }

    /// The library's hand-overs of the same, one call each, with the cache of the calls before.
    fn lent(&mut self, given: &Given, cache: &mut Vec<u32>) {
        let (mut ours, mut due) = (given.copy.clone(), given.copy.clone());
        for (file, generation) in given.files.iter().zip(given.generations) {
            let (before, mut lent) = (due.generation, cache.clone());
            lent.resize(given.cache_words, 5);
            let lent_before = lent.clone();
            let number = hand_over(file, &given.tables, generation, &mut lent, &mut ours);
            let expected = handed(file, &given.tables, generation, given.cache_words, &mut due);
            self.lent += 1;
            self.count(expected, before != generation, &due);
            let cached = if expected == 0 { lent[0] != 0 } else { lent == lent_before };
            self.check(number == expected && ours == due && cached, "a hand-over", (number, expected), given);
            if expected == 0 {
                *cache = lent;
            }
        }
    }

    /// A call that reads a lighting into a block: its number, and the block, which is left where it is refused.
    fn read(&mut self, what: &str, due: u32, block: &[u32], given: &Given, call: impl FnOnce(&mut [u32]) -> u32) {
        let mut ours = vec![7; given.copy.block.len()];
        let number = call(&mut ours);
        let same = if block.is_empty() { ours.iter().all(|w| *w == 7) } else { ours == block };
        self.refuse(due);
        self.check(number == due && same, what, (number, due), given);
    }

    /// The reads of the second file: on the structs after the first, by the library's cache, and without it.
    fn reads(&mut self, given: &Given, cache: &mut Vec<u32>) {
        let [file, other] = &given.files;
        let short = other.len() < REGISTERS;
        let lit = if short { None } else { theirs(other) };
        let wrong_block = given.copy.block.len() != BLOCK_WORDS;
        let (number, zero) = (if lit.is_some() { 0 } else { OFF }, vec![0; BLOCK_WORDS]);
        // where the block is empty here, it has to be left
        let block = |number: u32, off: &[u32]| match number {
            0 => lit.clone().unwrap_or_default(),
            OFF => off.to_vec(),
            _ => vec![],
        };

        let due = first_of(&[(short, 1), (lit.is_none(), OFF), (wrong_block, 6)]);
        self.struct_reads += 1;
        self.read("cached reads on the structs", due, &block(due, &[]), given, |b| structs::cached_reads([file, other], b));

        let due = first_of(&[(short, 1), (wrong_block, 6), (true, number)]);
        self.reads += 1;
        self.read("a read", due, &block(due, &zero), given, |b| read_file(other, b));

        let due = first_of(&[(short, 1), (wrong_block, 6), (given.cache_words != CACHE_WORDS, WRONG_SIZE), (true, number)]);
        let mut unit = Unit { file: other.clone(), cache: cache.clone(), ..Unit::default() };
        unit.cache.resize(given.cache_words, 5);
        let before = unit.clone();
        self.cached_reads += 1;
        self.read("a cached read", due, &block(due, &zero), given, |b| unit.cached_read(b));
        if due == 0 || due == OFF {
            *cache = unit.cache;
        } else {
            self.check(unit == before, "a refused cached read changed its unit", (due, due), given);
        }
    }
}

/// So many calls of one to three pairs of hand-overs on the structs; beside each the library's hand-overs and reads of
/// the same files.
pub fn compare(calls: u64, seed: u64) -> Tally {
    let (mut r, mut tally) = (Random(seed), Tally::default());
    let mut tables = generated(r.word(), TABLE_WORDS);
    let (mut copy, mut cache) = (Copy::default(), vec![0; CACHE_WORDS]);
    for _ in 0..calls {
        tables[r.below(TABLE_WORDS as u32) as usize] = r.word();
        let given = Given::draw(&tables, &copy, &mut r);
        let pairs = 1 + r.below(3);
        let after = tally.in_structs(&given, pairs);
        tally.lent(&given, &mut cache);
        if r.below(64) == 0 {
            cache.fill(0);
        }
        tally.reads(&given, &mut cache);
        if after.block.len() == BLOCK_WORDS && after.tables.len() == TABLE_WORDS {
            copy = after;
        }
    }
    tally
}
