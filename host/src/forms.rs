//! Which blocks are well formed: a checker written from document 01's sentence, beside the proved code's check and its
//! block reader.
//!
//! The checker knows nothing of the proved code. It lists, for each place of a block, the words that may stand there,
//! and a test holds those lists to what the Rust module writes.

use crate::blocks::register_file;
use crate::boundary::{read_block, OFF};
use crate::patterns::{Random, ODD};
use crate::NAN;
use lighting::BLOCK_WORDS;
use std::sync::LazyLock;

unsafe extern "C" {
    fn block_form(words: *const u32, count: usize) -> u32;
}

/// A block of another length.
pub const WRONG_LENGTH: u32 = 6;
/// A block that is neither off nor well formed.
pub const NOT_WELL_FORMED: u32 = 7;
/// A well-formed block without a NaN.
pub const NAN_FREE: u32 = 0;
/// A well-formed block with a NaN.
pub const WITH_NAN: u32 = 1;

/// What the proved code finds a block to be.
pub fn form(block: &[u32]) -> u32 {
    unsafe { block_form(block.as_ptr(), block.len()) }
}

/// Where the first slot stands, and how many words each has.
const SLOTS: usize = 40;
const SLOT_WORDS: usize = 36;

/// The words that may stand at a place.
#[derive(Clone, Debug)]
pub enum Allowed {
    /// one of these
    Among(Vec<u32>),
    /// any number, or the one NaN
    Float,
}

impl Allowed {
    fn has(&self, word: u32) -> bool {
        match self {
            Allowed::Among(words) => words.contains(&word),
            Allowed::Float => !f32::from_bits(word).is_nan() || word == NAN,
        }
    }
}

/// Document 01's sentence as lists: what may stand at each place of the 40 words before the slots and of a lit slot's
/// 36.
pub struct Checker {
    pub head: Vec<Allowed>,
    pub slot: Vec<Allowed>,
}

impl Default for Checker {
    fn default() -> Checker {
        let below = |n: u32| Allowed::Among((0..n).collect());
        let padding = || below(1);
        let vector = || [Allowed::Float, Allowed::Float, Allowed::Float, padding()];
        let units = || 0..4u32;

        // none; normals in a unit, with z rebuilt or not; tangents in a unit
        let normals = units().flat_map(|unit| [0, 1].map(|rebuild| 1 | unit << 4 | rebuild << 8));
        let bump = [0].into_iter().chain(normals).chain(units().map(|unit| 2 | unit << 4));
        // none; one in a unit, with any of four flags
        let shadow = [0].into_iter().chain(units().flat_map(|unit| (0..16).map(move |flags| 1 | unit << 4 | flags << 8)));
        let scales = [1.0f32, 2.0, 4.0, 8.0, 0.0, 0.0, 0.25, 0.5].map(f32::to_bits);

        // configuration, count, bump, shadow, fresnel on both alphas, clamp, needs: none, view, view and half
        let mut head = vec![below(16), Allowed::Among((1..=8).collect()), Allowed::Among(bump.collect()), Allowed::Among(shadow.collect())];
        head.extend([below(2), below(2), below(2), Allowed::Among(vec![0, 2, 3])]);
        for lookup in 0..7 {
            // the last is the spotlight's, which is never missing
            let presence = if lookup == 6 { Allowed::Among(vec![1]) } else { below(2) };
            head.extend([presence, below(8), below(2), Allowed::Among(scales.to_vec())]);
        }
        head.extend(vector());

        // seven vectors, bias and scale, flags and number
        let mut slot: Vec<Allowed> = (0..7).flat_map(|_| vector()).collect();
        slot.extend([Allowed::Float, Allowed::Float, padding(), padding()]);
        slot.extend([below(128), below(8), padding(), padding()]);
        Checker { head, slot }
    }
}

impl Checker {
    /// Whether a block that isn't all zero is well formed.
    fn well_formed(&self, block: &[u32]) -> bool {
        let (head, slots) = block.split_at(SLOTS);
        let zero = |words: &[u32]| words.iter().all(|w| *w == 0);
        if !self.head.iter().zip(head).all(|(allowed, word)| allowed.has(*word)) {
            return false;
        }
        let lookups = head[8..36].chunks(4).all(|lookup| lookup[0] == 1 || zero(lookup));
        let slots = slots.chunks(SLOT_WORDS).enumerate().all(|(slot, words)| {
            if slot >= head[1] as usize {
                return zero(words);
            }
            let with_distance = words[32] & 16 != 0;
            self.slot.iter().zip(words).all(|(allowed, word)| allowed.has(*word)) && (with_distance || zero(&words[28..30]))
        });
        lookups && slots
    }

    /// The number that the proved code should give.
    pub fn form(&self, block: &[u32]) -> u32 {
        if block.len() != BLOCK_WORDS {
            WRONG_LENGTH
        } else if block.iter().all(|w| *w == 0) {
            OFF
        } else if !self.well_formed(block) {
            NOT_WELL_FORMED
        } else if block.contains(&NAN) {
            WITH_NAN
        } else {
            NAN_FREE
        }
    }
}

/// The words that a damaged place gets, besides its own with one bit flipped: small numbers, every power of two, NaNs
/// of every class, infinities, subnormals, each scale with its neighbours, and the odd words of [`ODD`].
fn damages() -> Vec<u32> {
    let mut words: Vec<u32> = (0..=20).chain([31, 32, 48, 63, 64, 112, 127, 128, 255, 256, 257, 511, 512, 4095, 4096, u32::MAX]).collect();
    words.extend((0..32).map(|bit| 1 << bit));
    words.extend([0x7F80_0001, 0x7FBF_FFFF, 0x7FC0_0000, 0x7FC0_0001, 0x7FFF_FFFF, 0xFF80_0001, 0xFFC0_0000, 0xFFFF_FFFF]);
    words.extend([0x7F80_0000, 0xFF80_0000, 0x0000_0001, 0x8000_0001, 0x007F_FFFF, 0x807F_FFFF]);
    for scale in [0.0f32, 1.0, 2.0, 4.0, 8.0, 16.0, 0.25, 0.5, 0.125, -1.0] {
        let bits = scale.to_bits();
        words.extend([bits.wrapping_sub(1), bits, bits + 1]);
    }
    words.extend(ODD);
    words.sort();
    words.dedup();
    words
}

/// A register file whose lighting is on, with so many lights; `part` picks what is there and what is missing.
fn file_with(lights: u32, part: u32, r: &mut Random) -> Vec<u32> {
    let mut file = register_file(r);
    file[0x08F] = 1;
    file[0x1C6] = 0;
    file[0x1C2] = lights - 1;
    let all = part.is_multiple_of(2);
    // configuration 8 has every table; bump (normals or tangents), shadow (with all its flags or none), fresnel and
    // clamp are all there, or none of them
    let (bump, shadow) = ((part / 2 % 2 + 1) << 28, (part / 4 % 2 * 0xF) << 16);
    file[0x1C3] = if all { 0x0800_008D | bump | shadow } else { 0 };
    file[0x1C4] = if all { 0 } else { u32::MAX };
    file
}

/// The blocks that are damaged: one to eight lights, every optional part there or missing, with NaNs and without, and
/// off.
pub fn blocks() -> Vec<Vec<u32>> {
    let mut r = Random(11);
    let mut blocks = vec![vec![0; BLOCK_WORDS]];
    for at in 0..16 {
        let file = file_with(at % 8 + 1, at / 8 + at, &mut r);
        blocks.push(packed(&file));
    }
    blocks
}

fn packed(file: &[u32]) -> Vec<u32> {
    let mut block = vec![0; BLOCK_WORDS];
    crate::blocks::pack(file, &mut block);
    block
}

/// What was compared: how often each answer was due, and the first difference.
#[derive(Default, Debug)]
pub struct Tally {
    pub compared: u64,
    pub off: u64,
    pub nan_free: u64,
    pub with_nan: u64,
    pub not_well_formed: u64,
    pub wrong_length: u64,
    pub differ: u64,
    pub first: Option<String>,
}

impl Tally {
    fn block(&mut self, checker: &Checker, block: &[u32]) {
        let (ours, due) = (form(block), checker.form(block));
        self.compared += 1;
        *match due {
            OFF => &mut self.off,
            NAN_FREE => &mut self.nan_free,
            WITH_NAN => &mut self.with_nan,
            WRONG_LENGTH => &mut self.wrong_length,
            _ => &mut self.not_well_formed,
        } += 1;
        // the block reader doesn't tell NaN from none
        let (read, read_due) = (read_block(block), if due == WITH_NAN { NAN_FREE } else { due });
        if ours != due || read != read_due {
            self.differ += 1;
            self.first.get_or_insert_with(|| format!("{ours} and {read}, and not {due} and {read_due}, of the block {block:08X?}"));
        }
    }
}

/// Every block of [`blocks`] with every damage at every word, one at a time; as it is; and cut or grown to other
/// lengths.
pub fn compare_each() -> Tally {
    let (checker, damages, mut tally) = (Checker::default(), damages(), Tally::default());
    for mut block in blocks() {
        tally.block(&checker, &block);
        for at in 0..BLOCK_WORDS {
            let before = block[at];
            for word in damages.iter().copied().chain((0..32).map(|bit| before ^ 1 << bit)) {
                block[at] = word;
                tally.block(&checker, &block);
            }
            block[at] = before;
        }
        for words in [0, 1, 8, 40, 76, 327, 329, 656] {
            block.resize(words, 0);
            tally.block(&checker, &block);
        }
    }
    tally
}

/// A block with one to three of its words damaged, a third of the damages before the slots.
pub fn damage(block: &[u32], r: &mut Random) -> Vec<u32> {
    static DAMAGES: LazyLock<Vec<u32>> = LazyLock::new(damages);
    let mut block = block.to_vec();
    for _ in 0..=r.below(3) {
        let words = if r.below(3) == 0 { SLOTS } else { BLOCK_WORDS };
        let at = r.below(words as u32) as usize;
        block[at] = match r.below(4) {
            0 => r.word(),
            1 => block[at] ^ 1 << r.below(32),
            2 => block[r.below(BLOCK_WORDS as u32) as usize],
            _ => DAMAGES[r.below(DAMAGES.len() as u32) as usize],
        };
    }
    block
}

/// So many blocks of random register files, one to three words of each damaged.
pub fn compare_random(blocks: u64, seed: u64) -> Tally {
    let (checker, mut r, mut tally) = (Checker::default(), Random(seed), Tally::default());
    let mut left = blocks;
    while left > 0 {
        let block = packed(&register_file(&mut r));
        // the same block serves a few times
        for _ in 0..left.min(32) {
            tally.block(&checker, &damage(&block, &mut r));
        }
        left -= left.min(32);
    }
    tally
}

#[cfg(oracle)]
pub use written::written;

#[cfg(oracle)]
mod written {
    use super::*;
    use crate::blocks::theirs;
    use std::collections::BTreeSet;

    /// The words that the module writes at each place of the head and of the first slot, over every value of the fields
    /// that a place comes from; of the places that hold no float.
    pub fn written() -> Vec<BTreeSet<u32>> {
        let mut found = vec![BTreeSet::new(); SLOTS + SLOT_WORDS];
        let mut base = vec![0u32; 474];
        base[0x08F] = 1;
        let mut add = |file: &[u32]| {
            let block = theirs(file).expect("a lighting that is on");
            found.iter_mut().zip(block).for_each(|(words, word)| _ = words.insert(word));
        };
        // configuration, fresnel, clamp, bump and shadow: the bits of 1C3 that are read
        let bits: Vec<u32> = (0..31).filter(|bit| 0x7BCF_00FD >> bit & 1 == 1).collect();
        for n in 0..1u32 << bits.len() {
            let mut file = base.clone();
            file[0x1C3] = bits.iter().enumerate().map(|(k, bit)| (n >> k & 1) << bit).sum();
            add(&file);
        }
        // how many lights, which, their flags, and which of their parts 1C4 takes away
        for n in 0..1u32 << 13 {
            let mut file = base.clone();
            file[0x1C2] = n & 7;
            file[0x1D9] = n >> 3 & 7;
            let number = file[0x1D9];
            file[0x149 + 0x10 * number as usize] = n >> 6 & 15;
            file[0x1C4] = (n >> 10 & 1) << number | (n >> 11 & 1) << (8 + number) | (n >> 12 & 1) << (24 + number);
            add(&file);
        }
        // how each table is read, all alike, in the configuration that has them all; there or not
        for n in 0..1u32 << 13 {
            let mut file = base.clone();
            file[0x1C3] = 0x80;
            file[0x1C4] = if n >> 12 == 0 { 0 } else { u32::MAX };
            for (register, nibble) in [(0x1D0, n & 15), (0x1D1, n >> 4 & 15), (0x1D2, n >> 8 & 15)] {
                file[register] = nibble * 0x1111_1111;
            }
            add(&file);
        }
        found
    }
}
