//! The calls of a list and what they are lent, drawn without looking at any state, so that a list runs again from
//! fresh.

use crate::boundary::{Copy, Unit, CACHE_WORDS, FRAGMENT_WORDS};
use crate::captures::lighting_pairs;
use crate::colours::fragment;
use crate::patterns::Random;
use crate::tables::{random_write, INDEX};
use lighting::{BLOCK_WORDS, REGISTERS, TABLE_WORDS};

#[derive(Clone, Debug)]
pub enum Call {
    Write(u32, u32),
    /// Pairs of register and value in one call; an odd number of words is refused.
    Writes(Vec<u32>),
    /// So many words that follow from a seed.
    Restore(u64, usize),
    /// The words that the last save gave.
    RestoreSaved,
    /// Into an output of so many words.
    Save(usize),
    Read,
    CachedRead,
    /// The fragments are shaded from the copy where it is accepted.
    HandOver(Vec<[u32; FRAGMENT_WORDS]>),
}

/// The lengths of slices that are lent in place of the unit's and the copy's own, all of them refused. A read's block
/// is its own.
#[derive(Clone, Debug, Default, PartialEq)]
pub struct Lent {
    pub file: Option<usize>,
    pub tables: Option<usize>,
    pub cache: Option<usize>,
    pub block: Option<usize>,
    pub copy_tables: Option<usize>,
}

/// What the caller did to the cache before a call that takes it.
#[derive(Clone, Debug, PartialEq)]
pub enum Damage {
    None,
    /// The kept registers are the file's, and a word of the kept block is another.
    Block(usize, u32),
    /// A kept register is another, with the kept block any words that follow from a seed.
    Register(usize, u32, u64),
    /// All words follow from a seed, but that it isn't empty.
    Any(u64),
    /// Empty by its first word, with the kept registers the file's and the kept block any words.
    Empty(u64),
    /// The first word, which only tells that it isn't empty, is another.
    First(u32),
}

#[derive(Clone, Debug)]
pub struct Step {
    pub call: Call,
    pub lent: Lent,
    pub damage: Damage,
}

/// A list on one unit and copy, from fresh: a register file of so many words, those past 474 following from a seed.
#[derive(Clone, Debug)]
pub struct List {
    pub file_words: usize,
    pub seed: u64,
    pub steps: Vec<Step>,
}

/// A restore's words: ordinary numbers, odd ones among them.
pub fn restored(seed: u64, words: usize) -> Vec<u32> {
    let mut r = Random(seed);
    let wild = r.below(3) == 0;
    (0..words).map(|_| if wild && r.below(8) == 0 { r.float() } else { ((r.word() >> 8) as f32 / 8_388_608.0 - 1.0).to_bits() }).collect()
}

impl Call {
    /// Whether it takes the file, the unit's tables, the cache, a block, and the copy's tables.
    fn takes(&self) -> [bool; 5] {
        match self {
            Call::Write(..) | Call::Writes(..) => [true, true, false, false, false],
            Call::Restore(..) | Call::RestoreSaved | Call::Save(..) => [false, true, false, false, false],
            Call::Read => [true, false, false, true, false],
            Call::CachedRead => [true, false, true, true, false],
            Call::HandOver(..) => [true; 5],
        }
    }

    fn draw(r: &mut Random) -> Call {
        match r.below(32) {
            0..=6 => Call::Write(register(r), value(r)),
            7..=13 => {
                let (register, value) = random_write(r);
                Call::Write(register, value)
            }
            14..=16 => Call::Writes(lighting_pairs(r)),
            17..=19 => Call::Writes(uploads(r)),
            20 | 21 => {
                // writes of any kind, now and then half a pair more
                let mut pairs: Vec<u32> = (0..r.below(6)).flat_map(|_| <[u32; 2]>::from(random_write(r))).collect();
                pairs.extend((0..r.below(2)).map(|_| 7));
                Call::Writes(pairs)
            }
            22 => Call::Restore(r.draw(), TABLE_WORDS),
            23 if r.below(2) == 0 => Call::Restore(r.draw(), [0, 1, 12_286, 12_287, 12_289][r.below(5) as usize]),
            23 => Call::RestoreSaved,
            24 => Call::Save([TABLE_WORDS, TABLE_WORDS, TABLE_WORDS, 0, 1, 12_287, 12_289][r.below(7) as usize]),
            25 => Call::Read,
            26 | 27 => Call::CachedRead,
            _ => {
                let wild = r.below(2) == 0;
                Call::HandOver((0..r.below(5)).map(|_| fragment(wild, r)).collect())
            }
        }
    }
}

/// A register that decoding reads, those that turn the lighting on and off more often.
fn register(r: &mut Random) -> u32 {
    match r.below(8) {
        0 => 0x08F,
        1 => 0x1C6,
        2 => [0x1C2, 0x1D9][r.below(2) as usize],
        3 => [0x1C0, 0x1C3, 0x1C4][r.below(3) as usize],
        4 => 0x1D0 + r.below(3),
        _ => 0x140 + 0x10 * r.below(8) + r.below(12),
    }
}

/// Any word, or one that often leaves the lighting on.
fn value(r: &mut Random) -> u32 {
    match r.below(4) {
        0 => r.below(2),
        1 => 1 << r.below(32),
        _ => r.word(),
    }
}

/// An index, of any table or near the end of one, and table data behind it.
fn uploads(r: &mut Random) -> Vec<u32> {
    let entry = if r.below(2) == 0 { 250 + r.below(6) } else { r.below(256) };
    let mut pairs = vec![INDEX as u32, r.below(27) << 8 | entry | r.word() & 0xFFFF_0000];
    for _ in 0..r.below(12) {
        pairs.extend([0x1C8 + r.below(8), [r.word(), 0, 0x80_0000, 0xFFF][r.below(4) as usize]]);
    }
    pairs
}

impl Lent {
    /// Some of the slices that the call takes, of another length.
    fn draw(call: &Call, r: &mut Random) -> Lent {
        let [file, tables, cache, block, copy_tables] = call.takes();
        let mut wrong = |taken: bool, lengths: &[usize]| (taken && r.below(2) == 0).then(|| lengths[r.below(lengths.len() as u32) as usize]);
        Lent {
            file: wrong(file, &[0, 1, INDEX, 473]),
            tables: wrong(tables, &[0, 1, 12_286, 12_287, 12_289]),
            cache: wrong(cache, &[0, 1, 140, 467, 469]),
            block: wrong(block, &[0, 1, 40, 327, 329]),
            copy_tables: wrong(copy_tables, &[0, 1, 12_286, 12_287, 12_289]),
        }
    }

    pub fn lend(&self, unit: &mut Unit, copy: &mut Copy) {
        let lent = [
            (self.file, &mut unit.file),
            (self.tables, &mut unit.tables),
            (self.cache, &mut unit.cache),
            (self.block, &mut copy.block),
            (self.copy_tables, &mut copy.tables),
        ];
        for (words, slice) in lent {
            slice.resize(words.unwrap_or(slice.len()), 7);
        }
    }
}

impl Damage {
    fn draw(r: &mut Random) -> Damage {
        let word = r.float();
        match r.below(8) {
            0..=2 => Damage::Block(r.below(40) as usize, word),
            3 => Damage::Block(r.below(BLOCK_WORDS as u32) as usize, word),
            4 => Damage::Register(r.below(139) as usize, 1 << r.below(32), r.draw()),
            5 => Damage::Any(r.draw()),
            6 => Damage::Empty(r.draw()),
            _ => Damage::First(word.max(1)),
        }
    }

    /// Leaves a cache, that of `full` being the file's, as the caller did.
    pub fn leave(&self, full: &[u32], cache: &mut Vec<u32>) {
        let any = |seed: u64, words: &mut [u32]| {
            let mut r = Random(seed);
            words.fill_with(|| r.word());
        };
        if *self != Damage::None {
            *cache = full.to_vec();
        }
        match *self {
            Damage::None => {}
            Damage::Block(at, word) => cache[140 + at] = word,
            Damage::Register(at, bit, seed) => {
                cache[1 + at] ^= bit;
                any(seed, &mut cache[140..]);
            }
            Damage::Any(seed) => {
                any(seed, cache);
                cache[0] |= 1;
            }
            Damage::Empty(seed) => {
                any(seed, &mut cache[140..]);
                cache[0] = 0;
            }
            Damage::First(word) => cache[0] = word,
        }
        debug_assert_eq!(cache.len(), CACHE_WORDS);
    }
}

impl Step {
    fn draw(r: &mut Random) -> Step {
        let call = Call::draw(r);
        let lent = if r.below(6) == 0 { Lent::draw(&call, r) } else { Lent::default() };
        let damage = if call.takes()[2] && r.below(4) == 0 { Damage::draw(r) } else { Damage::None };
        Step { call, lent, damage }
    }
}

impl List {
    /// So many calls, the first of them mostly a lighting.
    pub fn draw(calls: usize, r: &mut Random) -> List {
        let file_words = [REGISTERS, REGISTERS, 475, 512, 1024][r.below(5) as usize];
        let mut list = List { file_words, seed: r.draw(), steps: (0..calls).map(|_| Step::draw(r)).collect() };
        if r.below(4) != 0 {
            list.steps[0] = Step { call: Call::Writes(lighting_pairs(r)), lent: Lent::default(), damage: Damage::None };
        }
        list
    }
}
