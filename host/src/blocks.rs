//! Decoding and packing of the proved code, beside the Rust module's `Lighting::read` and `pack`: by `read` and `pack`
//! on the structs, and by `lighting_read`, whose block is all zero where the lighting is off.

use crate::patterns::Random;

unsafe extern "C" {
    fn block_pack(file: *const u32, words: usize, block: *mut u32, block_words: usize) -> u32;
}

/// Decodes a register file and packs its lighting: document 01's number, or 100 where it is off; then the block
/// stays as it was.
pub fn pack(file: &[u32], block: &mut [u32]) -> u32 {
    unsafe { block_pack(file.as_ptr(), file.len(), block.as_mut_ptr(), block.len()) }
}

/// A word of a register: any bits, few bits, or a limit of some field.
fn register_word(r: &mut Random) -> u32 {
    match r.below(8) {
        0 => 0,
        1 => u32::MAX,
        2 => 1 << r.below(32),
        3 => !(1 << r.below(32)),
        4 => r.word() & r.word() & r.word(),
        _ => r.word(),
    }
}

/// A register file of 474 to 480 words in which the lighting is mostly on. One in four is ordinary: positions and
/// distances that are no infinities or NaNs, and zeros in the registers that decoding does not read.
pub fn register_file(r: &mut Random) -> Vec<u32> {
    let words = 474 + [0, 0, 0, 1, 6][r.below(5) as usize];
    let ordinary = r.below(4) == 0;
    let mut file: Vec<u32> = (0..words).map(|_| register_word(r)).collect();
    if ordinary {
        file[..0x140].fill(0);
        for light in 0..8 {
            let block = &mut file[0x140 + 0x10 * light..];
            // exponents below all ones
            block[4] &= 0xBFFF_BFFF;
            block[5] &= 0xBFFF;
            block[10] &= 0xB_FFFF;
            block[11] &= 0xB_FFFF;
        }
    }
    file[0x08F] = if r.below(16) == 0 { r.word() } else { r.word() | 1 };
    file[0x1C6] = if r.below(16) == 0 { r.word() } else { r.word() & !1 };
    file
}

#[cfg(oracle)]
pub use compared::{compare, compare_patterns, replay_list, theirs, Tally};

#[cfg(oracle)]
mod compared {
    use super::*;
    use crate::boundary::{read_file, OFF};
    use crate::oracle::Lighting;
    use crate::word;
    use lighting::BLOCK_WORDS;

    /// The module's block of a register file, every NaN as 7FC00000; none where the lighting is off.
    pub fn theirs(file: &[u32]) -> Option<Vec<u32>> {
        let mut words = vec![];
        Lighting::read(file)?.pack(&mut words);
        // words that hold no float are too small to be a NaN's
        Some(words.into_iter().map(|w| word(f32::from_bits(w))).collect())
    }

    /// What was compared, and the first difference.
    #[derive(Default, Debug)]
    pub struct Tally {
        pub files: u64,
        pub off: u64,
        pub lit: [u64; 8],
        pub with_nan: u64,
        /// calls with a file or a block of another length
        pub refused: u64,
        pub differ: u64,
        pub first: Option<String>,
    }

    impl Tally {
        fn differs(&mut self, what: String) {
            self.differ += 1;
            self.first.get_or_insert(what);
        }

        fn file(&mut self, file: &[u32]) {
            let before = [0xAAAA_AAAA; BLOCK_WORDS];
            let mut block = before;
            let number = pack(file, &mut block);
            self.files += 1;
            let (due, expected) = match theirs(file) {
                Some(words) => {
                    self.lit[words[1] as usize - 1] += 1;
                    self.with_nan += words.contains(&crate::NAN) as u64;
                    (0, words)
                }
                None => {
                    self.off += 1;
                    (OFF, before.to_vec())
                }
            };
            let (mut read, zero) = (before, vec![0; BLOCK_WORDS]);
            let reading = read_file(file, &mut read);
            if (reading, &read[..]) != (due, if due == OFF { &zero } else { &expected }) {
                self.differs(format!("lighting_read gives {reading} and {read:08X?}, and not {due}, of the file {file:08X?}"));
            }
            if number != due {
                self.differs(format!("{number}, and not {due}, of the file {file:08X?}"));
            } else if let Some(at) = (0..BLOCK_WORDS).find(|i| block[*i] != expected[*i]) {
                self.differs(format!("word {at} is {:08X}, and not {:08X}, of the file {file:08X?}", block[at], expected[at]));
            }
        }

        /// A short file, a block of another length, or both: the first number that document 01 names, and an untouched
        /// block.
        fn lengths(&mut self, file: &[u32], r: &mut Random) {
            let words = [0, 1, 473, 474, 475, 600][r.below(6) as usize];
            let size = [0, 1, 40, 327, 328, 329, 656][r.below(7) as usize];
            let mut cut = file.to_vec();
            cut.resize(words, 7);
            let mut block = vec![5; size];
            let on = words >= 474 && theirs(&cut).is_some();
            let due = match (words < 474, on, size == BLOCK_WORDS) {
                (true, ..) => [1, 1],
                // the structs' pack isn't called where the lighting is off
                (_, false, false) => [OFF, 6],
                (.., false) => [6, 6],
                _ => return,
            };
            let numbers = [pack(&cut, &mut block), read_file(&cut, &mut block)];
            self.refused += 1;
            if numbers != due || block != vec![5; size] {
                self.differs(format!("{numbers:?}, and not {due:?}, of {words} words into {size}"));
            }
        }
    }

    /// So many random register files.
    pub fn compare(files: u64, seed: u64) -> Tally {
        let (mut r, mut tally) = (Random(seed), Tally::default());
        for _ in 0..files {
            let file = register_file(&mut r);
            tally.file(&file);
            if r.below(16) == 0 {
                tally.lengths(&file, &mut r);
            }
        }
        tally
    }

    /// Every half in each component of a position, every 20-bit float as a bias and as a scale, and every spot
    /// component, eight lights at a time.
    pub fn compare_patterns() -> Tally {
        let mut tally = Tally::default();
        let mut file = vec![0u32; 474];
        file[0x08F] = 1;
        file[0x1C2] = 7;
        file[0x1D9] = 0x7654_3210;
        for base in 0..1u32 << 17 {
            for light in 0..8 {
                // 2^20 numbers; multiplied by an odd one they are the same numbers in another order
                let n = base * 8 + light;
                let other = |k: u32| n.wrapping_mul(k);
                let block = &mut file[0x140 + 0x10 * light as usize..];
                block[4] = n & 0xFFFF | other(0x9E37_79B1) << 16;
                block[5] = other(0x85EB_CA6B);
                block[6] = n & 0x1FFF | other(0xC2B2_AE35) << 16;
                block[7] = other(0x27D4_EB2F);
                block[10] = n;
                block[11] = other(0x1656_67B1);
            }
            tally.file(&file);
        }
        tally
    }

    const REPLAY_HEADER: &str = "\
# Register files, and the Rust module's block of each (hexadecimal words).
# A file is a number (0, or 64 where the lighting is off), how many registers follow, those as pairs of
# register and value, how many words of the block follow, those as pairs of place and word.
# All other registers and words are zero. NaN is written 7FC00000.
";

    /// The registers of document 01's whole case.
    const WHOLE_CASE: [(usize, u32); 5] = [(0x08F, 1), (0x142, 0xFF3_FCFF), (0x145, 0x3C00), (0x149, 1), (0x1C4, 0xFFFF_FFFF)];

    /// A file with the registers that decoding reads of its lights: configurations in turn, mostly few lights.
    fn replay_file(r: &mut Random, at: u32) -> Vec<u32> {
        let all = register_file(r);
        let mut file = vec![0; 474];
        file[0x08F] = 1;
        file[0x1C2] = [0, 1, 0, 2, 1, 0, 3, 7][at as usize % 8];
        for register in [0x1C0, 0x1C3, 0x1C4, 0x1D0, 0x1D1, 0x1D2, 0x1D9] {
            file[register] = all[register];
        }
        file[0x1C3] = file[0x1C3] & !0xF0 | (at % 16) << 4;
        for slot in 0..=file[0x1C2] {
            let light = 0x140 + 0x10 * (file[0x1D9] >> (4 * slot) & 7) as usize;
            file[light..light + 12].copy_from_slice(&all[light..light + 12]);
        }
        file
    }

    /// The list that the program `block_replay` replays: the whole case on and off, and 32 other files.
    pub fn replay_list(seed: u64) -> String {
        let mut r = Random(seed);
        let mut whole = vec![0; 474];
        WHOLE_CASE.iter().for_each(|(register, value)| whole[*register] = *value);
        let mut off = whole.clone();
        off[0x08F] = 0;
        let mut files = vec![whole, off];
        files.extend((0..32).map(|at| replay_file(&mut r, at)));
        let mut list = format!("{REPLAY_HEADER}# made by make_block_replay {seed}\n");
        for file in files {
            let block = theirs(&file);
            list += &format!("\n{:08X}\n", if block.is_some() { 0 } else { OFF });
            list += &pairs(&file);
            list += &pairs(&block.unwrap_or_default());
        }
        list
    }

    /// How many words are not zero, then each of those with its place before it, four pairs to a line.
    fn pairs(words: &[u32]) -> String {
        let found: Vec<String> = words.iter().enumerate().filter(|(_, w)| **w != 0).map(|(at, w)| format!("{at:08X} {w:08X}")).collect();
        let lines: Vec<String> = found.chunks(4).map(|line| line.join(" ") + "\n").collect();
        format!("{:08X}\n{}", found.len(), lines.concat())
    }
}
