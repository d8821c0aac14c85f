//! Register writes, uploads, restores and lookups of the proved code, beside the Rust module's.

use crate::patterns::Random;
use lighting::REGISTERS;

unsafe extern "C" {
    fn compare_lookup(entries: *const u32, entry_words: usize, table: u32, entry: u8, delta: f32) -> f32;
}

/// The register that names the table and the entry of the next upload.
pub const INDEX: usize = 0x1C5;

/// The entry's value and its step times the delta, as shading takes them.
pub fn lookup(tables: &[u32], table: u32, entry: u8, delta: f32) -> f32 {
    // SAFETY: pointer and length are those of one slice, which is only read
    unsafe { compare_lookup(tables.as_ptr(), tables.len(), table, entry, delta) }
}

/// Whether a register takes table data.
pub fn is_data(register: u32) -> bool {
    (0x1C8..=0x1CF).contains(&register)
}

/// Words that follow from a seed, for a restore: each is the one before times 1664525 plus 1013904223, and the first
/// follows so from the seed.
pub fn generated(seed: u32, words: usize) -> Vec<u32> {
    let mut x = seed;
    let next = |_| {
        x = x.wrapping_mul(1_664_525).wrapping_add(1_013_904_223);
        x
    };
    (0..words).map(next).collect()
}

/// A register and a value: mostly table data and its index, of every table number and entry, with any bits above 1C5's
/// fields.
pub fn random_write(r: &mut Random) -> (u32, u32) {
    match r.below(16) {
        0..=9 => (0x1C8 + r.below(8), upload(r)),
        10 => (INDEX as u32, r.word()),
        11 => (INDEX as u32, r.below(32) << 8 | r.below(256)),
        12 => (INDEX as u32, r.below(32) << 8 | 254 | r.word() & 0xFFFF_0001),
        13 => (0x1C0 + r.below(26), r.word()),
        14 => (r.below(REGISTERS as u32), r.word()),
        _ => ([473, 474, 475, 0x200, 0xFFFF_FFFF][r.below(5) as usize], r.word()),
    }
}

/// A word of table data: any bits, or few enough that one often meets its own again, with both zeros among them.
fn upload(r: &mut Random) -> u32 {
    let few = [0, 0x80_0000, 0xFFF, 0x7F_F000, 0xFF_F000, 0xFFFF_FFFF, 0xFF00_0000, 0x123_4567];
    if r.below(2) == 0 {
        few[r.below(8) as usize]
    } else {
        r.word()
    }
}

#[cfg(oracle)]
pub use compared::{compare, replay_list, Tally};

#[cfg(oracle)]
mod compared {
    use super::*;
    use crate::boundary::Unit;
    use crate::oracle::{access, Tables};
    use crate::word;
    use lighting::TABLE_WORDS;

    /// The module's state, and what document 01 adds to it: which registers are table data, and the refusals.
    struct Theirs {
        file: Vec<u32>,
        tables: Tables,
    }

    impl Theirs {
        fn words(&self) -> &[f32] {
            self.tables.entries().as_flattened().as_flattened()
        }

        /// Whether an upload of `value` would change the entry that 1C5 names.
        fn changes(&self, value: u32) -> bool {
            let (table, entry) = (self.file[INDEX] >> 8 & 31, self.file[INDEX] & 255);
            let bits = access::uploaded(value);
            self.tables.entries().get(table as usize).is_some_and(|t| t[entry as usize].map(f32::to_bits) != bits)
        }

        fn write(&mut self, register: u32, value: u32) -> u32 {
            let data = is_data(register);
            if register >= REGISTERS as u32 {
                return 3;
            }
            if data && self.tables.generation() == u64::MAX && self.changes(value) {
                return 4;
            }
            if data {
                self.tables.write(&mut self.file, value);
            } else {
                self.file[register as usize] = value;
            }
            0
        }

        /// All entries from so many words.
        fn restore(&mut self, saved: &[u32]) -> u32 {
            if self.tables.generation() == u64::MAX {
                return 4;
            }
            let pairs: Vec<[f32; 2]> = saved.as_chunks().0.iter().map(|entry| entry.map(f32::from_bits)).collect();
            if self.tables.restore(&pairs) {
                0
            } else {
                5
            }
        }
    }

    /// What was compared, and the first difference.
    #[derive(Default, Debug)]
    pub struct Tally {
        pub writes: u64,
        /// writes that stored a new entry, found equal bits, named a table that is none, and set a register
        pub changed: u64,
        pub equal: u64,
        pub nowhere: u64,
        pub registers: u64,
        /// how many of the 32 · 256 tables and entries an accepted upload named
        pub named: usize,
        /// refusals by their number
        pub refused: [u64; 6],
        /// lists of writes in one call, and those that a refusal stopped
        pub lists: u64,
        pub stopped: u64,
        pub restores: u64,
        pub saves: u64,
        pub lookups: u64,
        pub differ: u64,
        pub first: Option<String>,
    }

    impl Tally {
        fn differs(&mut self, what: String) {
            self.differ += 1;
            self.first.get_or_insert(what);
        }

        fn count(&mut self, number: u32, register: u32, index: u32, raised: bool) {
            self.writes += 1;
            self.refused[number as usize] += (number != 0) as u64;
            if number == 0 {
                let data = is_data(register);
                let kind = match (data, index >> 8 & 31 > 23, raised) {
                    (false, ..) => &mut self.registers,
                    (_, true, _) => &mut self.nowhere,
                    (.., true) => &mut self.changed,
                    _ => &mut self.equal,
                };
                *kind += 1;
            }
        }
    }

    fn same(ours: &Unit, theirs: &Theirs) -> bool {
        let differing = ours.tables.iter().zip(theirs.words()).fold(0, |d, (a, b)| d | (a ^ b.to_bits()));
        differing == 0 && ours.generation == theirs.tables.generation() && ours.file == theirs.file
    }

    /// Slices of lengths that are refused, one at a time and together: the number is the first that document 01 names,
    /// and nothing changes.
    fn wrong_lengths(ours: &Unit, r: &mut Random, tally: &mut Tally) {
        let (register, value) = random_write(r);
        let mut unit = ours.clone();
        let (short, wrong) = (r.below(2) == 0, r.below(2) == 0);
        if short {
            unit.file.truncate([0, 1, INDEX, 473][r.below(4) as usize]);
        }
        if wrong {
            unit.tables.resize([0, 1, 12_287, 12_289, 16_384][r.below(5) as usize], 7);
        }
        if short || wrong {
            let before = unit.clone();
            let number = unit.write(register, value);
            let due = if short { 1 } else { 2 };
            tally.count(number, register, 0, false);
            if number != due || unit != before {
                tally.differs(format!("a write to {} and {} words gives {number}, and not {due}", unit.file.len(), unit.tables.len()));
            }
        }
        let before = unit.clone();
        let saved = generated(value, [TABLE_WORDS, 0, 1, 12_286, 12_287, 12_289][r.below(6) as usize]);
        let due = match (wrong, saved.len() == TABLE_WORDS, unit.generation) {
            (true, ..) => 2,
            (_, false, _) => 5,
            (.., u64::MAX) => 4,
            _ => return,
        };
        let (number, mut output) = (unit.restore(&saved), saved.clone());
        let saving = unit.save(&mut output);
        tally.refused[due as usize] += 1;
        if number != due || unit != before || (due != 4 && (saving != due || output != saved)) {
            tally.differs(format!("{} words restored to {} and saved give {number} and {saving}, and not {due}", saved.len(), unit.tables.len()));
        }
    }

    /// A list of writes in one call, beside the module's writes up to the first that is refused.
    fn write_list(ours: &mut Unit, theirs: &mut Theirs, r: &mut Random, tally: &mut Tally) {
        let list: Vec<(u32, u32)> = (0..r.below(12)).map(|_| random_write(r)).collect();
        let pairs: Vec<u32> = list.iter().flat_map(|(register, value)| [*register, *value]).collect();
        let (mut done, mut due, mut number) = (u64::MAX, 0, 0);
        for (register, value) in &list {
            number = theirs.write(*register, *value);
            if number != 0 {
                tally.stopped += 1;
                break;
            }
            due += 1;
        }
        tally.lists += 1;
        let given = ours.writes(&pairs, &mut done);
        if (given, done) != (number, due) || !same(ours, theirs) {
            tally.differs(format!("{given} after {done} writes, and not {number} after {due}, of {list:X?}"));
        }
    }

    /// A whole restore of words that follow from a seed, odd words among them, and a save of them.
    fn restore_and_save(ours: &mut Unit, theirs: &mut Theirs, r: &mut Random, tally: &mut Tally) {
        let mut saved = generated(r.word(), TABLE_WORDS);
        for _ in 0..1000 {
            saved[r.below(TABLE_WORDS as u32) as usize] = r.odd();
        }
        let numbers = (ours.restore(&saved), theirs.restore(&saved));
        tally.restores += 1;
        if numbers.0 != numbers.1 || !same(ours, theirs) {
            tally.differs(format!("a restore gives {numbers:?}"));
        }
        let mut output = vec![1; TABLE_WORDS];
        tally.saves += 1;
        let pairs = theirs.tables.saved();
        if ours.save(&mut output) != 0 || !output.iter().zip(pairs.as_flattened()).all(|(a, b)| *a == b.to_bits()) {
            tally.differs("a save".into());
        }
    }

    /// One run of `writes` random writes to units with files of several lengths, from a generation far below the last
    /// or just below it.
    pub fn compare(writes: u64, seed: u64) -> Tally {
        let mut r = Random(seed);
        let mut tally = Tally::default();
        let mut named = [false; 32 * 256];
        let mut left = writes;
        while left > 0 {
            let words = [REGISTERS, 475, 512, 1024][r.below(4) as usize];
            let generation = if r.below(4) == 0 { u64::MAX - r.below(3) as u64 } else { r.below(1000) as u64 };
            let file: Vec<u32> = (0..words).map(|_| r.word()).collect();
            let mut ours = Unit { file: file.clone(), generation, ..Unit::default() };
            let mut theirs = Theirs { file, tables: Tables::default() };
            access::start_at(&mut theirs.tables, generation);
            if r.below(2) == 0 {
                restore_and_save(&mut ours, &mut theirs, &mut r, &mut tally);
            }
            for _ in 0..left.min(4096) {
                let (register, value) = random_write(&mut r);
                let before = (ours.file[INDEX], ours.generation);
                let numbers = (ours.write(register, value), theirs.write(register, value));
                tally.count(numbers.0, register, before.0, ours.generation != before.1);
                named[before.0 as usize % named.len()] |= numbers.0 == 0 && is_data(register);
                if numbers.0 != numbers.1 || !same(&ours, &theirs) {
                    tally.differs(format!("register {register:X}, value {value:08X}, index {:08X}, generation {}: {numbers:?}", before.0, before.1));
                }
                let (table, entry, delta) = (r.below(24), r.below(256) as u8, f32::from_bits(r.float()));
                let found = (lookup(&ours.tables, table, entry, delta), access::lookup(&theirs.tables, table as usize, entry, delta));
                tally.lookups += 1;
                if word(found.0) != word(found.1) {
                    tally.differs(format!("table {table}, entry {entry}, delta {delta:?}: {found:?}"));
                }
                if r.below(256) == 0 {
                    wrong_lengths(&ours, &mut r, &mut tally);
                }
                if r.below(16) == 0 {
                    write_list(&mut ours, &mut theirs, &mut r, &mut tally);
                }
            }
            left -= left.min(4096);
        }
        tally.named = named.iter().filter(|n| **n).count();
        tally
    }

    /// Writes that document 01 names: −0 and +0 over each other, 255 going to 0, a table that is none, bits above 1C5's
    /// fields.
    const NAMED: [(u32, u32); 14] = [
        (0x1C5, 0),
        (0x1C8, 0x80_0000),
        (0x1C5, 0),
        (0x1C8, 0),
        (0x1C5, 0),
        (0x1C8, 0xFF00_0000),
        (0x1C5, 0x17FF),
        (0x1CF, 0x12_3456),
        (0x1C9, 0x12_3456),
        (0x1C5, 0x1800),
        (0x1C8, 0xFF_FFFF),
        (0x1C5, 0xFFFF_F0FF),
        (0x1CA, 0x7F_F800),
        (0x1CB, 0x7F_F800),
    ];

    /// The list that the program `table_replay` replays: for each call its kind and two arguments, and the module's
    /// answer.
    pub fn replay_list(seed: u64) -> String {
        let mut r = Random(seed);
        let mut theirs = Theirs { file: vec![0; REGISTERS], tables: Tables::default() };
        let mut list = format!("{REPLAY_HEADER}# made by make_table_replay {seed}\n");
        for i in 0..500 {
            if let Some(words) = [(150, TABLE_WORDS), (250, TABLE_WORDS - 2), (350, TABLE_WORDS)].iter().find(|at| at.0 == i).map(|at| at.1) {
                let from = r.word();
                let named = theirs.file[INDEX];
                let number = theirs.restore(&generated(from, words));
                list += &theirs.line(named, [2, from, words as u32, number]);
            }
            let (register, value) = NAMED.get(i).copied().unwrap_or_else(|| random_write(&mut r));
            let named = theirs.file[INDEX];
            let number = theirs.write(register, value);
            list += &theirs.line(named, [1, register, value, number]);
        }
        list
    }

    const REPLAY_HEADER: &str = "\
# Calls on one fresh unit, in order, and what the Rust module leaves after each (hexadecimal words).
# A line is kind, two arguments, number, register 1C5, generation, the value and the step of the entry
# that 1C5 named before the call (zeros for tables 24 to 31), and a sum over all 12,288 words of the tables.
# Kind 1 is a write: register, value. Kind 2 is a restore: seed, how many words. Its words follow from
# the seed: each is the one before times 1664525 plus 1013904223, and the first follows so from the seed.
# The sum starts at 0, and for each word is multiplied by 16777619 and the word added. All cut to 32 bits.
# The number is 0, or the refusal that document 01 has for a call which the module cannot be given.
";

    impl Theirs {
        /// One line of the list: the call, then what it left.
        fn line(&self, named: u32, call: [u32; 4]) -> String {
            let at = (named % 0x2000) as usize * 2;
            let entry = self.words().get(at..at + 2).map_or([0; 2], |e| [e[0].to_bits(), e[1].to_bits()]);
            let sum = self.words().iter().fold(0u32, |s, w| s.wrapping_mul(16_777_619).wrapping_add(w.to_bits()));
            let left = [self.file[INDEX], self.tables.generation() as u32, entry[0], entry[1], sum];
            let words: Vec<String> = call.iter().chain(&left).map(|w| format!("{w:08X}")).collect();
            words.join(" ") + "\n"
        }
    }
}
