//! The plain machine of document 01, written from its text alone. It is fed each call's arguments, of unit and copy
//! only the lengths of their slices, and no answer; it has no cache, generation or copy.

use lighting::{BLOCK_WORDS, REGISTERS, TABLE_WORDS};

pub struct Machine {
    pub registers: Vec<u32>,
    /// Value bits and step bits, table after table.
    pub entries: Vec<[u32; 2]>,
}

/// How many words the slices that a call is lent have.
#[derive(Clone, Copy)]
pub struct Lengths {
    pub file: usize,
    pub tables: usize,
    pub block: usize,
    pub copy_tables: usize,
}

/// The first refusal that holds, or 0.
pub fn first_of(refusals: &[(bool, u32)]) -> u32 {
    refusals.iter().find(|refusal| refusal.0).map_or(0, |refusal| refusal.1)
}

impl Default for Machine {
    fn default() -> Machine {
        Machine { registers: vec![0; REGISTERS], entries: vec![[0; 2]; TABLE_WORDS / 2] }
    }
}

/// Each call returns its number by "Refusals by operation", of which 4 and 7 are left out, and 0 where it is accepted.
impl Machine {
    pub fn write(&mut self, lengths: &Lengths, register: u32, value: u32) -> u32 {
        let number = first_of(&[(lengths.file < REGISTERS, 1), (lengths.tables != TABLE_WORDS, 2), (register >= 474, 3)]);
        if number == 0 {
            match register {
                0x1C8..=0x1CF => self.upload(value),
                _ => self.registers[register as usize] = value,
            }
        }
        number
    }

    fn upload(&mut self, word: u32) {
        let index = self.registers[0x1C5];
        let (table, entry) = (index >> 8 & 0x1F, index & 0xFF);
        if table < 24 {
            let value = (word & 0xFFF) as f32 / 4095.0;
            let step = (word >> 12 & 0x7FF) as f32 / 2047.0;
            let step = if word >> 23 & 1 == 1 { -step } else { step };
            self.entries[256 * table as usize + entry as usize] = [value.to_bits(), step.to_bits()];
        }
        self.registers[0x1C5] = index & !0xFF | (entry as u8).wrapping_add(1) as u32;
    }

    pub fn restore(&mut self, lengths: &Lengths, saved: &[u32]) -> u32 {
        let number = first_of(&[(lengths.tables != TABLE_WORDS, 2), (saved.len() != TABLE_WORDS, 5)]);
        if number == 0 {
            self.entries = saved.chunks(2).map(|entry| [entry[0], entry[1]]).collect();
        }
        number
    }

    pub fn save(&self, lengths: &Lengths, output_words: usize) -> u32 {
        first_of(&[(lengths.tables != TABLE_WORDS, 2), (output_words != TABLE_WORDS, 5)])
    }

    /// A read or a cached read, and then pack.
    pub fn read(&self, lengths: &Lengths) -> u32 {
        first_of(&[(lengths.file < REGISTERS, 1), (lengths.block != BLOCK_WORDS, 6)])
    }

    pub fn hand_over(&self, lengths: &Lengths) -> u32 {
        first_of(&[
            (lengths.file < REGISTERS, 1),
            (lengths.tables != TABLE_WORDS, 2),
            (lengths.copy_tables != TABLE_WORDS, 2),
            (lengths.block != BLOCK_WORDS, 6),
        ])
    }

    /// Whether the registers decode as off.
    pub fn is_off(&self) -> bool {
        self.registers[0x08F] & 1 == 0 || self.registers[0x1C6] & 1 == 1
    }
}
