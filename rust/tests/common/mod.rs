//! What several tests share. Not every test uses all of it.
#![allow(dead_code)]

use lighting::{Fragment, Unit};

/// The register writes of document 01's whole case: one white directional light from straight ahead.
pub const WHOLE_CASE: [[u32; 2]; 5] = [[0x08F, 1], [0x142, 0x0FF3_FCFF], [0x145, 0x3C00], [0x149, 1], [0x1C4, u32::MAX]];

/// What it prints.
pub const WHITE: &str = "255 255 255 255 0 0 0 255";

/// The register that names the entry which table data goes to: bits 0–7 the entry, bits 8–12 the table.
pub const TABLE_INDEX: u32 = 0x1C5;
pub const TABLE_DATA: u32 = 0x1C8;

/// The first of the eight distance tables.
pub const DISTANCE: u32 = 16;

/// A unit in the whole case's lighting.
pub fn whole_case() -> Unit {
    let mut unit = Unit::new();
    unit.write_all(&WHOLE_CASE).unwrap();
    unit
}

/// The place of an entry's value among the words of the tables; its step is the next.
pub fn entry(table: u32, entry: u32) -> usize {
    2 * (256 * table + entry) as usize
}

/// Numbers by xorshift, the same in every run.
pub struct Random(pub u64);

impl Random {
    pub fn word(&mut self) -> u32 {
        self.0 ^= self.0 << 13;
        self.0 ^= self.0 >> 7;
        self.0 ^= self.0 << 17;
        (self.0 >> 16) as u32
    }

    /// From 0 to 1.
    fn part(&mut self) -> f32 {
        (self.word() >> 8) as f32 / 16_777_215.0
    }

    /// A fragment of ordinary numbers.
    pub fn fragment(&mut self) -> Fragment {
        let mut fragment = Fragment::default();
        for float in fragment.quaternion.iter_mut().chain(&mut fragment.view) {
            *float = 4.0 * self.part() - 2.0;
        }
        for channel in fragment.texels.iter_mut().flatten() {
            *channel = self.part();
        }
        fragment
    }

    /// Any bits, one word in four a NaN.
    pub fn wild_fragment(&mut self) -> Fragment {
        let mut words = [0; 23];
        for word in &mut words {
            *word = self.word();
            if self.word() % 4 == 0 {
                *word |= 0x7F80_0001;
            }
        }
        Fragment::from_words(&words)
    }

    /// A unit whose tables and registers are any words, its lighting on.
    pub fn unit(&mut self) -> Unit {
        let mut unit = Unit::new();
        let mut writes = vec![[TABLE_INDEX, 0]];
        for table in 0..24 {
            writes.push([TABLE_INDEX, table << 8]);
            writes.extend((0..256).map(|_| [TABLE_DATA, self.word()]));
        }
        for light in 0..8 {
            let first = 0x140 + 0x10 * light;
            writes.extend((first..first + 4).map(|colour| [colour, self.word() & 0x03F0_FC3F]));
            // halves about 1, so that no light is at an infinite place
            writes.extend([[first + 4, 0x3C00_3C00 ^ (self.word() & 0x8BFF_8BFF)], [first + 5, 0x3C00 ^ (self.word() & 0x8BFF)]]);
            writes.extend([[first + 6, self.word()], [first + 7, self.word()], [first + 9, self.word()]]);
            writes.extend([[first + 10, 0x3E000], [first + 11, 0x3D000]]);
        }
        writes.extend([[0x1C0, self.word() & 0x0030_0C03], [0x1C2, self.word()], [0x1C3, self.word()], [0x1C4, self.word() & self.word()]]);
        writes.extend((0x1D0..=0x1D2).map(|register| [register, self.word()]));
        writes.extend([[0x1D9, self.word()], [0x08F, 1]]);
        unit.write_all(&writes).unwrap();
        unit
    }
}
