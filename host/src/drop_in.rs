//! The Rust module's own names and signatures over the crate `lighting`: a caller of the module compiles against this
//! one instead by changing one `use`.
//!
//! What the module panics on, a register file that is too short and a generation past the last, this panics on too.

use lighting::{Block, Fragment, TableWords, Unit, REGISTERS, TABLE_WORDS};

pub const REG_ENABLE: usize = 0x08F;
pub const REG_TABLE_INDEX: usize = 0x1C5;
pub const REG_TABLE_DATA: usize = 0x1C8;
pub const REG_TABLE_DATA_END: usize = 0x1CF;

/// The tables of a unit whose registers stand elsewhere, but for the index of the last upload.
#[derive(Default)]
pub struct Tables(Unit);

impl Tables {
    pub fn saved(&self) -> Vec<[f32; 2]> {
        let mut words = Box::new([0; TABLE_WORDS]);
        self.0.save(&mut words);
        words.as_chunks().0.iter().map(|entry| entry.map(f32::from_bits)).collect()
    }

    pub fn restore(&mut self, entries: &[[f32; 2]]) -> bool {
        let words: Vec<u32> = entries.as_flattened().iter().map(|x| x.to_bits()).collect();
        let Ok(words) = <&TableWords>::try_from(&words[..]) else {
            return false;
        };
        self.0.restore(words).expect("a generation below the last");
        true
    }

    pub fn write(&mut self, registers: &mut [u32], value: u32) {
        let index = registers[REG_TABLE_INDEX];
        let writes = [[REG_TABLE_INDEX as u32, index], [REG_TABLE_DATA as u32, value]];
        self.0.write_all(&writes).expect("a generation below the last");
        registers[REG_TABLE_INDEX] = self.0.registers()[REG_TABLE_INDEX];
    }

    pub fn entries(&self) -> &[[[f32; 2]; 256]; 24] {
        // SAFETY: both are 12,288 numbers of four bytes without gaps, and any bits are a float
        unsafe { &*std::ptr::from_ref(self.0.tables()).cast() }
    }

    pub fn generation(&self) -> u64 {
        self.0.generation()
    }
}

/// A unit that is given the registers at each read, those that have changed.
#[derive(Default)]
pub struct LastLighting(Unit);

impl LastLighting {
    pub fn read(&mut self, registers: &[u32]) -> Option<Lighting> {
        let kept = self.0.registers();
        let changed = |at: &usize| !(REG_TABLE_DATA..=REG_TABLE_DATA_END).contains(at) && registers[*at] != kept[*at];
        let writes: Vec<[u32; 2]> = (0..REGISTERS).filter(changed).map(|at| [at as u32, registers[at]]).collect();
        self.0.write_all(&writes).expect("registers below 474");
        self.0.read().map(Lighting)
    }
}

#[derive(Debug, Clone)]
pub struct Lighting(Block);

impl Lighting {
    pub fn read(registers: &[u32]) -> Option<Lighting> {
        LastLighting::default().read(registers)
    }

    pub fn pack(&self, words: &mut Vec<u32>) {
        words.extend(self.0.words());
    }

    pub fn shade(&self, tables: &Tables, quaternion: [f32; 4], view: [f32; 3], textures: &[[f32; 4]; 4]) -> ([f32; 4], [f32; 4]) {
        let colours = self.0.shade(tables.0.tables(), &Fragment { quaternion, view, texels: *textures });
        colours.to_floats().into()
    }
}
