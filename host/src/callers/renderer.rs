//! A renderer that uses the module's names as its callers do: uploads through the registers, saved states, the lighting
//! read at each draw, the block packed and the tables copied for a host's GPU, and fragments shaded one by one.

use super::lighting::{LastLighting, Lighting, Tables, REG_ENABLE, REG_TABLE_DATA, REG_TABLE_DATA_END};

/// What a pixel hands to shading: quaternion, view and what the texture units sampled.
pub type Pixel = ([f32; 4], [f32; 3], [[f32; 4]; 4]);
/// Its primary and secondary colours.
pub type Colours = ([f32; 4], [f32; 4]);

/// What draws keep from one to the next.
#[derive(Default)]
struct Resources {
    light_tables: Tables,
    lighting: LastLighting,
}

impl Resources {
    /// Lets go of what the last draw left to the next, memory having been put back as a saved state had it.
    fn forget(&mut self) {
        self.lighting = Default::default();
    }
}

/// A draw, as it stands.
struct DrawState<'a> {
    lighting: Option<Lighting>,
    tables: &'a Tables,
}

/// What a host's GPU was sent: the uniform block, and the tables whenever their generation was another.
#[derive(Default)]
pub struct Hardware {
    pub block: Vec<u32>,
    pub tables: Vec<[f32; 2]>,
    generation: u64,
    pub uploads: u64,
}

impl Hardware {
    fn draw(&mut self, state: &DrawState) {
        self.block.clear();
        if let Some(lighting) = state.lighting.as_ref() {
            lighting.pack(&mut self.block);
        }
        if self.generation != state.tables.generation() {
            self.tables = state.tables.entries().as_flattened().to_vec();
            self.generation = state.tables.generation();
            self.uploads += 1;
        }
    }
}

/// A saved state.
#[derive(Clone)]
pub struct Saved {
    pub registers: Vec<u32>,
    pub light_tables: Vec<[f32; 2]>,
}

pub struct Renderer {
    pub registers: Vec<u32>,
    pub hardware: Hardware,
    resources: Resources,
}

impl Renderer {
    /// With a register file of so many words.
    pub fn new(registers: usize) -> Renderer {
        Renderer { registers: vec![0; registers], hardware: Hardware::default(), resources: Resources::default() }
    }

    pub fn write(&mut self, register: usize, value: u32) {
        match register {
            REG_TABLE_DATA..=REG_TABLE_DATA_END => self.resources.light_tables.write(&mut self.registers, value),
            register => self.registers[register] = value,
        }
    }

    pub fn turn(&mut self, on: bool) {
        self.registers[REG_ENABLE] = on as u32;
    }

    pub fn save(&self) -> Saved {
        Saved { registers: self.registers.clone(), light_tables: self.resources.light_tables.saved() }
    }

    /// False where the saved tables do not fit.
    pub fn load(&mut self, saved: &Saved) -> bool {
        if !self.resources.light_tables.restore(&saved.light_tables) {
            return false;
        }
        self.registers.clone_from(&saved.registers);
        self.resources.forget();
        true
    }

    pub fn draw(&mut self, pixels: &[Pixel]) -> Vec<Option<Colours>> {
        let lighting = self.resources.lighting.read(&self.registers);
        let state = DrawState { lighting, tables: &self.resources.light_tables };
        self.hardware.draw(&state);
        let shade =
            |(quaternion, view, samples): &Pixel| state.lighting.as_ref().map(|lighting| lighting.shade(state.tables, *quaternion, *view, samples));
        pixels.iter().map(shade).collect()
    }

    /// The block of the registers as they are, whatever the last draw left.
    pub fn block(&self) -> Option<Vec<u32>> {
        let mut words = vec![];
        Lighting::read(&self.registers)?.clone().pack(&mut words);
        Some(words)
    }

    pub fn entry(&self, table: usize, entry: usize) -> [f32; 2] {
        self.resources.light_tables.entries()[table][entry]
    }

    pub fn generation(&self) -> u64 {
        self.resources.light_tables.generation()
    }
}
