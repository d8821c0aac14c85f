
// What the comparisons call of the module's private functions. Appended to the module's own text.
pub mod access {
    pub fn pica_float(bits: u32, mantissa: u32, exponent: u32) -> f32 {
        super::pica_float(bits, mantissa, exponent)
    }
    pub fn color(value: u32) -> [f32; 3] {
        super::color(value)
    }
    pub fn fixed(value: u32) -> f32 {
        super::fixed(value)
    }
    pub fn dot(a: [f32; 3], b: [f32; 3]) -> f32 {
        super::dot(a, b)
    }
    pub fn cross(a: [f32; 3], b: [f32; 3]) -> [f32; 3] {
        super::cross(a, b)
    }
    pub fn normalized(v: [f32; 3]) -> [f32; 3] {
        super::normalized(v)
    }
    pub fn rotate(q: [f32; 4], v: [f32; 3]) -> [f32; 3] {
        super::rotate(q, v)
    }
    /// the entry's value and step bits after one upload of `value` to a fresh table.
    pub fn uploaded(value: u32) -> [u32; 2] {
        let mut tables = super::Tables::default();
        let mut registers = vec![0u32; 474];
        tables.write(&mut registers, value);
        tables.entries()[0][0].map(f32::to_bits)
    }
    pub fn lookup(tables: &super::Tables, table: usize, entry: u8, delta: f32) -> f32 {
        tables.lookup(table, entry, delta)
    }
    /// the module counts from 0: this starts it elsewhere.
    pub fn start_at(tables: &mut super::Tables, generation: u64) {
        tables.generation = generation;
    }
    /// all entries from 12,288 words.
    pub fn tables_of(words: &[u32]) -> super::Tables {
        let mut tables = super::Tables::default();
        let entries: Vec<[f32; 2]> = words.as_chunks().0.iter().map(|entry| entry.map(f32::from_bits)).collect();
        assert!(tables.restore(&entries));
        tables
    }
    /// the 139 registers that a cached read keeps.
    pub fn registers_read(registers: &[u32]) -> Vec<u32> {
        super::Lighting::registers_read(registers).to_vec()
    }
    /// the lighting whose packed words a well-formed block has.
    pub fn lighting_of(words: &[u32]) -> super::Lighting {
        use super::{Bump, Light, Lighting, Lookup, Shadow};
        let on = |word: u32, bit: u32| word >> bit & 1 == 1;
        let unit = |word: u32| (word >> 4 & 3) as usize;
        let vector = |at: usize| [0, 1, 2].map(|i| f32::from_bits(words[at + i]));
        let found = |at: usize| Lookup { input: words[at + 1], absolute: words[at + 2] == 1, scale: f32::from_bits(words[at + 3]) };
        let lookup = |k: usize| (words[8 + 4 * k] == 1).then(|| found(8 + 4 * k));
        let mut lights = [Light::default(); 8];
        for (slot, light) in lights.iter_mut().enumerate().take(words[1] as usize) {
            let at = 40 + 36 * slot;
            let flags = words[at + 32];
            *light = Light {
                specular0: vector(at),
                specular1: vector(at + 4),
                diffuse: vector(at + 8),
                ambient: vector(at + 12),
                position: vector(at + 16),
                direction: vector(at + 20),
                spot: vector(at + 24),
                directional: on(flags, 0),
                two_sided: on(flags, 1),
                geometric0: on(flags, 2),
                geometric1: on(flags, 3),
                distance: on(flags, 4).then(|| (f32::from_bits(words[at + 28]), f32::from_bits(words[at + 29]))),
                spotlight: on(flags, 5),
                shadowed: on(flags, 6),
                number: words[at + 33] as usize,
            };
        }
        Lighting {
            lights,
            light_count: words[1] as usize,
            global_ambient: vector(36),
            config: words[0],
            distribution0: lookup(0),
            distribution1: lookup(1),
            fresnel: lookup(2),
            reflect: [lookup(3), lookup(4), lookup(5)],
            spotlight: found(32),
            fresnel_primary: words[4] == 1,
            fresnel_secondary: words[5] == 1,
            clamp_highlights: words[6] == 1,
            needs_half: on(words[7], 0),
            needs_view: on(words[7], 1),
            bump: match words[2] & 15 {
                0 => Bump::None,
                1 => Bump::Normal(unit(words[2]), on(words[2], 8)),
                _ => Bump::Tangent(unit(words[2])),
            },
            shadow: (words[3] != 0).then(|| Shadow {
                unit: unit(words[3]),
                invert: on(words[3], 8),
                primary: on(words[3], 9),
                secondary: on(words[3], 10),
                alpha: on(words[3], 11),
            }),
        }
    }
}
