//! Inputs: a fixed list of odd words, and a generator with a seed.

/// Words that a careless rounding, comparison or conversion gets wrong: both zeros, the ends of the
/// subnormals and of the numbers, infinities, NaNs of every class, ones, halves, the ends of the
/// table places, and whole numbers around 2^23.
#[rustfmt::skip]
pub const ODD: [u32; 48] = [
    0x0000_0000, 0x8000_0000, 0x0000_0001, 0x8000_0001, 0x007F_FFFF, 0x807F_FFFF, 0x0080_0000, 0x8080_0000,
    0x0080_0001, 0x7F7F_FFFF, 0xFF7F_FFFF, 0x7F80_0000, 0xFF80_0000, 0x7F80_0001, 0xFF80_0001, 0x7FBF_FFFF,
    0x7FC0_0000, 0xFFC0_0000, 0x7FC0_0001, 0x7FFF_FFFF, 0xFFFF_FFFF, 0x3F80_0000, 0xBF80_0000, 0x3F7F_FFFF,
    0xBF7F_FFFF, 0x3F80_0001, 0xBF80_0001, 0x3F00_0000, 0xBF00_0000, 0x3EFF_FFFF, 0x3B80_0000, 0xBB80_0000,
    0x3B7F_FFFF, 0x3F7F_0000, 0x3F7E_FFFF, 0x3C00_0000, 0xBC00_0000, 0x4300_0000, 0x4380_0000, 0xC380_0000,
    0x437F_0000, 0x4AFF_FFFF, 0x4B00_0000, 0x4B00_0001, 0xCB00_0000, 0x4B7F_FFFF, 0x4B80_0000, 0x2000_0000,
];

/// Numbers that follow from a seed (splitmix64).
pub struct Random(pub u64);

impl Random {
    pub fn draw(&mut self) -> u64 {
        self.0 = self.0.wrapping_add(0x9E37_79B9_7F4A_7C15);
        let mut z = self.0;
        z = (z ^ (z >> 30)).wrapping_mul(0xBF58_476D_1CE4_E5B9);
        z = (z ^ (z >> 27)).wrapping_mul(0x94D0_49BB_1331_11EB);
        z ^ (z >> 31)
    }

    pub fn word(&mut self) -> u32 {
        (self.draw() >> 32) as u32
    }

    pub fn below(&mut self, n: u32) -> u32 {
        (self.draw() % n as u64) as u32
    }

    /// An ordinary number's word, between −4 and 4.
    pub fn ordinary(&mut self) -> u32 {
        ((self.word() >> 8) as f32 / 2_097_152.0 - 4.0).to_bits()
    }

    pub fn odd(&mut self) -> u32 {
        ODD[self.below(ODD.len() as u32) as usize]
    }

    /// A float's word: any bits, an odd word, or an ordinary number, a third each.
    pub fn float(&mut self) -> u32 {
        match self.below(3) {
            0 => self.word(),
            1 => self.odd(),
            _ => self.ordinary(),
        }
    }

    /// Floats' words: all ordinary, or all but one, or each of any kind; a third each, so that not all results are NaN.
    pub fn floats(&mut self, words: &mut [u32]) {
        let kind = self.below(3);
        let other = self.below(words.len() as u32) as usize;
        for (i, x) in words.iter_mut().enumerate() {
            let wild = kind == 2 || (kind == 1 && i == other);
            *x = if wild { self.float() } else { self.ordinary() };
        }
    }
}
