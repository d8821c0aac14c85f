//! Captures that follow from a seed.

use lighting_tools::bodies::{bytes, total_words, Body, Kind, FRAGMENT_WORDS, MOST_WORDS, RESTORE_WORDS};

/// Numbers that follow from a seed (splitmix64).
pub struct Random(pub u64);

impl Random {
    pub fn word(&mut self) -> u32 {
        self.0 = self.0.wrapping_add(0x9E37_79B9_7F4A_7C15);
        let mut z = self.0;
        z = (z ^ (z >> 30)).wrapping_mul(0xBF58_476D_1CE4_E5B9);
        z = (z ^ (z >> 27)).wrapping_mul(0x94D0_49BB_1331_11EB);
        ((z ^ (z >> 31)) >> 32) as u32
    }

    pub fn below(&mut self, n: u32) -> u32 {
        self.word() % n
    }

    /// A float's word: any bits, both zeros, a NaN, an infinity, a tiny number, or a plain one.
    fn float(&mut self) -> u32 {
        let odd = [0, 0x8000_0000, 0x7FC0_0000, 0xFF80_0001, 0x7F80_0000, 0xFF80_0000, 1, 0x3F80_0000, 0x0080_0000, 0x7F7F_FFFF];
        match self.below(4) {
            0 => self.word(),
            1 => odd[self.below(odd.len() as u32) as usize],
            2 => (self.below(2001) as f32 / 1000.0 - 1.0).to_bits(),
            _ => ((self.word() >> 8) as f32 / 8_388_608.0 - 1.0).to_bits(),
        }
    }

    /// A write: any register that there is, mostly one that decoding reads, and any value, mostly of the form that the register has.
    fn write(&mut self) -> [u32; 2] {
        let register = match self.below(4) {
            0 => self.below(474),
            1 => 0x140 + self.below(0x80),
            _ => [0x08F, 0x1C0, 0x1C2, 0x1C3, 0x1C4, 0x1C5, 0x1C6, 0x1C8 + self.below(8), 0x1D0, 0x1D1, 0x1D2, 0x1D9][self.below(12) as usize],
        };
        let value = match self.below(4) {
            0 => self.word(),
            1 => self.word() & self.word() & self.word(),
            2 => self.word() & [0x3FFF_FFFF, 0x1FFF_1FFF, 0xF_FFFF, 0xFF_FFFF, 0xFFFF, 0xF, 0x7777_7777][self.below(7) as usize],
            _ => self.below(20),
        };
        [register, value]
    }

    /// Bodies that lightshow accepts: from none to 16, empty ones, and several of a kind after one another.
    pub fn bodies(&mut self) -> Vec<Body> {
        let mut bodies = vec![];
        for _ in 0..[0, 1, 2, 3, 4, 6, 9, 16][self.below(8) as usize] {
            let (kind, words) = match self.below(60) {
                0 => (Kind::Restore, self.restore()),
                1..30 => (Kind::Writes, (0..[0, 1, 3, 40][self.below(4) as usize]).flat_map(|_| self.write()).collect()),
                _ => {
                    let count = [0, 1, 2, 5][self.below(4) as usize] * FRAGMENT_WORDS;
                    // now and then all zero, or zero from some word on
                    let last = if self.below(3) == 0 { self.below(24) as usize } else { FRAGMENT_WORDS };
                    (Kind::Fragments, (0..count).map(|i| if i % FRAGMENT_WORDS < last { self.float() } else { 0 }).collect())
                }
            };
            bodies.push(Body { kind, words });
            if total_words(&bodies) > MOST_WORDS {
                bodies.pop();
            }
        }
        bodies
    }

    /// A restore's words: any, or mostly zero, or in runs.
    fn restore(&mut self) -> Vec<u32> {
        let mut words = vec![];
        let kind = self.below(3);
        while words.len() < RESTORE_WORDS {
            let entry = if kind == 1 && self.below(4) != 0 { [0, 0] } else { [self.float(), self.float()] };
            words.extend(entry.repeat(if kind == 2 { 1 + self.below(300) as usize } else { 1 }));
        }
        words.truncate(RESTORE_WORDS);
        words
    }

    /// A capture with one thing wrong, or one that only looks so.
    pub fn damaged(&mut self) -> Vec<u8> {
        let bodies = self.bodies();
        let mut input = bytes(&bodies);
        let mut put = |at: usize, word: u32| input[4 * at..4 * at + 4].copy_from_slice(&word.to_le_bytes());
        let some = [self.below(20), self.word(), 0, 16_384][self.below(4) as usize];
        match self.below(7) {
            0 => put(0, some),
            1 | 2 if !bodies.is_empty() => put(1 + self.below(3 * bodies.len() as u32) as usize, some),
            3 if bodies.iter().any(|body| body.kind == Kind::Writes && !body.words.is_empty()) => {
                let mut at = 1 + 3 * bodies.len();
                for body in &bodies {
                    if body.kind == Kind::Writes && !body.words.is_empty() {
                        put(at + 2 * self.below(body.words.len() as u32 / 2) as usize, 470 + self.below(8));
                    }
                    at += body.words.len();
                }
            }
            4 => input.extend((0..1 + self.below(9)).map(|i| i as u8)),
            5 => input.resize(65_536 + self.below(9) as usize, 0),
            _ => input.truncate(self.below(input.len() as u32 + 1) as usize),
        }
        input
    }
}
