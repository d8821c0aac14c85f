//! The module's callers over the proved code: one renderer, compiled against either by one `use`, gives the same bits.
#![cfg(oracle)]

use lighting_host::callers::{proved, reference};
use lighting_host::captures::{lighting_pairs, restore_words};
use lighting_host::colours::fragment;
use lighting_host::patterns::Random;
use lighting_host::tables::random_write;
use lighting_host::word;

type Pixel = ([f32; 4], [f32; 3], [[f32; 4]; 4]);
type Colours = ([f32; 4], [f32; 4]);

fn pixel(wild: bool, r: &mut Random) -> Pixel {
    let words = fragment(wild, r);
    let float = |i: usize| f32::from_bits(words[i]);
    let texels = std::array::from_fn(|unit| std::array::from_fn(|i| float(7 + 4 * unit + i)));
    (std::array::from_fn(float), std::array::from_fn(|i| float(4 + i)), texels)
}

fn bits(colours: &[Option<Colours>]) -> Vec<Option<[[u32; 4]; 2]>> {
    colours.iter().map(|c| c.map(|(primary, secondary)| [primary, secondary].map(|c| c.map(f32::to_bits)))).collect()
}

fn entry_bits(entries: &[[f32; 2]]) -> Vec<[u32; 2]> {
    entries.iter().map(|entry| entry.map(f32::to_bits)).collect()
}

/// The words of a block, every NaN as 7FC00000; words that hold no float are too small to be a NaN's.
fn block_words(block: &[u32]) -> Vec<u32> {
    block.iter().map(|w| word(f32::from_bits(*w))).collect()
}

struct Both {
    ours: proved::Renderer,
    theirs: reference::Renderer,
}

impl Both {
    fn new(registers: usize) -> Both {
        Both { ours: proved::Renderer::new(registers), theirs: reference::Renderer::new(registers) }
    }

    fn write(&mut self, register: usize, value: u32) {
        self.ours.write(register, value);
        self.theirs.write(register, value);
    }

    /// A saved state that both gave.
    fn save(&self) -> (Vec<u32>, Vec<[f32; 2]>) {
        let (ours, theirs) = (self.ours.save(), self.theirs.save());
        assert_eq!(ours.registers, theirs.registers);
        assert_eq!(entry_bits(&ours.light_tables), entry_bits(&theirs.light_tables));
        (ours.registers, ours.light_tables)
    }

    fn load(&mut self, registers: &[u32], light_tables: &[[f32; 2]]) -> bool {
        let (registers, light_tables) = (registers.to_vec(), light_tables.to_vec());
        let ours = self.ours.load(&proved::Saved { registers: registers.clone(), light_tables: light_tables.clone() });
        assert_eq!(ours, self.theirs.load(&reference::Saved { registers, light_tables }));
        ours
    }

    /// How many of the pixels were lit.
    fn draw(&mut self, pixels: &[Pixel]) -> usize {
        let (ours, theirs) = (self.ours.draw(pixels), self.theirs.draw(pixels));
        assert_eq!(bits(&ours), bits(&theirs));
        let (ours_sent, theirs_sent) = (&self.ours.hardware, &self.theirs.hardware);
        assert_eq!(ours_sent.block, block_words(&theirs_sent.block));
        assert_eq!(entry_bits(&ours_sent.tables), entry_bits(&theirs_sent.tables));
        assert_eq!(ours_sent.uploads, theirs_sent.uploads);
        assert_eq!(self.ours.block(), self.theirs.block().map(|block| block_words(&block)));
        ours.iter().flatten().count()
    }

    fn check(&self, r: &mut Random) {
        assert_eq!(self.ours.registers, self.theirs.registers);
        assert_eq!(self.ours.generation(), self.theirs.generation());
        let (table, entry) = (r.below(24) as usize, r.below(256) as usize);
        assert_eq!(self.ours.entry(table, entry).map(f32::to_bits), self.theirs.entry(table, entry).map(f32::to_bits));
    }
}

#[test]
fn a_caller_gets_the_same_bits() {
    let mut r = Random(5);
    let (mut lit, mut off, mut loaded, mut uploads) = (0, 0, 0, 0);
    for words in [474, 512, 1024, 474] {
        let mut both = Both::new(words);
        let mut saved = both.save();
        for _ in 0..1500 {
            match r.below(16) {
                0..=3 => lighting_pairs(&mut r).chunks(2).for_each(|pair| both.write(pair[0] as usize, pair[1])),
                4..=8 => {
                    for _ in 0..r.below(20) {
                        let (register, value) = random_write(&mut r);
                        both.write(register as usize % 474, value);
                    }
                }
                9 => saved = both.save(),
                10 if r.below(2) == 0 => loaded += both.load(&saved.0, &saved.1) as u32,
                10 => {
                    let entries: Vec<[f32; 2]> = restore_words(&mut r).chunks(2).map(|e| [e[0], e[1]].map(f32::from_bits)).collect();
                    loaded += both.load(&saved.0, &entries) as u32;
                    // one entry short
                    assert!(!both.load(&saved.0, &entries[1..]));
                }
                11 => {
                    let on = r.below(4) != 0;
                    both.ours.turn(on);
                    both.theirs.turn(on);
                }
                _ => {
                    let wild = r.below(2) == 0;
                    let pixels: Vec<Pixel> = (0..r.below(6)).map(|_| pixel(wild, &mut r)).collect();
                    let found = both.draw(&pixels);
                    lit += found;
                    off += pixels.len() - found;
                }
            }
            both.check(&mut r);
        }
        uploads += both.ours.hardware.uploads;
    }
    println!("drop-in: {lit} pixels lit, {off} off, {loaded} states loaded, tables sent {uploads} times");
    assert!(lit > 2000 && off > 200 && loaded > 50 && uploads > 500, "a case was hardly met");
}
