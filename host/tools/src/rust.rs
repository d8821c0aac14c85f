//! The same fragments, coloured by the Rust module.

use crate::bodies::{Body, Kind};
use crate::drawing::Colours;
use crate::lighting::{LastLighting, Lighting, Tables, REG_TABLE_DATA, REG_TABLE_DATA_END};
use crate::names::REGISTERS;
use crate::shapes::Fragment;

/// The fragments' colours after a scene's set-up.
pub fn draw(setup: &[Body], fragments: &[Fragment]) -> Vec<Colours> {
    let (mut registers, mut tables) = (vec![0; REGISTERS as usize], Tables::default());
    for body in setup {
        match body.kind {
            Kind::Writes => body.words.as_chunks().0.iter().for_each(|[register, value]| match *register as usize {
                REG_TABLE_DATA..=REG_TABLE_DATA_END => tables.write(&mut registers, *value),
                register => registers[register] = *value,
            }),
            Kind::Fragments => (),
            Kind::Restore => {
                let entries: Vec<[f32; 2]> = body.words.as_chunks().0.iter().map(|entry| entry.map(f32::from_bits)).collect();
                assert!(tables.restore(&entries), "a restore has 12,288 words");
            }
        }
    }
    let lighting = LastLighting::default().read(&registers);
    fragments.iter().map(|fragment| lighting.as_ref().map(|lighting| eight(lighting, &tables, fragment))).collect()
}

/// The module's eight k: each of its channels is k over 255.
fn eight(lighting: &Lighting, tables: &Tables, words: &Fragment) -> [u8; 8] {
    let float = |i: usize| f32::from_bits(words[i]);
    let texels = std::array::from_fn(|unit| std::array::from_fn(|i| float(7 + 4 * unit + i)));
    let (primary, secondary) = lighting.shade(tables, std::array::from_fn(float), std::array::from_fn(|i| float(4 + i)), &texels);
    std::array::from_fn(|i| (if i < 4 { primary[i] } else { secondary[i - 4] } * 255.0).round() as u8)
}
