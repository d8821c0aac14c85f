//! Register files, tables and fragments to shade, and the module's colours of them.

use crate::blocks::register_file;
use crate::oracle::{access, Lighting, Tables};
use crate::patterns::Random;
use crate::tables::INDEX;
use lighting::TABLE_WORDS;

/// A fragment as the module takes it.
pub struct Fragment {
    quaternion: [f32; 4],
    view: [f32; 3],
    texels: [[f32; 4]; 4],
}

impl Fragment {
    /// From its 23 words.
    pub fn of(words: &[u32]) -> Fragment {
        let float = |i: usize| f32::from_bits(words[i]);
        Fragment {
            quaternion: std::array::from_fn(float),
            view: std::array::from_fn(|i| float(4 + i)),
            texels: std::array::from_fn(|unit| std::array::from_fn(|i| float(7 + 4 * unit + i))),
        }
    }

    /// As the module shades it.
    #[inline]
    pub fn shade(&self, lighting: &Lighting, tables: &Tables) -> ([f32; 4], [f32; 4]) {
        lighting.shade(tables, self.quaternion, self.view, &self.texels)
    }
}

/// The module's eight k: each of its channels is k over 255.
pub fn eight(lighting: &Lighting, tables: &Tables, fragment: &Fragment) -> [u32; 8] {
    let (primary, secondary) = fragment.shade(lighting, tables);
    std::array::from_fn(|i| (if i < 4 { primary[i] } else { secondary[i - 4] } * 255.0).round() as u32)
}

/// A colour register of no channel above a third, so that sums of lights stay apart.
fn dim(r: &mut Random) -> u32 {
    (0..3).fold(0, |c, _| c << 10 | r.below(86))
}

/// A register file whose lighting is on: three in four are scenes of ordinary positions and colours, in every
/// configuration, with every input, bump, shadow and flag; the others any words.
pub fn register_words(r: &mut Random) -> Vec<u32> {
    let mut file = register_file(r);
    file.truncate(474);
    file[0x08F] |= 1;
    file[0x1C6] &= !1;
    if r.below(4) == 0 {
        return file;
    }
    file[0x1C0] = dim(r);
    file[0x1C2] = r.word();
    file[0x1C3] = r.word();
    file[0x1C4] = [0, u32::MAX, r.word(), r.word() & r.word()][r.below(4) as usize];
    file[0x1D0..=0x1D2].fill_with(|| r.word());
    if r.below(2) == 0 {
        // no scale of 0
        file[0x1D2] &= 0x3333_3333;
    }
    file[0x1D9] = [0x7654_3210, r.word(), r.word() & 0x1111_1111][r.below(3) as usize];
    for light in 0..8 {
        let block = &mut file[0x140 + 0x10 * light..][..12];
        block[..4].fill_with(|| dim(r));
        let half = |r: &mut Random| r.below(2) << 15 | (12 + r.below(6)) << 10 | r.below(1024);
        block[4] = half(r) | half(r) << 16;
        block[5] = half(r);
        let float20 = |r: &mut Random| r.below(2) << 19 | (58 + r.below(6)) << 12 | r.below(4096);
        block[6] = r.word();
        block[7] = r.word();
        block[9] = r.word();
        block[10] = float20(r);
        block[11] = float20(r);
    }
    file
}

/// The next tables: some uploads, or one in eight times a restore. A restore has ordinary entries, odd words among
/// them, or steep ones, in which a last bit of what came before shows.
pub fn retable(tables: &mut Tables, r: &mut Random) {
    if r.below(8) == 0 {
        let kind = r.below(3);
        let entry = |_| {
            let [value, step, through] = [0; 3].map(|_| (r.word() >> 8) as f32 / 16_777_216.0);
            match (kind, r.below(3)) {
                (0, _) => [value, step * 0.2 - 0.1].map(f32::to_bits),
                (1, 0) => [0; 2].map(|_| r.odd()),
                (1, 1) => [value.to_bits(), r.word()],
                (1, _) => [r.word(), (step - 0.5).to_bits()],
                _ => [value - through * 32.0 * (step - 0.5), 32.0 * (step - 0.5)].map(f32::to_bits),
            }
        };
        let entries: Vec<[u32; 2]> = (0..TABLE_WORDS / 2).map(entry).collect();
        *tables = access::tables_of(entries.as_flattened());
    } else {
        let mut file = vec![0; 474];
        for _ in 0..1000 {
            file[INDEX] = r.below(24) << 8 | r.below(256);
            tables.write(&mut file, r.word());
        }
    }
}

/// Every entry's words, table after table.
pub fn table_words(tables: &Tables) -> Vec<u32> {
    tables.entries().as_flattened().as_flattened().iter().map(|x| x.to_bits()).collect()
}

/// A fragment of ordinary numbers.
pub fn ordinary_fragment(r: &mut Random) -> [u32; 23] {
    let mut words = [0; 23];
    words[..4].fill_with(|| r.ordinary());
    words[4..7].fill_with(|| r.ordinary());
    words[7..].fill_with(|| (r.below(256) as f32 / 255.0).to_bits());
    words
}

/// A fragment: of ordinary numbers, one in nine without a quaternion; in half of the scenes with words of any kind
/// among them.
pub fn fragment(wild: bool, r: &mut Random) -> [u32; 23] {
    let mut words = ordinary_fragment(r);
    if r.below(9) == 0 {
        words[..4].fill([0, 0x8000_0000][r.below(2) as usize]);
    }
    if wild {
        let share = [1, 4, 23][r.below(3) as usize];
        for _ in 0..share {
            words[r.below(23) as usize] = r.float();
        }
    }
    words
}

/// A scene to time: one light or eight, without tables or with all of them. Its register file and its tables.
pub fn scene(lights: u32, all: bool, r: &mut Random) -> (Vec<u32>, Tables) {
    let mut file = vec![0; 474];
    let mut tables = Tables::default();
    for entry in 0..24 * 256 {
        file[INDEX] = entry;
        tables.write(&mut file, r.word());
    }
    file[0x08F] = 1;
    file[0x1C0] = 0x0050_5050;
    file[0x1C2] = lights - 1;
    // configuration 8, fresnel on both alphas, clamped highlights; with eight lights a shadow and a bump map besides
    file[0x1C3] = match (all, lights) {
        (false, _) => 0,
        (_, 1) => 0x0800_008C,
        _ => 0x1803_008D,
    };
    file[0x1C4] = if all { 0 } else { u32::MAX };
    file[0x1D0] = 0x0202_0000;
    file[0x1D1] = if all { 0x0012_0312 } else { 0 };
    file[0x1D9] = 0x7654_3210;
    for light in 0..8 {
        let block = &mut file[0x140 + 0x10 * light..][..12];
        block[..4].fill_with(|| r.word() & 0x0FC3_F0FC);
        let half = |r: &mut Random| r.word() & 0x83FF | (13 + r.below(4)) << 10;
        block[4] = half(r) | half(r) << 16;
        block[5] = half(r);
        block[6] = r.word();
        block[7] = r.word();
        block[9] = if all { r.word() & 0xE } else { 1 };
        block[11] = 0x3D000 | r.below(4096);
    }
    (file, tables)
}
