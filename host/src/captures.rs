//! Captures run by the proved library call, beside the Rust module fed the same bodies.

use crate::blocks::register_file;
use crate::boundary::{bytes, FRAGMENT_WORDS};
use crate::patterns::Random;
use crate::tables::random_write;
use lighting::TABLE_WORDS;

/// The largest capture, in words.
pub const WORDS: usize = 16_384;
/// An output that is enough for every capture: 712 lines of 32 bytes.
pub const OUTPUT_BYTES: usize = 22_784;

/// A body's kind and words.
#[derive(Clone, Debug)]
pub struct Body {
    pub kind: u32,
    pub words: Vec<u32>,
}

/// The words of a capture with these bodies.
pub fn capture(bodies: &[Body]) -> Vec<u32> {
    let mut at = 1 + 3 * bodies.len();
    let mut words = vec![bodies.len() as u32];
    for body in bodies {
        words.extend([body.kind, at as u32, body.words.len() as u32]);
        at += body.words.len();
    }
    bodies.iter().for_each(|body| words.extend(&body.words));
    words
}

/// A colour of no channel above a third, so that sums of lights stay apart.
fn dim(r: &mut Random) -> u32 {
    (0..3).fold(0, |c, _| c << 10 | r.below(86))
}

/// A register file in which the lighting is mostly on: any words, or three times in four a scene of ordinary colours,
/// positions and distances with any settings.
fn scene_file(r: &mut Random) -> Vec<u32> {
    let mut file = register_file(r);
    if r.below(4) != 0 {
        file[0x1C0] = dim(r);
        file[0x1C3] = r.word();
        file[0x1C4] = [0, u32::MAX, r.word(), r.word() & r.word()][r.below(4) as usize];
        file[0x1D0..=0x1D2].fill_with(|| r.word());
        // no scale of 0
        file[0x1D2] &= 0x3333_3333;
        file[0x1D9] = r.word();
        for light in 0..8 {
            let block = &mut file[0x140 + 0x10 * light..][..12];
            block[..4].fill_with(|| dim(r));
            let half = |r: &mut Random| r.below(2) << 15 | (12 + r.below(6)) << 10 | r.below(1024);
            block[4] = half(r) | half(r) << 16;
            block[5] = half(r);
            let float20 = |r: &mut Random| r.below(2) << 19 | (58 + r.below(6)) << 12 | r.below(4096);
            block[6..10].fill_with(|| r.word());
            block[10] = float20(r);
            block[11] = float20(r);
        }
    }
    file
}

/// The register, value pairs that set up a lighting: the registers that decoding reads, of as many lights as are on.
pub fn lighting_pairs(r: &mut Random) -> Vec<u32> {
    let file = scene_file(r);
    let lights = 1 + if r.below(4) == 0 { r.below(8) } else { r.below(3) };
    let mut pairs = vec![0x08F, file[0x08F], 0x1C2, file[0x1C2] & !7 | (lights - 1)];
    let mut set = |register: usize| pairs.extend([register as u32, file[register]]);
    [0x1C0, 0x1C3, 0x1C4, 0x1C6, 0x1D0, 0x1D1, 0x1D2, 0x1D9].into_iter().for_each(&mut set);
    for slot in 0..lights {
        let light = 0x140 + 0x10 * (file[0x1D9] >> (4 * slot) & 7) as usize;
        (light..light + 12).filter(|at| at % 16 != 8).for_each(&mut set);
    }
    pairs
}

/// A restore's words, most of them between −1 and 1.
pub fn restore_words(r: &mut Random) -> Vec<u32> {
    let wild = r.below(3) == 0;
    let word = |_| if wild && r.below(4) == 0 { r.float() } else { ((r.word() >> 8) as f32 / 8_388_608.0 - 1.0).to_bits() };
    (0..TABLE_WORDS).map(word).collect()
}

/// So many fragments, of ordinary and odd numbers.
pub fn fragments(count: usize, r: &mut Random) -> Vec<u32> {
    let mut words = vec![0; FRAGMENT_WORDS * count];
    words.chunks_mut(FRAGMENT_WORDS).for_each(|fragment| r.floats(fragment));
    words
}

/// So many fragments of ordinary numbers, for timing.
pub fn ordinary_fragments(count: usize, r: &mut Random) -> Vec<u32> {
    (0..FRAGMENT_WORDS * count).map(|_| r.ordinary()).collect()
}

/// Bodies of every kind that make up a capture.
pub fn bodies(r: &mut Random) -> Vec<Body> {
    let count = [0, 1, 2, 3, 3, 4, 5, 6, 9, 16][r.below(10) as usize];
    let mut left = WORDS - 1 - 3 * count;
    let mut bodies = vec![];
    for _ in 0..count {
        let kind = [1, 1, 1, 1, 2, 2, 2, 2, 2, 3][r.below(10) as usize];
        let mut words = match kind {
            1 => lighting_pairs(r),
            2 => {
                let count = [0, 1, 1, 2, 3, 7][r.below(6) as usize];
                fragments(count, r)
            }
            _ => restore_words(r),
        };
        if kind == 1 {
            for _ in 0..[0, 4, 60][r.below(3) as usize] {
                let (register, value) = random_write(r);
                words.extend([register % 474, value]);
            }
        }
        if words.len() <= left {
            left -= words.len();
            bodies.push(Body { kind, words });
        }
    }
    bodies
}

/// A capture of these bodies with one thing wrong, or one that only looks so.
pub fn damaged(bodies: &[Body], r: &mut Random) -> Vec<u8> {
    let mut words = capture(bodies);
    let contents = 3 * bodies.len();
    let other = |r: &mut Random, word: u32| match r.below(5) {
        0 => word.wrapping_add(1),
        1 => word.wrapping_sub(1),
        2 => 0,
        3 => r.below(8),
        _ => r.word(),
    };
    match r.below(9) {
        // the count, a kind, an offset or a length
        0 => words[0] = other(r, words[0]),
        1..=3 if contents > 0 => {
            let at = 1 + r.below(contents as u32) as usize;
            words[at] = other(r, words[at]);
        }
        4 => words.extend((0..=r.below(3)).map(|_| r.word())),
        5 => words.truncate(words.len() - 1 - r.below(words.len() as u32) as usize),
        // a register that may be too high
        6 | 7 if bodies.iter().any(|body| body.kind == 1 && !body.words.is_empty()) => {
            let registers: Vec<usize> = bodies
                .iter()
                .scan(1 + contents, |at, body| {
                    let from = *at;
                    *at += body.words.len();
                    Some(if body.kind == 1 { from..*at } else { 0..0 })
                })
                .flat_map(|body| body.step_by(2))
                .collect();
            words[registers[r.below(registers.len() as u32) as usize]] = if r.below(2) == 0 { 470 + r.below(8) } else { r.word() };
        }
        _ => {
            let mut cut = bytes(&words);
            cut.truncate(cut.len() - r.below(4) as usize);
            return cut;
        }
    }
    bytes(&words)
}

#[cfg(oracle)]
mod compared;
#[cfg(oracle)]
mod replay;
#[cfg(oracle)]
pub use compared::{compare, largest, theirs, Tally};
#[cfg(oracle)]
pub use replay::{answers_text, replay_list};
