//! Times lights whose colours change each time, in one run: the proved code takes a colour's quotients from a table, the
//! Rust module divides.
//!
//! Prints ns for each file, the least of many rounds that take turns, and the ratio. The files of a row differ in every
//! colour of their lights and in the global ambient, so that each is decoded: (a) `lighting_read` beside the module's
//! `Lighting::read` and `pack`; (b) `lighting_hand_over` beside the module's `LastLighting::read` and `pack`.
fn main() {
    #[cfg(oracle)]
    timed::main();
    #[cfg(not(oracle))]
    println!("the Rust module is not at hand: nothing was timed (LIGHTING_RS names its file)");
}

#[cfg(oracle)]
mod timed {
    use lighting::{BLOCK_WORDS, TABLE_WORDS};
    use lighting_host::boundary::{hand_over, read_file, Copy, CACHE_WORDS};
    use lighting_host::colours::scene;
    use lighting_host::patterns::Random;
    use lighting_host::timing::{heading, least, line};
    use lighting_host::units::{their_read, TheirCopy};
    use std::hint::black_box;

    const ROUNDS: usize = 1000;
    const FILES: usize = 64;

    /// The scene with other colours in each file.
    fn files(lights: u32, all: bool, r: &mut Random) -> Vec<Vec<u32>> {
        let (file, _) = scene(lights, all, r);
        let other = |_| {
            let mut file = file.clone();
            for light in 0..8 {
                file[0x140 + 0x10 * light..][..4].fill_with(|| r.word());
            }
            file[0x1C0] = r.word();
            file
        };
        (0..FILES).map(other).collect()
    }

    fn reads(files: &[Vec<u32>]) -> [f64; 2] {
        let (mut block, mut their_block) = (vec![0; BLOCK_WORDS], vec![]);
        let mut theirs = || {
            for file in files {
                their_read(black_box(file), &mut their_block);
                black_box(&their_block);
            }
        };
        let mut ours = || {
            for file in files {
                assert_eq!(read_file(black_box(file), &mut block), 0);
                black_box(&block);
            }
        };
        let best = least(ROUNDS, files.len(), [&mut theirs, &mut ours]);
        assert_eq!(block, their_block, "the blocks differ");
        best
    }

    fn hand_overs(files: &[Vec<u32>]) -> [f64; 2] {
        let tables = vec![0; TABLE_WORDS];
        let (mut copy, mut their_copy) = (Copy::default(), TheirCopy::default());
        let mut cache = vec![0; CACHE_WORDS];
        let mut theirs = || {
            for file in files {
                their_copy.hand_over(black_box(file), &tables, 0);
                black_box(&their_copy);
            }
        };
        let mut ours = || {
            for file in files {
                assert_eq!(hand_over(black_box(file), &tables, 0, &mut cache, &mut copy), 0);
                black_box(&copy);
            }
        };
        least(ROUNDS, files.len(), [&mut theirs, &mut ours])
    }

    pub fn main() {
        let mut r = Random(1);
        let scenes = [
            ("1 light, no tables", 1, false),
            ("1 light, all tables", 1, true),
            ("8 lights, no tables", 8, false),
            ("8 lights, all tables", 8, true),
        ];
        let scenes = scenes.map(|(name, lights, all)| (name, files(lights, all, &mut r)));
        heading("ns for each read", "Rust", &["(a) read"]);
        for (name, files) in &scenes {
            line(name, &reads(files));
        }
        heading("ns for each hand-over", "Rust", &["(b) lent"]);
        for (name, files) in &scenes {
            line(name, &hand_overs(files));
        }
    }
}
