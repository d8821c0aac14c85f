//! Times hand-overs, restores, saves and writes of the proved code, in one run.
//!
//! Prints ns for each, the least of many rounds that take turns, and the ratio. Hand-overs stand beside the module's
//! `LastLighting::read` and `pack`, with registers that stay and with one that changes each time, with tables that stay
//! and with new ones each time: (a) `lighting_hand_over` with a lent cache, one call for each; (b) the structs' own,
//! with the cache a struct, many in one call. Restore and save stand beside a plain memory copy, and writes beside the
//! module's `Tables::write` with a plain register file: (a) `lighting_write`, (b) `lighting_writes` of 256 in one call.
fn main() {
    #[cfg(oracle)]
    timed::main();
    #[cfg(not(oracle))]
    println!("the Rust module is not at hand: nothing was timed (LIGHTING_RS names its file)");
}

#[cfg(oracle)]
mod timed {
    use lighting::TABLE_WORDS;
    use lighting_host::boundary::{hand_over, Copy, Unit, CACHE_WORDS};
    use lighting_host::colours::table_words;
    use lighting_host::oracle::Tables;
    use lighting_host::patterns::Random;
    use lighting_host::structs;
    use lighting_host::tables::{generated, is_data};
    use lighting_host::timing::{heading, least, line};
    use lighting_host::units::TheirCopy;
    use std::hint::black_box;

    const ROUNDS: usize = 300;
    const PAIRS: usize = 200;
    /// A list of writes wraps once through a table's entries.
    const WRITES: usize = 256;

    /// A file whose lighting is on, with so many lights, their parts all there or all missing.
    fn file(lights: u32, all: bool) -> Vec<u32> {
        let mut r = Random(lights as u64);
        let mut file = vec![0; 474];
        file[0x08F] = 1;
        file[0x1C2] = lights - 1;
        file[0x1C3] = if all { 0x180F_008D } else { 0 };
        file[0x1C4] = if all { 0 } else { u32::MAX };
        file[0x1D1] = 0x0012_0312;
        file[0x1D9] = 0x7654_3210;
        for light in 0..8 {
            let block = &mut file[0x140 + 0x10 * light..];
            block[..4].fill_with(|| r.word() & 0x0FF3_FCFF);
            // ordinary halves and 20-bit floats
            let half = |r: &mut Random| r.word() & 0x83FF | (13 + r.below(4)) << 10;
            block[4] = half(&mut r) | half(&mut r) << 16;
            block[5] = half(&mut r);
            block[6] = r.word();
            block[7] = r.word();
            block[9] = r.word() & 15;
            block[11] = 0x3D000 | r.word() & 0xFFF;
        }
        file
    }

    fn hand_overs(files: [&[u32]; 2], generations: [u64; 2]) -> [f64; 3] {
        let tables = generated(1, TABLE_WORDS);
        let (mut copy, mut struct_copy, mut their_copy) = (Copy::default(), Copy::default(), TheirCopy::default());
        let mut cache = vec![0; CACHE_WORDS];
        let mut theirs = || {
            for _ in 0..PAIRS {
                for (file, generation) in files.iter().zip(generations) {
                    their_copy.hand_over(black_box(file), &tables, generation);
                    black_box(&their_copy);
                }
            }
        };
        let mut lent = || {
            for _ in 0..PAIRS {
                for (file, generation) in files.iter().zip(generations) {
                    assert_eq!(hand_over(black_box(file), &tables, generation, &mut cache, &mut copy), 0);
                    black_box(&copy);
                }
            }
        };
        let mut in_structs = || {
            assert_eq!(structs::hand_overs(black_box(files), &tables, generations, &mut struct_copy, PAIRS as u32), 0);
        };
        let best = least(ROUNDS, 2 * PAIRS, [&mut theirs, &mut lent, &mut in_structs]);
        assert!(copy == struct_copy, "the copies differ");
        best
    }

    fn hand_over_rows() {
        heading("ns for each hand-over", "Rust", &["(a) lent", "(b) struct"]);
        let mut off = file(1, false);
        off[0x08F] = 0;
        let scenes = [
            ("off", off),
            ("1 light, no tables", file(1, false)),
            ("1 light, all tables", file(1, true)),
            ("8 lights, no tables", file(8, false)),
            ("8 lights, all tables", file(8, true)),
        ];
        for (name, file) in &scenes {
            line(&format!("{name}, registers stay"), &hand_overs([file, file], [1, 1]));
        }
        for (name, file) in &scenes {
            // the colour of a light that is lit
            let mut other = file.clone();
            other[0x142] ^= 1;
            line(&format!("{name}, a register changes"), &hand_overs([file, &other], [1, 1]));
        }
        line("1 light, no tables, registers stay, new tables", &hand_overs([&scenes[1].1, &scenes[1].1], [1, 2]));
    }

    fn copy_rows() {
        heading("ns for each copy of the tables", "plain", &["here"]);
        let saved = generated(1, TABLE_WORDS);
        let (mut unit, mut plain) = (Unit::default(), vec![0; TABLE_WORDS]);
        let mut copied = || {
            for _ in 0..PAIRS {
                black_box(&mut plain).copy_from_slice(black_box(&saved));
            }
        };
        let mut restored = || {
            for _ in 0..PAIRS {
                assert_eq!(black_box(&mut unit).restore(black_box(&saved)), 0);
            }
        };
        line("restore", &least(ROUNDS, PAIRS, [&mut copied, &mut restored]));
        let mut output = vec![0; TABLE_WORDS];
        let mut copied = || {
            for _ in 0..PAIRS {
                black_box(&mut plain).copy_from_slice(black_box(&unit.tables));
            }
        };
        let mut kept = || {
            for _ in 0..PAIRS {
                assert_eq!(unit.save(black_box(&mut output)), 0);
            }
        };
        line("save", &least(ROUNDS, PAIRS, [&mut copied, &mut kept]));
        assert_eq!(output, saved);
    }

    /// Two lists of writes in turn, which change an entry so many times in all the rounds.
    fn writes(lists: [&[u32]; 2], changes: usize) -> [f64; 3] {
        let (mut file, mut tables) = (vec![0; 474], Tables::default());
        let (mut unit, mut list_unit) = (Unit::default(), Unit::default());
        let mut theirs = || {
            for list in lists {
                for pair in list.as_chunks().0 {
                    let [register, value] = black_box(*pair);
                    if is_data(register) {
                        tables.write(&mut file, value);
                    } else {
                        file[register as usize] = value;
                    }
                }
            }
            black_box((&file, &tables));
        };
        let mut one = || {
            for list in lists {
                for pair in list.as_chunks().0 {
                    let [register, value] = black_box(*pair);
                    assert_eq!(unit.write(register, value), 0);
                }
            }
            black_box(&unit);
        };
        let mut many = || {
            for list in lists {
                let mut done = 0;
                assert_eq!(list_unit.writes(black_box(list), &mut done), 0);
                assert_eq!(done, WRITES as u64);
            }
            black_box(&list_unit);
        };
        let best = least(ROUNDS, 2 * WRITES, [&mut theirs, &mut one, &mut many]);
        assert!(unit == list_unit && unit.file == file && unit.tables == table_words(&tables), "the units differ");
        assert_eq!(unit.generation, changes as u64);
        best
    }

    fn write_rows() {
        heading("ns for each write", "Rust", &["(a) one", "(b) list"]);
        let mut r = Random(3);
        let mut uploads = |last: u32| (0..WRITES).flat_map(|_| [0x1C8, r.word() & !1 | last]).collect::<Vec<u32>>();
        // the values of the one are even and those of the other odd, so that each changes its entry
        let (even, odd) = (uploads(0), uploads(1));
        let plain: Vec<u32> = (0..WRITES as u32).flat_map(|i| [0x140 + i % 128, i]).collect();
        line("a plain register", &writes([&plain, &plain], 0));
        line("an upload that changes its entry", &writes([&even, &odd], 2 * WRITES * ROUNDS));
        line("an upload that finds its entry equal", &writes([&even, &even], WRITES));
    }

    pub fn main() {
        hand_over_rows();
        copy_rows();
        write_rows();
    }
}
