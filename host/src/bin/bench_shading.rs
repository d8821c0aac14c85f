//! Times shading beside the Rust module's `Lighting::shade`, in one run.
//!
//! Prints ns for each fragment, the least of many rounds that take turns, and the ratio to the module's: (a)
//! `lighting_shade_fragments`, which checks its slices and the block once for each call, over all 1000 fragments in one
//! call, in calls of 16 and in calls of 4; (b) `lighting_shade_block` on bytes, one call for each fragment.
#[cfg(oracle)]
fn main() {
    use lighting_host::blocks::theirs;
    use lighting_host::boundary::{bytes, shade_block, shade_fragments, words, ANSWER_WORDS};
    use lighting_host::colours::{eight, ordinary_fragment, scene, table_words, Fragment};
    use lighting_host::oracle::Lighting;
    use lighting_host::patterns::Random;
    use std::hint::black_box;
    use std::time::Instant;

    const ROUNDS: usize = 200;
    const FRAGMENTS: usize = 1000;
    const BATCHES: [usize; 3] = [FRAGMENTS, 16, 4];

    let columns = ["(a) 1000", "(a) 16", "(a) 4", "(b)"].map(|name| format!(" {name:>8} {:>6}", "ratio"));
    println!("{:<22} {:>8}{}", "ns for each fragment", "Rust", columns.concat());
    let mut r = Random(1);
    for (name, lights, all) in
        [("1 light, no tables", 1, false), ("1 light, all tables", 1, true), ("8 lights, no tables", 8, false), ("8 lights, all tables", 8, true)]
    {
        let (file, tables) = scene(lights, all, &mut r);
        let (lighting, block) = (Lighting::read(&file).unwrap(), theirs(&file).unwrap());
        let entries = table_words(&tables);
        let (block_bytes, entry_bytes) = (bytes(&block), bytes(&entries));
        let fragment_words: Vec<[u32; 23]> = (0..FRAGMENTS).map(|_| ordinary_fragment(&mut r)).collect();
        let fragments: Vec<Fragment> = fragment_words.iter().map(|f| Fragment::of(f)).collect();
        let fragment_bytes: Vec<Vec<u8>> = fragment_words.iter().map(|f| bytes(f)).collect();
        let mut answers = vec![[0; ANSWER_WORDS]; FRAGMENTS];
        let mut answer = [0; 4 * ANSWER_WORDS];

        let many = |batch: usize, answers: &mut [[u32; ANSWER_WORDS]]| {
            for (fragments, answers) in fragment_words.chunks(batch).zip(answers.chunks_mut(batch)) {
                assert_eq!(shade_fragments(&block, &entries, fragments.as_flattened(), answers.as_flattened_mut()), 0);
            }
        };
        let due: Vec<[u32; ANSWER_WORDS]> = fragments.iter().map(|fragment| eight(&lighting, &tables, fragment)).collect();
        for batch in BATCHES {
            answers.fill([256; ANSWER_WORDS]);
            many(batch, &mut answers);
            assert_eq!(answers, due, "{name}");
        }
        for (fragment, due) in fragment_bytes.iter().zip(&due) {
            assert_eq!(shade_block(&block_bytes, &entry_bytes, fragment, &mut answer), 0);
            assert_eq!(words(&answer), due, "{name}");
        }

        let mut best = [f64::MAX; 5];
        let mut time = |side: usize, round: &mut dyn FnMut()| {
            let start = Instant::now();
            round();
            best[side] = best[side].min(start.elapsed().as_secs_f64() * 1e9 / FRAGMENTS as f64);
        };
        for _ in 0..ROUNDS {
            time(0, &mut || {
                for fragment in &fragments {
                    black_box(fragment.shade(&lighting, black_box(&tables)));
                }
            });
            for (side, batch) in (1..).zip(BATCHES) {
                time(side, &mut || {
                    many(batch, &mut answers);
                    black_box(&answers);
                });
            }
            time(4, &mut || {
                for fragment in &fragment_bytes {
                    assert_eq!(shade_block(&block_bytes, &entry_bytes, fragment, &mut answer), 0);
                    black_box(&answer);
                }
            });
        }
        let ratios: String = best[1..].iter().map(|ours| format!(" {ours:>8.1} {:>6.2}", ours / best[0])).collect();
        println!("{name:<22} {:>8.1}{ratios}", best[0]);
    }
}

#[cfg(not(oracle))]
fn main() {
    println!("the Rust module is not at hand: nothing was timed (LIGHTING_RS names its file)");
}
