//! Shading of fragments, by a block and by a copy, on words and on bytes.
mod common;

use common::*;
use lighting::{shade_block_bytes, Block, Colours, Fragment, HardwareCopy, Refusal, Shaded, BLOCK_WORDS, TABLE_WORDS};
use std::collections::HashSet;

/// Colours that no shading gives, to see whether they stay.
const UNTOUCHED: Colours = Colours { primary: [1000; 4], secondary: [2000; 4] };

fn bytes(words: &[u32]) -> Vec<u8> {
    words.iter().flat_map(|word| word.to_le_bytes()).collect()
}

#[test]
fn the_whole_case() {
    let unit = whole_case();
    let block = unit.read_anew().unwrap();
    let colours = block.shade(unit.tables(), &Fragment::default());
    assert_eq!(colours.to_string(), WHITE);
    assert_eq!(colours, Colours { primary: [255; 4], secondary: [0, 0, 0, 255] });
    assert_eq!(colours.to_floats(), [[1.0; 4], [0.0, 0.0, 0.0, 1.0]]);

    let (block, tables, fragment) = (bytes(block.words()), bytes(unit.tables()), bytes(&[0; 23]));
    assert_eq!(shade_block_bytes(&block, &tables, &fragment), Ok(Some(colours)));
}

#[test]
fn many_fragments_are_shaded_as_one_by_one() {
    let mut random = Random(5);
    let mut seen = HashSet::new();
    for _ in 0..30 {
        let mut unit = random.unit();
        let block = unit.read().unwrap();
        let mut copy = HardwareCopy::new();
        unit.hand_over(&mut copy);
        let fragments: Vec<Fragment> = (0..20).map(|i| if i % 4 == 0 { random.wild_fragment() } else { random.fragment() }).collect();

        let (mut by_block, mut by_copy) = ([UNTOUCHED; 20], [UNTOUCHED; 20]);
        assert_eq!(block.shade_all(unit.tables(), &fragments, &mut by_block), Ok(()));
        assert_eq!(copy.shade_all(&fragments, &mut by_copy), Ok(Shaded::Lit));
        assert_eq!(by_block, by_copy);

        let (block_bytes, tables) = (bytes(block.words()), bytes(unit.tables()));
        for (fragment, colours) in fragments.iter().zip(by_block) {
            assert_eq!(block.shade(unit.tables(), fragment), colours);
            assert_eq!(copy.shade(fragment), Some(colours));
            assert_eq!(shade_block_bytes(&block_bytes, &tables, &bytes(&fragment.to_words())), Ok(Some(colours)));
            assert!(colours.primary.iter().chain(&colours.secondary).all(|k| *k <= 255));
            seen.insert(colours);
        }
    }
    assert!(seen.len() > 100, "only {} different colours", seen.len());
}

#[test]
fn no_fragment_at_all_is_accepted() {
    let mut unit = whole_case();
    let mut copy = HardwareCopy::new();
    assert_eq!(copy.shade_all(&[], &mut []), Ok(Shaded::Off));
    unit.hand_over(&mut copy);
    assert_eq!(copy.shade_all(&[], &mut []), Ok(Shaded::Lit));
    assert_eq!(unit.read().unwrap().shade_all(unit.tables(), &[], &mut []), Ok(()));
}

#[test]
fn as_many_colours_as_fragments_or_refused() {
    let mut unit = whole_case();
    let block = unit.read().unwrap();
    let (off, mut copy) = (HardwareCopy::new(), HardwareCopy::new());
    unit.hand_over(&mut copy);
    for (fragments, places) in [(3, 2), (2, 3), (0, 1), (1, 0)] {
        let fragments = vec![Fragment::default(); fragments];
        let mut colours = vec![UNTOUCHED; places];
        assert_eq!(copy.shade_all(&fragments, &mut colours), Err(Refusal::WrongFragment));
        assert_eq!(off.shade_all(&fragments, &mut colours), Err(Refusal::WrongFragment));
        assert_eq!(block.shade_all(unit.tables(), &fragments, &mut colours), Err(Refusal::WrongFragment));
        assert_eq!(colours, vec![UNTOUCHED; places]);
    }
    assert_eq!(Refusal::WrongFragment.number(), 9);
}

#[test]
fn off_leaves_the_colours() {
    let off = HardwareCopy::new();
    let mut colours = [UNTOUCHED; 4];
    assert_eq!(off.shade_all(&[Fragment::default(); 4], &mut colours), Ok(Shaded::Off));
    assert_eq!(colours, [UNTOUCHED; 4]);
    assert_eq!(off.shade(&Fragment::default()), None);
}

#[test]
fn a_block_is_read_back_from_its_words() {
    let mut random = Random(6);
    for _ in 0..50 {
        let block = random.unit().read().unwrap();
        let words = *block.words();
        assert_eq!(Block::from_words(&words), Ok(Some(block)));
    }
    assert_eq!(Block::from_words(&[0; BLOCK_WORDS]), Ok(None));
}

#[test]
fn a_block_that_is_not_well_formed_is_refused() {
    let words = *whole_case().read().unwrap().words();
    let tables = bytes(&[0; TABLE_WORDS]);
    // configuration, lights on, a presence, the spotlights' lookup, padding, a NaN of other bits, flags, number, unused
    // slot
    for (at, word) in [(0, 16), (1, 0), (1, 9), (8, 2), (32, 0), (39, 1), (40, 0x7FC0_0001), (72, 0x80), (73, 8), (76, 1)] {
        let mut damaged = words;
        assert_ne!(damaged[at], word);
        damaged[at] = word;
        let refusal = Block::from_words(&damaged).unwrap_err();
        assert_eq!((refusal, refusal.number()), (Refusal::NotWellFormed, 7), "word {at}");
        assert_eq!(shade_block_bytes(&bytes(&damaged), &tables, &[0; 92]), Err(Refusal::NotWellFormed), "word {at}");
    }
}

#[test]
fn bytes_are_refused_by_their_lengths_in_order() {
    let (mut block, tables, fragment) = (vec![0; 4 * BLOCK_WORDS], vec![0; 4 * TABLE_WORDS], [0; 92]);
    let number = |block: &[u8], tables: &[u8], fragment: &[u8]| shade_block_bytes(block, tables, fragment).map_err(Refusal::number);
    assert_eq!(number(&block, &tables, &fragment), Ok(None));
    // each slice a byte short of whole words, then a word short, then a word too long
    assert_eq!(number(&block[1..], &tables[1..], &fragment[1..]), Err(6));
    assert_eq!(number(&block, &tables[1..], &fragment[1..]), Err(2));
    assert_eq!(number(&block, &tables, &fragment[1..]), Err(9));
    assert_eq!(number(&block[4..], &tables, &fragment), Err(6));
    assert_eq!(number(&block, &tables[4..], &fragment), Err(2));
    assert_eq!(number(&block, &tables, &fragment[4..]), Err(9));
    assert_eq!(number(&block, &tables, &[0; 96]), Err(9));
    assert_eq!(number(&[], &[], &[]), Err(6));
    // the lengths come before what the block holds
    block[4] = 9;
    assert_eq!(number(&block, &tables, &fragment[4..]), Err(9));
    assert_eq!(number(&block, &tables, &fragment), Err(7));
}

#[test]
fn a_fragment_is_its_words() {
    let mut words = [0; 23];
    for (word, i) in words.iter_mut().zip(0..) {
        *word = 0x3F80_0000 + i;
    }
    let fragment = Fragment::from_words(&words);
    assert_eq!(fragment.to_words(), words);
    assert_eq!(fragment.quaternion.map(f32::to_bits), words[..4]);
    assert_eq!(fragment.view.map(f32::to_bits), words[4..7]);
    for (unit, texel) in fragment.texels.iter().enumerate() {
        assert_eq!(texel.map(f32::to_bits), words[7 + 4 * unit..][..4]);
    }
    words[..4].copy_from_slice(&[0x7FC0_0000, 0xFF80_0000, 0x8000_0000, 1]);
    assert_eq!(Fragment::from_words(&words).to_words(), words);
}

#[test]
fn colours_as_bytes_and_floats() {
    let colours = Colours { primary: [0, 1, 254, 255], secondary: [256, u32::MAX, 128, 7] };
    assert_eq!(colours.to_bytes(), [[0, 1, 254, 255], [255, 255, 128, 7]]);
    assert_eq!(colours.to_floats()[0], [0.0, 1.0 / 255.0, 254.0 / 255.0, 1.0]);
    assert_eq!(colours.to_string(), "0 1 254 255 256 4294967295 128 7");
}
