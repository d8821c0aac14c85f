//! Hand-overs: what a copy takes, and when.
mod common;

use common::*;
use lighting::{Fragment, HardwareCopy, Unit, BLOCK_WORDS, TABLE_WORDS};

/// The whole case with a distance table: the bias is 1 and the scale 0, so every fragment reads the last entry.
fn lantern() -> Unit {
    let mut unit = whole_case();
    unit.write_all(&[[0x14A, 0x3F000], [0x14B, 0], [0x1C4, !(1 << 24)]]).unwrap();
    unit
}

/// Sets that entry to a value out of 4095, its step 0.
fn set_falloff(unit: &mut Unit, value: u32) {
    unit.write_all(&[[TABLE_INDEX, DISTANCE << 8 | 255], [TABLE_DATA, value]]).unwrap();
}

fn colours(copy: &HardwareCopy) -> String {
    copy.shade(&Fragment::default()).map_or("off".into(), |colours| colours.to_string())
}

#[test]
fn a_new_copy_is_off_and_all_zero() {
    let copy = HardwareCopy::new();
    assert_eq!((copy.block(), copy.block_words()), (None, &[0; BLOCK_WORDS]));
    assert_eq!((copy.tables(), copy.generation()), (&[0; TABLE_WORDS], 0));
    assert_eq!(colours(&copy), "off");
}

#[test]
fn the_whole_case() {
    let (mut unit, mut copy) = (whole_case(), HardwareCopy::new());
    unit.hand_over(&mut copy);
    assert_eq!(colours(&copy), WHITE);
    assert_eq!(copy.block(), unit.read());
    assert_eq!(Some(copy.block_words()), unit.read().as_ref().map(|block| block.words()));

    unit.write(0x08F, 0).unwrap();
    assert_eq!(colours(&copy), WHITE); // until the next hand-over
    unit.hand_over(&mut copy);
    assert_eq!(colours(&copy), "off");
    assert_eq!((copy.block(), copy.block_words()), (None, &[0; BLOCK_WORDS]));
}

#[test]
fn an_upload_reaches_the_copy_at_the_next_hand_over() {
    let (mut unit, mut copy) = (lantern(), HardwareCopy::new());
    assert!(!unit.hand_over(&mut copy));
    assert_eq!(colours(&copy), "0 0 0 255 0 0 0 255");

    set_falloff(&mut unit, 0xFFF);
    assert_eq!((copy.generation(), copy.tables()), (0, &[0; TABLE_WORDS]));
    assert!(unit.hand_over(&mut copy));
    assert_eq!((copy.generation(), copy.tables()), (1, unit.tables()));
    assert_eq!(copy.tables()[entry(DISTANCE, 255)], 1.0f32.to_bits());
    assert_eq!(colours(&copy), WHITE);

    let before = copy.clone();
    assert!(!unit.hand_over(&mut copy));
    assert_eq!((copy.generation(), copy.tables()), (1, before.tables()));
    assert_eq!(copy.block_words(), before.block_words());

    // equal bits are no change
    set_falloff(&mut unit, 0xFFF);
    assert!(!unit.hand_over(&mut copy));
    assert_eq!((copy.generation(), copy.tables()), (1, before.tables()));

    set_falloff(&mut unit, 0);
    assert!(unit.hand_over(&mut copy));
    assert_eq!(copy.generation(), 2);
    assert_eq!(colours(&copy), "0 0 0 255 0 0 0 255");
}

#[test]
fn a_restore_reaches_the_copy() {
    let (mut unit, mut copy) = (lantern(), HardwareCopy::new());
    unit.hand_over(&mut copy);
    let mut saved = [0; TABLE_WORDS];
    saved[entry(DISTANCE, 255)] = 1.0f32.to_bits();
    unit.restore(&saved).unwrap();
    assert!(unit.hand_over(&mut copy));
    assert_eq!((copy.generation(), copy.tables()), (1, &saved));
    assert_eq!(colours(&copy), WHITE);
}

#[test]
fn another_units_generation_is_never_mistaken_for_ones_own() {
    let (mut bright, mut dark, mut copy) = (lantern(), lantern(), HardwareCopy::new());
    set_falloff(&mut bright, 0xFFF);
    set_falloff(&mut dark, 1);
    assert_eq!(bright.generation(), dark.generation());
    for _ in 0..2 {
        assert!(bright.hand_over(&mut copy));
        assert_eq!((copy.generation(), colours(&copy)), (1, WHITE.into()));
        assert!(dark.hand_over(&mut copy));
        assert_eq!((copy.generation(), colours(&copy)), (1, "0 0 0 255 0 0 0 255".into()));
    }
    assert!(!dark.hand_over(&mut copy));
}

#[test]
fn a_unit_set_back_to_its_clone_hands_over_the_clones_tables() {
    let (mut unit, mut copy) = (lantern(), HardwareCopy::new());
    unit.hand_over(&mut copy);
    let saved = unit.clone();
    set_falloff(&mut unit, 0xFFF);
    unit.hand_over(&mut copy);
    assert_eq!(colours(&copy), WHITE);

    unit = saved;
    set_falloff(&mut unit, 1);
    assert_eq!(unit.generation(), copy.generation());
    unit.hand_over(&mut copy);
    assert_eq!(copy.tables(), unit.tables());
    assert_eq!(colours(&copy), "0 0 0 255 0 0 0 255");
}

#[test]
fn after_every_hand_over_the_copy_is_the_unit() {
    let mut random = Random(4);
    let (mut unit, mut copy) = (random.unit(), HardwareCopy::new());
    for _ in 0..200 {
        for _ in 0..random.word() % 5 {
            let register = [TABLE_INDEX, TABLE_DATA, 0x08F, random.word() % 474][random.word() as usize % 4];
            unit.write(register, random.word()).unwrap();
        }
        let stale = unit.generation() != copy.generation();
        assert_eq!(unit.hand_over(&mut copy), stale);
        assert_eq!((copy.generation(), copy.tables()), (unit.generation(), unit.tables()));
        assert_eq!(copy.block(), unit.read_anew());
    }
}
