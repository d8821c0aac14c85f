//! Register writes, table uploads, save and restore, and reads of a unit.
mod common;

use common::*;
use lighting::{LightNumber, Refusal, Stopped, Unit, REGISTERS, TABLE_WORDS};

/// All that shows of a unit.
fn state(unit: &Unit) -> ([u32; REGISTERS], Vec<u32>, u64) {
    (*unit.registers(), unit.tables().to_vec(), unit.generation())
}

#[test]
fn a_new_unit_is_all_zero() {
    let unit = Unit::new();
    assert_eq!(state(&unit), ([0; REGISTERS], vec![0; TABLE_WORDS], 0));
    assert!(unit.read_anew().is_none());
}

#[test]
fn a_write_replaces_the_whole_word_of_its_register_alone() {
    let mut unit = Unit::new();
    let mut file = [0; REGISTERS];
    for register in (0..REGISTERS as u32).filter(|register| !(0x1C8..=0x1CF).contains(register)) {
        let value = 0x8000_0001 ^ (register << 8);
        unit.write(register, value).unwrap();
        file[register as usize] = value;
        assert_eq!(unit.registers(), &file);
    }
    assert_eq!((unit.tables(), unit.generation()), (&[0; TABLE_WORDS], 0));
}

#[test]
fn an_upload_stores_value_and_step() {
    for data in 0x1C8..=0x1CF {
        let mut unit = Unit::new();
        unit.write(TABLE_INDEX, 5 << 8 | 7).unwrap();
        unit.write(data, 0x801 | 0x3FF << 12 | 1 << 23).unwrap();
        let at = entry(5, 7);
        let mut tables = vec![0; TABLE_WORDS];
        tables[at] = (2049.0f32 / 4095.0).to_bits();
        tables[at + 1] = (-1023.0f32 / 2047.0).to_bits();
        let mut file = [0; REGISTERS];
        file[TABLE_INDEX as usize] = 5 << 8 | 8;
        assert_eq!(state(&unit), (file, tables, 1));
    }
}

/// Document 01's cases P of uploads.
#[test]
fn uploads_as_document_01_has_them() {
    let mut unit = Unit::new();
    unit.write(TABLE_DATA, 0x80_0000).unwrap();
    assert_eq!(unit.tables()[..2], [0.0f32.to_bits(), (-0.0f32).to_bits()]);
    assert_eq!(unit.generation(), 1);

    unit.write(TABLE_INDEX, 0x17FF).unwrap();
    unit.write(TABLE_DATA, 1).unwrap();
    assert_eq!(unit.registers()[TABLE_INDEX as usize], 0x1700);

    let before = state(&unit);
    unit.write(TABLE_INDEX, 0x1800).unwrap();
    unit.write(TABLE_DATA, 1).unwrap();
    assert_eq!(unit.registers()[TABLE_INDEX as usize], 0x1801);
    assert_eq!((unit.tables().to_vec(), unit.generation()), (before.1, before.2));
}

#[test]
fn equal_bits_keep_the_generation() {
    let mut unit = Unit::new();
    for generation in [1, 1, 2] {
        unit.write(TABLE_INDEX, 3).unwrap();
        unit.write(TABLE_DATA, if generation == 1 { 0xABC } else { 0xABD }).unwrap();
        assert_eq!(unit.generation(), generation);
    }
}

#[test]
fn a_register_too_high_is_refused_and_changes_nothing() {
    let mut unit = whole_case();
    unit.write(TABLE_DATA, 0xFFF).unwrap();
    let before = state(&unit);
    for register in [474, 475, 0x1DA, 0x400, 0x8000_0000, u32::MAX] {
        let refusal = unit.write(register, 1).unwrap_err();
        assert_eq!((refusal, refusal.number()), (Refusal::HighRegister, 3));
        assert_eq!(refusal.to_string(), "refused 3: the register is 474 or above");
        assert_eq!(state(&unit), before);
    }
    unit.write(473, 1).unwrap();
}

#[test]
fn a_list_stops_at_the_first_refused_write() {
    let writes = [[0x08F, 1], [TABLE_DATA, 0xFFF], [0x1C2, 2], [474, 9], [0x1C2, 3], [u32::MAX, 9]];
    let mut unit = Unit::new();
    let stopped = unit.write_all(&writes).unwrap_err();
    assert_eq!(stopped, Stopped { done: 3, refusal: Refusal::HighRegister });
    assert_eq!(stopped.to_string(), "write 3 of the list, counted from 0, is refused 3: the register is 474 or above");
    assert_eq!(std::error::Error::source(&stopped).unwrap().to_string(), Refusal::HighRegister.to_string());

    let mut singly = Unit::new();
    for [register, value] in &writes[..3] {
        singly.write(*register, *value).unwrap();
    }
    assert_eq!(state(&unit), state(&singly));

    let before = state(&unit);
    assert_eq!(unit.write_all(&writes[3..]), Err(Stopped { done: 0, refusal: Refusal::HighRegister }));
    assert_eq!(unit.write_all(&[]), Ok(()));
    assert_eq!(state(&unit), before);
}

#[test]
fn a_list_of_writes_is_its_writes_one_by_one() {
    let mut random = Random(1);
    let writes: Vec<[u32; 2]> =
        (0..5000).map(|_| [[TABLE_INDEX, TABLE_DATA, random.word() % 474][random.word() as usize % 3], random.word()]).collect();
    let (mut at_once, mut singly) = (Unit::new(), Unit::new());
    at_once.write_all(&writes).unwrap();
    for [register, value] in writes {
        singly.write(register, value).unwrap();
    }
    assert!(at_once.generation() > 1000);
    assert_eq!(state(&at_once), state(&singly));
}

#[test]
fn what_was_saved_is_restored() {
    let unit = Random(2).unit();
    let mut saved = [1; TABLE_WORDS];
    unit.save(&mut saved);
    assert_eq!(&saved, unit.tables());

    let mut other = whole_case();
    let before = state(&other);
    other.restore(&saved).unwrap();
    assert_eq!(state(&other), (before.0, saved.to_vec(), 1));
    // the same words once more raise the generation too
    other.restore(&saved).unwrap();
    assert_eq!(state(&other), (before.0, saved.to_vec(), 2));
}

#[test]
fn the_cached_read_is_the_read() {
    let mut random = Random(3);
    let mut unit = random.unit();
    let (mut lit, mut off) = (0, 0);
    for _ in 0..2000 {
        let register = [0x08F, 0x1C6, 0x140 + random.word() % 0x90, random.word() % 474][random.word() as usize % 4];
        unit.write(register, random.word()).unwrap();
        let read = unit.read();
        assert_eq!(read, unit.read_anew());
        assert_eq!(read, unit.read());
        match read {
            Some(_) => lit += 1,
            None => off += 1,
        }
    }
    assert!(lit > 100 && off > 100, "{lit} lit, {off} off");
}

#[test]
fn off_is_8f_bit_0_clear_or_1c6_bit_0_set() {
    let mut unit = Unit::new();
    for (enable, disable, on) in [(0, 0, false), (1, 0, true), (1, 1, false), (0, 1, false), (3, 2, true), (2, 0, false)] {
        unit.write_all(&[[0x08F, enable], [0x1C6, disable]]).unwrap();
        assert_eq!(unit.read().is_some(), on);
    }
}

#[test]
fn the_lights_are_those_of_the_slots() {
    let mut unit = Unit::new();
    unit.write_all(&[[0x08F, 1], [0x1C2, 4], [0x1D9, 0x7653_5025]]).unwrap();
    let numbers: Vec<u32> = unit.read().unwrap().lights().map(LightNumber::get).collect();
    assert_eq!(numbers, [5, 2, 0, 5, 3]);

    unit.write_all(&[[0x1C2, 7], [0x1D9, 0x89AB_CDEF]]).unwrap();
    let numbers: Vec<u32> = unit.read().unwrap().lights().map(LightNumber::get).collect();
    assert_eq!(numbers, [7, 6, 5, 4, 3, 2, 1, 0]);
}

#[test]
fn light_numbers_are_0_to_7() {
    for (n, light) in (0..).zip(LightNumber::ALL) {
        assert_eq!((LightNumber::new(n), light.get()), (Some(light), n));
        assert_eq!(light.register(0), Some(0x140 + 0x10 * n));
        assert_eq!(light.register(15), Some(0x14F + 0x10 * n));
        assert_eq!((light.register(16), light.register(u32::MAX)), (None, None));
    }
    assert_eq!((LightNumber::new(8), LightNumber::new(u32::MAX)), (None, None));
}
