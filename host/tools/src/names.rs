//! The registers, tables and fields by name, as decoding reads them.

use crate::values::whole;
use std::sync::OnceLock;

/// Registers are numbered below this.
pub const REGISTERS: u32 = 474;
/// Tables are numbered below this.
pub const TABLES: usize = 24;
/// The first of the eight registers that take table data.
pub const TABLE_DATA: u32 = 0x1C8;
pub const TABLE_INDEX: u32 = 0x1C5;
pub const LIGHT_COUNT: u32 = 0x1C2;
pub const SLOTS: u32 = 0x1D9;

/// Registers that stand alone: the name, the number, and how the word is read.
const SINGLE: [(&str, u32, Form); 20] = [
    ("enable", 0x08F, Form::Word),
    ("global_ambient", 0x1C0, Form::Colour),
    ("light_count", LIGHT_COUNT, Form::Word),
    ("config0", 0x1C3, Form::Fields(&CONFIG0)),
    ("config1", 0x1C4, Form::Fields(&CONFIG1)),
    ("table_index", TABLE_INDEX, Form::Fields(&INDEX)),
    ("disable", 0x1C6, Form::Word),
    ("table_data", TABLE_DATA, Form::Entry),
    // the eight are alike, so the first may carry its number, too
    ("table_data0", TABLE_DATA, Form::Entry),
    ("table_data1", TABLE_DATA + 1, Form::Entry),
    ("table_data2", TABLE_DATA + 2, Form::Entry),
    ("table_data3", TABLE_DATA + 3, Form::Entry),
    ("table_data4", TABLE_DATA + 4, Form::Entry),
    ("table_data5", TABLE_DATA + 5, Form::Entry),
    ("table_data6", TABLE_DATA + 6, Form::Entry),
    ("table_data7", TABLE_DATA + 7, Form::Entry),
    ("table_absolute", 0x1D0, Form::Fields(&SIGNED)),
    ("table_input", 0x1D1, Form::Fields(&INPUT)),
    ("table_scale", 0x1D2, Form::Fields(&SCALE)),
    ("slots", SLOTS, Form::Word),
];

/// What stands where in a light's sixteen registers, and how the word is read.
const OF_A_LIGHT: [(&str, u32, Form); 11] = [
    ("specular0", 0x0, Form::Colour),
    ("specular1", 0x1, Form::Colour),
    ("diffuse", 0x2, Form::Colour),
    ("ambient", 0x3, Form::Colour),
    ("position_xy", 0x4, Form::Halves(2)),
    ("position_z", 0x5, Form::Halves(1)),
    ("spot_xy", 0x6, Form::Fixed(2)),
    ("spot_z", 0x7, Form::Fixed(1)),
    ("flags", 0x9, Form::Fields(&LIGHT_FLAGS)),
    ("distance_bias", 0xA, Form::Float20),
    ("distance_scale", 0xB, Form::Float20),
];

fn light(number: u32) -> u32 {
    0x140 + 0x10 * number
}

/// A register that has a name.
pub struct Register {
    pub name: String,
    pub number: u32,
    pub form: Form,
}

pub fn registers() -> &'static [Register] {
    static NAMED: OnceLock<Vec<Register>> = OnceLock::new();
    NAMED.get_or_init(|| {
        let single = SINGLE.iter().map(|(name, number, form)| Register { name: name.to_string(), number: *number, form: *form });
        let of_a_light =
            |n: u32| OF_A_LIGHT.iter().map(move |(part, at, form)| Register { name: format!("light{n}.{part}"), number: light(n) + at, form: *form });
        single.chain((0..8).flat_map(of_a_light)).collect()
    })
}

pub fn register(name: &str) -> Option<u32> {
    registers().iter().find(|register| register.name == name).map(|register| register.number)
}

fn numbered(number: u32) -> Option<&'static Register> {
    registers().iter().find(|register| register.number == number)
}

pub fn register_name(number: u32) -> Option<&'static str> {
    numbered(number).map(|register| register.name.as_str())
}

/// How a register's word is best read.
pub fn form(number: u32) -> Form {
    numbered(number).map_or(Form::Word, |register| register.form)
}

/// Names that stand for two registers, written one after the other.
#[derive(Clone, Copy, Debug, PartialEq, Eq)]
pub enum Pair {
    /// A light's position: the register of its x and y.
    Position(u32),
    /// A light's spot direction: the register of its x and y.
    Spot(u32),
    /// A light's distance bias and scale: the register of the bias.
    Distance(u32),
    /// The lights in their slots: the count and the slots.
    Lights,
}

pub fn pairs() -> &'static [(String, Pair)] {
    static NAMED: OnceLock<Vec<(String, Pair)>> = OnceLock::new();
    let of_a_light = |n| {
        [
            (format!("light{n}.position"), Pair::Position(light(n) + 0x4)),
            (format!("light{n}.spot"), Pair::Spot(light(n) + 0x6)),
            (format!("light{n}.distance"), Pair::Distance(light(n) + 0xA)),
        ]
    };
    NAMED.get_or_init(|| (0..8).flat_map(of_a_light).chain([("lights".to_string(), Pair::Lights)]).collect())
}

pub fn pair(name: &str) -> Option<Pair> {
    pairs().iter().find(|(known, _)| known == name).map(|(_, pair)| *pair)
}

/// The tables' names and numbers; tables 2 and 7 are never read and have no name.
pub const TABLE_NAMES: [(&str, u32); 22] = [
    ("distribution0", 0),
    ("distribution1", 1),
    ("fresnel", 3),
    ("reflect_blue", 4),
    ("reflect_green", 5),
    ("reflect_red", 6),
    ("spot0", 8),
    ("spot1", 9),
    ("spot2", 10),
    ("spot3", 11),
    ("spot4", 12),
    ("spot5", 13),
    ("spot6", 14),
    ("spot7", 15),
    ("distance0", 16),
    ("distance1", 17),
    ("distance2", 18),
    ("distance3", 19),
    ("distance4", 20),
    ("distance5", 21),
    ("distance6", 22),
    ("distance7", 23),
];

/// A table by its name or its number.
pub fn table(text: &str) -> Option<usize> {
    let named = TABLE_NAMES.iter().find(|(name, _)| *name == text).map(|(_, at)| *at);
    named.or_else(|| whole(text, TABLES as u32 - 1).ok()).map(|at| at as usize)
}

pub fn table_text(table: usize) -> String {
    let named = TABLE_NAMES.iter().find(|(_, at)| *at as usize == table);
    named.map_or_else(|| table.to_string(), |(name, _)| name.to_string())
}

/// A part of a register's word.
#[derive(Debug)]
pub struct Field {
    pub name: &'static str,
    pub shift: u32,
    pub width: u32,
    /// The names of its numbers; `None` for a field whose name alone sets all of its bits.
    pub numbers: Option<&'static [(&'static str, u32)]>,
}

impl Field {
    pub fn mask(&self) -> u32 {
        ((1 << self.width) - 1) << self.shift
    }
}

const fn flag(name: &'static str, shift: u32) -> Field {
    Field { name, shift, width: 1, numbers: None }
}

const fn flags(name: &'static str, shift: u32, width: u32) -> Field {
    Field { name, shift, width, numbers: None }
}

const fn number(name: &'static str, shift: u32, width: u32, numbers: &'static [(&'static str, u32)]) -> Field {
    Field { name, shift, width, numbers: Some(numbers) }
}

const LIGHT_FLAGS: [Field; 4] = [flag("directional", 0), flag("two_sided", 1), flag("geometric0", 2), flag("geometric1", 3)];

const CONFIG0: [Field; 13] = [
    number("configuration", 4, 4, &[]),
    flag("fresnel_primary", 2),
    flag("fresnel_secondary", 3),
    flag("clamp_highlights", 27),
    number("bump", 28, 2, &[("normal", 1), ("tangent", 2)]),
    number("bump_unit", 22, 2, &[]),
    flag("keep_z", 30),
    flag("shadow", 0),
    number("shadow_unit", 24, 2, &[]),
    flag("shadow_primary", 16),
    flag("shadow_secondary", 17),
    flag("shadow_invert", 18),
    flag("shadow_alpha", 19),
];

// a name for several bits stands before the names of each
const CONFIG1: [Field; 34] = [
    flags("no_shadow", 0, 8),
    flag("no_shadow0", 0),
    flag("no_shadow1", 1),
    flag("no_shadow2", 2),
    flag("no_shadow3", 3),
    flag("no_shadow4", 4),
    flag("no_shadow5", 5),
    flag("no_shadow6", 6),
    flag("no_shadow7", 7),
    flags("no_spot", 8, 8),
    flag("no_spot0", 8),
    flag("no_spot1", 9),
    flag("no_spot2", 10),
    flag("no_spot3", 11),
    flag("no_spot4", 12),
    flag("no_spot5", 13),
    flag("no_spot6", 14),
    flag("no_spot7", 15),
    flag("no_distribution0", 16),
    flag("no_distribution1", 17),
    flag("no_fresnel", 19),
    flags("no_reflect", 20, 3),
    flag("no_reflect_red", 20),
    flag("no_reflect_green", 21),
    flag("no_reflect_blue", 22),
    flags("no_distance", 24, 8),
    flag("no_distance0", 24),
    flag("no_distance1", 25),
    flag("no_distance2", 26),
    flag("no_distance3", 27),
    flag("no_distance4", 28),
    flag("no_distance5", 29),
    flag("no_distance6", 30),
    flag("no_distance7", 31),
];

const INDEX: [Field; 2] = [number("table", 8, 5, &TABLE_NAMES), number("entry", 0, 8, &[])];

const SIGNED: [Field; 7] = [
    flag("signed_distribution0", 1),
    flag("signed_distribution1", 5),
    flag("signed_spot", 9),
    flag("signed_fresnel", 13),
    flag("signed_reflect_blue", 17),
    flag("signed_reflect_green", 21),
    flag("signed_reflect_red", 25),
];

/// The dot products that a table can be read at.
const INPUTS: [(&str, u32); 6] =
    [("normal_half", 0), ("view_half", 1), ("normal_view", 2), ("light_normal", 3), ("light_spot", 4), ("tangent_half", 5)];

const SCALES: [(&str, u32); 6] = [("x1", 0), ("x2", 1), ("x4", 2), ("x8", 3), ("x0.25", 6), ("x0.5", 7)];

const fn by_table(numbers: &'static [(&'static str, u32)]) -> [Field; 7] {
    [
        number("distribution0", 0, 3, numbers),
        number("distribution1", 4, 3, numbers),
        number("spot", 8, 3, numbers),
        number("fresnel", 12, 3, numbers),
        number("reflect_blue", 16, 3, numbers),
        number("reflect_green", 20, 3, numbers),
        number("reflect_red", 24, 3, numbers),
    ]
}

const INPUT: [Field; 7] = by_table(&INPUTS);
const SCALE: [Field; 7] = by_table(&SCALES);

/// How a word is best read.
#[derive(Clone, Copy, Debug)]
pub enum Form {
    Word,
    Colour,
    /// So many halves, the first lowest.
    Halves(usize),
    /// So many spot components, the first lowest.
    Fixed(usize),
    Float20,
    Entry,
    Fields(&'static [Field]),
}

/// A hint at the known word that is nearest to a mistaken one, if it is near; otherwise nothing.
pub fn hint<S: AsRef<str>>(text: &str, known: impl Iterator<Item = S>) -> String {
    let length = text.chars().count();
    let most = if length < 4 { 1 } else { (length / 3).max(2) };
    // a word of another length is as far at least as they differ
    let known = known.filter(|word| word.as_ref().len().abs_diff(length) <= most);
    let near = known.map(|word| (distance(text, word.as_ref()), word)).filter(|(far, _)| *far <= most);
    near.min_by_key(|(far, _)| *far).map_or(String::new(), |(_, word)| format!("; is it '{}'?", word.as_ref()))
}

/// How many letters have to be put in, taken out or changed.
fn distance(a: &str, b: &str) -> usize {
    let b: Vec<char> = b.chars().collect();
    let mut row: Vec<usize> = (0..=b.len()).collect();
    for (i, x) in a.chars().enumerate() {
        let mut before = i;
        row[0] = i + 1;
        for (j, y) in b.iter().enumerate() {
            let here = row[j + 1];
            row[j + 1] = (before + (x != *y) as usize).min(here + 1).min(row[j] + 1);
            before = here;
        }
    }
    row[b.len()]
}
