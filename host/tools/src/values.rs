//! Words, floats and the value forms of a `write` line, from text and to text.
//!
//! A form is printed only where reading it gives the same bits back; elsewhere the word is printed in hexadecimal.

use crate::names::{hint, Field, Form, Pair, LIGHT_COUNT, SLOTS};

/// A word: decimal, or hexadecimal after 0x.
pub fn word(text: &str) -> Result<u32, String> {
    let parsed = match text.strip_prefix("0x") {
        Some(digits) if digits.starts_with('+') => None,
        Some(digits) => u32::from_str_radix(digits, 16).ok(),
        None if text.starts_with('+') => None,
        None => text.parse().ok(),
    };
    parsed.ok_or_else(|| format!("'{text}' is no word: a word is 0 to 4294967295, or 0x0 to 0xFFFFFFFF"))
}

/// A whole number from 0 to `most`.
pub fn whole(text: &str, most: u32) -> Result<u32, String> {
    word(text).ok().filter(|n| *n <= most).ok_or_else(|| format!("'{text}' is not a whole number from 0 to {most}"))
}

/// A float's word: a decimal number, `inf`, `-inf`, or the word itself after 0x.
pub fn float(text: &str) -> Result<u32, String> {
    if text.starts_with("0x") {
        return word(text);
    }
    decimal(text)?;
    match text.parse::<f32>() {
        Ok(x) if x.is_finite() || text.ends_with("inf") => Ok(x.to_bits()),
        _ => Err(format!("{text} is too large for a float")),
    }
}

/// A decimal number, `inf` or `-inf`.
pub fn decimal(text: &str) -> Result<f64, String> {
    let plain = text.chars().all(|c| c.is_ascii_digit() || "+-.eE".contains(c));
    match text.parse::<f64>() {
        Ok(x) if plain && x.is_finite() || text == "inf" || text == "-inf" => Ok(x),
        Ok(_) if plain => Err(format!("{text} is too large")),
        _ => Err(format!("'{text}' is not a number")),
    }
}

/// A float as text that [`float`] reads back to the same word.
pub fn float_text(bits: u32) -> String {
    let x = f32::from_bits(bits);
    let text = if x == 0.0 || (1e-4..1e7).contains(&x.abs()) { format!("{x}") } else { format!("{x:e}") };
    match float(&text) {
        Ok(same) if same == bits => text,
        _ => format!("0x{bits:08X}"),
    }
}

/// The widths of a short float's mantissa and exponent, and what it is called.
struct Short {
    mantissa: u32,
    exponent: u32,
    name: &'static str,
}

const HALF: Short = Short { mantissa: 10, exponent: 5, name: "half" };
const FLOAT20: Short = Short { mantissa: 12, exponent: 7, name: "20-bit float" };

impl Short {
    fn infinity(&self) -> u32 {
        ((1 << self.exponent) - 1) << self.mantissa
    }

    /// The number of a pattern below infinity's. The smallest exponent has no denormals.
    fn number(&self, pattern: u32) -> f64 {
        if pattern == 0 {
            return 0.0;
        }
        let exponent = (pattern >> self.mantissa) as i64 + 1 - (1 << (self.exponent - 1));
        let fraction = (pattern & ((1 << self.mantissa) - 1)) as f64 / (1u32 << self.mantissa) as f64;
        f64::from_bits(((exponent + 1023) as u64) << 52) * (1.0 + fraction)
    }

    /// The pattern of the nearest number, the even one of two.
    fn pattern(&self, text: &str) -> Result<u32, String> {
        let x = decimal(text)?;
        let sign = (x.is_sign_negative() as u32) << (self.mantissa + self.exponent);
        let x = x.abs();
        if x.is_infinite() {
            return Ok(sign | self.infinity());
        }
        // patterns are in the order of their numbers
        let (mut low, mut high) = (0, self.infinity());
        while high - low > 1 {
            let middle = low + (high - low) / 2;
            if self.number(middle) <= x {
                low = middle;
            } else {
                high = middle;
            }
        }
        if low == self.infinity() - 1 {
            let most = self.number(low);
            return if x == most { Ok(sign | low) } else { Err(format!("{text} is above {most}, the largest {}", self.name)) };
        }
        let (down, up) = (x - self.number(low), self.number(high) - x);
        Ok(sign | if down < up || (down == up && low % 2 == 0) { low } else { high })
    }

    fn text(&self, pattern: u32) -> String {
        let (sign, under) = (pattern >> (self.mantissa + self.exponent), pattern & ((1 << (self.mantissa + self.exponent)) - 1));
        let text = if under < self.infinity() { float_text((self.number(under) as f32).to_bits()) } else { "inf".into() };
        format!("{}{text}", if sign == 1 { "-" } else { "" })
    }
}

/// A spot component: 13 bits, signed, over 2047.
fn fixed(text: &str) -> Result<u32, String> {
    let k = (decimal(text)? * 2047.0).round();
    if !(-4096.0..=4095.0).contains(&k) {
        return Err(format!("{text} is not between -2 and 2"));
    }
    Ok(k as i32 as u32 & 0x1FFF)
}

fn fixed_text(field: u32) -> String {
    let k = ((field & 0x1FFF) as i32) << 19 >> 19;
    float_text((k as f32 / 2047.0).to_bits())
}

/// Numbers that stand apart by spaces or commas.
fn numbers(text: &str) -> Vec<&str> {
    text.split(|c: char| c.is_whitespace() || c == ',').filter(|text| !text.is_empty()).collect()
}

/// Texts each made a pattern, the first lowest and the second from bit 16.
fn lowest_first(texts: &[&str], pattern: impl Fn(&str) -> Result<u32, String>) -> Result<u32, String> {
    texts.iter().rev().try_fold(0, |word, text| Ok(word << 16 | pattern(text)?))
}

fn colour(texts: &[&str]) -> Result<u32, String> {
    texts.iter().try_fold(0, |word, text| Ok(word << 10 | whole(text, 1023)?))
}

/// An upload word: a value of 4095ths, and a step of 2047ths with its sign apart.
fn entry(value: &str, step: &str) -> Result<u32, String> {
    let (sign, magnitude) = step.strip_prefix('-').map_or((0, step), |rest| (1, rest));
    let magnitude = whole(magnitude, 2047).map_err(|_| format!("'{step}' is not a whole number from -2047 to 2047"))?;
    Ok(sign << 23 | magnitude << 12 | whole(value, 4095)?)
}

fn halves(texts: &[&str]) -> Result<u32, String> {
    lowest_first(texts, |text| HALF.pattern(text))
}

/// The word of a list of fields, as `configuration=4 bump=normal`.
fn fielded(fields: &[Field], texts: &[&str]) -> Result<u32, String> {
    let (mut word, mut taken) = (0, 0);
    for text in texts {
        let (name, value) = text.split_once('=').map_or((*text, None), |(name, value)| (name, Some(value)));
        let Some(field) = fields.iter().find(|field| field.name == name) else {
            return Err(format!("the register has no field '{name}'{}", hint(name, fields.iter().map(|field| field.name))));
        };
        if taken & field.mask() != 0 {
            return Err(format!("{name} sets a bit that is set before it on the line"));
        }
        taken |= field.mask();
        word |= match (field.numbers, value) {
            (None, None) => field.mask(),
            (None, Some(_)) => return Err(format!("{name} is set by its name alone")),
            (Some(_), None) => return Err(format!("{name} needs a number, as {name}=1")),
            (Some(numbers), Some(value)) => {
                let most = (1 << field.width) - 1;
                let named = numbers.iter().find(|(known, _)| *known == value).map(|(_, n)| *n);
                let names: Vec<&str> = numbers.iter().map(|(known, _)| *known).collect();
                let or = if names.is_empty() { String::new() } else { format!(", or one of {}", names.join(" ")) };
                named.map_or_else(|| whole(value, most).map_err(|e| e + &or), Ok)? << field.shift
            }
        };
    }
    Ok(word)
}

fn fields_text(fields: &[Field], word: u32) -> String {
    let (mut left, mut texts) = (word, vec![]);
    for field in fields {
        let part = (left & field.mask()) >> field.shift;
        match field.numbers {
            None if left & field.mask() == field.mask() => texts.push(field.name.to_string()),
            Some(numbers) if part != 0 => {
                let named = numbers.iter().find(|(_, n)| *n == part).map(|(name, _)| name.to_string());
                texts.push(format!("{}={}", field.name, named.unwrap_or(part.to_string())));
            }
            _ => continue,
        }
        left &= !field.mask();
    }
    texts.join(" ")
}

/// The value of a `write` to one register: a word, a form in brackets, or the register's fields.
pub fn value(form: Form, text: &str) -> Result<u32, String> {
    let none = || format!("'{text}' is no value for this register; {}", written(form));
    if let Some((name, rest)) = text.split_once('(') {
        let inside = rest.strip_suffix(')').ok_or("the bracket is not closed at the end of the line")?;
        return match (form, name.trim(), &numbers(inside)[..]) {
            (Form::Colour, "rgb", texts @ [_, _, _]) => colour(texts),
            (Form::Halves(most), "half", texts @ [_, ..]) if texts.len() <= most => halves(texts),
            (Form::Fixed(most), "fixed", texts @ [_, ..]) if texts.len() <= most => lowest_first(texts, fixed),
            (Form::Float20, "float20", [one]) => FLOAT20.pattern(one),
            (Form::Entry, "entry", [value, step]) => entry(value, step),
            _ => Err(none()),
        };
    }
    let numeric = |text: &str| text.starts_with(|c: char| c.is_ascii_digit() || "+-.".contains(c));
    let texts: Vec<&str> = text.split_whitespace().collect();
    match (form, &texts[..]) {
        (_, []) => Err(format!("the value is missing; {}", written(form))),
        (Form::Word | Form::Fields(_), [one]) if numeric(one) => word(one),
        (_, [one]) if numeric(one) => word(one).map_err(|e| format!("{e}; {}", written(form))),
        (Form::Fields(fields), _) => fielded(fields, &texts),
        (Form::Word, [_, more, ..]) => Err(format!("'{more}' stands after the value")),
        _ => Err(none()),
    }
}

/// What a register's value can be.
fn written(form: Form) -> &'static str {
    match form {
        Form::Word => "it is a word, as 1 or 0x1",
        Form::Colour => "a colour is rgb(255 128 0)",
        Form::Halves(2) => "x and y are half(0.5 -1)",
        Form::Halves(_) => "z is half(0.5)",
        Form::Fixed(2) => "x and y are fixed(0.5 -1)",
        Form::Fixed(_) => "z is fixed(0.5)",
        Form::Float20 => "a number is float20(0.25)",
        Form::Entry => "a table's entry is entry(4095 -16)",
        Form::Fields(_) => "it has names for its fields, or is a word",
    }
}

/// A register's word as text that [`value`] reads back to the same word.
pub fn value_text(form: Form, word: u32) -> String {
    let two = |name: &str, count: usize, text: &dyn Fn(u32) -> String| match count {
        1 => format!("{name}({})", text(word & 0xFFFF)),
        _ => format!("{name}({} {})", text(word & 0xFFFF), text(word >> 16)),
    };
    let text = match form {
        _ if word < 10 && !matches!(form, Form::Fields(_)) => word.to_string(),
        Form::Word => String::new(),
        Form::Colour => format!("rgb({} {} {})", word >> 20, word >> 10 & 0x3FF, word & 0x3FF),
        Form::Halves(count) => two("half", count, &|pattern| HALF.text(pattern)),
        Form::Fixed(count) => two("fixed", count, &fixed_text),
        Form::Float20 => format!("float20({})", FLOAT20.text(word & 0xF_FFFF)),
        Form::Entry => format!("entry({} {}{})", word & 0xFFF, if word >> 23 == 1 { "-" } else { "" }, word >> 12 & 0x7FF),
        Form::Fields(_) if word == 0 => "0".into(),
        Form::Fields(fields) => fields_text(fields, word),
    };
    match value(form, &text) {
        Ok(same) if same == word => text,
        _ => format!("0x{word:08X}"),
    }
}

/// The two writes of a name that stands for two registers.
pub fn pair_writes(pair: Pair, text: &str) -> Result<[(u32, u32); 2], String> {
    if text.contains('(') {
        return Err("these are plain numbers, without a bracket".into());
    }
    match (pair, &numbers(text)[..]) {
        (Pair::Position(at), [x, y, z]) => Ok([(at, halves(&[x, y])?), (at + 1, halves(&[z])?)]),
        (Pair::Position(_), _) => Err("a position is three numbers, x, y and z".into()),
        (Pair::Spot(at), [x, y, z]) => Ok([(at, lowest_first(&[x, y], fixed)?), (at + 1, fixed(z)?)]),
        (Pair::Spot(_), _) => Err("a spot direction is three numbers, x, y and z".into()),
        (Pair::Distance(at), [bias, scale]) => Ok([(at, FLOAT20.pattern(bias)?), (at + 1, FLOAT20.pattern(scale)?)]),
        (Pair::Distance(_), _) => Err("a distance is two numbers, the bias and the scale".into()),
        (Pair::Lights, numbers @ [_, ..]) if numbers.len() <= 8 => {
            let slots = numbers.iter().rev().try_fold(0, |slots, number| Ok::<u32, String>(slots << 4 | whole(number, 7)?))?;
            Ok([(LIGHT_COUNT, numbers.len() as u32 - 1), (SLOTS, slots)])
        }
        (Pair::Lights, _) => Err("the lights are one to eight light numbers, in the order of the slots".into()),
    }
}
