//! Curves by name, for a table's 256 entries.
//!
//! Only sums, products and quotients are used, so that a curve has the same bits everywhere.

use crate::values::{decimal, whole};

#[derive(Clone, Copy, Debug)]
enum Shape {
    Constant(f64),
    Ramp(f64, f64),
    Power(u32),
    Falloff(f64),
    Cone(f64, f64),
    Steps(u32),
    Fresnel(f64),
}

/// A curve over 0 to 1, or over −1 to 1 for a table that is read signed.
#[derive(Clone, Copy, Debug)]
pub struct Curve {
    shape: Shape,
    signed: bool,
}

const NAMES: &str = "constant, ramp, power, falloff, cone, steps and fresnel";

impl Curve {
    /// A curve's name and its numbers, `signed` before them for a table that is read signed.
    pub fn of(texts: &[&str]) -> Result<Curve, String> {
        let (signed, texts) = match texts {
            ["signed", rest @ ..] => (true, rest),
            _ => (false, texts),
        };
        let number = |text: &str| decimal(text).and_then(|x| if x.is_finite() { Ok(x) } else { Err(format!("'{text}' is not a number")) });
        let counted = |text: &str, least: u32| match whole(text, 1024) {
            Ok(n) if n >= least => Ok(n),
            _ => Err(format!("'{text}' is not a whole number from {least} to 1024")),
        };
        let shape = match texts {
            ["constant", v] => Shape::Constant(number(v)?),
            ["ramp", from, to] => Shape::Ramp(number(from)?, number(to)?),
            ["power", n] => Shape::Power(counted(n, 1)?),
            ["falloff", k] => Shape::Falloff(number(k).ok().filter(|k| *k >= 0.0).ok_or(format!("'{k}' is not a number of 0 or more"))?),
            ["cone", outer, inner] => match (number(outer)?, number(inner)?) {
                (outer, inner) if outer < inner => Shape::Cone(outer, inner),
                _ => return Err("a cone's first number, where the light ends, is below the second, where it is full".into()),
            },
            ["steps", n] => Shape::Steps(counted(n, 2)?),
            ["fresnel", f] => Shape::Fresnel(number(f)?),
            ["constant" | "fresnel" | "falloff" | "power" | "steps", ..] => return Err(format!("{} takes one number", texts[0])),
            ["ramp" | "cone", ..] => return Err(format!("{} takes two numbers", texts[0])),
            [] => return Err(format!("the curve is missing: there are {NAMES}")),
            [other, ..] => return Err(format!("no curve is called '{other}': there are {NAMES}")),
        };
        Ok(Curve { shape, signed })
    }

    fn at(&self, x: f64) -> f64 {
        let power = |base: f64, n: u32| (0..n).fold(1.0, |product, _| product * base);
        match self.shape {
            Shape::Constant(v) => v,
            Shape::Ramp(from, to) => from + (to - from) * x,
            Shape::Power(n) => power(x.max(0.0), n),
            Shape::Falloff(k) => 1.0 / (1.0 + k * x * x),
            Shape::Cone(outer, inner) => {
                let t = ((x - outer) / (inner - outer)).clamp(0.0, 1.0);
                t * t * (3.0 - 2.0 * t)
            }
            Shape::Steps(n) => (x.max(0.0) * n as f64).floor().min((n - 1) as f64) / (n - 1) as f64,
            Shape::Fresnel(f) => f + (1.0 - f) * power(1.0 - x.abs(), 5),
        }
    }

    /// Where an entry's part of the curve begins and ends.
    fn ends(&self, entry: usize) -> [f64; 2] {
        let (at, parts) = if self.signed { (entry as u8 as i8 as f64, 128.0) } else { (entry as f64, 256.0) };
        [self.at(at / parts), self.at((at + 1.0) / parts)]
    }

    /// The table's 512 words, as a restore has them: each entry's value and its step to the next.
    pub fn words(&self) -> Result<Vec<u32>, String> {
        let mut words = vec![];
        for at in 0..256 {
            let [from, to] = self.ends(at);
            let entry = [from as f32, (to - from) as f32];
            if !entry.iter().all(|number| number.is_finite()) {
                return Err(format!("the curve is too large for floats near entry {at}"));
            }
            words.extend(entry.map(f32::to_bits));
        }
        Ok(words)
    }

    /// The table's 256 upload words: values to the nearest 4095th, steps between them to the nearest 2047th.
    pub fn uploads(&self) -> Result<Vec<u32>, String> {
        let entry = |at| {
            let ends = self.ends(at);
            if let Some(outside) = ends.iter().find(|end| !(0.0..=1.0).contains(*end)) {
                return Err(format!("the curve has {outside} near entry {at}, and an upload holds 0 to 1"));
            }
            let [from, to] = ends.map(|end| (end * 4095.0).round());
            let step = ((to - from) * 2047.0 / 4095.0).round();
            Ok(((step < 0.0) as u32) << 23 | (step.abs() as u32) << 12 | from as u32)
        };
        (0..256).map(entry).collect()
    }
}
