//! A capture's bodies, and the places where a file is no capture.

use std::ops::Range;

/// The largest capture, in words.
pub const MOST_WORDS: usize = 16_384;
pub const MOST_BODIES: usize = 16;
pub const FRAGMENT_WORDS: usize = 23;
pub const RESTORE_WORDS: usize = 12_288;

/// A fragment's parts and their words.
pub const PARTS: [(&str, Range<usize>); 6] =
    [("the quaternion", 0..4), ("the view", 4..7), ("texel 0", 7..11), ("texel 1", 11..15), ("texel 2", 15..19), ("texel 3", 19..23)];

#[derive(Clone, Copy, Debug, PartialEq, Eq)]
pub enum Kind {
    Writes,
    Fragments,
    Restore,
}

impl Kind {
    pub fn number(self) -> u32 {
        match self {
            Kind::Writes => 1,
            Kind::Fragments => 2,
            Kind::Restore => 3,
        }
    }

    fn of(number: u32) -> Option<Kind> {
        [Kind::Writes, Kind::Fragments, Kind::Restore].into_iter().find(|kind| kind.number() == number)
    }

    /// The words of a pair, of a fragment, of a restore.
    pub fn unit(self) -> usize {
        match self {
            Kind::Writes => 2,
            Kind::Fragments => FRAGMENT_WORDS,
            Kind::Restore => RESTORE_WORDS,
        }
    }
}

#[derive(Clone, Debug, PartialEq, Eq)]
pub struct Body {
    pub kind: Kind,
    pub words: Vec<u32>,
}

/// The words of a capture with these bodies, its contents among them.
pub fn total_words(bodies: &[Body]) -> usize {
    bodies.iter().map(|body| 3 + body.words.len()).sum::<usize>() + 1
}

/// The bytes of a capture with these bodies.
pub fn bytes(bodies: &[Body]) -> Vec<u8> {
    let mut at = 1 + 3 * bodies.len();
    let mut words = vec![bodies.len() as u32];
    for body in bodies {
        words.extend([body.kind.number(), at as u32, body.words.len() as u32]);
        at += body.words.len();
    }
    bodies.iter().for_each(|body| words.extend(&body.words));
    words.iter().flat_map(|word| word.to_le_bytes()).collect()
}

/// The words of bytes, the lowest first; bytes beyond the last whole word are left out.
pub fn words(bytes: &[u8]) -> Vec<u32> {
    bytes.as_chunks().0.iter().map(|word| u32::from_le_bytes(*word)).collect()
}

/// A place where a file stops being a capture.
#[derive(Clone, Debug, PartialEq, Eq)]
pub struct Break {
    /// The word, counted from 0.
    pub word: usize,
    pub what: String,
    /// The number of lightshow's refusal.
    pub refusal: u32,
}

/// What a file holds as far as it is a capture.
#[derive(Debug)]
pub struct Layout {
    /// How many bodies the file says it has.
    pub count: u32,
    /// Those that are there, the last one perhaps cut short; where a body's words stand is beside it.
    pub bodies: Vec<(usize, Body)>,
    pub breaks: Vec<Break>,
}

impl Layout {
    /// What lightshow prints of the whole file: it looks at registers last.
    pub fn refusal(&self) -> Option<u32> {
        self.breaks.iter().map(|place| place.refusal).max()
    }
}

/// Takes a file apart up to the first place where it breaks; registers that are too high break it, too, but hide nothing.
pub fn layout(input: &[u8]) -> Layout {
    let mut found = Layout { count: 0, bodies: vec![], breaks: vec![] };
    structure(input, &mut found);
    for (at, body) in &found.bodies {
        let high = |(i, pair): (usize, &[u32])| (body.kind == Kind::Writes && pair[0] >= crate::names::REGISTERS).then_some((at + 2 * i, pair[0]));
        let place = |(word, register)| Break { word, what: format!("register {register} is above 473, the last"), refusal: 3 };
        found.breaks.extend(body.words.chunks_exact(2).enumerate().filter_map(high).map(place));
    }
    found
}

fn structure(input: &[u8], found: &mut Layout) {
    let words = words(&input[..input.len().min(4 * MOST_WORDS)]);
    let mut breaks = |word: usize, what: String| found.breaks.push(Break { word, what, refusal: 8 });
    if input.len() > 4 * MOST_WORDS {
        breaks(MOST_WORDS, format!("the file has {} bytes, and a capture at most 65536", input.len()));
    } else if !input.len().is_multiple_of(4) {
        breaks(words.len(), format!("the file ends after {} of the four bytes of a word", input.len() % 4));
    }
    let Some(&count) = words.first() else {
        return breaks(0, "the first word, the number of bodies, is not there".into());
    };
    found.count = count;
    if count as usize > MOST_BODIES {
        breaks(0, format!("the capture says that it has {count} bodies, and 16 is the most"));
    }
    let mut end = (count as usize).saturating_mul(3).saturating_add(1);
    let Some(contents) = words.get(1..end) else {
        return breaks(words.len(), format!("the contents of {count} bodies are {} words, and the file ends before", end - 1));
    };
    for (i, triple) in contents.chunks_exact(3).take(MOST_BODIES).enumerate() {
        let (at, number) = (1 + 3 * i, i + 1);
        let (kind, offset, length) = (triple[0], triple[1] as usize, triple[2] as usize);
        let Some(kind) = Kind::of(kind) else {
            return breaks(at, format!("body {number} is of kind {kind}, and there are kinds 1 to 3"));
        };
        if offset != end {
            return breaks(at + 1, format!("body {number} is said to start at word {offset}, and what stands before it ends at word {end}"));
        }
        let there = &words[end..words.len().min(end.saturating_add(length))];
        let right = if kind == Kind::Restore { length == RESTORE_WORDS } else { length.is_multiple_of(kind.unit()) };
        let whole = if kind == Kind::Restore { there.len().min(RESTORE_WORDS) } else { there.len() - there.len() % kind.unit() };
        found.bodies.push((end, Body { kind, words: there[..whole].to_vec() }));
        if !right {
            let wanted = match kind {
                Kind::Writes => "register and value come in pairs",
                Kind::Fragments => "a fragment has 23",
                Kind::Restore => "a restore has 12288",
            };
            return breaks(at + 2, format!("body {number} is said to have {length} words, and {wanted}"));
        }
        end += length;
        if there.len() < length {
            return breaks(words.len(), format!("body {number} goes on to word {end}, and the file ends before"));
        }
    }
    if count as usize <= MOST_BODIES && end < words.len() {
        breaks(end, format!("{} words stand after the last body", words.len() - end));
    }
}
