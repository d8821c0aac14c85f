//! A list run on the library through the raw boundary, beside the Rust module and the plain machine.

use super::steps::{restored, Call, Damage, Lent, List, Step};
use super::theirs::{full_cache, Theirs};
use super::Tally;
use crate::blocks::theirs as packed;
use crate::boundary::{self, bytes, words, Copy, Unit, ANSWER_WORDS, CACHE_WORDS, FRAGMENT_WORDS, OFF, WRONG_SIZE};
use crate::colours::{eight, table_words, Fragment};
use crate::forms::{Checker, NOT_WELL_FORMED};
use crate::machine::{first_of, Lengths, Machine};
use crate::oracle::{access, Lighting};
use crate::patterns::Random;
use crate::structs;
use lighting::{BLOCK_WORDS, REGISTERS, TABLE_WORDS};

/// What stands in an output before a call.
const FILL: u32 = 0xAAAA_AAAA;
/// A count that no list of writes reaches.
const UNTOLD: u64 = u64::MAX;

/// A call that shades one fragment.
type Shade = fn(&[u32], &[u32], &[u32], &mut [u32]) -> u32;

/// What a call answers: its number, how many writes were made, and the save's output or the read's block.
#[derive(Debug, PartialEq)]
struct Answer {
    number: u32,
    done: u64,
    output: Vec<u32>,
}

pub struct Run<'a> {
    unit: Unit,
    copy: Copy,
    machine: Machine,
    theirs: Theirs,
    /// What the last save gave.
    saved: Vec<u32>,
    /// A generation that the unit had, and its tables then.
    known: (u64, Vec<u32>),
    checker: &'a Checker,
}

impl<'a> Run<'a> {
    pub fn fresh(list: &List, checker: &'a Checker) -> Run<'a> {
        let mut file = vec![0; list.file_words];
        let mut r = Random(list.seed);
        file.iter_mut().skip(474).for_each(|word| *word = r.word());
        Run {
            unit: Unit { file: file.clone(), ..Unit::default() },
            copy: Copy::default(),
            machine: Machine::default(),
            theirs: Theirs::fresh(file),
            saved: vec![0; TABLE_WORDS],
            known: (0, vec![0; TABLE_WORDS]),
            checker,
        }
    }

    /// One call, and what is then due of all that it could have changed.
    pub fn step(&mut self, step: &Step, tally: &mut Tally) -> Result<(), String> {
        tally.count(&step.call);
        if step.lent == Lent::default() && step.damage == Damage::None {
            let lengths = lengths(&self.unit, &self.copy, &step.lent, &step.call);
            let due = self.due(step, &lengths, CACHE_WORDS);
            let ours = made(&step.call, &mut self.unit, &mut self.copy, &self.saved, lengths.block);
            compare(&ours, &due, tally)?;
            if let (Call::Save(_), 0) = (&step.call, ours.number) {
                self.saved = ours.output;
            }
        } else {
            self.lent(step, tally)?;
        }
        self.check()?;
        match &step.call {
            Call::HandOver(fragments) if step.lent == Lent::default() && !matches!(step.damage, Damage::Block(..)) => self.shaded(fragments, tally),
            _ => Ok(()),
        }
    }

    /// A call that is lent slices of wrong lengths, or a cache that the caller damaged.
    fn lent(&mut self, step: &Step, tally: &mut Tally) -> Result<(), String> {
        let (mut unit, mut copy) = (self.unit.clone(), self.copy.clone());
        step.damage.leave(&full_cache(&self.unit.file), &mut unit.cache);
        let kept: Vec<u32> = unit.cache.iter().skip(140).copied().collect();
        step.lent.lend(&mut unit, &mut copy);
        let (unit_due, mut copy_due) = (unit.clone(), copy.clone());
        let lengths = lengths(&unit, &copy, &step.lent, &step.call);
        let foreign = matches!(step.damage, Damage::Block(..)) && self.refusal(&step.call, &lengths, unit.cache.len()) == 0;
        let due = if foreign {
            tally.foreign += 1;
            self.foreign(step, &kept, &unit, &mut copy_due)
        } else {
            self.due(step, &lengths, unit.cache.len())
        };
        let ours = made(&step.call, &mut unit, &mut copy, &self.saved, lengths.block);
        compare(&ours, &due, tally)?;
        if !foreign && matches!(ours.number, 0 | OFF) {
            // a cache that is decoded anew is as good as the unit's own
            tally.anew += 1;
            (self.unit, self.copy) = (unit, copy);
            return Ok(());
        }
        if unit != unit_due || copy != copy_due {
            return Err(format!("{} left other slices than were lent", ours.number));
        }
        Ok(())
    }

    /// A cache that keeps the file's registers and a block that the caller made: 7, or that block. What the copy is
    /// then.
    fn foreign(&self, step: &Step, kept: &[u32], unit: &Unit, copy: &mut Copy) -> Answer {
        let number = match self.checker.form(kept) {
            number @ (NOT_WELL_FORMED | OFF) => number,
            _ => 0,
        };
        let hand_over = matches!(step.call, Call::HandOver(_));
        if hand_over && number != NOT_WELL_FORMED {
            copy.block = kept.to_vec();
            if copy.generation != unit.generation {
                copy.tables.clone_from(&unit.tables);
                copy.generation = unit.generation;
            }
            return Answer { number: 0, done: UNTOLD, output: vec![] };
        }
        let output = if number == NOT_WELL_FORMED { vec![FILL; BLOCK_WORDS] } else { kept.to_vec() };
        Answer { number, done: UNTOLD, output: if hand_over { vec![] } else { output } }
    }

    /// The number of a cached read or a hand-over that its lengths refuse, or 0.
    fn refusal(&self, call: &Call, lengths: &Lengths, cache_words: usize) -> u32 {
        let number = if let Call::HandOver(_) = call { self.machine.hand_over(lengths) } else { self.machine.read(lengths) };
        // the boundary's own comes after document 01's
        if number == 0 && cache_words != CACHE_WORDS {
            WRONG_SIZE
        } else {
            number
        }
    }

    /// What a call answers by document 01 and the module, which with the machine are then where it leaves them.
    fn due(&mut self, step: &Step, lengths: &Lengths, cache_words: usize) -> Answer {
        let mut due = Answer { number: 0, done: UNTOLD, output: vec![] };
        match &step.call {
            Call::Write(register, value) => {
                due.number = self.machine.write(lengths, *register, *value);
                if due.number == 0 {
                    self.theirs.write(*register, *value);
                }
            }
            Call::Writes(pairs) => self.due_writes(pairs, lengths, &mut due),
            Call::Restore(..) | Call::RestoreSaved => {
                let saved = saved_words(&step.call, &self.saved);
                due.number = self.machine.restore(lengths, &saved);
                if due.number == 0 {
                    self.theirs.restore(&saved);
                }
            }
            Call::Save(output_words) => {
                due.number = self.machine.save(lengths, *output_words);
                due.output = if due.number == 0 { table_words(&self.theirs.tables) } else { vec![FILL; *output_words] };
            }
            Call::Read | Call::CachedRead => {
                let cached = matches!(step.call, Call::CachedRead);
                due.number = self.refusal(&step.call, lengths, if cached { cache_words } else { CACHE_WORDS });
                due.output = vec![FILL; lengths.block];
                if due.number == 0 {
                    let block = if cached { self.theirs.cached_read() } else { packed(&self.theirs.file) };
                    due.number = if self.machine.is_off() { OFF } else { 0 };
                    due.output = block.unwrap_or(vec![0; BLOCK_WORDS]);
                }
            }
            Call::HandOver(_) => {
                due.number = self.refusal(&step.call, lengths, cache_words);
                if due.number == 0 {
                    self.theirs.hand_over();
                }
            }
        }
        due
    }

    fn due_writes(&mut self, pairs: &[u32], lengths: &Lengths, due: &mut Answer) {
        due.number = first_of(&[(lengths.file < REGISTERS, 1), (lengths.tables != TABLE_WORDS, 2), (!pairs.len().is_multiple_of(2), WRONG_SIZE)]);
        if due.number != 0 {
            return;
        }
        due.done = 0;
        for pair in pairs.chunks(2) {
            due.number = self.machine.write(lengths, pair[0], pair[1]);
            if due.number != 0 {
                break;
            }
            self.theirs.write(pair[0], pair[1]);
            due.done += 1;
        }
    }

    /// Unit and copy beside the module's and the machine's.
    fn check(&mut self) -> Result<(), String> {
        let (unit, copy, theirs, machine) = (&self.unit, &self.copy, &self.theirs, &self.machine);
        let entries = theirs.tables.entries().as_flattened().as_flattened();
        let same_entries = |words: &[u32]| words.iter().zip(entries).fold(words.len() ^ TABLE_WORDS, |d, (a, b)| d | (a ^ b.to_bits()) as usize) == 0;
        let equal = [
            (unit.file == theirs.file, "the file isn't the module's"),
            (unit.file[..474] == machine.registers, "the file isn't the machine's"),
            (same_entries(&unit.tables), "the tables aren't the module's"),
            (unit.tables == machine.entries.as_flattened(), "the tables aren't the machine's"),
            (unit.generation == theirs.tables.generation(), "the generation isn't the module's"),
            ((unit.cache[0] != 0) == (theirs.cache[0] != 0) && unit.cache[1..] == theirs.cache[1..], "the cache isn't that of the last read"),
            (copy.block == theirs.copy.block, "the copy's block isn't the module's"),
            (copy.tables == theirs.copy.tables, "the copy's tables aren't the module's"),
            (copy.generation == theirs.copy.generation, "the copy's generation isn't the module's"),
            (copy.generation != unit.generation || copy.tables == unit.tables, "unit and copy are of one generation and two tables"),
            (unit.generation != self.known.0 || unit.tables == self.known.1, "one generation has had two tables"),
            (unit.generation >= self.known.0, "the generation fell"),
        ];
        if let Some((_, what)) = equal.iter().find(|equal| !equal.0) {
            return Err((*what).into());
        }
        if unit.generation != self.known.0 {
            self.known.0 = unit.generation;
            self.known.1.copy_from_slice(&unit.tables);
        }
        Ok(())
    }

    /// Fragments shaded from the copy by every call, beside the module from the machine's registers and entries.
    fn shaded(&self, fragments: &[[u32; FRAGMENT_WORDS]], tally: &mut Tally) -> Result<(), String> {
        let number = if self.machine.is_off() { OFF } else { 0 };
        let lighting = Lighting::read(&self.machine.registers);
        if lighting.is_none() != self.machine.is_off() {
            return Err("the module and the machine don't agree on off".into());
        }
        *if number == OFF { &mut tally.off } else { &mut tally.lit } += fragments.len() as u64;
        let tables = access::tables_of(self.machine.entries.as_flattened());
        let due: Vec<[u32; 8]> = match &lighting {
            Some(lighting) => fragments.iter().map(|words| eight(lighting, &tables, &Fragment::of(words))).collect(),
            None => vec![[FILL; 8]; fragments.len()],
        };
        tally.between += due.iter().filter(|k| k.iter().any(|k| (1..255).contains(k))).count() as u64;
        let Copy { block, tables, .. } = &self.copy;
        let differs = |what: &str, got: u32, answer: &[u32]| Err(format!("{what}: {got} and {answer:X?}, and not {number} and {due:X?}"));

        let mut answers = vec![FILL; ANSWER_WORDS * fragments.len()];
        let got = boundary::shade_fragments(block, tables, fragments.as_flattened(), &mut answers);
        if got != number || answers != due.as_flattened() {
            return differs("lighting_shade_fragments", got, &answers);
        }
        let (block_bytes, table_bytes) = (bytes(block), bytes(tables));
        for (fragment, due) in fragments.iter().zip(&due) {
            let mut answer = bytes(&[FILL; ANSWER_WORDS]);
            let got = boundary::shade_block(&block_bytes, &table_bytes, &bytes(fragment), &mut answer);
            if got != number || words(&answer) != due {
                return differs("lighting_shade_block", got, &words(&answer));
            }
            let ways: [(&str, Shade); 2] = [("structs_shade_block", structs::shade_block), ("structs_shade_reading", structs::shade_reading)];
            for (what, shade) in ways {
                let mut answer = [FILL; ANSWER_WORDS];
                let got = shade(block, tables, fragment, &mut answer);
                if got != number || answer != *due {
                    return differs(what, got, &answer);
                }
            }
        }
        Ok(())
    }
}

fn lengths(unit: &Unit, copy: &Copy, lent: &Lent, call: &Call) -> Lengths {
    // a read's block is its own
    let block = if let Call::HandOver(_) = call { copy.block.len() } else { lent.block.unwrap_or(BLOCK_WORDS) };
    Lengths { file: unit.file.len(), tables: unit.tables.len(), block, copy_tables: copy.tables.len() }
}

fn saved_words(call: &Call, saved: &[u32]) -> Vec<u32> {
    match call {
        Call::Restore(seed, words) => restored(*seed, *words),
        _ => saved.to_vec(),
    }
}

/// The call, through the boundary.
fn made(call: &Call, unit: &mut Unit, copy: &mut Copy, saved: &[u32], block_words: usize) -> Answer {
    let (mut done, mut output) = (UNTOLD, vec![]);
    let number = match call {
        Call::Write(register, value) => unit.write(*register, *value),
        Call::Writes(pairs) => unit.writes(pairs, &mut done),
        Call::Restore(..) | Call::RestoreSaved => unit.restore(&saved_words(call, saved)),
        Call::Save(words) => {
            output = vec![FILL; *words];
            unit.save(&mut output)
        }
        Call::Read => {
            output = vec![FILL; block_words];
            boundary::read_file(&unit.file, &mut output)
        }
        Call::CachedRead => {
            output = vec![FILL; block_words];
            unit.cached_read(&mut output)
        }
        Call::HandOver(_) => unit.hand_over(copy),
    };
    Answer { number, done, output }
}

fn compare(ours: &Answer, due: &Answer, tally: &mut Tally) -> Result<(), String> {
    tally.number(due.number);
    if ours == due {
        return Ok(());
    }
    let shown = |answer: &Answer| match answer.done {
        UNTOLD => format!("{}", answer.number),
        done => format!("{} after {done} writes", answer.number),
    };
    let place = ours.output.iter().zip(&due.output).position(|(a, b)| a != b);
    let output = place.map_or(String::new(), |at| format!(", its output differing at word {at}"));
    Err(format!("{}, and not {}{output}", shown(ours), shown(due)))
}
