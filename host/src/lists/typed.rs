//! The same lists through the crate's types, which settle each length: calls that are lent others are left out.

use super::steps::{restored, Call, Damage, Lent, List, Step};
use super::theirs::Theirs;
use super::Tally;
use crate::boundary::{Copy, FRAGMENT_WORDS};
use crate::colours::{eight, table_words, Fragment as TheirFragment};
use crate::machine::{Lengths, Machine};
use crate::oracle::{access, Lighting};
use lighting::{Block, Colours, Fragment, HardwareCopy, Refusal, Shaded, Stopped, TableWords, Unit, BLOCK_WORDS, REGISTERS, TABLE_WORDS};

/// The lengths that the types have.
const LENGTHS: Lengths = Lengths { file: REGISTERS, tables: TABLE_WORDS, block: BLOCK_WORDS, copy_tables: TABLE_WORDS };

pub struct Typed {
    unit: Unit,
    copy: HardwareCopy,
    machine: Machine,
    theirs: Theirs,
    saved: Box<TableWords>,
}

fn held(holds: bool, what: &str) -> Result<(), String> {
    if holds {
        Ok(())
    } else {
        Err(format!("typed: {what}"))
    }
}

fn number(result: Result<(), Refusal>) -> u32 {
    result.map_or_else(Refusal::number, |()| 0)
}

impl Typed {
    pub fn fresh() -> Typed {
        Typed {
            unit: Unit::new(),
            copy: HardwareCopy::new(),
            machine: Machine::default(),
            theirs: Theirs::fresh(vec![0; REGISTERS]),
            saved: Box::new([0; TABLE_WORDS]),
        }
    }

    pub fn run(list: &List, tally: &mut Tally) -> Result<(), (usize, String)> {
        let mut run = Typed::fresh();
        list.steps.iter().enumerate().try_for_each(|(at, step)| run.step(step, tally).map_err(|what| (at, what)))
    }

    fn step(&mut self, step: &Step, tally: &mut Tally) -> Result<(), String> {
        if step.lent != Lent::default() || step.damage != Damage::None {
            return Ok(());
        }
        match &step.call {
            Call::Write(register, value) => {
                let due = self.write(*register, *value);
                held(number(self.unit.write(*register, *value)) == due, "a write's number")?;
            }
            Call::Writes(pairs) if pairs.len().is_multiple_of(2) => {
                let list: Vec<[u32; 2]> = pairs.as_chunks().0.to_vec();
                let mut done = 0;
                let refused = list.iter().map(|[register, value]| self.write(*register, *value)).inspect(|_| done += 1).find(|number| *number != 0);
                let given = self.unit.write_all(&list);
                let same = match (given, refused) {
                    (Ok(()), None) => true,
                    (Err(Stopped { done: made, refusal }), Some(number)) => made == done - 1 && refusal.number() == number,
                    _ => false,
                };
                held(same, "a list of writes")?;
            }
            Call::Restore(seed, TABLE_WORDS) => self.restore(&restored(*seed, TABLE_WORDS))?,
            Call::RestoreSaved => self.restore(&self.saved.to_vec())?,
            Call::Save(TABLE_WORDS) => {
                self.unit.save(&mut self.saved);
                held(self.saved[..] == table_words(&self.theirs.tables), "a save")?;
            }
            Call::Read => {
                let (anew, due) = (self.unit.read_anew(), crate::blocks::theirs(&self.theirs.file));
                held(anew.as_ref().map(|block| block.words().to_vec()) == due, "a read anew")?;
            }
            Call::CachedRead => {
                let due = self.theirs.cached_read();
                held(self.unit.read().map(|block| block.words().to_vec()) == due, "a read")?;
            }
            Call::HandOver(fragments) => {
                let stale = self.theirs.copy.generation != self.theirs.tables.generation();
                self.theirs.hand_over();
                held(self.unit.hand_over(&mut self.copy) == stale, "whether a hand-over took the tables")?;
                self.shaded(fragments, tally)?;
            }
            // of another length
            _ => return Ok(()),
        }
        tally.typed += 1;
        self.check()
    }

    /// A write to machine and module: its number.
    fn write(&mut self, register: u32, value: u32) -> u32 {
        let number = self.machine.write(&LENGTHS, register, value);
        if number == 0 {
            self.theirs.write(register, value);
        }
        number
    }

    fn restore(&mut self, saved: &[u32]) -> Result<(), String> {
        self.machine.restore(&LENGTHS, saved);
        self.theirs.restore(saved);
        let saved: &TableWords = saved.try_into().expect("as many words as the tables");
        held(self.unit.restore(saved).is_ok(), "a restore")
    }

    fn check(&self) -> Result<(), String> {
        let (unit, copy, theirs) = (&self.unit, &self.copy, &self.theirs);
        let Copy { block, tables, generation } = &theirs.copy;
        held(unit.registers()[..] == theirs.file && theirs.file == self.machine.registers, "the registers")?;
        held(unit.tables()[..] == *self.machine.entries.as_flattened(), "the tables")?;
        held(unit.generation() == theirs.tables.generation(), "the generation")?;
        held(copy.block_words()[..] == *block && copy.tables()[..] == *tables && copy.generation() == *generation, "the copy")
    }

    fn shaded(&self, fragments: &[[u32; FRAGMENT_WORDS]], tally: &mut Tally) -> Result<(), String> {
        let lighting = Lighting::read(&self.machine.registers);
        let tables = access::tables_of(self.machine.entries.as_flattened());
        let lit = Block::from_words(self.copy.block_words()).map_err(|refusal| format!("typed: the copy's block is {refusal}"))?;
        held(lit.is_some() == lighting.is_some() && lit == self.copy.block(), "whether the copy is off")?;
        tally.typed_fragments += fragments.len() as u64;
        let given: Vec<Fragment> = fragments.iter().map(Fragment::from_words).collect();
        let mut colours = vec![Colours::default(); given.len()];
        let shaded = self.copy.shade_all(&given, &mut colours).map_err(|refusal| format!("typed: shading is {refusal}"))?;
        held((shaded == Shaded::Lit) == lit.is_some(), "whether many were shaded")?;
        for ((words, fragment), all) in fragments.iter().zip(&given).zip(&colours) {
            let due = lighting.as_ref().map(|lighting| {
                let k = eight(lighting, &tables, &TheirFragment::of(words));
                Colours { primary: [k[0], k[1], k[2], k[3]], secondary: [k[4], k[5], k[6], k[7]] }
            });
            held(self.copy.shade(fragment) == due && *all == due.unwrap_or_default(), "a fragment's colours")?;
            let by_block = lit.as_ref().map(|block| block.shade(self.copy.tables(), fragment));
            held(by_block == due, "a fragment's colours by the block")?;
        }
        Ok(())
    }
}
