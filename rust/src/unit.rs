use crate::{raw, Block, HardwareCopy, Refusal, Stopped};
use std::fmt;
use std::sync::Arc;

/// The registers that a unit has.
pub const REGISTERS: usize = 474;

/// The words of all tables.
pub const TABLE_WORDS: usize = 12_288;

/// The words of all tables: 24 tables of 256 entries, each entry the bits of its value and then of its step.
///
/// A slice or a vector of as many words is one by `try_into`.
pub type TableWords = [u32; TABLE_WORDS];

/// The words that the C boundary wants for a cache; all zero is the empty one.
const CACHE_WORDS: usize = 468;

/// The lighting unit: registers, tables, the tables' generation, and the lighting of the last read.
///
/// ```
/// use lighting::Unit;
///
/// let mut unit = Unit::new();
/// unit.write(0x1C5, 16 << 8 | 255)?; // the last entry of light 0's distance table
/// unit.write(0x1C8, 0xFFF)?; // value 1, step 0
/// assert_eq!(unit.tables()[2 * (16 * 256 + 255)], 1.0f32.to_bits());
/// assert_eq!(unit.generation(), 1);
/// assert_eq!(unit.registers()[0x1C5], 16 << 8); // moved on, 255 going to 0
///
/// assert!(unit.read().is_none());
/// unit.write(0x08F, 1)?;
/// let block = unit.read().expect("the lighting is on");
/// assert_eq!(block.lights().count(), 1);
/// # Ok::<(), lighting::Refusal>(())
/// ```
pub struct Unit {
    registers: Box<[u32; REGISTERS]>,
    tables: Box<TableWords>,
    generation: u64,
    cache: Box<[u32; CACHE_WORDS]>,
    /// Tells this unit from every other, a clone of it too.
    identity: Arc<()>,
}

impl Unit {
    /// A new unit: registers and tables all zero, of generation 0, and nothing read yet.
    pub fn new() -> Unit {
        Unit {
            registers: Box::new([0; REGISTERS]),
            tables: Box::new([0; TABLE_WORDS]),
            generation: 0,
            cache: Box::new([0; CACHE_WORDS]),
            identity: Arc::new(()),
        }
    }

    /// Takes a register write. Registers 1C8 to 1CF (hexadecimal) are table data: the value goes into the entry that
    /// register 1C5 names, and 1C5 moves on by one entry. Any other register keeps the whole word.
    ///
    /// Refused where the register is too high ([`HighRegister`](Refusal::HighRegister), 3), and where an entry would
    /// change at the last generation ([`LastGeneration`](Refusal::LastGeneration), 4).
    #[inline]
    pub fn write(&mut self, register: u32, value: u32) -> Result<(), Refusal> {
        Refusal::check(raw::write(&mut *self.registers, &mut *self.tables, &mut self.generation, register, value))
    }

    /// Takes a list of writes, each a register and its value, in one call. It stops at the first that
    /// [`write`](Unit::write) would refuse, and tells how many it made.
    ///
    /// ```
    /// use lighting::{Refusal, Unit};
    ///
    /// let mut unit = Unit::new();
    /// let stopped = unit.write_all(&[[0x08F, 1], [0x1C2, 3], [474, 0], [0x08F, 0]]).unwrap_err();
    /// assert_eq!((stopped.done, stopped.refusal), (2, Refusal::HighRegister));
    /// assert_eq!(unit.registers()[0x08F], 1);
    /// ```
    #[inline]
    pub fn write_all(&mut self, writes: &[[u32; 2]]) -> Result<(), Stopped> {
        let mut done = 0;
        let number = raw::writes(&mut *self.registers, &mut *self.tables, &mut self.generation, writes, &mut done);
        // `done` is at most the number of writes
        Refusal::check(number).map_err(|refusal| Stopped { done: done as usize, refusal })
    }

    /// Replaces all tables by saved ones, and raises the generation by 1 even where they are the same. Refused at the
    /// last generation ([`LastGeneration`](Refusal::LastGeneration), 4).
    pub fn restore(&mut self, saved: &TableWords) -> Result<(), Refusal> {
        Refusal::check(raw::restore(&mut *self.tables, &mut self.generation, saved))
    }

    /// Saves the tables. The rest of a saved state is the registers, which come back by writing them:
    ///
    /// ```
    /// use lighting::{Unit, TABLE_WORDS};
    ///
    /// # let mut unit = Unit::new();
    /// # unit.write_all(&[[0x1C8, 0xFFF], [0x08F, 1], [0x142, 0xFF]])?;
    /// let mut tables = [0; TABLE_WORDS];
    /// unit.save(&mut tables);
    /// let registers = *unit.registers();
    ///
    /// let mut again = Unit::new();
    /// again.restore(&tables)?;
    /// for (register, value) in (0..).zip(registers) {
    ///     if !(0x1C8..=0x1CF).contains(&register) {
    ///         again.write(register, value)?;
    ///     }
    /// }
    /// assert_eq!(again.registers(), unit.registers());
    /// assert_eq!(again.tables(), unit.tables());
    /// # Ok::<(), Box<dyn std::error::Error>>(())
    /// ```
    pub fn save(&self, output: &mut TableWords) {
        // both are 12,288 words, so it is never refused
        let _ = raw::save(&*self.tables, output);
    }

    /// The lighting that the registers set up, or `None` where it is off. It is decoded only if a register that
    /// decoding takes has changed since the last read or hand-over.
    pub fn read(&mut self) -> Option<Block> {
        // 0 or 100: the file is whole, and a cache that only these calls have written never gives 7
        Block::packed_by(|block| raw::cached_read(&*self.registers, &mut *self.cache, block))
    }

    /// The same lighting, always decoded anew: for a unit that is only lent.
    pub fn read_anew(&self) -> Option<Block> {
        // 0 or 100, as the file is whole
        Block::packed_by(|block| raw::read(&*self.registers, block))
    }

    /// Brings a copy up to date: its block always, its tables and generation where the generations differ. From then on
    /// the copy shades as the unit stands now, until the next hand-over.
    ///
    /// It is true where the tables were taken: a renderer that keeps them elsewhere uploads [`HardwareCopy::tables`]
    /// then.
    ///
    /// Generations are those of one unit. A copy that another unit, or a clone of this one, handed over to last takes
    /// the tables whatever its generation.
    ///
    /// ```
    /// use lighting::{HardwareCopy, Unit};
    ///
    /// let (mut unit, mut copy) = (Unit::new(), HardwareCopy::new());
    /// unit.write(0x1C8, 0xFFF)?;
    /// assert!(unit.hand_over(&mut copy));
    /// assert_eq!(copy.tables(), unit.tables());
    ///
    /// unit.write(0x08F, 1)?; // no table
    /// assert!(!unit.hand_over(&mut copy));
    /// assert!(copy.block().is_some());
    /// # Ok::<(), lighting::Refusal>(())
    /// ```
    #[inline]
    pub fn hand_over(&mut self, copy: &mut HardwareCopy) -> bool {
        // a new copy has the tables of every unit's generation 0
        if copy.unit.as_ref().map_or(false, |unit| !Arc::ptr_eq(unit, &self.identity)) {
            copy.generation = !self.generation;
        }
        let stale = copy.generation != self.generation;
        // the lengths are right, and a cache that only these calls have written never gives 7, so it is never refused
        let _ = raw::hand_over(
            &*self.registers,
            &*self.tables,
            self.generation,
            &mut *self.cache,
            &mut copy.block,
            &mut *copy.tables,
            &mut copy.generation,
        );
        copy.unit = Some(Arc::clone(&self.identity));
        stale
    }

    /// The registers as the writes left them. Those of table data, 1C8 to 1CF, stay zero.
    pub fn registers(&self) -> &[u32; REGISTERS] {
        &self.registers
    }

    /// The tables.
    pub fn tables(&self) -> &TableWords {
        &self.tables
    }

    /// How often the tables have changed: 1 for each write that changed an entry's bits, and for each restore.
    pub fn generation(&self) -> u64 {
        self.generation
    }
}

impl Default for Unit {
    fn default() -> Unit {
        Unit::new()
    }
}

/// The clone goes on by itself: from then on its generations are its own.
impl Clone for Unit {
    fn clone(&self) -> Unit {
        Unit {
            registers: self.registers.clone(),
            tables: self.tables.clone(),
            generation: self.generation,
            cache: self.cache.clone(),
            identity: Arc::new(()),
        }
    }
}

impl fmt::Debug for Unit {
    fn fmt(&self, f: &mut fmt::Formatter<'_>) -> fmt::Result {
        f.debug_struct("Unit").field("lighting", &self.read_anew()).field("generation", &self.generation).finish_non_exhaustive()
    }
}

#[cfg(test)]
mod tests {
    use super::*;

    /// Register 1C5, which names the entry that table data goes to.
    const TABLE_INDEX: usize = 0x1C5;

    /// A unit that no list of calls reaches within a lifetime: at the last generation, its entry 0 of table 0 at value
    /// 1.
    fn at_the_last_generation() -> Unit {
        let mut unit = Unit { generation: u64::MAX - 1, ..Unit::new() };
        assert_eq!(unit.write(0x1C8, 0xFFF), Ok(()));
        assert_eq!(unit.generation, u64::MAX);
        unit
    }

    fn unchanged(unit: &Unit, before: &Unit) {
        assert_eq!(unit.registers, before.registers);
        assert_eq!(unit.tables, before.tables);
        assert_eq!(unit.generation, before.generation);
        assert_eq!(unit.cache, before.cache);
    }

    #[test]
    fn the_last_generation_refuses_a_change() {
        let mut unit = at_the_last_generation();
        let before = unit.clone();
        assert_eq!(unit.write(0x1C8, 0xFFF), Err(Refusal::LastGeneration));
        assert_eq!(unit.restore(&before.tables), Err(Refusal::LastGeneration));
        assert_eq!(Refusal::LastGeneration.number(), 4);
        unchanged(&unit, &before);
    }

    #[test]
    fn the_last_generation_lets_equal_bits_pass() {
        let mut unit = at_the_last_generation();
        let before = unit.clone();
        assert_eq!(unit.write(TABLE_INDEX as u32, 0), Ok(()));
        assert_eq!(unit.write(0x1C8, 0xFFF), Ok(()));
        assert_eq!(unit.registers[TABLE_INDEX], 1);
        assert_eq!((&unit.tables, unit.generation), (&before.tables, u64::MAX));
    }

    #[test]
    fn a_list_stops_at_the_last_generation() {
        let mut unit = at_the_last_generation();
        let stopped = unit.write_all(&[[0x08F, 1], [0x1C8, 0xFFF], [0x08F, 0]]);
        assert_eq!(stopped, Err(Stopped { done: 1, refusal: Refusal::LastGeneration }));
        assert_eq!(unit.registers[0x08F], 1);
        assert_eq!(unit.registers[TABLE_INDEX], 1);
    }

    #[test]
    fn a_read_keeps_its_lighting() {
        let mut unit = Unit::new();
        unit.write(0x08F, 1).unwrap();
        unit.read();
        let before = unit.clone();
        assert_ne!(unit.cache, Unit::new().cache);
        unit.read();
        unchanged(&unit, &before);
    }
}
