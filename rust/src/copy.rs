use crate::raw::{self, OFF};
use crate::{Block, Colours, Fragment, Refusal, TableWords, BLOCK_WORDS, TABLE_WORDS};
use std::fmt;
use std::sync::Arc;

/// The hardware renderer's copy of a unit: a packed block, the tables and their generation.
///
/// Only [`Unit::hand_over`](crate::Unit::hand_over) changes it. New, it is off and all zero.
///
/// ```
/// use lighting::{Fragment, HardwareCopy, Shaded, Unit};
///
/// let (mut unit, mut copy) = (Unit::new(), HardwareCopy::new());
/// let fragments = [Fragment::default(); 3];
/// let mut colours = [Default::default(); 3];
/// assert_eq!(copy.shade_all(&fragments, &mut colours), Ok(Shaded::Off));
///
/// unit.write_all(&[[0x08F, 1], [0x1C0, 0xFF << 20], [0x1C4, u32::MAX]])?; // no more than a red global ambient
/// unit.hand_over(&mut copy);
/// assert_eq!(copy.shade_all(&fragments, &mut colours), Ok(Shaded::Lit));
/// assert_eq!(colours[2].primary, [255, 0, 0, 255]);
/// # Ok::<(), lighting::Stopped>(())
/// ```
#[derive(Clone)]
pub struct HardwareCopy {
    /// Zero words where off.
    pub(crate) block: [u32; BLOCK_WORDS],
    pub(crate) tables: Box<TableWords>,
    pub(crate) generation: u64,
    /// The identity of the unit that handed over last.
    pub(crate) unit: Option<Arc<()>>,
}

/// Whether there was a lighting to shade by.
#[derive(Clone, Copy, Debug, PartialEq, Eq, Hash)]
#[must_use = "where off, no colour was written"]
pub enum Shaded {
    /// Each fragment has its colours.
    Lit,
    /// The lighting is off, and the colours are left as they were.
    Off,
}

impl HardwareCopy {
    /// A new copy: off, its tables all zero, of generation 0.
    pub fn new() -> HardwareCopy {
        HardwareCopy { block: [0; BLOCK_WORDS], tables: Box::new([0; TABLE_WORDS]), generation: 0, unit: None }
    }

    /// The block, or `None` where the lighting is off. It is checked to be well formed, which a hand-over's block
    /// always is; a renderer that only wants the words has them from [`block_words`](HardwareCopy::block_words).
    pub fn block(&self) -> Option<Block> {
        Block::from_words(&self.block).unwrap_or_default()
    }

    /// The block's words, as a uniform block takes them; all zero where the lighting is off.
    pub fn block_words(&self) -> &[u32; BLOCK_WORDS] {
        &self.block
    }

    /// The tables, as a renderer uploads them when [`Unit::hand_over`](crate::Unit::hand_over) says that they were
    /// taken.
    pub fn tables(&self) -> &TableWords {
        &self.tables
    }

    /// The generation of the tables, as the unit had it.
    pub fn generation(&self) -> u64 {
        self.generation
    }

    /// Shades one fragment; `None` where the lighting is off.
    #[inline]
    pub fn shade(&self, fragment: &Fragment) -> Option<Colours> {
        let mut colours = Colours::default();
        // 0 or 100: a hand-over's block is off or well formed, and there is one place for one fragment's colours
        let number = raw::shade_fragments(&self.block, &*self.tables, std::slice::from_ref(fragment), std::slice::from_mut(&mut colours));
        (number == 0).then_some(colours)
    }

    /// Shades many fragments, reading the block once. Refused, whether lit or off, where there are not as many colours
    /// as fragments ([`WrongFragment`](Refusal::WrongFragment), 9); `colours` are then left as they were.
    #[inline]
    pub fn shade_all(&self, fragments: &[Fragment], colours: &mut [Colours]) -> Result<Shaded, Refusal> {
        match raw::shade_fragments(&self.block, &*self.tables, fragments, colours) {
            OFF => Ok(Shaded::Off),
            number => Refusal::check(number).map(|()| Shaded::Lit),
        }
    }
}

impl Default for HardwareCopy {
    fn default() -> HardwareCopy {
        HardwareCopy::new()
    }
}

impl fmt::Debug for HardwareCopy {
    fn fmt(&self, f: &mut fmt::Formatter<'_>) -> fmt::Result {
        f.debug_struct("HardwareCopy").field("block", &self.block()).field("generation", &self.generation).finish_non_exhaustive()
    }
}
