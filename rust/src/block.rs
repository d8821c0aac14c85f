use crate::raw::{self, OFF};
use crate::{Colours, Fragment, Refusal, TableWords};
use std::fmt;

/// The words of a block.
pub const BLOCK_WORDS: usize = 328;

/// A lighting packed for the hardware renderer's uniform block: 40 words, then 36 for each of eight slots.
///
/// Its words are well formed and not off; no other block can be had. Shading reads it together with the tables, so it
/// is as much of the lighting as a draw keeps.
///
/// ```
/// use lighting::{Block, Refusal, Unit, BLOCK_WORDS};
///
/// let mut unit = Unit::new();
/// unit.write(0x08F, 1)?;
/// let block = unit.read().expect("the lighting is on");
/// assert_eq!(Block::from_words(block.words()), Ok(Some(block.clone())));
///
/// let mut words = *block.words();
/// words[1] = 9; // lights on: 1 to 8
/// assert_eq!(Block::from_words(&words), Err(Refusal::NotWellFormed));
/// assert_eq!(Block::from_words(&[0; BLOCK_WORDS]), Ok(None));
/// # Ok::<(), Refusal>(())
/// ```
#[derive(Clone, PartialEq, Eq, Hash)]
pub struct Block([u32; BLOCK_WORDS]);

impl Block {
    /// Reads a block: `None` where it is off, all its words being zero. Refused where it is not well formed
    /// ([`NotWellFormed`](Refusal::NotWellFormed), 7).
    pub fn from_words(words: &[u32; BLOCK_WORDS]) -> Result<Option<Block>, Refusal> {
        match raw::read_block(words) {
            OFF => Ok(None),
            number => Refusal::check(number).map(|()| Some(Block(*words))),
        }
    }

    /// Where `packed` wrote a block and returned 0.
    pub(crate) fn packed_by(packed: impl FnOnce(&mut [u32]) -> u32) -> Option<Block> {
        let mut words = [0; BLOCK_WORDS];
        (packed(&mut words) == 0).then_some(Block(words))
    }

    /// The words, as a uniform block takes them.
    pub fn words(&self) -> &[u32; BLOCK_WORDS] {
        &self.0
    }

    /// The light in each lit slot, in the order of the slots: one to eight of them, and one light may be in several
    /// slots.
    pub fn lights(&self) -> impl Iterator<Item = LightNumber> + '_ {
        let [_, count, ..] = self.0;
        let slots = self.0.get(40..).unwrap_or_default().chunks_exact(36);
        // the number is word 33 of a slot's 36, and 0 to 7 in a well-formed block, so that none is left out
        slots.take(count as usize).filter_map(|slot| LightNumber::new(*slot.get(33)?))
    }

    /// Shades one fragment.
    #[inline]
    pub fn shade(&self, tables: &TableWords, fragment: &Fragment) -> Colours {
        let mut colours = Colours::default();
        // a block, tables and one fragment with one place for its colours are never refused
        let _ = raw::shade_fragments(&self.0, tables, std::slice::from_ref(fragment), std::slice::from_mut(&mut colours));
        colours
    }

    /// Shades many fragments, reading the block once. Refused, `colours` being left as they were, where there are not
    /// as many as fragments ([`WrongFragment`](Refusal::WrongFragment), 9).
    #[inline]
    pub fn shade_all(&self, tables: &TableWords, fragments: &[Fragment], colours: &mut [Colours]) -> Result<(), Refusal> {
        Refusal::check(raw::shade_fragments(&self.0, tables, fragments, colours))
    }
}

impl fmt::Debug for Block {
    fn fmt(&self, f: &mut fmt::Formatter<'_>) -> fmt::Result {
        let lights: Vec<u32> = self.lights().map(LightNumber::get).collect();
        f.debug_struct("Block").field("lights", &lights).finish_non_exhaustive()
    }
}

/// Shades a fragment from bytes, for renderers whose data comes as bytes: a word is four little-endian bytes, and a
/// slice that isn't whole words counts as of wrong length. `None` where the block is off.
///
/// Refused, the first that holds: [`WrongBlock`](Refusal::WrongBlock) (6), [`WrongTables`](Refusal::WrongTables) (2),
/// [`WrongFragment`](Refusal::WrongFragment) (9), [`NotWellFormed`](Refusal::NotWellFormed) (7).
///
/// ```
/// use lighting::{shade_block_bytes, Refusal, BLOCK_WORDS, TABLE_WORDS};
///
/// let (block, tables, fragment) = ([0; 4 * BLOCK_WORDS], [0; 4 * TABLE_WORDS], [0; 4 * 23]);
/// assert_eq!(shade_block_bytes(&block, &tables, &fragment), Ok(None));
/// assert_eq!(shade_block_bytes(&block, &tables, &fragment[1..]), Err(Refusal::WrongFragment));
/// ```
pub fn shade_block_bytes(block: &[u8], tables: &[u8], fragment: &[u8]) -> Result<Option<Colours>, Refusal> {
    let mut answer = [0; 32];
    match raw::shade_block(block, tables, fragment, &mut answer) {
        OFF => Ok(None),
        number => Refusal::check(number).map(|()| Some(Colours::from_le_bytes(&answer))),
    }
}

/// Which of the eight lights of the registers it is. The slots of a block hold lights, and a slot's place says nothing
/// about the light in it.
///
/// ```
/// use lighting::LightNumber;
///
/// let light = LightNumber::new(5).expect("a light");
/// assert_eq!(light.register(2), Some(0x192)); // its diffuse colour
/// assert_eq!(LightNumber::new(8), None);
/// ```
#[derive(Clone, Copy, Debug, PartialEq, Eq, PartialOrd, Ord, Hash)]
pub struct LightNumber(u8);

impl LightNumber {
    /// The eight lights.
    pub const ALL: [LightNumber; 8] =
        [LightNumber(0), LightNumber(1), LightNumber(2), LightNumber(3), LightNumber(4), LightNumber(5), LightNumber(6), LightNumber(7)];

    /// The light of that number, 0 to 7.
    pub fn new(number: u32) -> Option<LightNumber> {
        LightNumber::ALL.get(usize::try_from(number).ok()?).copied()
    }

    /// Its number, 0 to 7.
    pub fn get(self) -> u32 {
        self.0.into()
    }

    /// The register at an offset, 0 to 15, of this light's registers.
    pub fn register(self, offset: u32) -> Option<u32> {
        (offset < 0x10).then(|| 0x140 + 0x10 * self.get() + offset)
    }
}

impl fmt::Display for LightNumber {
    fn fmt(&self, f: &mut fmt::Formatter<'_>) -> fmt::Result {
        self.0.fmt(f)
    }
}
