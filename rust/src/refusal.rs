use std::error::Error;
use std::fmt;

/// Why a call is refused. A refused call has changed nothing, [`Unit::write_all`](crate::Unit::write_all) apart, which
/// keeps the writes before the refused one.
///
/// Most numbers are about the length of a slice, which the types of this crate settle; they are here because the
/// numbers are one list. Each function says which it can give.
///
/// ```
/// use lighting::{Refusal, Unit};
///
/// let refusal = Unit::new().write(474, 0).unwrap_err();
/// assert_eq!(refusal, Refusal::HighRegister);
/// assert_eq!(refusal.number(), 3);
/// assert_eq!(refusal.to_string(), "refused 3: the register is 474 or above");
/// ```
#[derive(Clone, Copy, Debug, PartialEq, Eq, Hash)]
#[non_exhaustive]
pub enum Refusal {
    /// 1: the register file is under 474 words.
    ShortFile = 1,
    /// 2: the tables are not 12,288 words.
    WrongTables = 2,
    /// 3: the register is 474 or above.
    HighRegister = 3,
    /// 4: the generation is 2^64 − 1 and would have to rise. Fewer than 2^64 calls on a new unit never meet it.
    LastGeneration = 4,
    /// 5: the saved words, or the output for them, are not 12,288.
    WrongSaved = 5,
    /// 6: the block is not 328 words.
    WrongBlock = 6,
    /// 7: the block is neither off nor well formed.
    NotWellFormed = 7,
    /// 8: the capture is not one.
    BadCapture = 8,
    /// 9: a fragment is not 23 words, or there are not eight words of colours for each.
    WrongFragment = 9,
    /// 101: some other slice is not of the size that the C boundary states.
    WrongSize = 101,
}

impl Refusal {
    /// The number that document 01 and the C boundary give it.
    pub fn number(self) -> u32 {
        self as u32
    }

    /// What a call of the boundary returned: `Ok` for 0.
    pub(crate) fn check(number: u32) -> Result<(), Refusal> {
        Err(match number {
            0 => return Ok(()),
            1 => Refusal::ShortFile,
            2 => Refusal::WrongTables,
            3 => Refusal::HighRegister,
            4 => Refusal::LastGeneration,
            5 => Refusal::WrongSaved,
            6 => Refusal::WrongBlock,
            7 => Refusal::NotWellFormed,
            8 => Refusal::BadCapture,
            9 => Refusal::WrongFragment,
            // 101. Off, 100, is taken out by those calls that give it, and no call gives another number.
            _ => Refusal::WrongSize,
        })
    }
}

impl fmt::Display for Refusal {
    fn fmt(&self, f: &mut fmt::Formatter<'_>) -> fmt::Result {
        let why = match self {
            Refusal::ShortFile => "the register file is under 474 words",
            Refusal::WrongTables => "the tables are not 12,288 words",
            Refusal::HighRegister => "the register is 474 or above",
            Refusal::LastGeneration => "the generation is 2^64 − 1 and would have to rise",
            Refusal::WrongSaved => "the saved words are not 12,288",
            Refusal::WrongBlock => "the block is not 328 words",
            Refusal::NotWellFormed => "the block is not well formed",
            Refusal::BadCapture => "the capture is malformed",
            Refusal::WrongFragment => "the fragment is not 23 words, or the colours are not as many as the fragments",
            Refusal::WrongSize => "a slice is not of the stated size",
        };
        write!(f, "refused {}: {why}", self.number())
    }
}

impl Error for Refusal {}

/// A list of writes stopped at one that is refused.
#[derive(Clone, Copy, Debug, PartialEq, Eq, Hash)]
pub struct Stopped {
    /// How many writes were made: the place in the list of the refused one.
    pub done: usize,
    /// Why that one is refused.
    pub refusal: Refusal,
}

impl fmt::Display for Stopped {
    fn fmt(&self, f: &mut fmt::Formatter<'_>) -> fmt::Result {
        write!(f, "write {} of the list, counted from 0, is {}", self.done, self.refusal)
    }
}

impl Error for Stopped {
    fn source(&self) -> Option<&(dyn Error + 'static)> {
        Some(&self.refusal)
    }
}
