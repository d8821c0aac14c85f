use crate::{raw, Refusal};

/// No capture prints more: 65,536 bytes have room for 712 fragments, and a line has at most 32 bytes.
const LARGEST: usize = 712 * 32;

/// What the program `lightshow` prints of a capture: a line for each fragment, of its two colours or `off`.
///
/// A capture is little-endian words: the contents, then register writes, fragments and restores of the tables, which
/// run in order on a new unit and a new copy. Refused before any of them runs where it is malformed
/// ([`BadCapture`](Refusal::BadCapture), 8), then where a register is too high
/// ([`HighRegister`](Refusal::HighRegister), 3); the program then prints `refused` and the number.
///
/// The call under it needs far more stack than the others, up to 256 KiB; `include/lighting.h` says how that is known.
///
/// ```
/// // one body of kind 2, of one fragment, on a unit that no register write has turned on
/// let mut words = vec![1, 2, 4, 23];
/// words.extend([0u32; 23]);
/// let capture: Vec<u8> = words.iter().flat_map(|word| word.to_le_bytes()).collect();
/// assert_eq!(lighting::print_capture(&capture), Ok("off\n".into()));
/// assert_eq!(lighting::print_capture(&[]), Err(lighting::Refusal::BadCapture));
/// ```
pub fn print_capture(input: &[u8]) -> Result<String, Refusal> {
    let mut output = vec![0; LARGEST];
    let mut printed = 0;
    Refusal::check(raw::capture(input, &mut output, &mut printed))?;
    // at most the output's length, and ASCII
    output.truncate(usize::try_from(printed).unwrap_or(LARGEST));
    Ok(String::from_utf8(output).unwrap_or_default())
}
