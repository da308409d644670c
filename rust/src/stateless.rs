//! The call that is given no state and no record.

use crate::functions::drive_show;
use crate::refusal::Refusal;

/// Section s, counted from 1, of letters that the ends divide: that part of the letters
/// themselves. Refused with 4 where there is no such section, then with 6.
///
/// ```
/// let letters = b"ABACDDC";
/// assert_eq!(board::show(letters, &[3, 7], 1), Ok(&letters[..3]));
/// assert_eq!(board::show(letters, &[3, 7], 3).unwrap_err().number(), 4);
/// assert_eq!(board::show(letters, &[3, 6], 1).unwrap_err().number(), 6);
/// ```
pub fn show<'a>(letters: &'a [u8], ends: &[u16], s: usize) -> Result<&'a [u8], Refusal> {
    let mut answer = [0; 2];
    // SAFETY: each slice has its own length, the answer the declared one, and what is written
    // overlaps nothing.
    unsafe {
        drive_show(
            letters.as_ptr(),
            letters.len(),
            ends.as_ptr(),
            ends.len(),
            s,
            [].as_mut_ptr(),
            0,
            answer.as_mut_ptr(),
        )
    };
    let [number, length] = answer;
    if number > 0 {
        return Err(Refusal::under(number));
    }
    let end = usize::from(ends[s - 1]);
    Ok(&letters[end - length..end])
}
