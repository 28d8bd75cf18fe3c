//! Reading, writing and asking in spaces that are found here.
#![forbid(unsafe_code)]
use crate::answers::Asked;
use crate::calls::{ask, check, from_text, read, to_text, write};
use crate::limits::{BOOK_BYTES, WORK_WORDS};
use crate::refusal::Refusal;

/// The plain form of a book, as [`read`] writes it.
///
/// ```
/// let book = std::fs::read("../../examples/x.book").unwrap();
/// let plain = badolkhup::plain_form(&book).unwrap();
/// assert_eq!(plain[..8], [3, 5, 0, -3, 0, 1, 1, 0]);
/// assert_eq!(badolkhup::book_of(&plain), Ok(book));
/// ```
///
/// # Errors
/// Refusals 1 to 9.
pub fn plain_form(book: &[u8]) -> Result<Vec<i32>, Refusal> {
    let clauses = usize::from(check(book)?.clauses);
    // The header's two numbers; for each clause its group, its head and its 0; and a number for each two bytes of a body.
    let most = 2 + 3 * clauses + (book.len() - 10 - 7 * clauses) / 2;
    filled(most, |out| read(book, out))
}

/// The book of a plain form, as [`write()`] writes it.
///
/// # Errors
/// Those of [`write()`] without 11.
pub fn book_of(plain: &[i32]) -> Result<Vec<u8>, Refusal> {
    // A clause has 7 bytes for its first two numbers, the group and the 0, and at most 2 for each other.
    let most = plain.len().saturating_mul(4).saturating_add(10).min(BOOK_BYTES);
    filled(most, |out| write(plain, out))
}

/// The book of a group CNF text, as [`from_text`] writes it.
///
/// ```
/// let text = std::fs::read("../../examples/x.gcnf").unwrap();
/// let book = badolkhup::book_of_text(&text).unwrap();
/// assert_eq!(Ok(book.clone()), badolkhup::book_of(&[3, 5, 0, -3, 0, 1, 1, 0, 2, -1, 3, 0, 3, 2, 0, 4, -2, 3, 0, 5, -1, 2, 0]));
/// assert_eq!(badolkhup::text_of(&book), Ok(text));
/// ```
///
/// # Errors
/// Those of [`from_text`] without 11.
pub fn book_of_text(text: &[u8]) -> Result<Vec<u8>, Refusal> {
    // The 10 bytes around the clauses come of 12 at least, the 7 of a clause of 6 with the line feed before it, and the 2 of a body variable of 3.
    let most = text.len().saturating_mul(2).min(BOOK_BYTES);
    filled(most, |out| from_text(text, out))
}

/// The group CNF text of a book, as [`to_text`] writes it.
///
/// # Errors
/// Refusals 1 to 9.
pub fn text_of(book: &[u8]) -> Result<Vec<u8>, Refusal> {
    // The 10 bytes around the clauses make at most 20, the 7 of a clause at most 12, and the 2 of a body variable at most 6.
    let most = 3 * book.len().min(BOOK_BYTES);
    filled(most, |out| to_text(book, out))
}

/// What a call writes into at most so many elements.
fn filled<T: Copy + Default>(
    most: usize,
    call: impl FnOnce(&mut [T]) -> Result<usize, Refusal>,
) -> Result<Vec<T>, Refusal> {
    let mut out = vec![T::default(); most];
    let count = call(&mut out)?;
    out.truncate(count);
    Ok(out)
}

/// Asks about a choice, as [`ask`] does: the answer, and the numbers of the forced variables, rising.
///
/// ```
/// let book = std::fs::read("../../examples/x.book").unwrap();
/// assert_eq!(badolkhup::forced(&book, 21), Ok((badolkhup::Asked::Consistent, vec![1, 2])));
/// ```
///
/// # Errors
/// Refusals 1 to 10.
pub fn forced(book: &[u8], choice: u32) -> Result<(Asked, Vec<u16>), Refusal> {
    let variables = check(book)?.variables;
    let mut out = vec![0; usize::from(variables)];
    let asked = ask(book, choice, &mut out, &mut vec![0; WORK_WORDS])?;
    Ok((asked, (1..=variables).filter(|&v| out[usize::from(v) - 1] == 1).collect()))
}
