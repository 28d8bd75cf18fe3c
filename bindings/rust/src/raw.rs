//! The archive's functions, and the only unsafe code of the crate: each slice is handed over as its pointer and its length.

/// Stands in each word of an answer before the call. No word of an answer has this value, so that one which the archive did not write is noticed; a 0 would pass.
pub(crate) const UNWRITTEN: u64 = u64::MAX;

/// What a call gives back: 0 or the refusal's number, and the four words of its answer; with its name, for the text of a panic.
pub(crate) struct Returned {
    pub call: &'static str,
    pub status: u32,
    pub answer: [u64; 4],
}

#[rustfmt::skip] // One line a function, as in the header.
extern "C" {
    fn badolkhup_check(book: *const u8, book_len: usize, answer: *mut [u64; 4]) -> u32;
    fn badolkhup_read(book: *const u8, book_len: usize, out: *mut i32, out_len: usize, answer: *mut [u64; 4]) -> u32;
    fn badolkhup_write(plain: *const i32, plain_len: usize, out: *mut u8, out_len: usize, answer: *mut [u64; 4]) -> u32;
    fn badolkhup_from_text(text: *const u8, text_len: usize, out: *mut u8, out_len: usize, answer: *mut [u64; 4]) -> u32;
    fn badolkhup_to_text(book: *const u8, book_len: usize, out: *mut u8, out_len: usize, answer: *mut [u64; 4]) -> u32;
    fn badolkhup_ask(book: *const u8, book_len: usize, choice: u32, out: *mut u8, out_len: usize, work: *mut u16, work_len: usize, answer: *mut [u64; 4]) -> u32;
    fn badolkhup_explain(book: *const u8, book_len: usize, choice: u32, work: *mut u16, work_len: usize, answer: *mut [u64; 4]) -> u32;
    fn badolkhup_round(book: *const u8, book_len: usize, records: *mut u32, records_len: usize, count: usize, work: *mut u16, work_len: usize, answer: *mut [u64; 4]) -> u32;
    fn badolkhup_list(book: *const u8, book_len: usize, records: *mut u32, records_len: usize, count: usize, work: *mut u16, work_len: usize, answer: *mut [u64; 4]) -> u32;
}

// SAFETY, of every block below: pointer and length are those of a Rust slice, so the pointer is not null, is aligned, also where the slice is
// empty, and reaches as many elements as the length says. What the archive may write is borrowed mutably for the length of the call, so no other
// space overlaps it and no other thread sees it; `answer` is a local of this function. The archive's functions take every value of every element
// and keep no pointer. That the declarations above are those of the archive is compared by tests/header.rs.

pub(crate) fn check(book: &[u8]) -> Returned {
    let mut answer = [UNWRITTEN; 4];
    // SAFETY: as said above of book and answer.
    let status = unsafe { badolkhup_check(book.as_ptr(), book.len(), &mut answer) };
    Returned { call: "badolkhup_check", status, answer }
}

pub(crate) fn read(book: &[u8], out: &mut [i32]) -> Returned {
    let mut answer = [UNWRITTEN; 4];
    // SAFETY: as said above of book, out and answer.
    let status = unsafe { badolkhup_read(book.as_ptr(), book.len(), out.as_mut_ptr(), out.len(), &mut answer) };
    Returned { call: "badolkhup_read", status, answer }
}

pub(crate) fn write(plain: &[i32], out: &mut [u8]) -> Returned {
    let mut answer = [UNWRITTEN; 4];
    // SAFETY: as said above of plain, out and answer.
    let status = unsafe { badolkhup_write(plain.as_ptr(), plain.len(), out.as_mut_ptr(), out.len(), &mut answer) };
    Returned { call: "badolkhup_write", status, answer }
}

pub(crate) fn from_text(text: &[u8], out: &mut [u8]) -> Returned {
    let mut answer = [UNWRITTEN; 4];
    // SAFETY: as said above of text, out and answer.
    let status = unsafe { badolkhup_from_text(text.as_ptr(), text.len(), out.as_mut_ptr(), out.len(), &mut answer) };
    Returned { call: "badolkhup_from_text", status, answer }
}

pub(crate) fn to_text(book: &[u8], out: &mut [u8]) -> Returned {
    let mut answer = [UNWRITTEN; 4];
    // SAFETY: as said above of book, out and answer.
    let status = unsafe { badolkhup_to_text(book.as_ptr(), book.len(), out.as_mut_ptr(), out.len(), &mut answer) };
    Returned { call: "badolkhup_to_text", status, answer }
}

#[rustfmt::skip] // One space a line.
pub(crate) fn ask(book: &[u8], choice: u32, out: &mut [u8], work: &mut [u16]) -> Returned {
    let mut answer = [UNWRITTEN; 4];
    // SAFETY: as said above of book, out, work and answer.
    let status = unsafe {
        badolkhup_ask(
            book.as_ptr(), book.len(),
            choice,
            out.as_mut_ptr(), out.len(),
            work.as_mut_ptr(), work.len(),
            &mut answer,
        )
    };
    Returned { call: "badolkhup_ask", status, answer }
}

#[rustfmt::skip]
pub(crate) fn explain(book: &[u8], choice: u32, work: &mut [u16]) -> Returned {
    let mut answer = [UNWRITTEN; 4];
    // SAFETY: as said above of book, work and answer.
    let status = unsafe {
        badolkhup_explain(book.as_ptr(), book.len(), choice, work.as_mut_ptr(), work.len(), &mut answer)
    };
    Returned { call: "badolkhup_explain", status, answer }
}

#[rustfmt::skip]
pub(crate) fn round(book: &[u8], records: &mut [u32], count: usize, work: &mut [u16]) -> Returned {
    let mut answer = [UNWRITTEN; 4];
    // SAFETY: as said above of book, records, work and answer.
    let status = unsafe {
        badolkhup_round(
            book.as_ptr(), book.len(),
            records.as_mut_ptr(), records.len(),
            count,
            work.as_mut_ptr(), work.len(),
            &mut answer,
        )
    };
    Returned { call: "badolkhup_round", status, answer }
}

#[rustfmt::skip]
pub(crate) fn list(book: &[u8], records: &mut [u32], count: usize, work: &mut [u16]) -> Returned {
    let mut answer = [UNWRITTEN; 4];
    // SAFETY: as said above of book, records, work and answer.
    let status = unsafe {
        badolkhup_list(
            book.as_ptr(), book.len(),
            records.as_mut_ptr(), records.len(),
            count,
            work.as_mut_ptr(), work.len(),
            &mut answer,
        )
    };
    Returned { call: "badolkhup_list", status, answer }
}
