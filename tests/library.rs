//! The library through its C interface (include/cogalbin.h), the answers taken apart.

use crate::reference::{Counts, Entered, Refusal};

extern "C" {
    fn cogalbin_read(book: *const u8, book_length: usize) -> u64;
    fn cogalbin_places(book: *const u8, book_length: usize) -> u64;
    fn cogalbin_enter(buffer: *mut u8, buffer_length: usize, used: usize, record: *const u8, record_length: usize) -> u64;
    fn cogalbin_survey(book: *const u8, book_length: usize, table: *mut u8, table_length: usize) -> u64;
    fn cogalbin_prove(
        book: *const u8,
        book_length: usize,
        goal: u32,
        work: *mut u8,
        work_length: usize,
        derivation: *mut u8,
        derivation_length: usize,
    ) -> u64;
    fn cogalbin_check(
        book: *const u8,
        book_length: usize,
        goal: u32,
        derivation: *const u8,
        derivation_length: usize,
    ) -> u64;
    fn cogalbin_text(
        book: *const u8,
        book_length: usize,
        fact: *const u8,
        fact_length: usize,
        buffer: *mut u8,
        buffer_length: usize,
    ) -> u64;
    fn cogalbin_guest_text(
        book: *const u8,
        book_length: usize,
        fact: *const u8,
        fact_length: usize,
        buffer: *mut u8,
        buffer_length: usize,
    ) -> u64;
    fn cogalbin_list(
        book: *const u8,
        book_length: usize,
        table: *const u8,
        table_length: usize,
        from: usize,
        buffer: *mut u8,
        buffer_length: usize,
    ) -> u64;
    fn cogalbin_guest_list(
        book: *const u8,
        book_length: usize,
        table: *const u8,
        table_length: usize,
        from: usize,
        buffer: *mut u8,
        buffer_length: usize,
    ) -> u64;
    fn cogalbin_honesty(book: *const u8, book_length: usize, report: *mut u8, report_length: usize) -> u64;
    fn cogalbin_reason(number: u32, buffer: *mut u8, buffer_length: usize) -> u64;
}

/// Either function for the text of a fact, the owner's and the guest's.
type TextCall = unsafe extern "C" fn(*const u8, usize, *const u8, usize, *mut u8, usize) -> u64;

/// Either function for a piece of a listing.
type ListCall = unsafe extern "C" fn(*const u8, usize, *const u8, usize, usize, *mut u8, usize) -> u64;

/// The bytes of a piece of a listing and the line to go on from; none where it is over.
pub type Piece = Option<(usize, usize)>;

/// What the prover answers.
#[derive(Clone, Copy, PartialEq, Eq, Debug)]
pub struct Proved {
    pub reached: bool,
    pub held: usize,
    pub steps: usize,
    pub bytes: usize,
}

/// The bits of an answer from one on, so many of them.
fn bits(answer: u64, from: u32, count: u32) -> usize {
    ((answer >> from) & ((1u64 << count) - 1)) as usize
}

/// The answer, unless it is a refusal.
fn granted(answer: u64) -> Result<u64, Refusal> {
    match (answer & 255) as u8 {
        0 => Ok(answer),
        number => Err(Refusal { number, place: answer >> 8 }),
    }
}

pub fn read(book: &[u8]) -> Result<Counts, Refusal> {
    let answer = granted(unsafe { cogalbin_read(book.as_ptr(), book.len()) })?;
    assert_eq!(answer >> 56, 0, "bits above those of the counts");
    Ok(Counts {
        formulas: bits(answer, 8, 16),
        principals: bits(answer, 24, 8),
        assumptions: bits(answer, 32, 8),
        messages: bits(answer, 40, 8),
        goals: bits(answer, 48, 8),
    })
}

pub fn places(book: &[u8]) -> Result<usize, Refusal> {
    let answer = granted(unsafe { cogalbin_places(book.as_ptr(), book.len()) })?;
    Ok((answer >> 8) as usize)
}

pub fn enter(buffer: &mut [u8], used: usize, record: &[u8]) -> Result<Entered, Refusal> {
    let answer =
        granted(unsafe { cogalbin_enter(buffer.as_mut_ptr(), buffer.len(), used, record.as_ptr(), record.len()) })?;
    let number = (answer >> 9) as usize;
    Ok(if bits(answer, 8, 1) == 1 { Entered::Appended(number) } else { Entered::Present(number) })
}

pub fn survey(book: &[u8], table: &mut [u8]) -> Result<usize, Refusal> {
    let answer = granted(unsafe { cogalbin_survey(book.as_ptr(), book.len(), table.as_mut_ptr(), table.len()) })?;
    Ok((answer >> 8) as usize)
}

pub fn prove(book: &[u8], goal: u32, work: &mut [u8], derivation: &mut [u8]) -> Result<Proved, Refusal> {
    let answer = granted(unsafe {
        cogalbin_prove(
            book.as_ptr(),
            book.len(),
            goal,
            work.as_mut_ptr(),
            work.len(),
            derivation.as_mut_ptr(),
            derivation.len(),
        )
    })?;
    Ok(Proved {
        reached: bits(answer, 8, 1) == 1,
        held: bits(answer, 9, 16),
        steps: bits(answer, 25, 16),
        bytes: (answer >> 41) as usize,
    })
}

pub fn check(book: &[u8], goal: u32, derivation: &[u8]) -> Result<(), Refusal> {
    let answer =
        granted(unsafe { cogalbin_check(book.as_ptr(), book.len(), goal, derivation.as_ptr(), derivation.len()) })?;
    assert_eq!(answer, 0, "more than 0 for an accepted derivation");
    Ok(())
}

pub fn text(book: &[u8], fact: &[u8], buffer: &mut [u8]) -> Result<usize, Refusal> {
    text_by(cogalbin_text, book, fact, buffer)
}

pub fn guest_text(book: &[u8], fact: &[u8], buffer: &mut [u8]) -> Result<usize, Refusal> {
    text_by(cogalbin_guest_text, book, fact, buffer)
}

fn text_by(call: TextCall, book: &[u8], fact: &[u8], buffer: &mut [u8]) -> Result<usize, Refusal> {
    let answer = granted(unsafe {
        call(book.as_ptr(), book.len(), fact.as_ptr(), fact.len(), buffer.as_mut_ptr(), buffer.len())
    })?;
    Ok((answer >> 8) as usize)
}

pub fn list(book: &[u8], table: &[u8], from: usize, buffer: &mut [u8]) -> Result<Piece, Refusal> {
    list_by(cogalbin_list, book, table, from, buffer)
}

pub fn guest_list(book: &[u8], table: &[u8], from: usize, buffer: &mut [u8]) -> Result<Piece, Refusal> {
    list_by(cogalbin_guest_list, book, table, from, buffer)
}

fn list_by(call: ListCall, book: &[u8], table: &[u8], from: usize, buffer: &mut [u8]) -> Result<Piece, Refusal> {
    let answer = granted(unsafe {
        call(book.as_ptr(), book.len(), table.as_ptr(), table.len(), from, buffer.as_mut_ptr(), buffer.len())
    })?;
    if bits(answer, 8, 1) == 1 {
        assert_eq!(answer, 256, "more than that it is over");
        return Ok(None);
    }
    Ok(Some(((answer >> 25) as usize, bits(answer, 9, 16))))
}

/// The length of the report, in bytes.
pub fn honesty(book: &[u8], report: &mut [u8]) -> Result<usize, Refusal> {
    let answer = granted(unsafe { cogalbin_honesty(book.as_ptr(), book.len(), report.as_mut_ptr(), report.len()) })?;
    Ok((answer >> 8) as usize)
}

/// The length of the sentence of a refusal's number.
pub fn reason(number: u32, buffer: &mut [u8]) -> Result<usize, Refusal> {
    let answer = granted(unsafe { cogalbin_reason(number, buffer.as_mut_ptr(), buffer.len()) })?;
    Ok((answer >> 8) as usize)
}
