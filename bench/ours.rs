//! Our functions, as safe Rust ones: what bench/timed.rattle hands out. A slice goes there as a pointer and a length.
use crate::ordinary::entries::{Entry, ReadEntry};
use crate::ordinary::phrases::Filled;
use crate::ordinary::reading::{Read, Step, Strict};
use crate::ordinary::writing::Written;

extern "C" {
    fn told_length_u64(v: u64) -> usize;
    fn told_length_u32(v: u32) -> usize;
    fn told_length_i64(v: i64) -> usize;
    fn timed_lengths(numbers: *const u64, n: usize) -> usize;

    fn timed_write_u64(v: u64, buffer: *mut u8, size: usize, at: usize) -> i64;
    fn told_write_u64_rec(v: u64, buffer: *mut u8, size: usize, at: usize) -> i64;
    fn told_write_u32(v: u32, buffer: *mut u8, size: usize, at: usize) -> i64;
    fn told_write_i64(v: i64, buffer: *mut u8, size: usize, at: usize) -> i64;
    fn timed_write_list(numbers: *const u64, n: usize, buffer: *mut u8, size: usize, at: usize) -> i64;

    fn told_read_u64(bytes: *const u8, n: usize, at: usize, told: *mut u64, size: usize);
    fn told_read_u64_rec(bytes: *const u8, n: usize, at: usize, told: *mut u64, size: usize);
    fn told_read_u32(bytes: *const u8, n: usize, at: usize, told: *mut u64, size: usize);
    fn told_read_i64(bytes: *const u8, n: usize, at: usize, told: *mut u64, size: usize);
    fn timed_reads_u64(bytes: *const u8, n: usize) -> u64;
    fn timed_reads_u64_rec(bytes: *const u8, n: usize) -> u64;
    fn timed_reads_u32(bytes: *const u8, n: usize) -> u64;
    fn timed_reads_i64(bytes: *const u8, n: usize) -> u64;

    fn told_step(block: *const u8, n: usize, at: usize, signed: bool, told: *mut u64, size: usize);
    fn timed_steps_unsigned(block: *const u8, n: usize) -> u64;
    fn timed_steps_signed(block: *const u8, n: usize) -> u64;

    fn told_set_down(block: *const u8, n: usize, at: usize) -> i64;
    fn told_read_strict(block: *const u8, n: usize, numbers: *mut u64, room: usize, told: *mut u64, size: usize);
    fn told_text_room() -> usize;
    fn told_lay_listing(block: *const u8, n: usize, text: *mut u8) -> usize;

    fn timed_read_phrase(numbers: *const u64, n: usize, sentences: *mut u64, room: usize) -> i64;

    fn told_read_entry(block: *const u8, n: usize, at: usize, told: *mut u64, size: usize);
    fn timed_reads_entry(block: *const u8, n: usize) -> u64;
    fn timed_write_entry(segment: u64, sentence: u64, turn: i64, buffer: *mut u8, size: usize, at: usize) -> i64;
}

/// A count or a place, or below zero a refusal.
fn decoded(answer: i64) -> Result<usize, u8> {
    if answer < 0 { Err(-answer as u8) } else { Ok(answer as usize) }
}

/// Which case an answer is, and what that carries.
fn told(tell: impl FnOnce(*mut u64, usize)) -> [u64; 5] {
    let mut told = [u64::MAX; 5];
    tell(told.as_mut_ptr(), told.len());
    told
}

// ---- lengths and writers

pub fn length_u64(v: u64) -> usize {
    unsafe { told_length_u64(v) }
}

pub fn length_u32(v: u32) -> usize {
    unsafe { told_length_u32(v) }
}

pub fn length_i64(v: i64) -> usize {
    unsafe { told_length_i64(v) }
}

pub fn lengths(numbers: &[u64]) -> usize {
    unsafe { timed_lengths(numbers.as_ptr(), numbers.len()) }
}

macro_rules! writer {
    ($name:ident, $number:ty, $export:ident) => {
        pub fn $name(v: $number, buffer: &mut [u8], at: usize) -> Written {
            decoded(unsafe { $export(v, buffer.as_mut_ptr(), buffer.len(), at) })
        }
    };
}

writer!(write_u64, u64, timed_write_u64);
writer!(write_u64_rec, u64, told_write_u64_rec);
writer!(write_u32, u32, told_write_u32);
writer!(write_i64, i64, told_write_i64);

pub fn write_list(numbers: &[u64], buffer: &mut [u8], at: usize) -> Written {
    decoded(unsafe { timed_write_list(numbers.as_ptr(), numbers.len(), buffer.as_mut_ptr(), buffer.len(), at) })
}

// ---- readers of single numbers: each gives the number's bits

macro_rules! reader {
    ($name:ident, $export:ident) => {
        pub fn $name(bytes: &[u8], at: usize) -> Read<u64> {
            match told(|told, size| unsafe { $export(bytes.as_ptr(), bytes.len(), at, told, size) }) {
                [0, v, count, ..] => Ok((v, count as usize)),
                [_, refusal, place, ..] => Err((refusal as u8, place as usize)),
            }
        }
    };
}

reader!(read_u64, told_read_u64);
reader!(read_u64_rec, told_read_u64_rec);
reader!(read_u32, told_read_u32);
reader!(read_i64, told_read_i64);

macro_rules! pass {
    ($name:ident, $export:ident) => {
        pub fn $name(bytes: &[u8]) -> u64 {
            unsafe { $export(bytes.as_ptr(), bytes.len()) }
        }
    };
}

pass!(reads_u64, timed_reads_u64);
pass!(reads_u64_rec, timed_reads_u64_rec);
pass!(reads_u32, timed_reads_u32);
pass!(reads_i64, timed_reads_i64);

// ---- blocks

pub fn step(block: &[u8], at: usize, signed: bool) -> Result<Step, u8> {
    let [case, a, b, c, d] = told(|told, size| unsafe { told_step(block.as_ptr(), block.len(), at, signed, told, size) });
    match case {
        0 => Ok(Step::Number(a, b as usize, c as usize)),
        1 => Ok(Step::Gap(a as u8, b as usize, c as usize, d as usize)),
        2 => Ok(Step::Tail(a as usize, b as usize)),
        3 => Ok(Step::Finished(a as usize)),
        _ => Err(a as u8),
    }
}

pass!(steps_unsigned, timed_steps_unsigned);
pass!(steps_signed, timed_steps_signed);

pub fn set_down(block: &[u8], at: usize) -> Result<usize, u8> {
    decoded(unsafe { told_set_down(block.as_ptr(), block.len(), at) })
}

pub fn read_strict(block: &[u8], numbers: &mut [u64]) -> Strict {
    let (to, room) = (numbers.as_mut_ptr(), numbers.len());
    match told(|told, size| unsafe { told_read_strict(block.as_ptr(), block.len(), to, room, told, size) }) {
        [0, count, ..] => Ok(count as usize),
        [1, refusal, place, ..] => Err((refusal as u8, Some(place as usize))),
        [_, refusal, ..] => Err((refusal as u8, None)),
    }
}

/// How many bytes of a text `lay_listing` has to be lent.
pub fn text_room() -> usize {
    unsafe { told_text_room() }
}

pub fn lay_listing(block: &[u8], text: &mut [u8]) -> usize {
    assert_eq!(text.len(), text_room());
    unsafe { told_lay_listing(block.as_ptr(), block.len(), text.as_mut_ptr()) }
}

// ---- phrases

pub fn read_phrase(numbers: &[u64], sentences: &mut [u64]) -> Filled {
    decoded(unsafe { timed_read_phrase(numbers.as_ptr(), numbers.len(), sentences.as_mut_ptr(), sentences.len()) })
}

// ---- entries

pub fn read_entry(block: &[u8], at: usize) -> ReadEntry {
    let [case, a, b, c, d] = told(|told, size| unsafe { told_read_entry(block.as_ptr(), block.len(), at, told, size) });
    match case {
        0 => ReadEntry::Good(Entry { segment: a, sentence: b, turn: c as i64 }, d as usize),
        1 => ReadEntry::Bad(a as u8, b as usize),
        _ => ReadEntry::Refused(a as u8),
    }
}

pass!(reads_entry, timed_reads_entry);

pub fn write_entry(entry: &Entry, buffer: &mut [u8], at: usize) -> Written {
    decoded(unsafe { timed_write_entry(entry.segment, entry.sentence, entry.turn, buffer.as_mut_ptr(), buffer.len(), at) })
}
