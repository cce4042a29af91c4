//! Ordinary readers and writers of entries.
use super::reading::{by_small, within};
use super::writing::{by_bits, put_by_index, room, Written};
use super::{ENTRY, NO_START};

/// What a good entry says.
#[derive(Clone, Copy, Debug, PartialEq)]
pub struct Entry {
    pub segment: u64,
    pub sentence: u64,
    pub turn: i64,
}

/// A good entry, or the refusal of a bad one, each with the place where it ends; or the refusal of the block or the place.
#[derive(Debug, PartialEq)]
pub enum ReadEntry {
    Good(Entry, usize),
    Bad(u8, usize),
    Refused(u8),
}

// ---- marks

pub const MARK: [u8; 2] = [0x80, 0];

#[inline(always)]
fn is_mark(block: &[u8], at: usize) -> bool {
    block[at] == MARK[0] && block.get(at + 1) == Some(&MARK[1]) && (at == 0 || block[at - 1] < 128)
}

/// The place of the next mark, or the block's end: byte after byte.
#[inline(always)]
fn next_mark(block: &[u8], from: usize) -> usize {
    (from..block.len()).find(|&at| is_mark(block, at)).unwrap_or(block.len())
}

/// The same, and 32 bytes are passed over at once if none of them is a mark's first.
#[inline(always)]
fn next_mark_by_chunks(block: &[u8], from: usize) -> usize {
    let mut at = from;
    for chunk in block[from..].chunks_exact(32) {
        if chunk.iter().fold(false, |any, &b| any | (b == MARK[0])) {
            if let Some(here) = (at..at + 32).find(|&at| is_mark(block, at)) {
                return here;
            }
        }
        at += 32;
    }
    next_mark(block, at)
}

// ---- reading

/// No entry may have such a turn.
#[inline(always)]
fn is_absurd(turn: i64) -> bool {
    !(-400..=400).contains(&turn)
}

/// What the bytes begin with, and how many it takes.
#[inline(always)]
fn numbers(bytes: &[u8]) -> Option<(Entry, usize)> {
    let (segment, first) = by_small(bytes, 0).ok()?;
    let (sentence, second) = by_small(bytes, first).ok()?;
    let (turn, third) = by_small(bytes, first + second).ok()?;
    if is_absurd(turn) {
        return None;
    }
    Some((Entry { segment, sentence, turn }, first + second + third))
}

/// The end first, then what stands before it.
#[inline(always)]
fn by_scan(block: &[u8], from: usize) -> ReadEntry {
    if let Err(refusal) = within(block, from) {
        return ReadEntry::Refused(refusal);
    }
    let at = next_mark(block, from);
    if at == block.len() {
        return ReadEntry::Refused(NO_START);
    }
    let first = at + MARK.len();
    let end = next_mark(block, first);
    match numbers(&block[first..end]) {
        Some((entry, n)) if first + n == end => ReadEntry::Good(entry, end),
        _ => ReadEntry::Bad(ENTRY, end),
    }
}

/// The numbers first: no mark stands inside of them. The end is looked for only where they don't end at a mark or with the block.
#[inline(always)]
fn numbers_first(block: &[u8], from: usize, next_mark: impl Fn(&[u8], usize) -> usize) -> ReadEntry {
    if let Err(refusal) = within(block, from) {
        return ReadEntry::Refused(refusal);
    }
    let at = next_mark(block, from);
    if at == block.len() {
        return ReadEntry::Refused(NO_START);
    }
    let rest = &block[at + MARK.len()..];
    if let Some((entry, n)) = numbers(rest) {
        let behind = &rest[n..];
        if behind.is_empty() || behind.starts_with(&MARK) {
            return ReadEntry::Good(entry, at + MARK.len() + n);
        }
    }
    ReadEntry::Bad(ENTRY, next_mark(block, at + MARK.len()))
}

#[inline(always)]
fn at_once(block: &[u8], from: usize) -> ReadEntry {
    numbers_first(block, from, next_mark)
}

#[inline(always)]
fn by_chunks(block: &[u8], from: usize) -> ReadEntry {
    numbers_first(block, from, next_mark_by_chunks)
}

/// A reader, and two passes from the front of a block until there is no mark: one that calls it for each entry, and one into which it is inlined.
/// A pass gives the exclusive or of all numbers, and of the places where bad entries end.
pub struct Reader {
    pub name: &'static str,
    pub read: fn(&[u8], usize) -> ReadEntry,
    pub called: fn(&[u8]) -> u64,
    pub inlined: fn(&[u8]) -> u64,
}

/// Reads entry after entry. It is no function, since a reader that is handed to one makes slower code.
macro_rules! reads {
    ($block:ident, $read:path) => {{
        let (mut at, mut sum) = (0, 0);
        loop {
            match $read($block, at) {
                ReadEntry::Good(entry, end) => {
                    sum ^= entry.segment ^ entry.sentence ^ entry.turn as u64;
                    at = end;
                }
                ReadEntry::Bad(_, end) => {
                    sum ^= end as u64;
                    at = end;
                }
                ReadEntry::Refused(_) => break sum,
            }
        }
    }};
}

macro_rules! reader {
    ($name:literal, $read:ident) => {{
        #[inline(never)]
        fn read(block: &[u8], at: usize) -> ReadEntry {
            $read(block, at)
        }
        #[inline(never)]
        fn called(block: &[u8]) -> u64 {
            reads!(block, read)
        }
        #[inline(never)]
        fn inlined(block: &[u8]) -> u64 {
            reads!(block, $read)
        }
        Reader { name: $name, read, called, inlined }
    }};
}

pub const READERS: &[Reader] = &[reader!("scan", by_scan), reader!("at once", at_once), reader!("chunks", by_chunks)];

// ---- writing: each is called as ours is, and not inlined

/// A signed number is as long as twice its magnitude is unsigned.
#[inline(always)]
fn signed_length(v: i64) -> usize {
    by_bits(((v ^ (v >> 63)) as u64) << 1)
}

/// Stores the signed number's bytes from the place on, and gives the place behind them.
#[inline(always)]
fn put_signed(v: i64, out: &mut [u8], at: usize) -> usize {
    let (mut rest, mut to) = (v, at);
    while !(-64..64).contains(&rest) {
        out[to] = rest as u8 | 128;
        rest >>= 7;
        to += 1;
    }
    out[to] = rest as u8 & 127;
    to + 1
}

/// Stores the entry's bytes at the front, and gives their count.
#[inline(always)]
fn put(entry: &Entry, out: &mut [u8]) -> usize {
    out[..MARK.len()].copy_from_slice(&MARK);
    let second = put_by_index(entry.segment, out, MARK.len());
    let third = put_by_index(entry.sentence, out, second);
    put_signed(entry.turn, out, third)
}

/// The lengths first, then byte after byte.
#[inline(never)]
pub fn write_by_lengths(entry: &Entry, buffer: &mut [u8], at: usize) -> Written {
    if is_absurd(entry.turn) {
        return Err(ENTRY);
    }
    let n = MARK.len() + by_bits(entry.segment) + by_bits(entry.sentence) + signed_length(entry.turn);
    Ok(put(entry, room(buffer, at, n)?))
}

/// Into an array with room for the longest entry, and from there if it fits.
#[inline(never)]
pub fn write_by_array(entry: &Entry, buffer: &mut [u8], at: usize) -> Written {
    if is_absurd(entry.turn) {
        return Err(ENTRY);
    }
    let mut bytes = [0; 24];
    let n = put(entry, &mut bytes);
    room(buffer, at, n)?.copy_from_slice(&bytes[..n]);
    Ok(n)
}
