//! Document 02's rules for entries opened by a mark, #102, and for their turns, #111.
//!
//!   MARK           the group that opens an entry
//!   HIGHEST_TURN, LOWEST_TURN   the last turns that pass
//!   is_absurd      whether a turn makes its entry bad
//!   Entry          segment, sentence and turn
//!   groups, bytes  the groups of an entry and its bytes, as the writer lays them
//!   Span, spans    where an entry begins and ends, good or not; all of a block, in order
//!   entry_of       what a span says, if it is good
//!   TURNS_OF_TWO, passes   the forms of the turns that pass, by their bytes
//!   spelled        what a span says, found out without groups and without the size of a turn
//!   EntryRefusal   a refusal of the reader, with the place where the entry ends or without
//!   read_entry, write_entry   the entry desk
//!
//! A block is cut into groups whole, the marks are picked out among them, an entry is what lies from
//! one to the next, and the least at or after the place is looked up last: it is held against a
//! program that goes from the place on and must not share a slip with it. `read_entry` stops the run
//! if the bytes around the place have another mark or another end, if the entry is good and no three
//! numbers with a turn out of a table of bytes are spelled so or the other way round, or if bytes
//! before its mark or behind the next one change the answer; `write_entry` if what it wrote is not
//! read back or a byte beside it is another, or if it refuses a turn and the reader would not.

use crate::blocks::{meaning, parts, test_7_and_4, Step};
use crate::numbers::{form, store, value, Refusal, Rule, ENTRY, NO_START};
use std::ops::RangeInclusive;
use Rule::*;

/// "The two bytes 80 00 are never a shortest form, so they shall open an entry."
pub const MARK: [u8; 2] = [0x80, 0x00];

/// Document 02, #111: "400 and -400 pass."
pub const HIGHEST_TURN: i64 = 400;
pub const LOWEST_TURN: i64 = -400;

/// "A turn above 400 or below -400 makes the entry of #102 bad."
fn is_absurd(turn: i64) -> bool {
    turn > HIGHEST_TURN || turn < LOWEST_TURN
}

#[derive(Clone, Copy, PartialEq)]
pub struct Entry {
    pub segment: u64,
    pub sentence: u64,
    pub turn: i64,
}

impl Entry {
    /// "Mark, segment (u64), sentence (u64), turn (i64)."
    pub fn groups(&self) -> [Vec<u8>; 4] {
        [
            MARK.to_vec(),
            form(U64, self.segment as i128),
            form(U64, self.sentence as i128),
            form(I64, self.turn as i128),
        ]
    }

    pub fn bytes(&self) -> Vec<u8> {
        self.groups().concat()
    }
}

/// From the place of a mark to the place where its entry ends.
#[derive(Clone, Copy)]
struct Span {
    mark: usize,
    end: usize,
}

/// "An entry runs to the next mark group, or to the end of the block."
fn spans(block: &[u8]) -> Vec<Span> {
    let all = parts(block);
    let marks = all.iter().filter(|part| part.bytes == MARK);
    let begins: Vec<usize> = marks.map(|part| part.place).collect();
    let ends = begins.iter().copied().skip(1).chain([block.len()]);
    let both = begins.iter().zip(ends);
    both.map(|(mark, end)| Span { mark: *mark, end }).collect()
}

/// "Good exactly when the three groups all read and nothing else is in it, no tail either"; since #111
/// no absurd turn either.
fn entry_of(block: &[u8], span: Span) -> Option<Entry> {
    let inside = &block[span.mark + MARK.len()..span.end];
    let number = |rule, part| match meaning(rule, inside, part) {
        Step::Number(v, _) => Some(v),
        _ => None,
    };
    let [segment, sentence, turn] = &parts(inside)[..] else {
        return None;
    };
    let entry = Entry {
        segment: number(U64, segment)? as u64,
        sentence: number(U64, sentence)? as u64,
        turn: number(I64, turn)? as i64,
    };
    (!is_absurd(entry.turn)).then_some(entry)
}

/// The last byte of a turn of two bytes that passes, and the first bytes that may stand before it,
/// worked out by hand: 400 is 3 times 128 and 16, and -400 is -4 times 128 and 112.
const TURNS_OF_TWO: [(u8, RangeInclusive<u8>); 8] = [
    (0x7c, 0xf0..=0xff), // -400 to -385
    (0x7d, 0x80..=0xff), // -384 to -257
    (0x7e, 0x80..=0xff), // -256 to -129
    (0x7f, 0x80..=0xbf), // -128 to -65
    (0x00, 0xc0..=0xff), // 64 to 127
    (0x01, 0x80..=0xff), // 128 to 255
    (0x02, 0x80..=0xff), // 256 to 383
    (0x03, 0x80..=0x90), // 384 to 400
];

/// Whether these bytes are the form of a turn that is not absurd: one byte, which is -64 to 63, or two.
fn passes(turn: &[u8]) -> bool {
    match turn {
        [only] => *only < 128,
        [first, last] => TURNS_OF_TWO
            .iter()
            .any(|(its_last, firsts)| its_last == last && firsts.contains(first)),
        _ => false,
    }
}

/// The entry whose bytes these are. They are cut in three behind the mark in every way that leaves no
/// piece above the most bytes; the pieces' values, written anew, are the same bytes or not, and the
/// third piece is a turn that passes or not.
fn spelled(bytes: &[u8]) -> Option<Entry> {
    let behind = bytes.strip_prefix(&MARK)?;
    let mut found = Vec::new();
    for first in 1..=U64.most() {
        for second in 1..=U64.most() {
            let rest = behind.len().saturating_sub(first + second);
            if rest < 1 || rest > I64.most() {
                continue;
            }
            let (one, others) = behind.split_at(first);
            let (two, three) = others.split_at(second);
            // Cut to 64 bits, a value too large is written otherwise than it was.
            let entry = Entry {
                segment: value(U64, one) as u64,
                sentence: value(U64, two) as u64,
                turn: value(I64, three) as i64,
            };
            if entry.bytes() == bytes && passes(three) {
                found.push(entry);
            }
        }
    }
    assert!(found.len() <= 1);
    found.pop()
}

/// "10, Entry", which "carries a place here", the one where the entry ends; 7, 4 and 8 carry none.
#[derive(PartialEq)]
pub enum EntryRefusal {
    Entry(usize),
    Other(Refusal),
}

/// "Tests 7, 4, then takes the least mark at or after its place (8 if none), and gives that entry, or
/// 10, each with the place where it ends."
pub fn read_entry(block: &[u8], place: u64) -> Result<(Entry, usize), EntryRefusal> {
    test_7_and_4(block, place).map_err(EntryRefusal::Other)?;
    let place = place as usize;
    let found = spans(block).into_iter().find(|span| span.mark >= place);
    check_span(block, place, found);
    let span = found.ok_or(EntryRefusal::Other(NO_START))?;
    let said = entry_of(block, span);
    check_said(block, span, said);
    said.map(|entry| (entry, span.end))
        .ok_or(EntryRefusal::Entry(span.end))
}

/// A group begins here, and 80 00 is all of it.
fn is_mark(block: &[u8], place: usize) -> bool {
    block[place..].starts_with(&MARK) && (place == 0 || block[place - 1] < 128)
}

/// Stops the run if, byte by byte, there is a mark sooner or none, or if the entry ends elsewhere.
fn check_span(block: &[u8], place: usize, found: Option<Span>) {
    let no_mark = |from: usize, to: usize| !(from..to).any(|place| is_mark(block, place));
    let Some(Span { mark, end }) = found else {
        assert!(no_mark(place, block.len()));
        return;
    };
    assert!(place <= mark && no_mark(place, mark) && is_mark(block, mark));
    assert!(mark < end && no_mark(mark + 1, end));
    assert!(end == block.len() || is_mark(block, end));
}

/// Stops the run if the bytes from the mark to the end are spelled otherwise, or if they and the mark
/// behind them say otherwise alone.
fn check_said(block: &[u8], span: Span, said: Option<Entry>) {
    let Span { mark, end } = span;
    assert!(said == spelled(&block[mark..end]));
    let with_next = (end + MARK.len()).min(block.len());
    let alone = &block[mark..with_next];
    let first = spans(alone)[0];
    assert!(first.mark == 0 && first.end == end - mark && entry_of(alone, first) == said);
}

/// "The writer tests only 5", and since #111 the turn as the reader does: "the writer tests it before
/// 5". Its 10 carries no place. Gives the count of bytes.
pub fn write_entry(entry: &Entry, buffer: &mut [u8], place: u64) -> Result<usize, Refusal> {
    let before = buffer.to_vec();
    let said = if is_absurd(entry.turn) {
        Err(ENTRY)
    } else {
        store(&entry.bytes(), buffer, place)
    };
    check_alike(entry, said == Err(ENTRY));
    match said {
        Ok(count) => check_written(entry, &before, buffer, place as usize, count),
        Err(_) => assert!(buffer == before),
    }
    said
}

/// "In reader and writer alike": stops the run if the bytes of an entry that the writer refuses by 10
/// are not, laid alone, read as 10 with their end, or if those of another, be there room or not, are.
fn check_alike(entry: &Entry, refused: bool) {
    let bytes = entry.bytes();
    let expected = if refused {
        Err(EntryRefusal::Entry(bytes.len()))
    } else {
        Ok((*entry, bytes.len()))
    };
    assert!(read_entry(&bytes, 0) == expected);
}

/// Stops the run if a byte beside the entry is another, or if "an entry written alone reads back" does
/// not hold of the bytes that are now there.
fn check_written(entry: &Entry, before: &[u8], after: &[u8], place: usize, count: usize) {
    let end = place + count;
    assert!(after[..place] == before[..place] && after[end..] == before[end..]);
    assert!(read_entry(&after[place..end], 0) == Ok((*entry, count)));
}
