//! Answers written down by hand from document 01, from document 02 (#101, #102, #104, #105, #108,
//! #110, #111) and from the examples of DWARF 5, so that no expected output rests on this program's
//! word alone.
//!
//!   READ, WRITE, LENGTH   the cases for numbers, each with its answer line
//!   BLOCK, LIST, TURN     those for blocks, lists and turns
//!   READ_PLACE, BLOCK_PLACE, LONG_PLACE   those for the byte that decided a refusal or a gap
//!   STRICT                those for strict reading that may be done in parts
//!   SLIP, SLIP_WRITE, QUESTION, SLIP_FRAME   those for setting slips
//!   PHRASE, PHRASE_FRAME, LIMIT_PHRASE, LONG_PHRASE   those for phrases inside phrases
//!   ENTRY, ENTRY_WRITE, ENTRY_FRAME, LIMIT_ENTRY, LONG_ENTRY   those for entries opened by a mark
//!   ENTRY_BLOCK, ENTRY_TEXT   what the plain step, strict reading and the listing say of a mark
//!   PLAIN_READ, PLAIN_WRITE, PLAIN_TURN   what is said of absurd turns where no entry is asked for
//!   put_limits            those with a block or list as long as it may be, or longer
//!   put_known             all of these as frames
//!   put_strict            those of STRICT as frames
//!   put_slips             those for setting slips as frames
//!   put_phrases           those for phrases inside phrases as frames
//!   put_entries           those for entries as frames
//!   put_long              those of the large run alone
//!   LISTING               the named inputs for the listing, each with its text
//!   TEXT                  other blocks, each with the text of its listing
//!   check                 whether this program gives every one of these answers

use crate::answers::answer;
use crate::frames::{frames, list, put, put_list, put_numbers};
use crate::listing;
use crate::numbers::GROWTH;
use std::fmt::Write as _;

/// (ops, place, bytes in hex, answer); of strict reading the size of the slice, and no place
type Read = (&'static [u8], u64, &'static str, &'static str);
/// (ops, place, so many fives, bytes behind them in hex, answer); of strict reading as above
type Long = (&'static [u8], u64, usize, &'static str, &'static str);
/// (ops, number, place, buffer in hex, answer)
type Write = (&'static [u8], i128, u64, &'static str, &'static str);
/// (ops, number, answer)
type Length = (&'static [u8], i128, &'static str);
/// (place, numbers, buffer in hex, answer)
type List = (u64, &'static [u64], &'static str, &'static str);
/// (thread codes, turn, answer)
type Turn = (&'static [u64], i128, &'static str);

/// (size of the slice, so many times these bytes in hex, so many times this text of the answer)
type Strict = (u64, &'static [Times], &'static [Times]);
type Times = (usize, &'static str);

/// (start, bytes in hex, answer)
type Slip = (u64, &'static str, &'static str);
/// (kind, place, bits in hex, buffer in hex, answer)
type SlipWrite = (u64, u64, &'static str, &'static str, &'static str);
/// (bits of torque, lowest, highest, answer)
type Question = (u32, u32, u32, &'static str);
/// (op, a, b, bytes in hex, answer)
type AnyFrame = (u8, u64, u64, &'static str, &'static str);

/// (size of the slice, numbers, answer); a `_` of the answer is a number as it was before
type Phrase = (u64, &'static [u64], &'static str);
/// (size of the slice, so many times these numbers, so many times this text of the answer)
type LongPhrase = (u64, &'static [(usize, &'static [u64])], &'static [Times]);

/// (place, bytes in hex, answer)
type Entry = (u64, &'static str, &'static str);
/// (place, segment, sentence, turn, buffer in hex, answer)
type EntryWrite = (u64, u64, u64, i64, &'static str, &'static str);
/// (place, so many times these bytes in hex, answer)
type LongEntry = (u64, &'static [Times], &'static str);

/// The 17 bytes of document 01's listing, and the same with the two bytes at 3 mended.
const DOCUMENT: &str = "00 80 01 80 00 ff ff ff ff ff ff ff ff ff 02 05 83";
const MENDED: &str = "00 80 01 07 ff ff ff ff ff ff ff ff ff 02 05 83";

const LARGEST: u64 = 18446744073709551615;

const TEN_80: &str = "80 80 80 80 80 80 80 80 80 80";

#[rustfmt::skip]
const READ: &[Read] = &[
    // "Bytes to try"
    (&[1, 2], 0, "00", "number 0 1"),
    (&[1, 2], 0, "7f", "number 127 1"),
    (&[1, 2], 0, "80 01", "number 128 2"),
    (&[1, 2], 0, "b9 64", "number 12857 2"),
    (&[1, 2], 0, "80 00", "refused 3 1"),
    (&[1, 2], 0, "80 80 80 80 80 80 80 80 80 01", "number 9223372036854775808 10"),
    (&[1, 2], 0, "ff ff ff ff ff ff ff ff ff 01", "number 18446744073709551615 10"),
    (&[1, 2], 0, "ff ff ff ff ff ff ff ff ff 02", "refused 2 9"),
    (&[1, 2], 0, "80 80 80 80 80 80 80 80 80 00", "refused 3 9"),
    (&[1, 2], 0, "80 80 80 80 80 80 80 80 80 80", "refused 2 9"),
    (&[1, 2], 0, "80 80 80 80 80 80 80 80 80", "refused 1 9"),
    (&[3], 0, "ff ff ff ff 0f", "number 4294967295 5"),
    (&[3], 0, "ff ff ff ff 10", "refused 2 4"),
    (&[4], 0, "7e", "number -2 1"),
    (&[4], 0, "ff 00", "number 127 2"),
    (&[4], 0, "80 7f", "number -128 2"),
    (&[4], 0, "80 80 80 80 80 80 80 80 80 7f", "number -9223372036854775808 10"),
    (&[4], 0, "ff ff ff ff ff ff ff ff ff 00", "number 9223372036854775807 10"),
    (&[4], 0, "ff 7f", "refused 3 1"),
    // DWARF 5, unsigned
    (&[1, 2, 3], 0, "02", "number 2 1"),
    (&[1, 2, 3], 0, "7f", "number 127 1"),
    (&[1, 2, 3], 0, "80 01", "number 128 2"),
    (&[1, 2, 3], 0, "81 01", "number 129 2"),
    (&[1, 2, 3], 0, "82 01", "number 130 2"),
    (&[1, 2, 3], 0, "b9 64", "number 12857 2"),
    // DWARF 5, signed
    (&[4], 0, "02", "number 2 1"),
    (&[4], 0, "7e", "number -2 1"),
    (&[4], 0, "ff 00", "number 127 2"),
    (&[4], 0, "81 7f", "number -127 2"),
    (&[4], 0, "80 01", "number 128 2"),
    (&[4], 0, "80 7f", "number -128 2"),
    (&[4], 0, "81 01", "number 129 2"),
    (&[4], 0, "ff 7e", "number -129 2"),
    // The rows of the table of refusals, at the widths that "Bytes to try" leaves out.
    (&[1, 2, 3, 4], 0, "", "refused 1 0"),
    (&[1, 2, 3, 4], 2, "01 02", "refused 1 2"),
    (&[1, 2, 3, 4], 3, "01 02", "refused 4 3"),
    (&[1, 2, 3, 4], 1, "", "refused 4 1"),
    (&[1, 2, 3, 4], 18446744073709551615, "01 02", "refused 4 18446744073709551615"),
    (&[3], 0, "80 80 80 80", "refused 1 4"),
    (&[3], 0, "80 80 80 80 80", "refused 2 4"),
    (&[3], 0, "80 80 80 80 00", "refused 3 4"),
    (&[3], 0, "80 80 80 80 0f", "number 4026531840 5"),
    (&[3], 0, "80 80 80 80 10", "refused 2 4"),
    (&[4], 0, "80 80 80 80 80 80 80 80 80", "refused 1 9"),
    (&[4], 0, "80 80 80 80 80 80 80 80 80 80", "refused 2 9"),
    (&[4], 0, "80 80 80 80 80 80 80 80 80 01", "refused 2 9"),
    (&[4], 0, "ff ff ff ff ff ff ff ff ff 7e", "refused 2 9"),
    (&[4], 0, "80 80 80 80 80 80 80 80 80 00", "refused 3 9"),
    (&[4], 0, "ff ff ff ff ff ff ff ff ff 7f", "refused 3 9"),
    // "Treating a signed 40 (hex) as 64; it is -64."
    (&[4], 0, "40", "number -64 1"),
    (&[4], 0, "c0 00", "number 64 2"),
    (&[4], 0, "c0 7f", "refused 3 1"),
    (&[4], 0, "bf 00", "refused 3 1"),
    (&[4], 0, "bf 7f", "number -65 2"),
    // "A number reader takes its start as given, in the middle of a group too."
    (&[1, 2, 3, 4], 1, "80 80 01", "number 128 2"),
    (&[1, 2, 3, 4], 2, "80 80 01", "number 1 1"),
    // "More bytes behind an accepted number change nothing."
    (&[1, 2, 3, 4], 0, "80 01 ff", "number 128 2"),
    (&[1, 2, 3, 4], 0, "05 00", "number 5 1"),
];

#[rustfmt::skip]
const WRITE: &[Write] = &[
    // "128 written at the last free byte: 5, buffer unchanged."
    (&[5, 6, 7, 8], 128, 2, "a5 5a 33", "refused 5 a55a33"),
    (&[5, 6, 7, 8], 128, 0, "33", "refused 5 33"),
    // DWARF 5, unsigned
    (&[5, 6, 7], 2, 0, "a5", "count 1 02"),
    (&[5, 6, 7], 127, 0, "a5", "count 1 7f"),
    (&[5, 6, 7], 128, 0, "a5 5a", "count 2 8001"),
    (&[5, 6, 7], 129, 0, "a5 5a", "count 2 8101"),
    (&[5, 6, 7], 130, 0, "a5 5a", "count 2 8201"),
    (&[5, 6, 7], 12857, 0, "a5 5a", "count 2 b964"),
    // DWARF 5, signed
    (&[8], 2, 0, "a5", "count 1 02"),
    (&[8], -2, 0, "a5", "count 1 7e"),
    (&[8], 127, 0, "a5 5a", "count 2 ff00"),
    (&[8], -127, 0, "a5 5a", "count 2 817f"),
    (&[8], 128, 0, "a5 5a", "count 2 8001"),
    (&[8], -128, 0, "a5 5a", "count 2 807f"),
    (&[8], 129, 0, "a5 5a", "count 2 8101"),
    (&[8], -129, 0, "a5 5a", "count 2 ff7e"),
    // The numbers of "Bytes to try" the other way, the largest and the smallest among them.
    (&[5, 6, 7, 8], 0, 0, "a5", "count 1 00"),
    (&[5, 6], 9223372036854775808, 0, "a5 5a 33 cc 96 69 0f f0 3c c3", "count 10 80808080808080808001"),
    (&[5, 6], 18446744073709551615, 0, "a5 5a 33 cc 96 69 0f f0 3c c3", "count 10 ffffffffffffffffff01"),
    (&[7], 4294967295, 0, "a5 5a 33 cc 96", "count 5 ffffffff0f"),
    (&[8], 9223372036854775807, 0, "a5 5a 33 cc 96 69 0f f0 3c c3", "count 10 ffffffffffffffffff00"),
    (&[8], -9223372036854775808, 0, "a5 5a 33 cc 96 69 0f f0 3c c3", "count 10 8080808080808080807f"),
    (&[8], 64, 0, "a5 5a", "count 2 c000"),
    (&[8], -64, 0, "a5 5a", "count 1 405a"),
    (&[8], -65, 0, "a5 5a", "count 2 bf7f"),
    // The count and not the end place; the bytes at the place and all else kept.
    (&[5, 6, 7, 8], 128, 2, "a5 5a 33 cc 96", "count 2 a55a800196"),
    (&[5, 6, 7, 8], 1, 4, "a5 5a 33 cc 96", "count 1 a55a33cc01"),
    // "A single write at a place past the end is 5."
    (&[5, 6, 7, 8], 1, 2, "a5 5a", "refused 5 a55a"),
    (&[5, 6, 7, 8], 1, 3, "a5 5a", "refused 5 a55a"),
    (&[5, 6, 7, 8], 1, 18446744073709551615, "a5 5a", "refused 5 a55a"),
    (&[5, 6, 7, 8], 1, 0, "", "refused 5 -"),
    // A number that a width does not have.
    (&[7], 4294967296, 0, "a5 5a 33 cc 96 69", "unknown"),
    (&[7], 4294967296, 0, "", "unknown"),
    (&[7], 18446744073709551615, 9, "a5", "unknown"),
];

#[rustfmt::skip]
const LENGTH: &[Length] = &[
    // Zero has a byte of its own.
    (&[9, 10, 11], 0, "count 1"),
    (&[9, 10], 127, "count 1"),
    (&[9, 10, 11], 128, "count 2"),
    (&[9], 18446744073709551615, "count 10"),
    (&[10], 4294967295, "count 5"),
    (&[10], 4294967296, "unknown"),
    (&[10], 18446744073709551615, "unknown"),
    (&[11], 63, "count 1"),
    (&[11], 64, "count 2"),
    (&[11], -1, "count 1"),
    (&[11], -64, "count 1"),
    (&[11], -65, "count 2"),
    (&[11], 9223372036854775807, "count 10"),
    (&[11], -9223372036854775808, "count 10"),
    // Ops that the table does not have.
    (&[0, 34, 255], 0, "unknown"),
];

#[rustfmt::skip]
const BLOCK: &[Read] = &[
    // The block of the listing, stepped through, and where no step may begin.
    (&[12, 13], 0, DOCUMENT, "number 0 1 1"),
    (&[12, 13], 1, DOCUMENT, "number 128 2 3"),
    (&[12, 13], 3, DOCUMENT, "gap 3 2 5 4"),
    (&[12, 13], 5, DOCUMENT, "gap 2 10 15 14"),
    (&[12, 13], 15, DOCUMENT, "number 5 1 16"),
    (&[12, 13], 16, DOCUMENT, "tail 1 16"),
    (&[12, 13], 17, DOCUMENT, "finished 17"),
    (&[12, 13], 2, DOCUMENT, "refused 6"),
    (&[12, 13], 14, DOCUMENT, "refused 6"),
    (&[12, 13], 18, DOCUMENT, "refused 4"),
    (&[12, 13], 18446744073709551615, DOCUMENT, "refused 4"),
    // "If the two bytes at 3 become the one byte 07, the 5 is found at place 14 and the tail at 15."
    (&[12, 13], 0, MENDED, "number 0 1 1"),
    (&[12, 13], 1, MENDED, "number 128 2 3"),
    (&[12, 13], 3, MENDED, "number 7 1 4"),
    (&[12, 13], 4, MENDED, "gap 2 10 14 13"),
    (&[12, 13], 14, MENDED, "number 5 1 15"),
    (&[12, 13], 15, MENDED, "tail 1 15"),
    (&[12, 13], 16, MENDED, "finished 16"),
    // Set-down there. The length is no start: the byte before it is 83.
    (&[14], 0, DOCUMENT, "start 0"),
    (&[14], 1, DOCUMENT, "start 1"),
    (&[14], 2, DOCUMENT, "start 3"),
    (&[14], 6, DOCUMENT, "start 15"),
    (&[14], 16, DOCUMENT, "start 16"),
    (&[14], 17, DOCUMENT, "refused 8"),
    (&[14], 18, DOCUMENT, "refused 4"),
    (&[14], 18446744073709551615, DOCUMENT, "refused 4"),
    // Strict reading there: "the first fault by place".
    (&[15], 0, DOCUMENT, "refused 3 4"),
    (&[15], 2, DOCUMENT, "refused 3 4 7777777777777777777 7777777777777777777"),
    (&[15], 1, MENDED, "refused 2 13 7777777777777777777"),
    // An empty block.
    (&[12, 13], 0, "", "finished 0"),
    (&[12, 13, 14], 1, "", "refused 4"),
    (&[14], 0, "", "start 0"),
    (&[15], 0, "", "count 0"),
    (&[15], 1, "", "count 0 7777777777777777777"),
    // A tail of ten bytes, alone and behind a group.
    (&[12, 13], 0, TEN_80, "tail 10 0"),
    (&[12, 13], 1, TEN_80, "refused 6"),
    (&[12, 13], 10, TEN_80, "finished 10"),
    (&[14], 0, TEN_80, "start 0"),
    (&[14], 1, TEN_80, "refused 8"),
    (&[14], 10, TEN_80, "refused 8"),
    (&[14], 11, TEN_80, "refused 4"),
    (&[15], 0, TEN_80, "refused 1 10"),
    (&[15], 1, TEN_80, "refused 1 10 7777777777777777777"),
    (&[12, 13], 1, "05 ff ff ff ff ff ff ff ff ff ff ff", "tail 11 1"),
    (&[14], 1, "05 ff ff ff ff ff ff ff ff ff ff ff", "start 1"),
    (&[14], 2, "05 ff ff ff ff ff ff ff ff ff ff ff", "refused 8"),
    (&[15], 1, "05 ff ff ff ff ff ff ff ff ff ff ff", "refused 1 12 7777777777777777777"),
    // "Skipping ten bytes after an overflow, and not through the group's end."
    (&[12, 13], 0, "80 80 80 80 80 80 80 80 80 80 01 06", "gap 2 11 11 9"),
    (&[12, 13], 0, "ff ff ff ff ff ff ff ff ff ff ff ff 7f 06", "gap 2 13 13 9"),
    (&[12, 13], 10, "80 80 80 80 80 80 80 80 80 80 01 06", "refused 6"),
    (&[12, 13], 11, "80 80 80 80 80 80 80 80 80 80 01 06", "number 6 1 12"),
    (&[14], 1, "80 80 80 80 80 80 80 80 80 80 01 06", "start 11"),
    (&[15], 1, "80 80 80 80 80 80 80 80 80 80 01 06", "refused 2 9 7777777777777777777"),
    // "By the rule the caller names for that step."
    (&[12], 0, "40", "number 64 1 1"),
    (&[13], 0, "40", "number -64 1 1"),
    (&[12], 0, "ff 00", "gap 3 2 2 1"),
    (&[13], 0, "ff 00", "number 127 2 2"),
    (&[12], 0, "ff 7f", "number 16383 2 2"),
    (&[13], 0, "ff 7f", "gap 3 2 2 1"),
    (&[12], 0, "80 80 80 80 80 80 80 80 80 01", "number 9223372036854775808 10 10"),
    (&[13], 0, "80 80 80 80 80 80 80 80 80 01", "gap 2 10 10 9"),
    (&[12], 0, "80 80 80 80 80 80 80 80 80 7f", "gap 2 10 10 9"),
    (&[13], 0, "80 80 80 80 80 80 80 80 80 7f", "number -9223372036854775808 10 10"),
    (&[12], 0, "ff ff ff ff ff ff ff ff ff 00", "gap 3 10 10 9"),
    (&[13], 0, "ff ff ff ff ff ff ff ff ff 00", "number 9223372036854775807 10 10"),
    (&[13], 0, "ff ff ff ff ff ff ff ff ff 7f", "gap 3 10 10 9"),
    // A block that ends with a group: its length is a start.
    (&[12, 13], 2, "80 01", "finished 2"),
    (&[14], 1, "80 01", "start 2"),
    (&[14], 2, "80 01", "start 2"),
    (&[14], 3, "80 01", "refused 4"),
    // Strict reading fills the front and leaves the rest; the first fault comes before 5.
    (&[15], 3, "00 80 01", "count 2 0 128 7777777777777777777"),
    (&[15], 2, "00 80 01", "count 2 0 128"),
    (&[15], 1, "00 80 01", "refused 5 7777777777777777777"),
    (&[15], 0, "00 80 01", "refused 5"),
    (&[15], 1, "01 02 80", "refused 1 3 7777777777777777777"),
    (&[15], 1, "01 02 80 00", "refused 3 3 7777777777777777777"),
    (&[15], 3, "01 80 00 80", "refused 3 2 7777777777777777777 7777777777777777777 7777777777777777777"),
    (&[15], 1, "ff ff ff ff ff ff ff ff ff 02 80 00", "refused 2 9 7777777777777777777"),
    (&[15], 1, "80 00 ff ff ff ff ff ff ff ff ff 02", "refused 3 1 7777777777777777777"),
    // What the list below wrote, read back.
    (&[15], 5, "00 7f 80 01 b9 64 ff ff ff ff ff ff ff ff ff 01", "count 5 0 127 128 12857 18446744073709551615"),
    // A slice that is not asked for.
    (&[15], 65537, "05", "unknown"),
    (&[15], 18446744073709551615, "", "unknown"),
];

/// Document 02, #108: "the place of the byte that decided it", read at a start and with other bytes
/// before it and behind.
#[rustfmt::skip]
const READ_PLACE: &[Read] = &[
    // "For 1 the end of the bytes", with no byte left, with one, with one less than the most.
    (&[1, 2, 3, 4], 2, "05 80", "refused 1 2"),
    (&[1, 2, 3, 4], 4, "80 80 01 00", "refused 1 4"),
    (&[1, 2, 3, 4], 2, "05 00 ff", "refused 1 3"),
    (&[1, 2, 3, 4], 3, "05 80 00 80 80", "refused 1 5"),
    (&[1, 2, 3, 4], 1, "80 80 80", "refused 1 3"),
    (&[1, 2, 4], 2, "05 00 ff ff ff ff ff ff ff ff ff", "refused 1 11"),
    (&[1, 2, 4], 1, "80 80 80 80 80 80 80 80 80 80", "refused 1 10"),
    (&[3], 2, "05 00 ff ff ff ff", "refused 1 6"),
    (&[3], 1, "80 80 80 80 80", "refused 1 5"),
    // "For 2 the byte at the greatest length": ten high bytes, eleven, and more with an end.
    (&[1, 2, 4], 0, "ff ff ff ff ff ff ff ff ff ff", "refused 2 9"),
    (&[1, 2, 4], 0, "80 80 80 80 80 80 80 80 80 80 80", "refused 2 9"),
    (&[1, 2, 4], 0, "80 80 80 80 80 80 80 80 80 80 00", "refused 2 9"),
    (&[1, 2, 4], 0, "ff ff ff ff ff ff ff ff ff ff ff ff 7f 05", "refused 2 9"),
    (&[1, 2, 4], 2, "05 00 80 80 80 80 80 80 80 80 80 80", "refused 2 11"),
    (&[1, 2, 4], 2, "05 80 ff ff ff ff ff ff ff ff ff ff ff", "refused 2 11"),
    (&[1, 2, 4], 3, "80 80 01 80 80 80 80 80 80 80 80 80 80 01 05", "refused 2 12"),
    (&[1, 2, 4], 1, "80 ff ff ff ff ff ff ff ff ff ff ff ff ff 00 05 06", "refused 2 10"),
    // A last byte that is not allowed.
    (&[1, 2], 0, "80 80 80 80 80 80 80 80 80 02 05", "refused 2 9"),
    (&[1, 2], 2, "05 00 ff ff ff ff ff ff ff ff ff 02 80 00", "refused 2 11"),
    (&[1, 2], 3, "05 80 01 80 80 80 80 80 80 80 80 80 7f 05", "refused 2 12"),
    (&[4], 3, "80 80 01 80 80 80 80 80 80 80 80 80 01 05", "refused 2 12"),
    (&[4], 1, "80 ff ff ff ff ff ff ff ff ff 7e 7f", "refused 2 10"),
    (&[4], 2, "05 06 ff ff ff ff ff ff ff ff ff 40 80", "refused 2 11"),
    // 32 bits: the fifth byte, however many high ones follow.
    (&[3], 0, "80 80 80 80 80 00", "refused 2 4"),
    (&[3], 0, "ff ff ff ff ff ff ff ff ff 01", "refused 2 4"),
    (&[3], 0, "80 80 80 80 80 80 80 80 80 80 80", "refused 2 4"),
    (&[3], 1, "80 ff ff ff ff ff ff ff ff ff 01", "refused 2 5"),
    (&[3], 2, "05 00 80 80 80 80 80", "refused 2 6"),
    (&[3], 2, "05 00 80 80 80 80 80 80 01", "refused 2 6"),
    (&[3], 2, "05 80 80 80 80 80 80 80 80 80 80 80 80", "refused 2 6"),
    (&[3], 2, "05 00 ff ff ff ff 10 80 00", "refused 2 6"),
    (&[3], 3, "00 00 00 80 80 80 80 7f 00", "refused 2 7"),
    // "For 3 the last byte", and not the last of all.
    (&[1, 2, 3, 4], 0, "80 00 05", "refused 3 1"),
    (&[1, 2, 3, 4], 1, "80 80 00", "refused 3 2"),
    (&[1, 2, 3, 4], 2, "05 80 80 00 80 05", "refused 3 3"),
    (&[1, 2, 3, 4], 1, "00 80 80 80 00 00 81", "refused 3 4"),
    (&[1, 2, 3], 2, "05 06 ff ff 00 00", "refused 3 4"),
    (&[4], 2, "7f ff ff ff 7f 7f", "refused 3 4"),
    (&[4], 1, "05 c0 7f 00", "refused 3 2"),
    (&[4], 1, "05 bf 00 80", "refused 3 2"),
    (&[1, 2, 4], 0, "80 80 80 80 80 80 80 80 00 05", "refused 3 8"),
    (&[3], 0, "80 80 80 80 80 80 80 80 00 05", "refused 2 4"),
    // There it stands at the greatest length.
    (&[1, 2, 4], 2, "05 00 80 80 80 80 80 80 80 80 80 00 80 01", "refused 3 11"),
    (&[1, 2], 1, "80 ff ff ff ff ff ff ff ff ff 00 00", "refused 3 10"),
    (&[4], 1, "80 ff ff ff ff ff ff ff ff ff 7f 7f", "refused 3 10"),
    (&[3], 2, "05 00 80 80 80 80 00 05", "refused 3 6"),
    (&[3], 1, "80 ff ff ff ff 00 00", "refused 3 5"),
    // "For 4 the start asked": one more than the length, and others up to the largest place.
    (&[1, 2, 3, 4], 4, "05 80 00", "refused 4 4"),
    (&[1, 2, 3, 4], 3, "80 80", "refused 4 3"),
    (&[1, 2, 3, 4], 9, "80 80 01", "refused 4 9"),
    (&[1, 2, 3, 4], 65536, "05 80 00", "refused 4 65536"),
    (&[1, 2, 3, 4], 4294967297, "05 80 00", "refused 4 4294967297"),
    (&[1, 2, 3, 4], 9223372036854775808, "05 80 00", "refused 4 9223372036854775808"),
    (&[1, 2, 3, 4], 18446744073709551614, "05 80 00", "refused 4 18446744073709551614"),
    (&[1, 2, 3, 4], 18446744073709551615, "80 80 01", "refused 4 18446744073709551615"),
    (&[1, 2, 3, 4], 18446744073709551615, "", "refused 4 18446744073709551615"),
];

/// Document 02, #108: "Gaps carry it too", and strict reading "passes it on for 2 and 3; for a tail
/// it gives the block's end".
#[rustfmt::skip]
const BLOCK_PLACE: &[Read] = &[
    // Steps: 3 behind other groups, by both rules and by one alone.
    (&[12, 13], 0, "80 00 05 80 00", "gap 3 2 2 1"),
    (&[12, 13], 3, "80 00 05 80 00", "gap 3 2 5 4"),
    (&[12, 13], 3, "05 80 01 80 80 00 06", "gap 3 3 6 5"),
    (&[12, 13], 1, "05 80 80 80 80 80 80 80 80 80 00 06", "gap 3 10 11 10"),
    (&[12], 1, "05 ff ff 00 80", "gap 3 3 4 3"),
    (&[13], 1, "05 ff ff 00 80", "number 16383 3 4"),
    (&[12], 2, "05 06 ff 7f 80", "number 16383 2 4"),
    (&[13], 2, "05 06 ff 7f 80", "gap 3 2 4 3"),
    (&[12], 1, "05 ff ff ff ff ff ff ff ff ff 00 06", "gap 3 10 11 10"),
    (&[13], 1, "05 ff ff ff ff ff ff ff ff ff 7f 06", "gap 3 10 11 10"),
    // 2 behind other groups: in ten bytes, and in more, where it is not the group's last byte.
    (&[12, 13], 1, "05 ff ff ff ff ff ff ff ff ff 02 06", "gap 2 10 11 10"),
    (&[12], 3, "05 80 01 80 80 80 80 80 80 80 80 80 7f 06", "gap 2 10 13 12"),
    (&[13], 3, "05 80 01 80 80 80 80 80 80 80 80 80 01 06", "gap 2 10 13 12"),
    (&[12, 13], 1, "05 ff ff ff ff ff ff ff ff ff ff 00", "gap 2 11 12 10"),
    (&[12, 13], 2, "05 06 80 80 80 80 80 80 80 80 80 80 80 80 01 07", "gap 2 13 15 11"),
    (&[12, 13], 0, "80 80 80 80 80 80 80 80 80 80 01 80 80 80 80 80 80 80 80 80 80 80 7f 05", "gap 2 11 11 9"),
    (&[12, 13], 11, "80 80 80 80 80 80 80 80 80 80 01 80 80 80 80 80 80 80 80 80 80 80 7f 05", "gap 2 12 23 20"),
    // A step's own refusals and set-down's have no place, there or elsewhere.
    (&[12, 13], 4, "05 80 01 80 80 00 06", "refused 6"),
    (&[12, 13], 5, "05 80 01 80 80 00 06", "refused 6"),
    (&[12, 13, 14], 8, "05 80 01 80 80 00 06", "refused 4"),
    (&[12, 13, 14], 18446744073709551615, "05 80 01 80 80 00 06", "refused 4"),
    (&[14], 2, "05 80 80", "refused 8"),
    // Strict reading: a fault in the first group.
    (&[15], 2, "80 00 05", "refused 3 1 7777777777777777777 7777777777777777777"),
    (&[15], 0, "80 80 00", "refused 3 2"),
    (&[15], 0, "80 80 80 80 80 80 80 80 80 00", "refused 3 9"),
    (&[15], 0, "ff ff ff ff ff ff ff ff ff 02 05", "refused 2 9"),
    (&[15], 1, "80 80 80 80 80 80 80 80 80 80 80 80 80 80 05", "refused 2 9 7777777777777777777"),
    // In a later one, and in the last.
    (&[15], 1, "05 80 01 06 80 80 00 07", "refused 3 6 7777777777777777777"),
    (&[15], 1, "05 80 80 80 80 80 80 80 80 80 00 06", "refused 3 10 7777777777777777777"),
    (&[15], 1, "05 80 01 ff ff ff ff ff ff ff ff ff 02 06", "refused 2 12 7777777777777777777"),
    (&[15], 1, "05 80 01 80 80 80 80 80 80 80 80 80 80 80 00 06", "refused 2 12 7777777777777777777"),
    (&[15], 0, "05 06 80 00", "refused 3 3"),
    (&[15], 0, "05 06 ff ff ff ff ff ff ff ff ff ff ff 7f", "refused 2 11"),
    // Two of them: "the first fault by place".
    (&[15], 0, "05 80 00 ff ff ff ff ff ff ff ff ff 02", "refused 3 2"),
    (&[15], 0, "05 ff ff ff ff ff ff ff ff ff ff 02 80 00", "refused 2 10"),
    (&[15], 0, "05 80 80 00 06 80 00", "refused 3 3"),
    // A gap before a tail.
    (&[15], 0, "80 00 80", "refused 3 1"),
    (&[15], 0, "05 80 80 00 ff ff", "refused 3 3"),
    (&[15], 0, "05 80 80 80 80 80 80 80 80 80 80 01 80 80 80 80 80 80 80 80 80 80", "refused 2 10"),
    // A tail alone.
    (&[15], 1, "80", "refused 1 1 7777777777777777777"),
    (&[15], 0, "ff ff ff", "refused 1 3"),
    (&[15], 0, "80 80 80 80 80 80 80 80 80", "refused 1 9"),
    (&[15], 0, "ff ff ff ff ff ff ff ff ff ff", "refused 1 10"),
    (&[15], 0, "80 80 80 80 80 80 80 80 80 80 80 80 80", "refused 1 13"),
    // A tail behind numbers.
    (&[15], 1, "05 80 01 80", "refused 1 4 7777777777777777777"),
    (&[15], 1, "05 ff ff ff ff ff ff ff ff ff", "refused 1 10 7777777777777777777"),
    (&[15], 1, "05 80 80 80 80 80 80 80 80 80 80", "refused 1 11 7777777777777777777"),
    (&[15], 1, "05 06 ff ff ff ff ff ff ff ff ff ff ff ff", "refused 1 14 7777777777777777777"),
    // "Other refusals stay": 5 has no place.
    (&[15], 1, "05 06", "refused 5 7777777777777777777"),
    (&[15], 1, "80 01 80 80 01 06", "refused 5 7777777777777777777"),
    (&[15], 0, "80 80 80 80 80 80 80 80 80 01", "refused 5"),
];

#[rustfmt::skip]
const LONG_PLACE: &[Long] = &[
    // Blocks of the most bytes: gaps and tails at their end.
    (&[12, 13], 65534, 65534, "80 00", "gap 3 2 65536 65535"),
    (&[12, 13], 65526, 65526, "ff ff ff ff ff ff ff ff ff 02", "gap 2 10 65536 65535"),
    (&[12, 13], 65524, 65524, "80 80 80 80 80 80 80 80 80 80 80 01", "gap 2 12 65536 65533"),
    (&[15], 0, 65534, "80 00", "refused 3 65535"),
    (&[15], 0, 65526, "ff ff ff ff ff ff ff ff ff 02", "refused 2 65535"),
    (&[15], 0, 65524, "80 80 80 80 80 80 80 80 80 80 80 01", "refused 2 65533"),
    (&[15], 0, 65535, "80", "refused 1 65536"),
    (&[15], 0, 65524, "ff ff ff ff ff ff ff ff ff ff ff ff", "refused 1 65536"),
    // 5 and 7 have no place there.
    (&[15], 0, 65536, "", "refused 5"),
    (&[15], 0, 65536, "80", "refused 7"),
    (&[15], 0, 65535, "80 00", "refused 7"),
    // A number that begins where the longest block ends.
    (&[1, 2, 3, 4], 65536, 65536, "", "refused 1 65536"),
    (&[1, 2, 3, 4], 65536, 65536, "80 80 80 80", "refused 1 65540"),
    (&[1, 2, 4], 65536, 65536, "80 80 80 80 80 80 80 80 80 80 80 80", "refused 2 65545"),
    (&[3], 65536, 65536, "80 80 80 80 80 80 80 80 80 80 80 80", "refused 2 65540"),
    (&[1, 2, 3, 4], 65536, 65536, "80 00 05", "refused 3 65537"),
    (&[1, 2, 3, 4], 65538, 65537, "", "refused 4 65538"),
    // The most bytes that a frame may have.
    (&[1, 2, 3, 4], 299999, 299999, "80", "refused 1 300000"),
    (&[1, 2, 4], 299990, 299990, "ff ff ff ff ff ff ff ff ff ff", "refused 2 299999"),
    (&[3], 299990, 299990, "ff ff ff ff ff ff ff ff ff ff", "refused 2 299994"),
];

/// A number of a slice that is as it was before.
const LEFT: &str = " 7777777777777777777";

#[rustfmt::skip]
const STRICT: &[Strict] = &[
    // Eight bytes and one more, with room for all and for eight.
    (9, &[(1, "00 01 02 03 04 05 06 07 7f")], &[(1, "count 9 0 1 2 3 4 5 6 7 127")]),
    (8, &[(1, "00 01 02 03 04 05 06 07 7f")], &[(1, "refused 5"), (8, LEFT)]),
    // A number of ten bytes across place 8: 1 + 2^63.
    (10, &[(1, "01 02 03 04 05 06 07 81"), (8, "80"), (1, "01 05")], &[(1, "count 9 1 2 3 4 5 6 7 9223372036854775809 5"), (1, LEFT)]),
    // The weight of each byte: 1 + 2 * 2^7 + 3 * 2^14 and so on up to 9 * 2^56; and 2^63 besides.
    (2, &[(1, "05 81 82 83 84 85 86 87 88 09")], &[(1, "count 2 5 653052939803345153")]),
    (1, &[(1, "81 82 83 84 85 86 87 88 89 01")], &[(1, "count 1 9876424976658120961")]),
    // A bit alone: 2^6, 2^13, 2^20, 2^62, 2^63.
    (5, &[(1, "40 80 40 80 80 40"), (8, "80"), (1, "40"), (9, "80"), (1, "01")], &[(1, "count 5 64 8192 1048576 4611686018427387904 9223372036854775808")]),
    // Nine bytes with each last byte: 2^56, 2 * 2^56, 2^63 - 1; and ten.
    (1, &[(8, "80"), (1, "00")], &[(1, "refused 3 8"), (1, LEFT)]),
    (3, &[(8, "80"), (1, "01"), (8, "80"), (1, "02"), (8, "ff"), (1, "7f")], &[(1, "count 3 72057594037927936 144115188075855872 9223372036854775807")]),
    (1, &[(9, "80"), (1, "7f")], &[(1, "refused 2 9"), (1, LEFT)]),
    // Halves that differ, in both orders.
    (12, &[(10, "05"), (9, "ff"), (1, "01")], &[(1, "count 11"), (10, " 5"), (1, " 18446744073709551615"), (1, LEFT)]),
    (11, &[(9, "ff"), (1, "01"), (10, "05")], &[(1, "count 11 18446744073709551615"), (10, " 5")]),
    (10, &[(9, "ff"), (1, "01"), (10, "05")], &[(1, "refused 5"), (10, LEFT)]),
    // A fault in each half: "the first fault by place", before 5. Then one at the end alone.
    (0, &[(20, "05"), (1, "80 00"), (20, "05"), (9, "ff"), (1, "02")], &[(1, "refused 3 21")]),
    (2, &[(20, "05"), (9, "80"), (1, "02"), (20, "05"), (1, "80 00 80")], &[(1, "refused 2 29"), (2, LEFT)]),
    (41, &[(40, "05"), (1, "ff 80 00")], &[(1, "refused 3 42"), (41, LEFT)]),
    (17, &[(17, "05"), (12, "80")], &[(1, "refused 1 29"), (17, LEFT)]),
    // A group that is the whole block, and one that is half of it.
    (1, &[(127, "80"), (1, "01")], &[(1, "refused 2 9"), (1, LEFT)]),
    (1, &[(128, "05"), (127, "ff"), (1, "00")], &[(1, "refused 2 137"), (1, LEFT)]),
    // More numbers than a byte counts, and than a slice of 256 holds.
    (277, &[(257, "80 01")], &[(1, "count 257"), (257, " 128"), (20, LEFT)]),
    (256, &[(257, "05")], &[(1, "refused 5"), (256, LEFT)]),
];

/// Document 02, #104, in the order of its sentences.
#[rustfmt::skip]
const SLIP: &[Slip] = &[
    // "Kind 0 has no body, 1 is a torque (4 bytes), 2 an angle (4), 3 a lowest and a highest torque
    // (8)": 1; 1; 10 and 20.
    (0, "00", "nothing 1"),
    (0, "01 00 00 80 3f", "torque 1065353216 5"),
    (0, "02 00 00 80 3f", "angle 1065353216 5"),
    (0, "03 00 00 20 41 00 00 a0 41", "range 1092616192 1101004800 9"),
    // "Low byte first": 1 * 2^24 + 2 * 2^16 + 3 * 2^8 + 4, and 44332211 in hex.
    (0, "01 04 03 02 01", "torque 16909060 5"),
    (0, "02 11 22 33 44", "angle 1144201745 5"),
    (0, "03 04 03 02 01 11 22 33 44", "range 16909060 1144201745 9"),
    // 4 is first: before 1, where no byte is, and before 11, where none is that could be a kind.
    (1, "", "refused 4"),
    (2, "00", "refused 4"),
    (2, "04", "refused 4"),
    (6, "01 00 00 80 3f", "refused 4"),
    (4294967296, "00", "refused 4"),
    (9223372036854775808, "00", "refused 4"),
    (18446744073709551615, "00", "refused 4"),
    (18446744073709551615, "", "refused 4"),
    // "No byte from the start is 1."
    (0, "", "refused 1"),
    (1, "00", "refused 1"),
    (1, "04", "refused 1"),
    (5, "01 00 00 80 3f", "refused 1"),
    // "An unknown kind is 11", with nothing behind it and with what would be a body.
    (0, "04", "refused 11"),
    (0, "80", "refused 11"),
    (0, "ff", "refused 11"),
    (1, "00 05", "refused 11"),
    (0, "04 00 00 80 3f", "refused 11"),
    (0, "ff 00 00 80 3f 00 00 80 3f", "refused 11"),
    // "A short body is 1", also behind other bytes.
    (0, "01", "refused 1"),
    (0, "01 00 00 80", "refused 1"),
    (0, "02", "refused 1"),
    (0, "02 00 00 80", "refused 1"),
    (0, "03", "refused 1"),
    (0, "03 00 00 80 3f", "refused 1"),
    (0, "03 00 00 20 41 00 00 a0", "refused 1"),
    (4, "00 00 00 00 01 00 00 80", "refused 1"),
    // Before 11: the bytes that are there are an infinity's, a not-a-number's, minus zero's, or those
    // of a torque below zero.
    (0, "01 ff ff ff", "refused 1"),
    (0, "03 00 00 80 7f", "refused 1"),
    (0, "03 00 00 c0 7f 00 00 80", "refused 1"),
    (0, "03 00 00 00 80 00 00 00", "refused 1"),
    (0, "03 00 00 80 bf 00 00 80", "refused 1"),
    // "An infinity."
    (0, "01 00 00 80 7f", "refused 11"),
    (0, "01 00 00 80 ff", "refused 11"),
    (0, "02 00 00 80 7f", "refused 11"),
    (0, "02 00 00 80 ff", "refused 11"),
    (0, "03 00 00 80 7f 00 00 80 7f", "refused 11"),
    (0, "03 00 00 20 41 00 00 80 7f", "refused 11"),
    (0, "03 00 00 80 ff 00 00 20 41", "refused 11"),
    // "Or not-a-number", signalling or quiet, the first and the last of each.
    (0, "01 01 00 80 7f", "refused 11"),
    (0, "01 ff ff bf 7f", "refused 11"),
    (0, "01 00 00 c0 7f", "refused 11"),
    (0, "01 ff ff ff 7f", "refused 11"),
    (0, "02 01 00 80 7f", "refused 11"),
    (0, "02 00 00 c0 7f", "refused 11"),
    (0, "02 01 00 80 ff", "refused 11"),
    (0, "02 ff ff bf ff", "refused 11"),
    (0, "02 00 00 c0 ff", "refused 11"),
    (0, "02 ff ff ff ff", "refused 11"),
    (0, "03 01 00 80 7f 00 00 a0 41", "refused 11"),
    (0, "03 00 00 20 41 00 00 c0 7f", "refused 11"),
    (0, "03 00 00 c0 ff 00 00 c0 ff", "refused 11"),
    // "For minus zero." Zero is good.
    (0, "01 00 00 00 80", "refused 11"),
    (0, "02 00 00 00 80", "refused 11"),
    (0, "03 00 00 00 80 00 00 20 41", "refused 11"),
    (0, "03 00 00 00 00 00 00 00 80", "refused 11"),
    (0, "03 00 00 00 80 00 00 00 80", "refused 11"),
    (0, "01 00 00 00 00", "torque 0 5"),
    (0, "02 00 00 00 00", "angle 0 5"),
    (0, "03 00 00 00 00 00 00 00 00", "range 0 0 9"),
    // "For a torque below zero": -1, the least in size and the greatest, and a range of such.
    (0, "01 00 00 80 bf", "refused 11"),
    (0, "01 01 00 00 80", "refused 11"),
    (0, "01 ff ff 7f ff", "refused 11"),
    (0, "03 00 00 80 bf 00 00 80 3f", "refused 11"),
    (0, "03 00 00 a0 c1 00 00 20 c1", "refused 11"),
    (0, "03 00 00 00 00 01 00 00 80", "refused 11"),
    // "An angle may be negative": -90, the least in size and the greatest.
    (0, "02 00 00 b4 c2", "angle 3266576384 5"),
    (0, "02 01 00 00 80", "angle 2147483649 5"),
    (0, "02 ff ff 7f ff", "angle 4286578687 5"),
    // The least subnormal, the greatest, the least that is none, the greatest of all.
    (0, "01 01 00 00 00", "torque 1 5"),
    (0, "01 ff ff 7f 00", "torque 8388607 5"),
    (0, "01 00 00 80 00", "torque 8388608 5"),
    (0, "01 ff ff 7f 7f", "torque 2139095039 5"),
    (0, "02 ff ff 7f 7f", "angle 2139095039 5"),
    (0, "03 01 00 00 00 ff ff 7f 7f", "range 1 2139095039 9"),
    // "For a lowest above the highest. Equal ends are good."
    (0, "03 00 00 a0 41 00 00 20 41", "refused 11"),
    (0, "03 01 00 80 3f 00 00 80 3f", "refused 11"),
    (0, "03 00 00 80 3f ff ff 7f 3f", "refused 11"),
    (0, "03 01 00 00 00 00 00 00 00", "refused 11"),
    (0, "03 00 00 80 3f 00 00 80 3f", "range 1065353216 1065353216 9"),
    (0, "03 00 00 80 3f 01 00 80 3f", "range 1065353216 1065353217 9"),
    (0, "03 ff ff 7f 3f 00 00 80 3f", "range 1065353215 1065353216 9"),
    // "Bytes behind a body are not looked at."
    (0, "00 ff", "nothing 1"),
    (0, "01 00 00 80 3f 00 00 80 7f", "torque 1065353216 5"),
    (0, "02 00 00 80 3f 04", "angle 1065353216 5"),
    (0, "03 00 00 80 3f 00 00 80 3f 00 00 00 80", "range 1065353216 1065353216 9"),
    (0, "01 00 00 80 7f 00", "refused 11"),
    // Other starts: bytes in front that are no slip, or a bad one; in the middle of a body.
    (1, "04 01 00 00 80 3f", "torque 1065353216 5"),
    (5, "01 00 00 80 7f 00", "nothing 1"),
    (2, "03 00 01 00 00 80 3f 00 00", "torque 1065353216 5"),
    (5, "01 00 00 80 3f 03 00 00 a0 41 00 00 20 41", "refused 11"),
];

/// "The writer tests 11 by the same rules, then 5, and changes nothing when it refuses."
#[rustfmt::skip]
const SLIP_WRITE: &[SlipWrite] = &[
    // Each kind, in just enough room.
    (0, 0, "", "a5", "count 1 00"),
    (1, 0, "00 00 80 3f", "a5 5a 33 cc 96", "count 5 010000803f"),
    (2, 0, "00 00 b4 c2", "a5 5a 33 cc 96", "count 5 020000b4c2"),
    (3, 0, "00 00 20 41 00 00 a0 41", "a5 5a 33 cc 96 69 0f f0 3c", "count 9 03000020410000a041"),
    // Low byte first; the count and not the end place; the bytes before and behind kept.
    (0, 2, "", "a5 5a 33 cc", "count 1 a55a00cc"),
    (1, 2, "04 03 02 01", "a5 5a 33 cc 96 69 0f f0", "count 5 a55a0104030201f0"),
    (2, 1, "11 22 33 44", "a5 5a 33 cc 96 69 0f f0", "count 5 a502112233440ff0"),
    (3, 1, "04 03 02 01 11 22 33 44", "a5 5a 33 cc 96 69 0f f0 3c c3 a5", "count 9 a5030403020111223344a5"),
    // Zero, the greatest, an angle of the least size below zero, equal ends.
    (1, 0, "00 00 00 00", "a5 5a 33 cc 96", "count 5 0100000000"),
    (1, 0, "ff ff 7f 7f", "a5 5a 33 cc 96", "count 5 01ffff7f7f"),
    (2, 0, "01 00 00 80", "a5 5a 33 cc 96", "count 5 0201000080"),
    (3, 0, "00 00 80 3f 00 00 80 3f", "a5 5a 33 cc 96 69 0f f0 3c", "count 9 030000803f0000803f"),
    // 5: the last place that fits and the one behind it, one byte too few, none.
    (1, 1, "00 00 80 3f", "a5 5a 33 cc 96 69", "count 5 a5010000803f"),
    (1, 2, "00 00 80 3f", "a5 5a 33 cc 96 69", "refused 5 a55a33cc9669"),
    (2, 0, "00 00 80 3f", "a5 5a 33 cc", "refused 5 a55a33cc"),
    (3, 0, "00 00 20 41 00 00 a0 41", "a5 5a 33 cc 96 69 0f f0", "refused 5 a55a33cc96690ff0"),
    (0, 0, "", "", "refused 5 -"),
    (3, 0, "00 00 20 41 00 00 a0 41", "", "refused 5 -"),
    // A place at the end and past it; so far that place + bytes needed is 2^64, and more.
    (0, 2, "", "a5 5a", "refused 5 a55a"),
    (0, 3, "", "a5 5a", "refused 5 a55a"),
    (0, 18446744073709551615, "", "a5 5a", "refused 5 a55a"),
    (1, 18446744073709551611, "00 00 80 3f", "a5 5a 33 cc 96 69", "refused 5 a55a33cc9669"),
    (3, 18446744073709551607, "00 00 80 3f 00 00 80 3f", "a5 5a 33", "refused 5 a55a33"),
    (3, 18446744073709551615, "00 00 80 3f 00 00 80 3f", "a5 5a 33 cc 96 69 0f f0 3c c3", "refused 5 a55a33cc96690ff03cc3"),
    // 11 with room, and each byte kept.
    (1, 0, "00 00 80 7f", "a5 5a 33 cc 96", "refused 11 a55a33cc96"),
    (1, 0, "00 00 c0 7f", "a5 5a 33 cc 96", "refused 11 a55a33cc96"),
    (1, 0, "01 00 80 7f", "a5 5a 33 cc 96", "refused 11 a55a33cc96"),
    (1, 0, "00 00 00 80", "a5 5a 33 cc 96", "refused 11 a55a33cc96"),
    (1, 0, "00 00 80 bf", "a5 5a 33 cc 96", "refused 11 a55a33cc96"),
    (2, 0, "00 00 80 ff", "a5 5a 33 cc 96", "refused 11 a55a33cc96"),
    (2, 0, "01 00 80 ff", "a5 5a 33 cc 96", "refused 11 a55a33cc96"),
    (2, 0, "00 00 00 80", "a5 5a 33 cc 96", "refused 11 a55a33cc96"),
    (3, 0, "00 00 00 80 00 00 80 3f", "a5 5a 33 cc 96 69 0f f0 3c", "refused 11 a55a33cc96690ff03c"),
    (3, 0, "00 00 a0 41 00 00 20 41", "a5 5a 33 cc 96 69 0f f0 3c", "refused 11 a55a33cc96690ff03c"),
    // 11 before 5.
    (1, 0, "00 00 80 7f", "", "refused 11 -"),
    (2, 1, "00 00 00 80", "a5", "refused 11 a5"),
    (1, 18446744073709551615, "00 00 80 bf", "a5", "refused 11 a5"),
    (3, 0, "00 00 a0 41 00 00 20 41", "a5 5a", "refused 11 a55a"),
];

/// "Yes exactly when it is not under the lowest nor over the highest; a not-a-number among the
/// three gets no."
#[rustfmt::skip]
const QUESTION: &[Question] = &[
    // Between 10 and 20: 15, both ends, one bit under and over, 1 and 100.
    (0x41700000, 0x41200000, 0x41a00000, "yes"),
    (0x41200000, 0x41200000, 0x41a00000, "yes"),
    (0x41a00000, 0x41200000, 0x41a00000, "yes"),
    (0x411fffff, 0x41200000, 0x41a00000, "no"),
    (0x41a00001, 0x41200000, 0x41a00000, "no"),
    (0x3f800000, 0x41200000, 0x41a00000, "no"),
    (0x42c80000, 0x41200000, 0x41a00000, "no"),
    // Equal ends.
    (0x41200000, 0x41200000, 0x41200000, "yes"),
    (0x411fffff, 0x41200000, 0x41200000, "no"),
    (0x41200001, 0x41200000, 0x41200000, "no"),
    // A not-a-number in each place and in all, quiet or signalling, of both signs.
    (0x7fc00000, 0x41200000, 0x41a00000, "no"),
    (0x7f800001, 0x41200000, 0x41a00000, "no"),
    (0xffc00000, 0xff800000, 0x7f800000, "no"),
    (0x41700000, 0x7fc00000, 0x41a00000, "no"),
    (0x41700000, 0xff800001, 0x41a00000, "no"),
    (0x41700000, 0xffffffff, 0x41a00000, "no"),
    (0x41700000, 0x41200000, 0x7fc00000, "no"),
    (0x41700000, 0x41200000, 0x7f800001, "no"),
    (0x7fc00000, 0x7fc00000, 0x7fc00000, "no"),
    // Zero and minus zero are equal; the least in size to each side is not.
    (0x80000000, 0x00000000, 0x3f800000, "yes"),
    (0x00000000, 0x80000000, 0x80000000, "yes"),
    (0x80000000, 0x00000000, 0x00000000, "yes"),
    (0x00000000, 0x00000000, 0x80000000, "yes"),
    (0x80000000, 0x80000000, 0x80000000, "yes"),
    (0x00000000, 0xbf800000, 0x80000000, "yes"),
    (0x00000001, 0x00000000, 0x80000000, "no"),
    (0x80000001, 0x80000000, 0x00000000, "no"),
    // Subnormals.
    (0x00000002, 0x00000001, 0x00000003, "yes"),
    (0x00000000, 0x00000001, 0x00000003, "no"),
    (0x00800000, 0x00000001, 0x007fffff, "no"),
    (0x80000002, 0x80000003, 0x80000001, "yes"),
    // Infinities.
    (0x3f800000, 0xff800000, 0x7f800000, "yes"),
    (0x7f800000, 0x00000000, 0x7f800000, "yes"),
    (0x7f800000, 0x00000000, 0x7f7fffff, "no"),
    (0x7f7fffff, 0x7f800000, 0x7f800000, "no"),
    (0xff800000, 0xff800000, 0x00000000, "yes"),
    (0xff800000, 0xff7fffff, 0x00000000, "no"),
    (0x7f800000, 0x7f800000, 0x7f800000, "yes"),
    (0x7f800000, 0xff800000, 0xff800000, "no"),
    // A lowest above the highest.
    (0x41700000, 0x41a00000, 0x41200000, "no"),
    (0x41200000, 0x41a00000, 0x41200000, "no"),
    (0x41a00000, 0x41a00000, 0x41200000, "no"),
    (0x00000000, 0x7f800000, 0xff800000, "no"),
    // Between -20 and -10: -15, both ends, one bit under and over; other signs.
    (0xc1700000, 0xc1a00000, 0xc1200000, "yes"),
    (0xc1a00000, 0xc1a00000, 0xc1200000, "yes"),
    (0xc1200000, 0xc1a00000, 0xc1200000, "yes"),
    (0xc1a00001, 0xc1a00000, 0xc1200000, "no"),
    (0xc11fffff, 0xc1a00000, 0xc1200000, "no"),
    (0x41700000, 0xc1a00000, 0xc1200000, "no"),
    (0xc1700000, 0x41200000, 0x41a00000, "no"),
    (0xbf800000, 0xc1a00000, 0x41200000, "yes"),
];

/// A kind that there isn't, also one that would be 0 or 1 if it were cut; too few bytes for the
/// bits; other than twelve bytes; and fields that an op doesn't ask for.
#[rustfmt::skip]
const SLIP_FRAME: &[AnyFrame] = &[
    (20, 4, 0, "00 00 80 3f a5 5a 33 cc 96 69", "unknown"),
    (20, 255, 0, "a5", "unknown"),
    (20, 256, 0, "a5", "unknown"),
    (20, 4294967297, 0, "00 00 80 3f a5 5a 33 cc 96", "unknown"),
    (20, 18446744073709551615, 0, "", "unknown"),
    (20, 1, 0, "", "unknown"),
    (20, 2, 0, "00 00 80", "unknown"),
    (20, 3, 0, "00 00 80 3f 00 00 80", "unknown"),
    (20, 3, 18446744073709551615, "00 00 80 7f", "unknown"),
    (21, 0, 0, "", "unknown"),
    (21, 0, 0, "00 00 80 3f 00 00 80 3f 00 00 80", "unknown"),
    (21, 0, 0, "00 00 80 3f 00 00 80 3f 00 00 80 3f 00", "unknown"),
    (19, 0, 18446744073709551615, "00", "nothing 1"),
    (21, 18446744073709551615, 18446744073709551615, "00 00 80 3f 00 00 80 3f 00 00 80 3f", "yes"),
];

/// Document 02, #110.
#[rustfmt::skip]
const PHRASE: &[Phrase] = &[
    // "An even n is a leaf, sentence n/2": up to 2^64 - 2, with each power of two that a width ends at.
    (1, &[0], "count 1 0"),
    (1, &[2], "count 1 1"),
    (1, &[14], "count 1 7"),
    (1, &[65536], "count 1 32768"),
    (1, &[131072], "count 1 65536"),
    (1, &[4294967294], "count 1 2147483647"),
    (1, &[4294967296], "count 1 2147483648"),
    (1, &[8589934592], "count 1 4294967296"),
    (1, &[9223372036854775806], "count 1 4611686018427387903"),
    (1, &[9223372036854775808], "count 1 4611686018427387904"),
    (1, &[18446744073709551614], "count 1 9223372036854775807"),
    // "An odd n is a branch of the next (n - 1)/2 items."
    (1, &[3, 10], "count 1 5"),
    (2, &[5, 10, 14], "count 2 5 7"),
    (2, &[5, 14, 10], "count 2 7 5"),
    (3, &[7, 10, 14, 2], "count 3 5 7 1"),
    (4, &[9, 0, 2, 4, 6], "count 4 0 1 2 3"),
    (2, &[5, 18446744073709551614, 0], "count 2 9223372036854775807 0"),
    // "Each again a leaf or a branch", in each place of a branch.
    (1, &[3, 3, 10], "count 1 5"),
    (3, &[5, 5, 10, 14, 2], "count 3 5 7 1"),
    (3, &[5, 2, 5, 10, 14], "count 3 1 5 7"),
    (4, &[7, 2, 5, 10, 14, 4], "count 4 1 5 7 2"),
    (4, &[5, 5, 2, 4, 5, 6, 8], "count 4 1 2 3 4"),
    (2, &[5, 3, 2, 3, 4], "count 2 1 2"),
    (3, &[5, 3, 3, 2, 5, 4, 6], "count 3 1 2 3"),
    // "An empty branch is good", alone, in others, before and behind a leaf.
    (0, &[1], "count 0"),
    (2, &[1], "count 0 _ _"),
    (0, &[3, 1], "count 0"),
    (0, &[5, 1, 1], "count 0"),
    (0, &[7, 1, 3, 1, 1], "count 0"),
    (1, &[5, 1, 10], "count 1 5"),
    (1, &[5, 10, 1], "count 1 5"),
    (2, &[7, 10, 1, 14], "count 2 5 7"),
    (1, &[5, 1, 3, 10], "count 1 5"),
    // "13, Tree, for all faults of shape or depth, an empty list included."
    (0, &[], "refused 13"),
    (2, &[], "refused 13 _ _"),
    // "Exactly one item": a number is left behind a leaf, behind an empty branch, behind another.
    (2, &[0, 0], "refused 13 _ _"),
    (2, &[10, 14], "refused 13 _ _"),
    (1, &[10, 1], "refused 13 _"),
    (1, &[10, 3], "refused 13 _"),
    (2, &[10, 3, 14], "refused 13 _ _"),
    (1, &[1, 10], "refused 13 _"),
    (0, &[1, 1], "refused 13"),
    (2, &[3, 10, 14], "refused 13 _ _"),
    (1, &[3, 10, 1], "refused 13 _"),
    (1, &[3, 1, 10], "refused 13 _"),
    (3, &[5, 10, 14, 2], "refused 13 _ _ _"),
    (3, &[3, 5, 10, 14, 2], "refused 13 _ _ _"),
    (2, &[3, 10, 3, 14], "refused 13 _ _"),
    // A list that ends too early: in the first branch, in the last, in one whose last item is whole.
    (0, &[3], "refused 13"),
    (1, &[3], "refused 13 _"),
    (1, &[5, 10], "refused 13 _"),
    (1, &[5, 1], "refused 13 _"),
    (2, &[7, 10, 14], "refused 13 _ _"),
    (1, &[3, 3], "refused 13 _"),
    (1, &[5, 10, 3], "refused 13 _"),
    (2, &[5, 5, 10, 14], "refused 13 _ _"),
    (2, &[5, 10, 5, 14], "refused 13 _ _"),
    (2, &[7, 10, 3, 14], "refused 13 _ _"),
    // "The eighth is good, the ninth is not": around a leaf, which is no level, and as an empty one.
    (1, &[3, 3, 3, 3, 3, 3, 3, 10], "count 1 5"),
    (1, &[3, 3, 3, 3, 3, 3, 3, 3, 10], "count 1 5"),
    (1, &[3, 3, 3, 3, 3, 3, 3, 3, 3, 10], "refused 13 _"),
    (1, &[3, 3, 3, 3, 3, 3, 3, 3, 3, 3, 10], "refused 13 _"),
    (1, &[3, 3, 3, 3, 3, 3, 1], "count 0 _"),
    (1, &[3, 3, 3, 3, 3, 3, 3, 1], "count 0 _"),
    (1, &[3, 3, 3, 3, 3, 3, 3, 3, 1], "refused 13 _"),
    (1, &[3, 3, 3, 3, 3, 3, 3, 3, 3, 1], "refused 13 _"),
    // In the eighth: two leaves; an empty branch, which is a ninth, before a leaf and behind it.
    (2, &[3, 3, 3, 3, 3, 3, 3, 5, 10, 14], "count 2 5 7"),
    (1, &[3, 3, 3, 3, 3, 3, 3, 5, 1, 10], "refused 13 _"),
    (1, &[3, 3, 3, 3, 3, 3, 3, 5, 10, 1], "refused 13 _"),
    // In the seventh, beside the eighth: an empty branch is an eighth too.
    (1, &[3, 3, 3, 3, 3, 3, 5, 3, 10, 1], "count 1 5"),
    (1, &[3, 3, 3, 3, 3, 3, 5, 1, 3, 10], "count 1 5"),
    // Two nests in one branch, each with as many as may be, or one with a ninth.
    (2, &[5, 3, 3, 3, 3, 3, 3, 3, 10, 3, 3, 3, 3, 3, 3, 3, 14], "count 2 5 7"),
    (2, &[5, 3, 3, 3, 3, 3, 3, 3, 3, 10, 3, 3, 3, 3, 3, 3, 3, 14], "refused 13 _ _"),
    (2, &[5, 3, 3, 3, 3, 3, 3, 3, 10, 3, 3, 3, 3, 3, 3, 3, 3, 14], "refused 13 _ _"),
    (1, &[5, 3, 3, 3, 3, 3, 3, 3, 10, 3, 3, 3, 3, 3, 3, 3, 1], "refused 13 _"),
    // Behind a nest: a leaf and branches of the first.
    (2, &[5, 3, 3, 3, 3, 3, 3, 3, 10, 14], "count 2 5 7"),
    (3, &[9, 3, 3, 3, 3, 3, 3, 3, 10, 1, 14, 3, 2], "count 3 5 7 1"),
    // 2^64 - 1 says 2^63 - 1 items: alone, with some of them, inside others, and again.
    (0, &[18446744073709551615], "refused 13"),
    (1, &[18446744073709551615], "refused 13 _"),
    (1, &[18446744073709551615, 10], "refused 13 _"),
    (2, &[18446744073709551615, 10, 14], "refused 13 _ _"),
    (1, &[3, 18446744073709551615], "refused 13 _"),
    (2, &[5, 10, 18446744073709551615], "refused 13 _ _"),
    (1, &[5, 18446744073709551615, 10], "refused 13 _"),
    (1, &[10, 18446744073709551615], "refused 13 _"),
    (1, &[18446744073709551615, 18446744073709551615], "refused 13 _"),
    // 2^63 - 1 twice and 4 are 2^64 + 2, and three numbers settle three items.
    (1, &[18446744073709551615, 18446744073709551615, 9], "refused 13 _"),
    // Counts that are 0 or 1 if they or their numbers are cut: 256, 257, 2^15 + 1, 2^16, 2^16 + 1,
    // 2^31 + 1, 2^32, 2^32 + 1, 2^62 + 1.
    (0, &[513], "refused 13"),
    (1, &[515, 10], "refused 13 _"),
    (1, &[65539, 10], "refused 13 _"),
    (0, &[131073], "refused 13"),
    (1, &[131075, 10], "refused 13 _"),
    (1, &[4294967299, 10], "refused 13 _"),
    (0, &[8589934593], "refused 13"),
    (1, &[8589934595, 10], "refused 13 _"),
    (1, &[9223372036854775811, 10], "refused 13 _"),
    // "Then 5": one short, none, and with room for the leaves alone. More than enough, the rest kept.
    (1, &[5, 10, 14], "refused 5 _"),
    (0, &[5, 10, 14], "refused 5"),
    (0, &[0], "refused 5"),
    (0, &[3, 10], "refused 5"),
    (3, &[5, 5, 2, 4, 5, 6, 8], "refused 5 _ _ _"),
    (1, &[3, 3, 3, 3, 3, 3, 3, 5, 10, 14], "refused 5 _"),
    (2, &[9, 1, 3, 10, 1, 3, 14], "count 2 5 7"),
    (3, &[5, 10, 14], "count 2 5 7 _"),
    (5, &[5, 10, 14], "count 2 5 7 _ _ _"),
    (4, &[10], "count 1 5 _ _ _"),
    // 13 before 5.
    (0, &[10, 14], "refused 13"),
    (0, &[5, 10], "refused 13"),
    (1, &[5, 10, 14, 2], "refused 13 _"),
    (1, &[7, 10, 14], "refused 13 _"),
    (0, &[3, 3, 3, 3, 3, 3, 3, 3, 3, 10], "refused 13"),
];

/// A slice above the cap, also one that would be 1 if it were cut; a list that the frame doesn't
/// hold, also where 8 times its numbers is 0 or 8 if it is cut to 64 bits; bytes behind the list,
/// which would make it good, or bad; the low byte first.
#[rustfmt::skip]
const PHRASE_FRAME: &[AnyFrame] = &[
    (22, 65537, 1, "0a 00 00 00 00 00 00 00", "unknown"),
    (22, 65537, 0, "", "unknown"),
    (22, 4294967297, 1, "0a 00 00 00 00 00 00 00", "unknown"),
    (22, 18446744073709551615, 1, "0a 00 00 00 00 00 00 00", "unknown"),
    (22, 1, 1, "", "unknown"),
    (22, 1, 1, "0a 00 00 00 00 00 00", "unknown"),
    (22, 1, 2, "03 00 00 00 00 00 00 00 0a 00 00 00 00 00 00", "unknown"),
    (22, 1, 2305843009213693952, "", "unknown"),
    (22, 1, 2305843009213693953, "0a 00 00 00 00 00 00 00", "unknown"),
    (22, 1, 18446744073709551615, "0a 00 00 00 00 00 00 00", "unknown"),
    (22, 65537, 18446744073709551615, "", "unknown"),
    (22, 1, 1, "0a 00 00 00 00 00 00 00 ff", "count 1 5"),
    (22, 1, 1, "0a 00 00 00 00 00 00 00 0a 00 00 00 00 00 00 00", "count 1 5"),
    (22, 0, 1, "03 00 00 00 00 00 00 00 0a 00 00 00 00 00 00 00", "refused 13"),
    (22, 0, 0, "01 00 00 00 00 00 00 00", "refused 13"),
    (22, 0, 0, "", "refused 13"),
    (22, 1, 1, "04 03 02 01 00 00 00 00", "count 1 8454530"),
    (22, 1, 1, "02 00 00 00 00 00 00 80", "count 1 4611686018427387905"),
];

/// The most numbers, in one branch; one more, of which an item is missing, and no room either.
#[rustfmt::skip]
const LIMIT_PHRASE: &[LongPhrase] = &[
    (16383, &[(1, &[32767]), (16383, &[10])], &[(1, "count 16383"), (16383, " 5")]),
    (1, &[(1, &[32771]), (16384, &[10])], &[(1, "refused 7"), (1, LEFT)]),
];

/// Those of the large run alone.
#[rustfmt::skip]
const LONG_PHRASE: &[LongPhrase] = &[
    // The most numbers: one room short; eight branches deep, and nine; empty branches alone.
    (16382, &[(1, &[32767]), (16383, &[10])], &[(1, "refused 5"), (16382, LEFT)]),
    (16384, &[(1, &[32767]), (16383, &[10])], &[(1, "count 16383"), (16383, " 5"), (1, LEFT)]),
    (16376, &[(7, &[3]), (1, &[32753]), (16376, &[14])], &[(1, "count 16376"), (16376, " 7")]),
    (2, &[(8, &[3]), (1, &[32751]), (16375, &[14])], &[(1, "refused 13"), (2, LEFT)]),
    (1, &[(1, &[32767]), (16383, &[1])], &[(1, "count 0"), (1, LEFT)]),
    (8192, &[(1, &[32767]), (8191, &[1, 10]), (1, &[14])], &[(1, "count 8192"), (8191, " 5"), (1, " 7")]),
    // An item too few, one too many, many too many, and a last number that says one item more.
    (1, &[(1, &[32769]), (16383, &[10])], &[(1, "refused 13"), (1, LEFT)]),
    (1, &[(1, &[32765]), (16383, &[10])], &[(1, "refused 13"), (1, LEFT)]),
    (1, &[(16384, &[10])], &[(1, "refused 13"), (1, LEFT)]),
    (1, &[(1, &[32767]), (16382, &[10]), (1, &[3])], &[(1, "refused 13"), (1, LEFT)]),
    // One number more: one item, with room, without, and with no leaves; many items. Then many more.
    (16384, &[(1, &[32769]), (16384, &[10])], &[(1, "refused 7"), (16384, LEFT)]),
    (0, &[(1, &[32769]), (16384, &[10])], &[(1, "refused 7")]),
    (0, &[(1, &[32769]), (16384, &[1])], &[(1, "refused 7")]),
    (1, &[(16385, &[10])], &[(1, "refused 7"), (1, LEFT)]),
    (2, &[(37500, &[10])], &[(1, "refused 7"), (2, LEFT)]),
    (2, &[(1, &[74999]), (37499, &[10])], &[(1, "refused 7"), (2, LEFT)]),
    // The largest slice.
    (65536, &[(1, &[5, 10, 14])], &[(1, "count 2 5 7"), (65534, LEFT)]),
    (65536, &[(1, &[5, 10])], &[(1, "refused 13"), (65536, LEFT)]),
];

/// Document 02, #102. For the reader of entries: op 23.
#[rustfmt::skip]
const ENTRY: &[Entry] = &[
    // "Mark, segment (u64), sentence (u64), turn (i64)", in this order.
    (0, "80 00 01 02 03", "entry 1 2 3 5"),
    (0, "80 00 02 01 03", "entry 2 1 3 5"),
    (0, "80 00 03 01 02", "entry 3 1 2 5"),
    (0, "80 00 00 00 00", "entry 0 0 0 5"),
    (0, "80 00 b9 64 80 01 05", "entry 12857 128 5 7"),
    (0, "80 00 05 b9 64 ff 00", "entry 5 12857 127 7"),
    // The turn alone is signed: "treating a signed 40 (hex) as 64; it is -64".
    (0, "80 00 40 40 40", "entry 64 64 -64 5"),
    (0, "80 00 3f 3f 3f", "entry 63 63 63 5"),
    (0, "80 00 7f 7f 7f", "entry 127 127 -1 5"),
    (0, "80 00 7e 7e 7e", "entry 126 126 -2 5"),
    (0, "80 00 01 02 c0 00", "entry 1 2 64 6"),
    (0, "80 00 01 02 bf 7f", "entry 1 2 -65 6"),
    (0, "80 00 01 02 80 01", "entry 1 2 128 6"),
    (0, "80 00 01 02 80 7f", "entry 1 2 -128 6"),
    (0, "80 00 01 02 81 7f", "entry 1 2 -127 6"),
    (0, "80 00 01 02 ff 7e", "entry 1 2 -129 6"),
    // What is a number by one rule and not by the other.
    (0, "80 00 ff 7f 01 02", "entry 16383 1 2 6"),
    (0, "80 00 01 ff 7f 02", "entry 1 16383 2 6"),
    (0, "80 00 01 02 ff 7f", "refused 10 6"),
    (0, "80 00 ff 00 01 02", "refused 10 6"),
    (0, "80 00 01 ff 00 02", "refused 10 6"),
    (0, "80 00 c0 00 01 02", "refused 10 6"),
    (0, "80 00 01 c0 00 02", "refused 10 6"),
    (0, "80 00 01 02 c0 7f", "refused 10 6"),
    (0, "80 00 01 02 bf 00", "refused 10 6"),
    (0, "80 00 c0 7f bf 7f 02", "entry 16320 16319 2 7"),
    // The ends of each width, and the longest entry. Turns there are absurd: those of a good entry end
    // at 400 and -400.
    (0, "80 00 ff ff ff ff ff ff ff ff ff 01 05 06", "entry 18446744073709551615 5 6 14"),
    (0, "80 00 05 ff ff ff ff ff ff ff ff ff 01 06", "entry 5 18446744073709551615 6 14"),
    (0, "80 00 05 06 ff ff ff ff ff ff ff ff ff 00", "refused 10 14"),
    (0, "80 00 05 06 90 03", "entry 5 6 400 6"),
    (0, "80 00 05 06 80 80 80 80 80 80 80 80 80 7f", "refused 10 14"),
    (0, "80 00 05 06 f0 7c", "entry 5 6 -400 6"),
    (0, "80 00 80 80 80 80 80 80 80 80 80 01 05 06", "entry 9223372036854775808 5 6 14"),
    (0, "80 00 05 80 80 80 80 80 80 80 80 80 01 06", "entry 5 9223372036854775808 6 14"),
    (0, "80 00 ff ff ff ff ff ff ff ff ff 01 ff ff ff ff ff ff ff ff ff 01 80 80 80 80 80 80 80 80 80 7f", "refused 10 32"),
    (0, "80 00 ff ff ff ff ff ff ff ff ff 01 ff ff ff ff ff ff ff ff ff 01 f0 7c", "entry 18446744073709551615 18446744073709551615 -400 24"),
    // Too large, at ten bytes and above.
    (0, "80 00 ff ff ff ff ff ff ff ff ff 02 05 06", "refused 10 14"),
    (0, "80 00 05 ff ff ff ff ff ff ff ff ff 02 06", "refused 10 14"),
    (0, "80 00 80 80 80 80 80 80 80 80 80 7f 05 06", "refused 10 14"),
    (0, "80 00 05 06 80 80 80 80 80 80 80 80 80 01", "refused 10 14"),
    (0, "80 00 05 06 ff ff ff ff ff ff ff ff ff 7e", "refused 10 14"),
    (0, "80 00 80 80 80 80 80 80 80 80 80 80 01 05 06", "refused 10 15"),
    (0, "80 00 05 06 80 80 80 80 80 80 80 80 80 80 00", "refused 10 15"),
    // One byte too many in a group, which is not the shortest form then.
    (0, "80 00 81 00 02 03", "refused 10 6"),
    (0, "80 00 01 82 00 03", "refused 10 6"),
    (0, "80 00 01 02 83 00", "refused 10 6"),
    (0, "80 00 01 02 fd 7f", "refused 10 6"),
    (0, "80 00 80 80 80 80 80 80 80 80 80 00 05 06", "refused 10 14"),
    (0, "80 00 05 06 ff ff ff ff ff ff ff ff ff 7f", "refused 10 14"),
    // Fewer groups than three, and more: "the three groups all read and nothing else is in it".
    (0, "80 00", "refused 10 2"),
    (0, "80 00 01", "refused 10 3"),
    (0, "80 00 01 02", "refused 10 4"),
    (0, "80 00 81 02 03", "refused 10 5"),
    (0, "80 00 01 02 03 04", "refused 10 6"),
    (0, "80 00 01 02 03 00", "refused 10 6"),
    (0, "80 00 00 01 02 03", "refused 10 6"),
    (0, "80 00 01 02 03 80 01", "refused 10 7"),
    (0, "80 00 01 02 03 81 00", "refused 10 7"),
    (0, "80 00 01 02 03 04 05 06", "refused 10 8"),
    // "No tail either", behind each group, of one byte, of ten and of more.
    (0, "80 00 80", "refused 10 3"),
    (0, "80 00 01 80", "refused 10 4"),
    (0, "80 00 01 02 80", "refused 10 5"),
    (0, "80 00 01 02 83", "refused 10 5"),
    (0, "80 00 01 02 03 80", "refused 10 6"),
    (0, "80 00 01 02 03 ff", "refused 10 6"),
    (0, "80 00 01 02 03 ff ff", "refused 10 7"),
    (0, "80 00 01 02 03 80 80 80 80 80 80 80 80 80", "refused 10 14"),
    (0, "80 00 01 02 03 80 80 80 80 80 80 80 80 80 80", "refused 10 15"),
    (0, "80 00 01 02 03 80 80 80 80 80 80 80 80 80 80 80 80", "refused 10 17"),
    (0, "80 00 80 80 80 80 80 80 80 80 80 80", "refused 10 12"),
    // "An entry runs to the next mark group": it ends where that begins.
    (0, "80 00 01 02 03 80 00", "entry 1 2 3 5"),
    (0, "80 00 01 02 03 80 00 04 05 06", "entry 1 2 3 5"),
    (0, "80 00 01 02 03 80 00 80", "entry 1 2 3 5"),
    (0, "80 00 01 02 03 04 80 00", "refused 10 6"),
    (0, "80 00 01 02 80 00 03", "refused 10 4"),
    (0, "80 00 01 80 00 02 03", "refused 10 3"),
    (0, "80 00 80 00 01 02 03", "refused 10 2"),
    (0, "80 00 01 02 80 00 04 05 06", "refused 10 4"),
    // "The least mark at or after its place": at each place of two entries, at the end and past it.
    (1, "80 00 01 02 03 80 00 04 05 06", "entry 4 5 6 10"),
    (2, "80 00 01 02 03 80 00 04 05 06", "entry 4 5 6 10"),
    (4, "80 00 01 02 03 80 00 04 05 06", "entry 4 5 6 10"),
    (5, "80 00 01 02 03 80 00 04 05 06", "entry 4 5 6 10"),
    (6, "80 00 01 02 03 80 00 04 05 06", "refused 8"),
    (9, "80 00 01 02 03 80 00 04 05 06", "refused 8"),
    (10, "80 00 01 02 03 80 00 04 05 06", "refused 8"),
    (11, "80 00 01 02 03 80 00 04 05 06", "refused 4"),
    (1, "80 00 01 02 03", "refused 8"),
    (1, "80 00 01 02 03 80 00 04 05", "refused 10 9"),
    (1, "80 00 01 02 80 00 04 05 06 80 00 07 08 09", "entry 4 5 6 9"),
    (5, "80 00 01 02 80 00 04 05 06 80 00 07 08 09", "entry 7 8 9 14"),
    // Marks back to back, and one at the very end.
    (0, "80 00 80 00", "refused 10 2"),
    (1, "80 00 80 00", "refused 10 4"),
    (2, "80 00 80 00", "refused 10 4"),
    (3, "80 00 80 00", "refused 8"),
    (0, "80 00 80 00 80 00", "refused 10 2"),
    (2, "80 00 80 00 80 00", "refused 10 4"),
    (3, "80 00 80 00 80 00", "refused 10 6"),
    (1, "80 00 80 00 01 02 03", "entry 1 2 3 7"),
    (5, "80 00 01 02 03 80 00", "refused 10 7"),
    (6, "80 00 01 02 03 80 00", "refused 8"),
    (7, "80 00 01 02 03 80 00", "refused 8"),
    // Groups before the first mark are no entry's; a place in the middle of one is good.
    (0, "05 80 00 01 02 03", "entry 1 2 3 6"),
    (1, "05 80 00 01 02 03", "entry 1 2 3 6"),
    (2, "05 80 00 01 02 03", "refused 8"),
    (0, "00 80 00 01 02 03", "entry 1 2 3 6"),
    (0, "7f 80 00 01 02 03", "entry 1 2 3 6"),
    (0, "80 01 80 00 01 02 03", "entry 1 2 3 7"),
    (1, "80 01 80 00 01 02 03", "entry 1 2 3 7"),
    (0, "01 02 03 04 05 80 00 07 08 09 80 00", "entry 7 8 9 10"),
    // "Mark group": inside a longer group 80 00 is none, wherever the place is.
    (0, "80 80 00 01 02 03", "refused 8"),
    (1, "80 80 00 01 02 03", "refused 8"),
    (0, "81 80 00 01 02 03", "refused 8"),
    (1, "81 80 00 01 02 03", "refused 8"),
    (2, "81 80 00 01 02 03", "refused 8"),
    (1, "ff 80 00", "refused 8"),
    (1, "05 ff 80 80 00 01 02 03", "refused 8"),
    (3, "05 ff 80 80 00 01 02 03", "refused 8"),
    (9, "80 80 80 80 80 80 80 80 80 80 00 01 02 03", "refused 8"),
    (1, "81 80 00 80 00 01 02 03", "entry 1 2 3 8"),
    // Nor does such a group end an entry: it is one of its groups.
    (0, "80 00 01 02 03 80 80 00", "refused 10 8"),
    (0, "80 00 01 02 03 81 80 00 04 05 06", "refused 10 11"),
    (0, "80 00 01 02 83 80 00 04 05 06", "refused 10 10"),
    (3, "80 00 01 02 83 80 00 04 05 06", "refused 8"),
    (0, "80 00 01 81 80 00 03", "refused 10 7"),
    (0, "80 00 01 02 03 80 80 00 80 00 04 05 06", "refused 10 8"),
    (1, "80 00 01 02 03 80 80 00 80 00 04 05 06", "entry 4 5 6 13"),
    // What looks nearly like a mark.
    (0, "80 01 01 02 03", "refused 8"),
    (0, "81 00 01 02 03", "refused 8"),
    (0, "00 80 01 02 03", "refused 8"),
    (0, "00 00 01 02 03", "refused 8"),
    (0, "80 80 01 02 03", "refused 8"),
    (0, "c0 00 01 02 03", "refused 8"),
    (0, "80 7f 01 02 03", "refused 8"),
    (0, "80", "refused 8"),
    (0, "00", "refused 8"),
    (2, "01 02 80", "refused 8"),
    (0, "80 00 01 02 80 01", "entry 1 2 128 6"),
    // "Tests 7, 4, then": no byte at all, the length, which is not past the end, and past it.
    (0, "", "refused 8"),
    (1, "", "refused 4"),
    (5, "80 00 01 02 03", "refused 8"),
    (6, "80 00 01 02 03", "refused 4"),
    (256, "80 00 01 02 03", "refused 4"),
    (65536, "80 00 01 02 03", "refused 4"),
    (4294967296, "80 00 01 02 03", "refused 4"),
    (9223372036854775808, "80 00 01 02 03", "refused 4"),
    (18446744073709551615, "80 00 01 02 03", "refused 4"),
    (18446744073709551615, "", "refused 4"),
    // Damage: old, then a number lost, then two bytes in place of one, then a mark's 80 lost.
    (0, "80 00 01 02 03 80 00 81 01 05 06 80 00 07 08 09", "entry 1 2 3 5"),
    (5, "80 00 01 02 03 80 00 81 01 05 06 80 00 07 08 09", "entry 129 5 6 11"),
    (11, "80 00 01 02 03 80 00 81 01 05 06 80 00 07 08 09", "entry 7 8 9 16"),
    (0, "80 00 01 02 03 80 00 81 01 06 80 00 07 08 09", "entry 1 2 3 5"),
    (5, "80 00 01 02 03 80 00 81 01 06 80 00 07 08 09", "refused 10 10"),
    (10, "80 00 01 02 03 80 00 81 01 06 80 00 07 08 09", "entry 7 8 9 15"),
    (5, "80 00 01 02 03 80 00 81 01 04 05 06 80 00 07 08 09", "refused 10 12"),
    (12, "80 00 01 02 03 80 00 81 01 04 05 06 80 00 07 08 09", "entry 7 8 9 17"),
    (0, "80 00 01 02 03 00 81 01 05 06 80 00 07 08 09", "refused 10 10"),
    (1, "80 00 01 02 03 00 81 01 05 06 80 00 07 08 09", "entry 7 8 9 15"),
    // Document 02, #111: "A turn above 400 or below -400 makes the entry of #102 bad, refusal 10", and
    // "400 and -400 pass". 399 to 402, and -399 to -402.
    (0, "80 00 01 02 8f 03", "entry 1 2 399 6"),
    (0, "80 00 01 02 90 03", "entry 1 2 400 6"),
    (0, "80 00 01 02 91 03", "refused 10 6"),
    (0, "80 00 01 02 92 03", "refused 10 6"),
    (0, "80 00 01 02 f1 7c", "entry 1 2 -399 6"),
    (0, "80 00 01 02 f0 7c", "entry 1 2 -400 6"),
    (0, "80 00 01 02 ef 7c", "refused 10 6"),
    (0, "80 00 01 02 ee 7c", "refused 10 6"),
    // Turns that pass: around zero, the ends of one byte, and where the last byte of two is another.
    (0, "80 00 01 02 00", "entry 1 2 0 5"),
    (0, "80 00 01 02 01", "entry 1 2 1 5"),
    (0, "80 00 01 02 7f", "entry 1 2 -1 5"),
    (0, "80 00 01 02 3f", "entry 1 2 63 5"),
    (0, "80 00 01 02 40", "entry 1 2 -64 5"),
    (0, "80 00 01 02 ff 01", "entry 1 2 255 6"),
    (0, "80 00 01 02 80 02", "entry 1 2 256 6"),
    (0, "80 00 01 02 ff 02", "entry 1 2 383 6"),
    (0, "80 00 01 02 80 03", "entry 1 2 384 6"),
    (0, "80 00 01 02 80 7e", "entry 1 2 -256 6"),
    (0, "80 00 01 02 ff 7d", "entry 1 2 -257 6"),
    (0, "80 00 01 02 80 7d", "entry 1 2 -384 6"),
    (0, "80 00 01 02 ff 7c", "entry 1 2 -385 6"),
    // 511 and 512, -512 and -513; then both sides of where two bytes end, and three: 8191 and 8192,
    // -8192 and -8193, 1048575 and 1048576, -1048576 and -1048577.
    (0, "80 00 01 02 ff 03", "refused 10 6"),
    (0, "80 00 01 02 80 04", "refused 10 6"),
    (0, "80 00 01 02 80 7c", "refused 10 6"),
    (0, "80 00 01 02 ff 7b", "refused 10 6"),
    (0, "80 00 01 02 ff 3f", "refused 10 6"),
    (0, "80 00 01 02 80 c0 00", "refused 10 7"),
    (0, "80 00 01 02 80 40", "refused 10 6"),
    (0, "80 00 01 02 ff bf 7f", "refused 10 7"),
    (0, "80 00 01 02 ff ff 3f", "refused 10 7"),
    (0, "80 00 01 02 80 80 c0 00", "refused 10 8"),
    (0, "80 00 01 02 80 80 40", "refused 10 7"),
    (0, "80 00 01 02 ff ff bf 7f", "refused 10 8"),
    // The numbers next to the ends of the width.
    (0, "80 00 01 02 fe ff ff ff ff ff ff ff ff 00", "refused 10 14"),
    (0, "80 00 01 02 81 80 80 80 80 80 80 80 80 7f", "refused 10 14"),
    // 515, which is 3 if it is cut to 8 bits; 400 and -400 if cut to 14: 16784, 15984 and -15984; to 16:
    // 65936 and -65936; to 32: 4294967696 and 4294966896; without the sign, and to 63 bits.
    (0, "80 00 01 02 83 04", "refused 10 6"),
    (0, "80 00 01 02 90 83 01", "refused 10 7"),
    (0, "80 00 01 02 f0 fc 00", "refused 10 7"),
    (0, "80 00 01 02 90 83 7f", "refused 10 7"),
    (0, "80 00 01 02 90 83 04", "refused 10 7"),
    (0, "80 00 01 02 f0 fc 7b", "refused 10 7"),
    (0, "80 00 01 02 90 83 80 80 10", "refused 10 9"),
    (0, "80 00 01 02 f0 fc ff ff 0f", "refused 10 9"),
    (0, "80 00 01 02 90 83 80 80 80 80 80 80 80 7f", "refused 10 14"),
    (0, "80 00 01 02 f0 fc ff ff ff ff ff ff ff 00", "refused 10 14"),
    // 128 times 400 and -400: the last two bytes are theirs.
    (0, "80 00 01 02 80 90 03", "refused 10 7"),
    (0, "80 00 01 02 80 f0 7c", "refused 10 7"),
    // With the place where the entry ends, as for any other: behind a group, before a mark, and between
    // entries, which stay.
    (0, "05 80 00 01 02 90 03", "entry 1 2 400 7"),
    (0, "05 80 00 01 02 91 03", "refused 10 7"),
    (1, "05 80 00 01 02 ef 7c", "refused 10 7"),
    (2, "05 80 00 01 02 ef 7c", "refused 8"),
    (0, "80 00 01 02 90 03 80 00", "entry 1 2 400 6"),
    (0, "80 00 01 02 91 03 80 00", "refused 10 6"),
    (0, "80 00 01 02 ef 7c 80 00", "refused 10 6"),
    (0, "80 00 01 02 03 80 00 04 05 91 03 80 00 07 08 09", "entry 1 2 3 5"),
    (1, "80 00 01 02 03 80 00 04 05 91 03 80 00 07 08 09", "refused 10 11"),
    (5, "80 00 01 02 03 80 00 04 05 91 03 80 00 07 08 09", "refused 10 11"),
    (6, "80 00 01 02 03 80 00 04 05 91 03 80 00 07 08 09", "entry 7 8 9 16"),
    (11, "80 00 01 02 03 80 00 04 05 91 03 80 00 07 08 09", "entry 7 8 9 16"),
    (0, "80 00 01 02 91 03 80 00 04 05 ef 7c 80 00 07 08 f0 7c", "refused 10 6"),
    (1, "80 00 01 02 91 03 80 00 04 05 ef 7c 80 00 07 08 f0 7c", "refused 10 12"),
    (7, "80 00 01 02 91 03 80 00 04 05 ef 7c 80 00 07 08 f0 7c", "entry 7 8 -400 18"),
    // The end is no other if more is wrong: a group too many, a tail, a group that hides a mark, one too
    // few, one that isn't the shortest.
    (0, "80 00 01 02 91 03 04", "refused 10 7"),
    (0, "80 00 01 02 90 03 04", "refused 10 7"),
    (0, "80 00 01 02 91 03 80", "refused 10 7"),
    (0, "80 00 01 02 90 03 80", "refused 10 7"),
    (0, "80 00 01 02 91 03 81 80 00 04 05 06", "refused 10 12"),
    (0, "80 00 01 91 03 80 00", "refused 10 5"),
    (0, "80 00 01 82 00 91 03 80 00", "refused 10 7"),
    // Segment and sentence have no such limit.
    (0, "80 00 91 03 02 03", "entry 401 2 3 6"),
    (0, "80 00 01 91 03 03", "entry 1 401 3 6"),
    (0, "80 00 91 03 ef 7c 90 03", "entry 401 15983 400 8"),
    (0, "80 00 ff 3f 80 40 f0 7c", "entry 8191 8192 -400 8"),
    (0, "80 00 90 03 90 03 91 03", "refused 10 8"),
    (0, "80 00 80 80 80 80 80 80 80 80 80 01 ff ff ff ff ff ff ff ff ff 01 90 03", "entry 9223372036854775808 18446744073709551615 400 24"),
    (0, "80 00 80 80 80 80 80 80 80 80 80 01 ff ff ff ff ff ff ff ff ff 01 91 03", "refused 10 24"),
    // 400 and -400 with bytes that are too many, up to the most; 401 with one.
    (0, "80 00 01 02 90 83 00", "refused 10 7"),
    (0, "80 00 01 02 f0 fc 7f", "refused 10 7"),
    (0, "80 00 01 02 90 83 80 00", "refused 10 8"),
    (0, "80 00 01 02 90 83 80 80 80 80 80 80 80 00", "refused 10 14"),
    (0, "80 00 01 02 f0 fc ff ff ff ff ff ff ff 7f", "refused 10 14"),
    (0, "80 00 01 02 91 83 00", "refused 10 7"),
    // Damage: a turn of 400 becomes 464 or 912, or loses its last byte and hides the mark; one of -401
    // loses its first and is -4.
    (0, "80 00 01 02 d0 03 80 00 04 05 06", "refused 10 6"),
    (1, "80 00 01 02 d0 03 80 00 04 05 06", "entry 4 5 6 11"),
    (0, "80 00 01 02 90 07 80 00 04 05 06", "refused 10 6"),
    (0, "80 00 01 02 90 80 00 04 05 06", "refused 10 10"),
    (0, "80 00 01 02 7c 80 00 04 05 06", "entry 1 2 -4 5"),
];

/// For the writer: op 24.
#[rustfmt::skip]
const ENTRY_WRITE: &[EntryWrite] = &[
    // "Mark, segment, sentence, turn", and the count of bytes.
    (0, 1, 2, 3, "a5 5a 33 cc 96", "count 5 8000010203"),
    (0, 2, 1, 3, "a5 5a 33 cc 96", "count 5 8000020103"),
    (0, 3, 1, 2, "a5 5a 33 cc 96", "count 5 8000030102"),
    (0, 0, 0, 0, "a5 5a 33 cc 96", "count 5 8000000000"),
    (0, 12857, 128, 5, "a5 5a 33 cc 96 69 0f", "count 7 8000b964800105"),
    (0, 5, 12857, 127, "a5 5a 33 cc 96 69 0f", "count 7 800005b964ff00"),
    // The turn alone is signed.
    (0, 64, 64, -64, "a5 5a 33 cc 96", "count 5 8000404040"),
    (0, 63, 63, 63, "a5 5a 33 cc 96", "count 5 80003f3f3f"),
    (0, 127, 127, -1, "a5 5a 33 cc 96", "count 5 80007f7f7f"),
    (0, 1, 2, -2, "a5 5a 33 cc 96", "count 5 800001027e"),
    (0, 64, 127, 64, "a5 5a 33 cc 96 69", "count 6 8000407fc000"),
    (0, 1, 2, 127, "a5 5a 33 cc 96 69", "count 6 80000102ff00"),
    (0, 1, 2, 128, "a5 5a 33 cc 96 69", "count 6 800001028001"),
    (0, 1, 2, -65, "a5 5a 33 cc 96 69", "count 6 80000102bf7f"),
    (0, 1, 2, -128, "a5 5a 33 cc 96 69", "count 6 80000102807f"),
    (0, 1, 2, -129, "a5 5a 33 cc 96 69", "count 6 80000102ff7e"),
    (0, 16383, 16320, 2, "a5 5a 33 cc 96 69 0f", "count 7 8000ff7fc07f02"),
    // The ends of each width, and the longest entry. Turns there are absurd: those of a good entry end
    // at 400 and -400.
    (0, 18446744073709551615, 5, 6, "a5 5a 33 cc 96 69 0f f0 3c c3 a5 5a 33 cc", "count 14 8000ffffffffffffffffff010506"),
    (0, 5, 18446744073709551615, 6, "a5 5a 33 cc 96 69 0f f0 3c c3 a5 5a 33 cc", "count 14 800005ffffffffffffffffff0106"),
    (0, 5, 6, 9223372036854775807, "a5 5a 33 cc 96 69 0f f0 3c c3 a5 5a 33 cc", "refused 10 a55a33cc96690ff03cc3a55a33cc"),
    (0, 5, 6, 400, "a5 5a 33 cc 96 69", "count 6 800005069003"),
    (0, 5, 6, -9223372036854775808, "a5 5a 33 cc 96 69 0f f0 3c c3 a5 5a 33 cc", "refused 10 a55a33cc96690ff03cc3a55a33cc"),
    (0, 5, 6, -400, "a5 5a 33 cc 96 69", "count 6 80000506f07c"),
    (0, 9223372036854775808, 5, 6, "a5 5a 33 cc 96 69 0f f0 3c c3 a5 5a 33 cc", "count 14 8000808080808080808080010506"),
    (0, 18446744073709551615, 18446744073709551615, -9223372036854775808, "a5 5a 33 cc 96 69 0f f0 a5 5a 33 cc 96 69 0f f0 a5 5a 33 cc 96 69 0f f0 a5 5a 33 cc 96 69 0f f0", "refused 10 a55a33cc96690ff0a55a33cc96690ff0a55a33cc96690ff0a55a33cc96690ff0"),
    (0, 18446744073709551615, 18446744073709551615, -9223372036854775808, "a5 5a 33 cc 96 69 0f f0 a5 5a 33 cc 96 69 0f f0 a5 5a 33 cc 96 69 0f f0 a5 5a 33 cc 96 69 0f", "refused 10 a55a33cc96690ff0a55a33cc96690ff0a55a33cc96690ff0a55a33cc96690f"),
    (0, 18446744073709551615, 18446744073709551615, -400, "a5 5a 33 cc 96 69 0f f0 a5 5a 33 cc 96 69 0f f0 a5 5a 33 cc 96 69 0f f0", "count 24 8000ffffffffffffffffff01ffffffffffffffffff01f07c"),
    (0, 18446744073709551615, 18446744073709551615, -400, "a5 5a 33 cc 96 69 0f f0 a5 5a 33 cc 96 69 0f f0 a5 5a 33 cc 96 69 0f", "refused 5 a55a33cc96690ff0a55a33cc96690ff0a55a33cc96690f"),
    // The bytes at the place and all else kept; the count and not the end place.
    (0, 1, 2, 3, "a5 5a 33 cc 96 69 0f", "count 5 8000010203690f"),
    (1, 1, 2, 3, "a5 5a 33 cc 96 69 0f", "count 5 a580000102030f"),
    (2, 1, 2, 3, "a5 5a 33 cc 96 69 0f", "count 5 a55a8000010203"),
    (1, 300, 2, 3, "a5 5a 33 cc 96 69 0f f0", "count 6 a58000ac020203f0"),
    // "Place + bytes needed > buffer length": one byte short, the mark alone, less, and no room at all.
    (3, 1, 2, 3, "a5 5a 33 cc 96 69 0f", "refused 5 a55a33cc96690f"),
    (5, 1, 2, 3, "a5 5a 33 cc 96 69 0f", "refused 5 a55a33cc96690f"),
    (6, 1, 2, 3, "a5 5a 33 cc 96 69 0f", "refused 5 a55a33cc96690f"),
    (7, 1, 2, 3, "a5 5a 33 cc 96 69 0f", "refused 5 a55a33cc96690f"),
    (0, 1, 2, 3, "a5 5a 33 cc", "refused 5 a55a33cc"),
    (0, 1, 2, 3, "a5 5a 33", "refused 5 a55a33"),
    (0, 1, 2, 3, "a5 5a", "refused 5 a55a"),
    (0, 1, 2, 3, "a5", "refused 5 a5"),
    (0, 1, 2, 3, "", "refused 5 -"),
    (0, 128, 2, 3, "a5 5a 33 cc 96", "refused 5 a55a33cc96"),
    (0, 1, 128, 3, "a5 5a 33 cc 96", "refused 5 a55a33cc96"),
    (0, 1, 2, 64, "a5 5a 33 cc 96", "refused 5 a55a33cc96"),
    (1, 1, 2, 64, "a5 5a 33 cc 96 69", "refused 5 a55a33cc9669"),
    // Past the end; and where place + bytes needed is more than 64 bits hold.
    (8, 1, 2, 3, "a5 5a 33 cc 96 69 0f", "refused 5 a55a33cc96690f"),
    (1, 1, 2, 3, "", "refused 5 -"),
    (256, 1, 2, 3, "a5 5a 33 cc 96 69 0f", "refused 5 a55a33cc96690f"),
    (65536, 1, 2, 3, "a5 5a 33 cc 96 69 0f", "refused 5 a55a33cc96690f"),
    (4294967296, 1, 2, 3, "a5 5a 33 cc 96 69 0f", "refused 5 a55a33cc96690f"),
    (18446744073709551611, 1, 2, 3, "a5 5a 33 cc 96 69 0f", "refused 5 a55a33cc96690f"),
    (18446744073709551614, 1, 2, 3, "a5 5a 33 cc 96 69 0f", "refused 5 a55a33cc96690f"),
    (18446744073709551615, 1, 2, 3, "a5 5a 33 cc 96 69 0f", "refused 5 a55a33cc96690f"),
    (18446744073709551615, 1, 2, 3, "", "refused 5 -"),
    // What is there already is not looked at, be it a mark.
    (2, 1, 2, 3, "80 00 80 00 80 00 80 00 80 00", "count 5 80008000010203008000"),
    (1, 1, 2, 3, "80 80 80 80 80 80 80 80", "count 5 8080000102038080"),
    // Document 02, #111: "in reader and writer alike". 399 to 402, and -399 to -402.
    (0, 1, 2, 399, "a5 5a 33 cc 96 69", "count 6 800001028f03"),
    (0, 1, 2, 400, "a5 5a 33 cc 96 69", "count 6 800001029003"),
    (0, 1, 2, 401, "a5 5a 33 cc 96 69", "refused 10 a55a33cc9669"),
    (0, 1, 2, 402, "a5 5a 33 cc 96 69", "refused 10 a55a33cc9669"),
    (0, 1, 2, -399, "a5 5a 33 cc 96 69", "count 6 80000102f17c"),
    (0, 1, 2, -400, "a5 5a 33 cc 96 69", "count 6 80000102f07c"),
    (0, 1, 2, -401, "a5 5a 33 cc 96 69", "refused 10 a55a33cc9669"),
    (0, 1, 2, -402, "a5 5a 33 cc 96 69", "refused 10 a55a33cc9669"),
    // Turns that pass: the ends of one byte, and where the last byte of two is another.
    (0, 1, 2, 63, "a5 5a 33 cc 96 69", "count 5 800001023f69"),
    (0, 1, 2, -64, "a5 5a 33 cc 96 69", "count 5 800001024069"),
    (0, 1, 2, 255, "a5 5a 33 cc 96 69", "count 6 80000102ff01"),
    (0, 1, 2, 256, "a5 5a 33 cc 96 69", "count 6 800001028002"),
    (0, 1, 2, 383, "a5 5a 33 cc 96 69", "count 6 80000102ff02"),
    (0, 1, 2, 384, "a5 5a 33 cc 96 69", "count 6 800001028003"),
    (0, 1, 2, -256, "a5 5a 33 cc 96 69", "count 6 80000102807e"),
    (0, 1, 2, -257, "a5 5a 33 cc 96 69", "count 6 80000102ff7d"),
    (0, 1, 2, -384, "a5 5a 33 cc 96 69", "count 6 80000102807d"),
    (0, 1, 2, -385, "a5 5a 33 cc 96 69", "count 6 80000102ff7c"),
    // Around 512, and on both sides of where two bytes end.
    (0, 1, 2, 511, "a5 5a 33 cc 96 69", "refused 10 a55a33cc9669"),
    (0, 1, 2, 512, "a5 5a 33 cc 96 69", "refused 10 a55a33cc9669"),
    (0, 1, 2, -512, "a5 5a 33 cc 96 69", "refused 10 a55a33cc9669"),
    (0, 1, 2, -513, "a5 5a 33 cc 96 69", "refused 10 a55a33cc9669"),
    (0, 1, 2, 8191, "a5 5a 33 cc 96 69 0f", "refused 10 a55a33cc96690f"),
    (0, 1, 2, 8192, "a5 5a 33 cc 96 69 0f", "refused 10 a55a33cc96690f"),
    (0, 1, 2, -8192, "a5 5a 33 cc 96 69 0f", "refused 10 a55a33cc96690f"),
    (0, 1, 2, -8193, "a5 5a 33 cc 96 69 0f", "refused 10 a55a33cc96690f"),
    // The numbers next to the ends of the width.
    (0, 1, 2, 9223372036854775806, "a5 5a 33 cc 96 69 0f f0 3c c3 a5 5a 33 cc", "refused 10 a55a33cc96690ff03cc3a55a33cc"),
    (0, 1, 2, -9223372036854775807, "a5 5a 33 cc 96 69 0f f0 3c c3 a5 5a 33 cc", "refused 10 a55a33cc96690ff03cc3a55a33cc"),
    // 3, 400 and -400 if they are cut to 8, 14, 16, 32 or 63 bits.
    (0, 1, 2, 515, "a5 5a 33 cc 96 69 0f f0 3c", "refused 10 a55a33cc96690ff03c"),
    (0, 1, 2, 15984, "a5 5a 33 cc 96 69 0f f0 3c", "refused 10 a55a33cc96690ff03c"),
    (0, 1, 2, 65936, "a5 5a 33 cc 96 69 0f f0 3c", "refused 10 a55a33cc96690ff03c"),
    (0, 1, 2, -65936, "a5 5a 33 cc 96 69 0f f0 3c", "refused 10 a55a33cc96690ff03c"),
    (0, 1, 2, 4294967696, "a5 5a 33 cc 96 69 0f f0 3c", "refused 10 a55a33cc96690ff03c"),
    (0, 1, 2, 4294966896, "a5 5a 33 cc 96 69 0f f0 3c", "refused 10 a55a33cc96690ff03c"),
    (0, 1, 2, -9223372036854775408, "a5 5a 33 cc 96 69 0f f0 3c c3 a5 5a 33 cc", "refused 10 a55a33cc96690ff03cc3a55a33cc"),
    (0, 1, 2, 9223372036854775408, "a5 5a 33 cc 96 69 0f f0 3c c3 a5 5a 33 cc", "refused 10 a55a33cc96690ff03cc3a55a33cc"),
    // At the place, with a byte to spare, at the last that fits, and one byte short.
    (1, 1, 2, 400, "a5 5a 33 cc 96 69 0f f0", "count 6 a5800001029003f0"),
    (2, 1, 2, -400, "a5 5a 33 cc 96 69 0f f0", "count 6 a55a80000102f07c"),
    (3, 1, 2, 400, "a5 5a 33 cc 96 69 0f f0", "refused 5 a55a33cc96690ff0"),
    (3, 1, 2, -400, "a5 5a 33 cc 96 69 0f f0", "refused 5 a55a33cc96690ff0"),
    (1, 1, 2, 401, "a5 5a 33 cc 96 69 0f f0", "refused 10 a55a33cc96690ff0"),
    (2, 1, 2, -401, "a5 5a 33 cc 96 69 0f f0", "refused 10 a55a33cc96690ff0"),
    // "The writer tests it before 5": one byte short, room for a byte, for the mark, for nothing.
    (3, 1, 2, 401, "a5 5a 33 cc 96 69 0f f0", "refused 10 a55a33cc96690ff0"),
    (3, 1, 2, -401, "a5 5a 33 cc 96 69 0f f0", "refused 10 a55a33cc96690ff0"),
    (0, 1, 2, 400, "a5 5a 33 cc 96", "refused 5 a55a33cc96"),
    (0, 1, 2, 401, "a5 5a 33 cc 96", "refused 10 a55a33cc96"),
    (0, 1, 2, -400, "a5 5a 33 cc 96", "refused 5 a55a33cc96"),
    (0, 1, 2, -401, "a5 5a 33 cc 96", "refused 10 a55a33cc96"),
    (0, 1, 2, 401, "a5 5a", "refused 10 a55a"),
    (0, 1, 2, -401, "a5", "refused 10 a5"),
    (0, 1, 2, 400, "", "refused 5 -"),
    (0, 1, 2, 401, "", "refused 10 -"),
    (0, 1, 2, -401, "", "refused 10 -"),
    (0, 1, 2, 9223372036854775807, "", "refused 10 -"),
    (0, 1, 2, -9223372036854775808, "a5 5a 33", "refused 10 a55a33"),
    // At the end, past it, and where place + bytes needed is more than 64 bits hold.
    (8, 1, 2, -400, "a5 5a 33 cc 96 69 0f f0", "refused 5 a55a33cc96690ff0"),
    (8, 1, 2, -401, "a5 5a 33 cc 96 69 0f f0", "refused 10 a55a33cc96690ff0"),
    (9, 1, 2, 400, "a5 5a 33 cc 96 69 0f f0", "refused 5 a55a33cc96690ff0"),
    (9, 1, 2, 401, "a5 5a 33 cc 96 69 0f f0", "refused 10 a55a33cc96690ff0"),
    (1, 1, 2, -401, "", "refused 10 -"),
    (18446744073709551610, 1, 2, 400, "a5 5a 33 cc 96 69 0f f0", "refused 5 a55a33cc96690ff0"),
    (18446744073709551610, 1, 2, 401, "a5 5a 33 cc 96 69 0f f0", "refused 10 a55a33cc96690ff0"),
    (18446744073709551615, 1, 2, -400, "a5 5a 33 cc 96 69 0f f0", "refused 5 a55a33cc96690ff0"),
    (18446744073709551615, 1, 2, -401, "a5 5a 33 cc 96 69 0f f0", "refused 10 a55a33cc96690ff0"),
    (18446744073709551615, 1, 2, 9223372036854775807, "a5 5a", "refused 10 a55a"),
    (18446744073709551615, 1, 2, 401, "", "refused 10 -"),
    // Segment and sentence have no such limit, be they -401 in two's complement.
    (0, 401, 401, 400, "a5 5a 33 cc 96 69 0f f0", "count 8 8000910391039003"),
    (0, 15983, 8192, -400, "a5 5a 33 cc 96 69 0f f0", "count 8 8000ef7c8040f07c"),
    (0, 18446744073709551215, 2, 3, "a5 5a 33 cc 96 69 0f f0 3c c3 a5 5a 33 cc", "count 14 8000effcffffffffffffff010203"),
    (0, 400, 400, 401, "a5 5a 33 cc 96 69 0f f0", "refused 10 a55a33cc96690ff0"),
    // What is there already is not looked at, be it a mark or the same entry with a turn that passes.
    (0, 1, 2, 401, "80 00 80 00 80 00", "refused 10 800080008000"),
    (0, 1, 2, 401, "80 00 01 02 90 03", "refused 10 800001029003"),
];

/// Fewer than 32 bytes, with a place that is good and one that is not; just 32, and no buffer; the
/// language, which is not looked at, be it an absurd turn, and the low byte first; fields that an op
/// doesn't ask for.
#[rustfmt::skip]
const ENTRY_FRAME: &[AnyFrame] = &[
    (24, 0, 0, "", "unknown"),
    (24, 18446744073709551615, 0, "", "unknown"),
    (24, 0, 0, "01 00 00 00 00 00 00 00 02 00 00 00 00 00 00 00 00 00 00 00 00 00 00 00 03 00 00 00 00 00 00", "unknown"),
    (24, 9, 0, "01 00 00 00 00 00 00 00 02 00 00 00 00 00 00 00 00 00 00 00 00 00 00 00", "unknown"),
    (24, 0, 0, "01 00 00 00 00 00 00 00 02 00 00 00 00 00 00 00 00 00 00 00 00 00 00 00 03 00 00 00 00 00 00 00", "refused 5 -"),
    (24, 1, 0, "01 00 00 00 00 00 00 00 02 00 00 00 00 00 00 00 00 00 00 00 00 00 00 00 03 00 00 00 00 00 00 00 a5 5a 33 cc 96 69", "count 5 a58000010203"),
    (24, 0, 7, "01 00 00 00 00 00 00 00 02 00 00 00 00 00 00 00 09 00 00 00 00 00 00 00 03 00 00 00 00 00 00 00 a5 5a 33 cc 96 69", "count 5 800001020369"),
    (24, 0, 18446744073709551615, "01 00 00 00 00 00 00 00 02 00 00 00 00 00 00 00 ff ff ff ff ff ff ff ff 03 00 00 00 00 00 00 00 a5 5a 33 cc 96", "count 5 8000010203"),
    (24, 0, 0, "02 01 00 00 00 00 00 00 04 03 00 00 00 00 00 00 00 00 00 00 00 00 00 00 fe ff ff ff ff ff ff ff a5 5a 33 cc 96 69 0f", "count 7 8000820284067e"),
    (24, 0, 0, "01 00 00 00 00 00 00 00 02 00 00 00 00 00 00 00 00 00 00 00 00 00 00 00 00 00 00 00 00 00 00 80 a5 5a 33 cc 96 69 0f f0 3c c3 a5 5a 33 cc", "refused 10 a55a33cc96690ff03cc3a55a33cc"),
    (24, 0, 0, "01 00 00 00 00 00 00 00 02 00 00 00 00 00 00 00 00 00 00 00 00 00 00 00 70 fe ff ff ff ff ff ff a5 5a 33 cc 96 69", "count 6 80000102f07c"),
    (24, 0, 0, "01 00 00 00 00 00 00 00 02 00 00 00 00 00 00 00 00 00 00 00 00 00 00 00 6f fe ff ff ff ff ff ff a5 5a 33 cc 96 69", "refused 10 a55a33cc9669"),
    (24, 0, 0, "01 00 00 00 00 00 00 00 02 00 00 00 00 00 00 00 00 00 00 00 00 00 00 00 90 01 00 00 00 00 00 00 a5 5a 33 cc 96 69", "count 6 800001029003"),
    (24, 0, 0, "01 00 00 00 00 00 00 00 02 00 00 00 00 00 00 00 00 00 00 00 00 00 00 00 91 01 00 00 00 00 00 00 a5 5a 33 cc 96 69", "refused 10 a55a33cc9669"),
    (24, 0, 0, "01 00 00 00 00 00 00 00 02 00 00 00 00 00 00 00 00 00 00 00 00 00 00 00 01 90 00 00 00 00 00 00 a5 5a 33 cc 96 69", "refused 10 a55a33cc9669"),
    (24, 0, 0, "01 00 00 00 00 00 00 00 02 00 00 00 00 00 00 00 00 00 00 00 00 00 00 00 03 00 00 00 01 00 00 00 a5 5a 33 cc 96 69 0f f0 3c", "refused 10 a55a33cc96690ff03c"),
    (24, 0, 0, "01 00 00 00 00 00 00 00 02 00 00 00 00 00 00 00 00 00 00 00 00 00 00 00 91 01 00 00 00 00 00 00", "refused 10 -"),
    (24, 18446744073709551615, 0, "01 00 00 00 00 00 00 00 02 00 00 00 00 00 00 00 00 00 00 00 00 00 00 00 91 01 00 00 00 00 00 00", "refused 10 -"),
    (24, 0, 0, "01 00 00 00 00 00 00 00 02 00 00 00 00 00 00 00 00 00 00 00 00 00 00 00 91 01 00 00 00 00 00", "unknown"),
    (24, 0, 0, "01 00 00 00 00 00 00 00 02 00 00 00 00 00 00 00 91 01 00 00 00 00 00 00 03 00 00 00 00 00 00 00 a5 5a 33 cc 96 69", "count 5 800001020369"),
    (24, 0, 0, "01 00 00 00 00 00 00 00 02 00 00 00 00 00 00 00 00 00 00 00 00 00 00 80 90 01 00 00 00 00 00 00 a5 5a 33 cc 96 69", "count 6 800001029003"),
    (24, 0, 0, "01 00 00 00 00 00 00 00 02 00 00 00 00 00 00 00 03 00 00 00 00 00 00 00 91 01 00 00 00 00 00 00 a5 5a 33 cc 96 69", "refused 10 a55a33cc9669"),
    (23, 0, 18446744073709551615, "80 00 01 02 03", "entry 1 2 3 5"),
    (23, 1, 5, "80 00 01 02 03", "refused 8"),
    (23, 0, 400, "80 00 01 02 91 03", "refused 10 6"),
];

/// "The plain step and the listing still call 80 00 NotShortest", and so does strict reading.
#[rustfmt::skip]
const ENTRY_BLOCK: &[Read] = &[
    (&[12, 13], 0, "80 00 01 02 03", "gap 3 2 2 1"),
    (&[12, 13], 1, "80 00 01 02 03", "refused 6"),
    (&[12, 13], 2, "80 00 01 02 03", "number 1 1 3"),
    (&[12, 13], 5, "80 00 01 02 03", "finished 5"),
    (&[12, 13], 5, "80 00 01 02 03 80 00", "gap 3 2 7 6"),
    (&[12, 13], 3, "05 80 00 80 00", "gap 3 2 5 4"),
    (&[12, 13], 0, "80 80 00", "gap 3 3 3 2"),
    (&[14], 1, "80 00 80 00 01", "start 2"),
    (&[15], 4, "80 00 01 02 03", "refused 3 1 7777777777777777777 7777777777777777777 7777777777777777777 7777777777777777777"),
    (&[15], 0, "01 02 03 80 00", "refused 3 4"),
];

/// The same in the text of a listing.
const ENTRY_TEXT: &[(&str, &str)] = &[
    (
        "80 00 01 02 40 80 00 80 00 05 81 80 00",
        "place what value
0 not-shortest 2
2 number 1
3 number 2
4 number 64
5 not-shortest 2
7 not-shortest 2
9 number 5
10 not-shortest 3
",
    ),
    (
        "80 00 01 02 91 03 80 00 04 05 ef 7c",
        "place what value
0 not-shortest 2
2 number 1
3 number 2
4 number 401
6 not-shortest 2
8 number 4
9 number 5
10 number 15983
",
    ),
];

/// Document 02, #111: "Plain signed numbers are untouched", be they in an entry: 401, -401 and the ends
/// of the width, read alone and by a step; the unsigned step, set-down and strict reading know no turn.
#[rustfmt::skip]
const PLAIN_READ: &[Read] = &[
    (&[4], 0, "91 03", "number 401 2"),
    (&[4], 0, "ef 7c", "number -401 2"),
    (&[4], 4, "80 00 01 02 91 03", "number 401 2"),
    (&[4], 4, "80 00 01 02 ef 7c 80 00", "number -401 2"),
    (&[4], 4, "80 00 01 02 ff ff ff ff ff ff ff ff ff 00", "number 9223372036854775807 10"),
    (&[4], 4, "80 00 01 02 80 80 80 80 80 80 80 80 80 7f", "number -9223372036854775808 10"),
    (&[13], 0, "91 03", "number 401 2 2"),
    (&[13], 4, "80 00 01 02 91 03", "number 401 2 6"),
    (&[13], 4, "80 00 01 02 ef 7c 80 00", "number -401 2 6"),
    (&[13], 4, "80 00 01 02 ff ff ff ff ff ff ff ff ff 00", "number 9223372036854775807 10 14"),
    (&[13], 4, "80 00 01 02 80 80 80 80 80 80 80 80 80 7f 80 00", "number -9223372036854775808 10 14"),
    (&[12], 4, "80 00 01 02 91 03", "number 401 2 6"),
    (&[12], 4, "80 00 01 02 ef 7c", "number 15983 2 6"),
    (&[14], 5, "80 00 01 02 91 03 80 00", "start 6"),
    (&[15], 3, "01 02 91 03", "count 3 1 2 401"),
];

/// The same of the plain writer.
#[rustfmt::skip]
const PLAIN_WRITE: &[Write] = &[
    (&[8], 401, 0, "a5 5a", "count 2 9103"),
    (&[8], -401, 0, "a5 5a", "count 2 ef7c"),
    (&[8], 401, 1, "a5 5a", "refused 5 a55a"),
    (&[8], 9223372036854775807, 1, "a5 5a 33 cc 96 69 0f f0 3c c3 a5", "count 10 a5ffffffffffffffffff00"),
    (&[8], -9223372036854775808, 1, "a5 5a 33 cc 96 69 0f f0 3c c3 a5", "count 10 a58080808080808080807f"),
];

/// The same of what a turn means.
const PLAIN_TURN: &[Turn] = &[
    (&[0], 401, "tighten"),
    (&[0], -401, "loosen"),
    (&[1], 401, "loosen"),
    (&[1], -401, "tighten"),
    (&[2], 401, "refused 9"),
];

/// Blocks at the limit. The most bytes: marks at both ends, and an entry that is the last. One byte more:
/// good entries alone, and a place past the end.
#[rustfmt::skip]
const LIMIT_ENTRY: &[LongEntry] = &[
    (0, &[(1, "80 00"), (65532, "05"), (1, "80 00")], "refused 10 65534"),
    (1, &[(1, "80 00"), (65529, "05"), (1, "80 00 01 02 03")], "entry 1 2 3 65536"),
    (0, &[(2, "80 00 01 02 83 01"), (13105, "80 00 01 02 03")], "refused 7"),
    (65538, &[(1, "80 00 01 02 03"), (65532, "05")], "refused 7"),
];

/// Those of the large run alone.
#[rustfmt::skip]
const LONG_ENTRY: &[LongEntry] = &[
    // The most bytes and the mark at the very start, with the place there and behind it.
    (0, &[(1, "80 00"), (65534, "05")], "refused 10 65536"),
    (0, &[(1, "80 00 01 02 03"), (65529, "05"), (1, "80 00")], "refused 10 65534"),
    (0, &[(1, "80 00 01 02 03"), (1, "80 00"), (65529, "05")], "entry 1 2 3 5"),
    (1, &[(1, "80 00"), (65534, "05")], "refused 8"),
    (65535, &[(1, "80 00"), (65534, "05")], "refused 8"),
    (65536, &[(1, "80 00"), (65534, "05")], "refused 8"),
    (65537, &[(1, "80 00"), (65534, "05")], "refused 4"),
    // At the very end: the last two bytes, and an 80 that is the last.
    (0, &[(65534, "05"), (1, "80 00")], "refused 10 65536"),
    (65534, &[(65534, "05"), (1, "80 00")], "refused 10 65536"),
    (65535, &[(65534, "05"), (1, "80 00")], "refused 8"),
    (0, &[(65535, "05"), (1, "80")], "refused 8"),
    (65535, &[(65535, "05"), (1, "80")], "refused 8"),
    // An entry that is the last, from each end; with a tail; without its turn.
    (0, &[(65531, "05"), (1, "80 00 01 02 03")], "entry 1 2 3 65536"),
    (65531, &[(65531, "05"), (1, "80 00 01 02 03")], "entry 1 2 3 65536"),
    (65532, &[(65531, "05"), (1, "80 00 01 02 03")], "refused 8"),
    (0, &[(65530, "05"), (1, "80 00 01 02 03 80")], "refused 10 65536"),
    (0, &[(65532, "05"), (1, "80 00 01 02")], "refused 10 65536"),
    // In the middle, and before a mark in the middle.
    (0, &[(32768, "05"), (1, "80 00 01 02 03 80 00"), (32761, "05")], "entry 1 2 3 32773"),
    (32769, &[(32768, "05"), (1, "80 00 01 02 03 80 00"), (32761, "05")], "refused 10 65536"),
    (0, &[(1, "80 00"), (32766, "05"), (1, "80 00"), (32766, "05")], "refused 10 32768"),
    // A tail that is all but a mark; a group that hides the last two bytes; marks alone.
    (0, &[(1, "80 00"), (65534, "80")], "refused 10 65536"),
    (0, &[(65535, "80"), (1, "00")], "refused 8"),
    (65534, &[(65535, "80"), (1, "00")], "refused 8"),
    (0, &[(32768, "80 00")], "refused 10 2"),
    (65533, &[(32768, "80 00")], "refused 10 65536"),
    (65535, &[(32768, "80 00")], "refused 8"),
    // One byte less, and one more: "tests 7, 4, then".
    (0, &[(65530, "05"), (1, "80 00 01 02 03")], "entry 1 2 3 65535"),
    (65535, &[(65530, "05"), (1, "80 00 01 02 03")], "refused 8"),
    (65536, &[(65530, "05"), (1, "80 00 01 02 03")], "refused 4"),
    (0, &[(65532, "05"), (1, "80 00 01 02 03")], "refused 7"),
    (0, &[(1, "80 00 01 02 03 80 00"), (65530, "05")], "refused 7"),
    (0, &[(65537, "05")], "refused 7"),
    (65537, &[(65537, "05")], "refused 7"),
    (65538, &[(65537, "05")], "refused 7"),
    (18446744073709551615, &[(65537, "05")], "refused 7"),
    (0, &[(60000, "80 00 01 02 03")], "refused 7"),
    // Document 02, #111: a turn in the last bytes of the most, in the first, and in one more.
    (0, &[(65530, "05"), (1, "80 00 01 02 90 03")], "entry 1 2 400 65536"),
    (0, &[(65530, "05"), (1, "80 00 01 02 91 03")], "refused 10 65536"),
    (65530, &[(65530, "05"), (1, "80 00 01 02 ef 7c")], "refused 10 65536"),
    (65531, &[(65530, "05"), (1, "80 00 01 02 ef 7c")], "refused 8"),
    (0, &[(1, "80 00 01 02 91 03 80 00"), (65528, "05")], "refused 10 6"),
    (0, &[(1, "80 00 01 02 91 03"), (65528, "05"), (1, "80 00")], "refused 10 65534"),
    (0, &[(10922, "80 00 01 02 ef 7c"), (4, "05")], "refused 10 6"),
    (65521, &[(10922, "80 00 01 02 f0 7c"), (4, "05")], "refused 10 65536"),
    (65520, &[(10922, "80 00 01 02 f0 7c"), (4, "05")], "entry 1 2 -400 65526"),
    (0, &[(65531, "05"), (1, "80 00 01 02 91 03")], "refused 7"),
];

#[rustfmt::skip]
const LIST: &[List] = &[
    (0, &[0, 127, 128, 12857, 18446744073709551615], "a5 5a 33 cc 96 69 0f f0 3c c3 a5 5a 33 cc 96 69", "count 16 007f8001b964ffffffffffffffffff01"),
    (1, &[128, 5], "a5 5a 33 cc 96", "count 3 a580010596"),
    (2, &[128, 5], "a5 5a 33 cc 96", "count 3 a55a800105"),
    (3, &[128, 5], "a5 5a 33 cc 96", "refused 5 a55a33cc96"),
    (18446744073709551615, &[128, 5], "a5 5a 33 cc 96", "refused 5 a55a33cc96"),
    (0, &[5], "", "refused 5 -"),
    // "No numbers: 0 bytes, if the place is at most the buffer length."
    (0, &[], "", "count 0 -"),
    (1, &[], "", "refused 5 -"),
    (0, &[], "a5 5a", "count 0 a55a"),
    (2, &[], "a5 5a", "count 0 a55a"),
    (3, &[], "a5 5a", "refused 5 a55a"),
    (18446744073709551615, &[], "a5 5a", "refused 5 a55a"),
];

#[rustfmt::skip]
const TURN: &[Turn] = &[
    // Right: "above zero is Tighten, below zero is Loosen, zero is Hold".
    (&[0], 1, "tighten"),
    (&[0], -1, "loosen"),
    (&[0], 0, "hold"),
    (&[0], 9223372036854775807, "tighten"),
    (&[0], -9223372036854775808, "loosen"),
    // Document 02, #101: "1 left, where the two names change places. Zero is Hold for both."
    (&[1], 1, "loosen"),
    (&[1], -1, "tighten"),
    (&[1], 0, "hold"),
    (&[1], 9223372036854775807, "loosen"),
    (&[1], -9223372036854775808, "tighten"),
    // "Any other code is refused as 9, Thread, tested first."
    (&[2, 127, 128, 254, 255], 1, "refused 9"),
    (&[2, 127, 128, 254, 255], -1, "refused 9"),
    (&[2, 127, 128, 254, 255], 0, "refused 9"),
    (&[2, 127, 128, 254, 255], 9223372036854775807, "refused 9"),
    (&[2, 127, 128, 254, 255], -9223372036854775808, "refused 9"),
    // A code that is no byte, also one that would be 0 or 1 if it were cut to 8 or 32 bits.
    (&[256, 257, 4294967296, 4294967297, 18446744073709551615], 1, "unknown"),
    (&[256, 257, 4294967296, 4294967297, 18446744073709551615], -1, "unknown"),
    (&[256, 257, 4294967296, 4294967297, 18446744073709551615], 0, "unknown"),
];

/// (name of the input, its bytes in hex, its text)
const LISTING: &[(&str, &str, &str)] = &[
    (
        "document",
        DOCUMENT,
        "place what value
0 number 0
1 number 128
3 not-shortest 2
5 overflow 10
15 number 5
16 tail 1
",
    ),
    (
        "mended",
        MENDED,
        "place what value
0 number 0
1 number 128
3 number 7
4 overflow 10
14 number 5
15 tail 1
",
    ),
    ("empty", "", "place what value\n"),
    (
        "tail",
        "80 80 80 80 80 80 80 80 80 80 80 80",
        "place what value\n0 tail 12\n",
    ),
];

/// (bytes in hex, text)
#[rustfmt::skip]
const TEXT: &[(&str, &str)] = &[
    // "Rule: unsigned."
    ("40 ff 00 ff 7f", "place what value\n0 number 64\n1 not-shortest 2\n3 number 16383\n"),
    // Ten bytes: the largest number, then a last byte one less than its and one more.
    ("ff ff ff ff ff ff ff ff ff 01", "place what value\n0 number 18446744073709551615\n"),
    ("80 80 80 80 80 80 80 80 80 00", "place what value\n0 not-shortest 10\n"),
    ("80 80 80 80 80 80 80 80 80 02", "place what value\n0 overflow 10\n"),
    // Longer: through the group's end, and an overflow whatever the last byte.
    ("80 80 80 80 80 80 80 80 80 80 01 06", "place what value\n0 overflow 11\n11 number 6\n"),
    ("80 80 80 80 80 80 80 80 80 80 00", "place what value\n0 overflow 11\n"),
    // A tail of more than ten bytes behind a group.
    ("05 ff ff ff ff ff ff ff ff ff ff ff", "place what value\n0 number 5\n1 tail 11\n"),
];

fn bytes_of(hex: &str) -> Vec<u8> {
    let byte = |word| u8::from_str_radix(word, 16).unwrap();
    hex.split_whitespace().map(byte).collect()
}

/// The answer line of a listing. Its hex is made here and not by `hex`, which the answers use.
fn text_line(text: &str) -> String {
    let mut line = "text ".to_string();
    for byte in text.bytes() {
        write!(line, "{byte:02x}").unwrap();
    }
    line
}

/// Adds the known cases that the repository holds to an input, and gives their answers in the same
/// order.
pub fn put_known(input: &mut Vec<u8>) -> Vec<String> {
    let mut lines = put_reads(input, READ);
    lines.extend(put_writes(input, WRITE));
    for (ops, v, line) in LENGTH {
        for op in *ops {
            put(input, *op, *v as u64, 0, &[]);
            lines.push(line.to_string());
        }
    }
    for (i, at) in GROWTH.iter().enumerate() {
        put(input, 9, (*at - 1) as u64, 0, &[]);
        lines.push(format!("count {}", i + 1));
        put(input, 9, *at as u64, 0, &[]);
        lines.push(format!("count {}", i + 2));
    }
    lines.extend(put_reads(input, BLOCK));
    for (place, numbers, buffer, line) in LIST {
        put_list(input, *place, numbers, &bytes_of(buffer));
        lines.push(line.to_string());
    }
    lines.extend(put_turns(input, TURN));
    let named = LISTING.iter().map(|(_, bytes, text)| (*bytes, *text));
    for (bytes, text) in named.chain(TEXT.iter().copied()) {
        put(input, 18, 0, 0, &bytes_of(bytes));
        lines.push(text_line(text));
    }
    lines.extend(put_limits(input));
    lines.extend(put_reads(input, READ_PLACE));
    lines.extend(put_reads(input, BLOCK_PLACE));
    // Past the last place of the longest block, from a start that is before it.
    put(input, 2, 65530, 0, &fives_and(65530, &[0x80; 10]));
    lines.push("refused 2 65539".to_string());
    lines
}

fn put_reads(input: &mut Vec<u8>, reads: &[Read]) -> Vec<String> {
    let mut lines = Vec::new();
    for (ops, a, bytes, line) in reads {
        for op in *ops {
            put(input, *op, *a, 0, &bytes_of(bytes));
            lines.push(line.to_string());
        }
    }
    lines
}

fn put_writes(input: &mut Vec<u8>, writes: &[Write]) -> Vec<String> {
    let mut lines = Vec::new();
    for (ops, v, place, buffer, line) in writes {
        for op in *ops {
            put(input, *op, *v as u64, *place, &bytes_of(buffer));
            lines.push(line.to_string());
        }
    }
    lines
}

fn put_turns(input: &mut Vec<u8>, turns: &[Turn]) -> Vec<String> {
    let mut lines = Vec::new();
    for (codes, turn, line) in turns {
        for code in *codes {
            put(input, 17, *turn as u64, *code, &[]);
            lines.push(line.to_string());
        }
    }
    lines
}

/// The known cases for strict reading in parts. They stand before the cases of their kind, so that
/// the cases there were before keep their order. Gives the answers as `put_known` does.
pub fn put_strict(input: &mut Vec<u8>) -> Vec<String> {
    let mut lines = Vec::new();
    for (size, block, line) in STRICT {
        put(input, 15, *size, 0, &bytes_times(block));
        lines.push(said_times(line));
    }
    lines
}

/// The known cases for setting slips, which stand before the cases of their kind too. Gives the
/// answers as `put_known` does.
pub fn put_slips(input: &mut Vec<u8>) -> Vec<String> {
    let mut lines = Vec::new();
    let mut add = |op, a, b, bytes: &[u8], line: &str| {
        put(input, op, a, b, bytes);
        lines.push(line.to_string());
    };
    for (start, bytes, line) in SLIP {
        add(19, *start, 0, &bytes_of(bytes), line);
    }
    for (kind, place, bits, buffer, line) in SLIP_WRITE {
        let bytes = [bytes_of(bits), bytes_of(buffer)].concat();
        add(20, *kind, *place, &bytes, line);
    }
    for (torque, lowest, highest, line) in QUESTION {
        let bytes = [torque, lowest, highest].map(|bits| bits.to_le_bytes());
        add(21, 0, 0, &bytes.concat(), line);
    }
    for (op, a, b, bytes, line) in SLIP_FRAME {
        add(*op, *a, *b, &bytes_of(bytes), line);
    }
    lines
}

/// The known cases for phrases inside phrases, which stand before the cases of their kind too. Gives
/// the answers as `put_known` does.
pub fn put_phrases(input: &mut Vec<u8>) -> Vec<String> {
    let mut lines = Vec::new();
    for (size, numbers, line) in PHRASE {
        put_numbers(input, 22, *size, numbers, &[]);
        lines.push(line.replace(" _", LEFT));
    }
    for (op, a, b, bytes, line) in PHRASE_FRAME {
        put(input, *op, *a, *b, &bytes_of(bytes));
        lines.push(line.to_string());
    }
    lines.extend(put_times(input, LIMIT_PHRASE));
    lines
}

fn put_times(input: &mut Vec<u8>, phrases: &[LongPhrase]) -> Vec<String> {
    let mut lines = Vec::new();
    for (size, numbers, line) in phrases {
        let all = numbers.iter().map(|(times, some)| some.repeat(*times));
        put_numbers(input, 22, *size, &all.collect::<Vec<_>>().concat(), &[]);
        lines.push(said_times(line));
    }
    lines
}

/// The known cases for entries, which stand before the cases of their kind too. Gives the answers as
/// `put_known` does.
pub fn put_entries(input: &mut Vec<u8>) -> Vec<String> {
    let mut lines = Vec::new();
    for (place, bytes, line) in ENTRY {
        put(input, 23, *place, 0, &bytes_of(bytes));
        lines.push(line.to_string());
    }
    for (place, segment, sentence, turn, buffer, line) in ENTRY_WRITE {
        let numbers = [*segment, *sentence, 0, *turn as u64];
        put_numbers(input, 24, *place, &numbers, &bytes_of(buffer));
        lines.push(line.to_string());
    }
    for (op, a, b, bytes, line) in ENTRY_FRAME {
        put(input, *op, *a, *b, &bytes_of(bytes));
        lines.push(line.to_string());
    }
    lines.extend(put_reads(input, ENTRY_BLOCK));
    for (bytes, text) in ENTRY_TEXT {
        put(input, 18, 0, 0, &bytes_of(bytes));
        lines.push(text_line(text));
    }
    lines.extend(put_long_entries(input, LIMIT_ENTRY));
    // The writer knows no limit as a block has.
    put_numbers(input, 24, 65537, &[1, 2, 0, 3], &[0xa5; 65543]);
    lines.push("count 5 ".to_string() + &"a5".repeat(65537) + "8000010203" + "a5");
    lines.extend(put_reads(input, PLAIN_READ));
    lines.extend(put_writes(input, PLAIN_WRITE));
    lines.extend(put_turns(input, PLAIN_TURN));
    lines
}

fn put_long_entries(input: &mut Vec<u8>, entries: &[LongEntry]) -> Vec<String> {
    let mut lines = Vec::new();
    for (place, block, line) in entries {
        put(input, 23, *place, 0, &bytes_times(block));
        lines.push(line.to_string());
    }
    lines
}

fn bytes_times(block: &[Times]) -> Vec<u8> {
    let each = block.iter();
    each.flat_map(|(times, hex)| bytes_of(hex).repeat(*times))
        .collect()
}

fn said_times(line: &[Times]) -> String {
    line.iter()
        .map(|(times, text)| text.repeat(*times))
        .collect()
}

/// Fives in blocks and lists: some thousands, and the most that there may be; then one byte or number
/// more, refused before all else that is wrong, and the longest list that a frame holds.
fn put_limits(input: &mut Vec<u8>) -> Vec<String> {
    let mut lines = Vec::new();
    for count in [4097, 65536] {
        let all = vec![5; count];
        for (op, a, line) in [
            (12, count - 1, format!("number 5 1 {count}")),
            (13, count, format!("finished {count}")),
            (14, count, format!("start {count}")),
            (15, count, format!("count {count}{}", " 5".repeat(count))),
        ] {
            put(input, op, a as u64, 0, &all);
            lines.push(line);
        }
        put(input, 18, 0, 0, &vec![0x80; count]);
        lines.push(text_line(&format!("place what value\n0 tail {count}\n")));
    }
    for (op, a, line) in [
        (12, 65536, "refused 7"),
        (13, 65537, "refused 7"),
        (14, 65538, "refused 7"),
        (15, 1, "refused 7 7777777777777777777"),
        // `refused 7` and a newline.
        (18, 0, "text 7265667573656420370a"),
    ] {
        put(input, op, a, 0, &too_long());
        lines.push(line.to_string());
    }
    for count in [4097, 16384] {
        put_list(input, 1, &vec![5; count], &vec![0xa5; count + 2]);
        lines.push(format!("count {count} a5{}a5", "05".repeat(count)));
    }
    put_list(input, 2, &[5; 16385], &[0xa5; 6]);
    lines.push("refused 7 a5a5a5a5a5a5".to_string());
    put_list(input, 1, &[5; 37500], &[]);
    lines.push("refused 7 -".to_string());
    // A list may have more bytes than a block.
    put_list(input, 1, &[LARGEST; 16384], &[0xa5; 163841]);
    lines.push("count 163840 a5".to_string() + &"ffffffffffffffffff01".repeat(16384));
    lines
}

/// One byte too many. Place 65,536 is in the middle of a group, which is a gap; place 65,537 is the
/// end, and place 65,538 past it.
fn too_long() -> Vec<u8> {
    fives_and(65535, &[0x80, 0x00])
}

fn fives_and(count: usize, behind: &[u8]) -> Vec<u8> {
    [&vec![5; count][..], behind].concat()
}

/// The known cases of the large run alone: they or their lines are long. Gives the answers as
/// `put_known` does.
pub fn put_long(input: &mut Vec<u8>) -> Vec<String> {
    let mut lines = Vec::new();
    // The longest listing: a row for every byte, and no number of one byte has more digits.
    put(input, 18, 0, 0, &[127; 65536]);
    let mut text = "place what value\n".to_string();
    text.extend((0..65536).map(|place| format!("{place} number 127\n")));
    lines.push(text_line(&text));

    // A slice one number too small, and the largest with one number in it.
    let left = " 7777777777777777777".repeat(65535);
    put(input, 15, 65535, 0, &[5; 65536]);
    lines.push("refused 5".to_string() + &left);
    put(input, 15, 65536, 0, &[5]);
    lines.push("count 1 5".to_string() + &left);

    for op in [12, 13, 14] {
        for place in [0, 65535, 65536, 65537, 65538] {
            put(input, op, place, 0, &too_long());
            lines.push("refused 7".to_string());
        }
    }

    // The longest list in a block of the most bytes, and the block read back.
    let block = [0x80, 0x80, 0x80, 0x01].repeat(16384);
    put_list(input, 0, &[2097152; 16384], &[0xa5; 65536]);
    lines.push("count 65536 ".to_string() + &"80808001".repeat(16384));
    put(input, 15, 16384, 0, &block);
    lines.push("count 16384".to_string() + &" 2097152".repeat(16384));

    // One number more, in the longest form.
    put_list(input, 1, &[LARGEST; 16385], &[0xa5; 163851]);
    lines.push("refused 7 ".to_string() + &"a5".repeat(163851));
    lines.extend(put_long_places(input));
    lines.extend(put_times(input, LONG_PHRASE));
    lines.extend(put_long_entries(input, LONG_ENTRY));
    // A turn is tested before the room in many bytes too.
    for place in [65537, 65538] {
        put_numbers(input, 24, place, &[1, 2, 0, 401], &[0xa5; 65543]);
        lines.push("refused 10 ".to_string() + &"a5".repeat(65543));
    }
    lines
}

/// The byte that decided, at the end of many or far before it.
fn put_long_places(input: &mut Vec<u8>) -> Vec<String> {
    let mut lines = Vec::new();
    for (ops, a, fives, behind, line) in LONG_PLACE {
        for op in *ops {
            put(input, *op, *a, 0, &fives_and(*fives, &bytes_of(behind)));
            lines.push(line.to_string());
        }
    }
    // A tail of the most bytes, and a group.
    put(input, 15, 0, 0, &[0x80; 65536]);
    lines.push("refused 1 65536".to_string());
    let group = [&[0x80; 65535][..], &[0x01]].concat();
    for (op, line) in [
        (12, "gap 2 65536 65536 9"),
        (13, "gap 2 65536 65536 9"),
        (15, "refused 2 9"),
    ] {
        put(input, op, 0, 0, &group);
        lines.push(line.to_string());
    }
    lines
}

/// Refuses to go on if an answer is not the one written down.
pub fn check() -> Result<(), String> {
    let mut known = Vec::new();
    let mut lines = put_known(&mut known);
    lines.extend(put_strict(&mut known));
    lines.extend(put_slips(&mut known));
    lines.extend(put_phrases(&mut known));
    lines.extend(put_entries(&mut known));
    lines.extend(put_long(&mut known));
    let items = frames(&known);
    if items.len() != lines.len() {
        return Err(format!(
            "{} known cases, {} frames",
            lines.len(),
            items.len()
        ));
    }
    for (item, line) in items.iter().zip(&lines) {
        let given = answer(item);
        if given != *line {
            let same = given.bytes().zip(line.bytes()).take_while(|(a, b)| a == b);
            return Err(format!(
                "{:.200}: `{given:.200}`, by the documents `{line:.200}`, the same for {} characters",
                list(item),
                same.count()
            ));
        }
    }
    for (name, bytes, _) in LISTING {
        if listing::input(name) != Some(bytes_of(bytes)) {
            return Err(format!("the input {name} is not the document's"));
        }
    }
    Ok(())
}
