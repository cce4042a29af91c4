//! Document 01's rules for one number.
//!
//!   Refusal        a number of the table of refusals, or document 02's
//!   RefusalAt, at  a refusal with the place of the byte that decided it
//!   Rule           a row of the table of widths
//!   value          the number that the bytes of a form spell
//!   one_too_many   whether the last byte of a form is one too many
//!   length, form   the count of bytes of the shortest form, and its bytes
//!   read, write    the number desk
//!   store          bytes put at a place, if there is room
//!   fill           numbers put to the front of an answer slice, if there is room
//!
//! Each is the document's sentence over wide arithmetic, not the usual loop of shifts: it is held
//! against a program that has such loops and must not share a slip with it. Where the document
//! says a thing twice, both are here and `read` and `form` stop the run if they part.

/// The number of a refusal, from the table of refusals; 9, 10, 11 and 13 from document 02, #101, #102,
/// #104 and #110. What refuses with this carries "its number and nothing else".
pub type Refusal = u8;
pub const END: Refusal = 1;
pub const OVERFLOW: Refusal = 2;
pub const NOT_SHORTEST: Refusal = 3;
pub const PLACE: Refusal = 4;
pub const NO_ROOM: Refusal = 5;
pub const NOT_A_START: Refusal = 6;
pub const TOO_LONG: Refusal = 7;
pub const NO_START: Refusal = 8;
pub const THREAD: Refusal = 9;
pub const ENTRY: Refusal = 10;
pub const SLIP: Refusal = 11;
pub const TREE: Refusal = 13;

/// Document 02, #108: "A number reader's refusal shall also give the place of the byte that decided
/// it." Counted from the first of all the bytes, not from the start asked.
#[derive(Clone, Copy, PartialEq)]
pub struct RefusalAt {
    pub refusal: Refusal,
    pub place: u64,
}

pub fn at(refusal: Refusal, place: u64) -> RefusalAt {
    RefusalAt { refusal, place }
}

/// "The nine values at which a 64-bit number grows by a byte."
pub const GROWTH: [i128; 9] = [
    128,
    16384,
    2097152,
    268435456,
    34359738368,
    4398046511104,
    562949953421312,
    72057594037927936,
    9223372036854775808,
];

#[derive(Clone, Copy, PartialEq)]
pub enum Rule {
    U64,
    U32,
    I64,
}
use Rule::*;

impl Rule {
    /// The column "most bytes".
    pub fn most(self) -> usize {
        match self {
            U64 => 10,
            U32 => 5,
            I64 => 10,
        }
    }

    /// The column "last allowed byte at that length".
    fn allows_last(self, byte: u8) -> bool {
        match self {
            U64 => byte <= 1,
            U32 => byte <= 15,
            I64 => byte == 0 || byte == 127,
        }
    }

    pub fn smallest(self) -> i128 {
        match self {
            U64 | U32 => 0,
            I64 => -power(63),
        }
    }

    pub fn largest(self) -> i128 {
        match self {
            U64 => power(64) - 1,
            U32 => power(32) - 1,
            I64 => power(63) - 1,
        }
    }
}

/// 2 to the given power.
pub fn power(of: usize) -> i128 {
    2i128.pow(of as u32)
}

/// Seven bits of value to a byte, the lowest first; if signed, these 7k bits in two's complement.
pub fn value(rule: Rule, form: &[u8]) -> i128 {
    let k = form.len();
    let mut bits = 0;
    for (i, byte) in form.iter().enumerate() {
        bits += (*byte as i128 % 128) * power(7 * i);
    }
    if rule == I64 && bits >= power(7 * k - 1) {
        bits - power(7 * k)
    } else {
        bits
    }
}

/// Unsigned: "a last byte 0 that isn't the first byte". Signed: "a last byte 0 after a byte whose
/// bit of weight 64 is clear", or "a last byte 127 after one where it is set".
fn one_too_many(rule: Rule, form: &[u8]) -> bool {
    if form.len() == 1 {
        return false;
    }
    let last = form[form.len() - 1];
    let weight_64_set = form[form.len() - 2] / 64 % 2 == 1;
    match rule {
        U64 | U32 => last == 0,
        I64 => (last == 0 && !weight_64_set) || (last == 127 && weight_64_set),
    }
}

/// Unsigned: one byte, and one more for each growth value reached. Signed: "the smallest k with
/// -2^(7k-1) <= v < 2^(7k-1)".
pub fn length(rule: Rule, v: i128) -> usize {
    match rule {
        U64 | U32 => 1 + GROWTH.iter().filter(|at| **at <= v).count(),
        I64 => (1..=10)
            .find(|k| -power(7 * k - 1) <= v && v < power(7 * k - 1))
            .unwrap(),
    }
}

/// The shortest form of a number that the rule's width has.
pub fn form(rule: Rule, v: i128) -> Vec<u8> {
    assert!(rule.smallest() <= v && v <= rule.largest());
    let bytes = match rule {
        U64 | U32 => unsigned_form(v),
        I64 => signed_form(v),
    };
    assert!(bytes.len() == length(rule, v) && value(rule, &bytes) == v);
    bytes
}

/// "One byte v if v < 128, else (v mod 128) + 128 followed by the form of v div 128."
fn unsigned_form(v: i128) -> Vec<u8> {
    if v < 128 {
        return vec![v as u8];
    }
    let mut bytes = vec![(v % 128 + 128) as u8];
    bytes.extend(unsigned_form(v / 128));
    bytes
}

/// The 7k bits of v in two's complement, in k bytes, each but the last saying that another follows.
fn signed_form(v: i128) -> Vec<u8> {
    let k = length(I64, v);
    let bits = if v < 0 { v + power(7 * k) } else { v };
    let mut bytes = Vec::new();
    for i in 0..k {
        let seven = bits / power(7 * i) % 128;
        bytes.push((if i < k - 1 { seven + 128 } else { seven }) as u8);
    }
    bytes
}

/// The number at a start and its count of bytes, or a refusal and the byte that decided it.
pub fn read(rule: Rule, bytes: &[u8], start: u64) -> Result<(i128, usize), RefusalAt> {
    let said = read_by_table(rule, bytes, start);
    if let Err(refused) = said {
        check_decided(rule, bytes, start, refused);
    }
    said
}

/// The refusals are decided by the rows of their table: 4 first, and 2 before 3. Their places are
/// "for 1 the end of the bytes, for 2 the byte at the greatest length, for 3 the last byte, for 4
/// the start asked".
fn read_by_table(rule: Rule, all: &[u8], start: u64) -> Result<(i128, usize), RefusalAt> {
    if start as u128 > all.len() as u128 {
        return Err(at(PLACE, start));
    }
    let bytes = &all[start as usize..];
    let most = rule.most();

    if bytes.len() < most && all_high(bytes) {
        return Err(at(END, all.len() as u64));
    }
    if bytes.len() >= most && all_high(&bytes[..most - 1]) && !rule.allows_last(bytes[most - 1]) {
        return Err(at(OVERFLOW, start + most as u64 - 1));
    }
    // What is left has a byte below 128 among the most that are allowed, and the number ends there.
    let last = bytes.iter().position(|byte| *byte < 128).unwrap();
    let number = &bytes[..=last];
    assert!(number.len() <= most);
    let v = value(rule, number);
    assert!(one_too_many(rule, number) == (form(rule, v) != number));
    if one_too_many(rule, number) {
        return Err(at(NOT_SHORTEST, start + last as u64));
    }
    Ok((v, number.len()))
}

fn all_high(bytes: &[u8]) -> bool {
    bytes.iter().all(|byte| *byte >= 128)
}

/// Stops the run if it is another byte that decided. For 4 and for 1 it is none that is there.
fn check_decided(rule: Rule, bytes: &[u8], start: u64, refused: RefusalAt) {
    let RefusalAt { refusal, place } = refused;
    if refusal == PLACE {
        assert!(place == start && place > bytes.len() as u64);
        return;
    }
    // Readers "walk the bytes from the start": each before the one that decided says that another
    // follows, and there are fewer of them than the most.
    assert!(start <= place && place < start + rule.most() as u64);
    let before = &bytes[..place as usize];
    assert!(all_high(&before[start as usize..]));
    // Cut off just before it, the bytes end too early.
    assert!(read_by_table(rule, before, start) == Err(at(END, place)));
    if refusal == END {
        // A byte there that is below 128 would be their end.
        let ended = [before, &[1]].concat();
        let said = read_by_table(rule, &ended, start);
        assert!(!said.is_err_and(|other| other.refusal == END));
    } else {
        // Cut off just behind it, they are refused as before.
        let with_it = &bytes[..=place as usize];
        assert!(read_by_table(rule, with_it, start) == Err(refused));
    }
}

/// Puts the form of v at a place, all else kept, and gives its count of bytes.
pub fn write(rule: Rule, v: i128, buffer: &mut [u8], place: u64) -> Result<usize, Refusal> {
    store(&form(rule, v), buffer, place)
}

/// Puts bytes at a place, all else kept, and gives their count; 5 if "place + bytes needed > buffer
/// length".
pub fn store(bytes: &[u8], buffer: &mut [u8], place: u64) -> Result<usize, Refusal> {
    if place as u128 + bytes.len() as u128 > buffer.len() as u128 {
        return Err(NO_ROOM);
    }
    for (i, byte) in bytes.iter().enumerate() {
        buffer[place as usize + i] = *byte;
    }
    Ok(bytes.len())
}

/// Fills the front of an answer slice, leaves the rest, and gives the count; 5 if there are "more
/// numbers than the answer slice holds".
pub fn fill(numbers: &[u64], slice: &mut [u64]) -> Result<usize, Refusal> {
    if numbers.len() > slice.len() {
        return Err(NO_ROOM);
    }
    slice[..numbers.len()].copy_from_slice(numbers);
    Ok(numbers.len())
}
