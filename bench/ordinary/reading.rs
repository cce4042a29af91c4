//! Ordinary readers of single numbers, steps through a block, set-down and strict reading.
use super::{BLOCK_LIMIT, END, NOT_A_START, NOT_SHORTEST, NO_ROOM, NO_START, OVERFLOW, PLACE, TOO_LONG};
use std::marker::PhantomData;
use std::ops::{BitOrAssign, Shl};

/// A number and its count of bytes, or a refusal and the place of the byte that decided it.
pub type Read<T> = Result<(T, usize), (u8, usize)>;

/// Goes over all numbers, or all groups, of the bytes, and gives the exclusive or of the numbers and of the places in gaps.
pub type Pass = fn(&[u8]) -> u64;

// ---- widths

/// What u64, u32 and i64 differ in.
pub(super) trait Width: From<u8> + BitOrAssign + Shl<usize, Output = Self> {
    /// The most bytes.
    const MOST: usize;

    /// Whether a number of the most bytes may end in this one.
    fn fits(last: u8) -> bool;

    /// Whether the last byte is one too many behind the one before it.
    #[inline(always)]
    fn is_spare(_before: u8, last: u8) -> bool {
        last == 0
    }

    /// The number of n bytes with these bits, whose last is this one.
    #[inline(always)]
    fn of_bits(bits: Self, _n: usize, _last: u8) -> Self {
        bits
    }

    fn to_u64(self) -> u64;
}

impl Width for u64 {
    const MOST: usize = 10;

    #[inline(always)]
    fn fits(last: u8) -> bool {
        last <= 1
    }

    #[inline(always)]
    fn to_u64(self) -> u64 {
        self
    }
}

impl Width for u32 {
    const MOST: usize = 5;

    #[inline(always)]
    fn fits(last: u8) -> bool {
        last <= 15
    }

    #[inline(always)]
    fn to_u64(self) -> u64 {
        self.into()
    }
}

impl Width for i64 {
    const MOST: usize = 10;

    #[inline(always)]
    fn fits(last: u8) -> bool {
        last == 0 || last == 127
    }

    #[inline(always)]
    fn is_spare(before: u8, last: u8) -> bool {
        last == if before & 64 == 0 { 0 } else { 127 }
    }

    /// The last byte's bit of weight 64 is the sign.
    #[inline(always)]
    fn of_bits(bits: i64, n: usize, last: u8) -> i64 {
        if last & 64 != 0 && n < Self::MOST { bits | -1 << (7 * n) } else { bits }
    }

    #[inline(always)]
    fn to_u64(self) -> u64 {
        self as u64
    }
}

// ---- single numbers

/// What is read at the place where it isn't too large and ends with the byte i behind the place.
#[inline(always)]
fn ended<T: Width>(bits: T, before: u8, last: u8, at: usize, i: usize) -> Read<T> {
    if i > 0 && T::is_spare(before, last) {
        return Err((NOT_SHORTEST, at + i));
    }
    Ok((T::of_bits(bits, i + 1, last), i + 1))
}

/// An index and a shift.
#[inline(always)]
fn by_loop<T: Width>(bytes: &[u8], at: usize) -> Read<T> {
    if bytes.len() < at {
        return Err((PLACE, at));
    }
    let (mut bits, mut before, mut i) = (T::from(0), 0, 0);
    loop {
        let Some(&b) = bytes.get(at + i) else {
            return Err((END, bytes.len()));
        };
        if i == T::MOST - 1 && !T::fits(b) {
            return Err((OVERFLOW, at + i));
        }
        bits |= T::from(b & 127) << (7 * i);
        if b < 128 {
            return ended(bits, before, b, at, i);
        }
        before = b;
        i += 1;
    }
}

/// A test for one small byte first.
#[inline(always)]
pub(super) fn by_small<T: Width>(bytes: &[u8], at: usize) -> Read<T> {
    match bytes.get(at) {
        Some(&b) if b < 128 => Ok((T::of_bits(T::from(b), 1, b), 1)),
        _ => by_loop(bytes, at),
    }
}

/// An iterator over no more than the most bytes.
#[inline(always)]
fn by_take<T: Width>(bytes: &[u8], at: usize) -> Read<T> {
    let rest = bytes.get(at..).ok_or((PLACE, at))?;
    let (mut bits, mut before) = (T::from(0), 0);
    for (i, &b) in rest.iter().take(T::MOST).enumerate() {
        bits |= T::from(b & 127) << (7 * i);
        if b < 128 {
            if i == T::MOST - 1 && !T::fits(b) {
                return Err((OVERFLOW, at + i));
            }
            return ended(bits, before, b, at, i);
        }
        before = b;
    }
    Err(if rest.len() < T::MOST { (END, bytes.len()) } else { (OVERFLOW, at + T::MOST - 1) })
}

/// The unsigned number at the place, of at most so many bytes.
fn rest<T: Width + PartialEq>(bytes: &[u8], at: usize, left: usize) -> Read<T> {
    let Some(&b) = bytes.get(at) else {
        return Err((END, bytes.len()));
    };
    if left == 1 && !T::fits(b) {
        return Err((OVERFLOW, at));
    }
    if b < 128 {
        return Ok((T::from(b), 1));
    }
    let (behind, n) = rest::<T>(bytes, at + 1, left - 1)?;
    if behind == T::from(0) {
        return Err((NOT_SHORTEST, at + 1));
    }
    let mut bits = behind << 7;
    bits |= T::from(b & 127);
    Ok((bits, n + 1))
}

/// A byte in front of what is read behind it.
#[inline(always)]
fn by_recursion<T: Width + PartialEq>(bytes: &[u8], at: usize) -> Read<T> {
    if bytes.len() < at { Err((PLACE, at)) } else { rest(bytes, at, T::MOST) }
}

/// A reader, and two passes: one that calls it for each number, and one into which it is inlined.
pub struct Reader {
    pub name: &'static str,
    pub read: fn(&[u8], usize) -> Read<u64>,
    pub called: Pass,
    pub inlined: Pass,
}

/// Reads number after number. It is no function, since a reader that is handed to one makes slower code.
macro_rules! reads {
    ($bytes:ident, $read:path) => {{
        let (mut at, mut sum) = (0, 0);
        while at < $bytes.len() {
            let Ok((v, n)) = $read($bytes, at) else { break };
            sum ^= v.to_u64();
            at += n;
        }
        sum
    }};
}

macro_rules! reader {
    ($name:literal, $read:ident, $number:ty) => {{
        #[inline(never)]
        fn read(bytes: &[u8], at: usize) -> Read<$number> {
            $read(bytes, at)
        }
        #[inline(never)]
        fn called(bytes: &[u8]) -> u64 {
            reads!(bytes, read)
        }
        #[inline(never)]
        fn inlined(bytes: &[u8]) -> u64 {
            reads!(bytes, $read::<$number>)
        }
        Reader { name: $name, read: |bytes, at| read(bytes, at).map(|(v, n)| (v.to_u64(), n)), called, inlined }
    }};
}

pub const U64: &[Reader] = &[reader!("loop", by_loop, u64), reader!("small", by_small, u64), reader!("take", by_take, u64)];
pub const U64_REC: &[Reader] = &[reader!("recursion", by_recursion, u64)];
pub const U32: &[Reader] = &[reader!("loop", by_loop, u32), reader!("small", by_small, u32)];
pub const I64: &[Reader] = &[reader!("loop", by_loop, i64), reader!("small", by_small, i64)];

// ---- the groups of a block

/// What stands at a start, with its count of bytes. A gap has its refusal and the place of the byte that decided it.
enum Item<T> {
    Number(T, usize),
    Gap(u8, usize, usize),
    Tail(usize),
}

/// The groups from a start on, and the tail. There are two ways to find the next one: plain, and with a test for one small byte first.
struct Items<'a, T, const SMALL_FIRST: bool> {
    block: &'a [u8],
    at: usize,
    numbers: PhantomData<T>,
}

impl<'a, T: Width, const SMALL_FIRST: bool> Items<'a, T, SMALL_FIRST> {
    fn new(block: &'a [u8], at: usize) -> Self {
        Items { block, at, numbers: PhantomData }
    }

    /// One loop that puts the bits together and finds the end.
    #[inline(always)]
    fn plain(&mut self) -> Option<Item<T>> {
        let (at, rest) = (self.at, &self.block[self.at..]);
        if rest.is_empty() {
            return None;
        }
        let (mut bits, mut before, mut fits) = (T::from(0), 0, true);
        for (i, &b) in rest.iter().enumerate() {
            // The last of the most bytes stands apart: with one test for all of them a number of ten bytes takes half as long again.
            if i < T::MOST - 1 {
                bits |= T::from(b & 127) << (7 * i);
            } else if i == T::MOST - 1 {
                bits |= T::from(b & 127) << (7 * i);
                fits = T::fits(b);
            }
            if b < 128 {
                self.at = at + i + 1;
                if !fits {
                    return Some(Item::Gap(OVERFLOW, at + T::MOST - 1, i + 1));
                }
                return Some(match ended(bits, before, b, at, i) {
                    Ok((v, n)) => Item::Number(v, n),
                    Err((refusal, place)) => Item::Gap(refusal, place, i + 1),
                });
            }
            before = b;
        }
        self.at = self.block.len();
        Some(Item::Tail(rest.len()))
    }

    /// A test for one small byte, then the reader; the end is looked for only where that refuses.
    #[inline(always)]
    fn small(&mut self) -> Option<Item<T>> {
        let at = self.at;
        let &first = self.block.get(at)?;
        if first < 128 {
            self.at = at + 1;
            return Some(Item::Number(T::of_bits(T::from(first), 1, first), 1));
        }
        Some(match by_loop(self.block, at) {
            Ok((v, n)) => {
                self.at = at + n;
                Item::Number(v, n)
            }
            Err((refusal, place)) => match self.block[at..].iter().position(|&b| b < 128) {
                Some(high) => {
                    self.at = at + high + 1;
                    Item::Gap(refusal, place, high + 1)
                }
                None => {
                    self.at = self.block.len();
                    Item::Tail(self.block.len() - at)
                }
            },
        })
    }
}

impl<T: Width, const SMALL_FIRST: bool> Iterator for Items<'_, T, SMALL_FIRST> {
    type Item = Item<T>;

    #[inline(always)]
    fn next(&mut self) -> Option<Item<T>> {
        if SMALL_FIRST { self.small() } else { self.plain() }
    }
}

#[inline(never)]
fn over_items<T: Width, const SMALL_FIRST: bool>(block: &[u8]) -> u64 {
    let mut sum = 0;
    for item in Items::<T, SMALL_FIRST>::new(block, 0) {
        match item {
            Item::Number(v, _) => sum ^= v.to_u64(),
            Item::Gap(_, place, _) => sum ^= place as u64,
            Item::Tail(_) => {}
        }
    }
    sum
}

// ---- blocks

/// What a step says, each with the place that it goes on from.
#[derive(PartialEq)]
pub enum Step {
    Number(u64, usize, usize),
    Gap(u8, usize, usize, usize),
    Tail(usize, usize),
    Finished(usize),
}

pub(super) fn within(block: &[u8], at: usize) -> Result<(), u8> {
    if block.len() > BLOCK_LIMIT {
        return Err(TOO_LONG);
    }
    if at > block.len() {
        return Err(PLACE);
    }
    Ok(())
}

fn is_start(block: &[u8], at: usize) -> bool {
    at == 0 || block[at - 1] < 128
}

/// A step at any place, which the check asks for.
fn step<T: Width, const SMALL_FIRST: bool>(block: &[u8], at: usize) -> Result<Step, u8> {
    within(block, at)?;
    if at < block.len() && !is_start(block, at) {
        return Err(NOT_A_START);
    }
    let mut items = Items::<T, SMALL_FIRST>::new(block, at);
    Ok(match items.next() {
        None => Step::Finished(at),
        Some(Item::Number(v, count)) => Step::Number(v.to_u64(), count, items.at),
        Some(Item::Gap(refusal, place, count)) => Step::Gap(refusal, place, count, items.at),
        Some(Item::Tail(count)) => Step::Tail(count, at),
    })
}

/// A way to go from group to group: a step, and a pass.
pub struct Stepper {
    pub name: &'static str,
    pub step: fn(&[u8], usize) -> Result<Step, u8>,
    pub pass: Pass,
}

const fn steppers<T: Width>() -> [Stepper; 2] {
    [
        Stepper { name: "plain", step: step::<T, false>, pass: over_items::<T, false> },
        Stepper { name: "small", step: step::<T, true>, pass: over_items::<T, true> },
    ]
}

pub const UNSIGNED: &[Stepper] = &steppers::<u64>();
pub const SIGNED: &[Stepper] = &steppers::<i64>();

pub fn set_down(block: &[u8], at: usize) -> Result<usize, u8> {
    within(block, at)?;
    (at..=block.len()).find(|&place| is_start(block, place)).ok_or(NO_START)
}

// ---- strict reading

/// The count of numbers, or a refusal and, where a byte decided it, its place.
pub type Strict = Result<usize, (u8, Option<usize>)>;

/// A way to read a whole block. Each decodes into a `Vec` and copies that out at the end, so that a refusal changes no number.
pub struct StrictReader {
    pub name: &'static str,
    pub read: fn(&[u8], &mut [u64]) -> Strict,
}

pub const STRICT: &[StrictReader] = &[
    StrictReader { name: "plain", read: |block, numbers| strictly(block, numbers, Items::<u64, false>::new(block, 0)) },
    StrictReader { name: "small", read: |block, numbers| strictly(block, numbers, SmallFirst(Items::new(block, 0))) },
    StrictReader { name: "reader", read: |block, numbers| strictly(block, numbers, Items::<u64, true>::new(block, 0)) },
    StrictReader { name: "varint", read: |block, numbers| strictly(block, numbers, Varints { at: 0, rest: block }) },
];

/// The numbers of a block as an iterator finds its groups. A group takes a byte at least, so that the `Vec` needn't grow.
#[inline(always)]
fn strictly(block: &[u8], numbers: &mut [u64], items: impl Iterator<Item = Item<u64>>) -> Strict {
    if block.len() > BLOCK_LIMIT {
        return Err((TOO_LONG, None));
    }
    let mut found = Vec::with_capacity(block.len());
    for item in items {
        match item {
            Item::Number(v, _) => found.push(v),
            Item::Gap(refusal, place, _) => return Err((refusal, Some(place))),
            Item::Tail(_) => return Err((END, Some(block.len()))),
        }
    }
    numbers.get_mut(..found.len()).ok_or((NO_ROOM, None))?.copy_from_slice(&found);
    Ok(found.len())
}

/// A test for one small byte, then the plain loop.
struct SmallFirst<'a>(Items<'a, u64, false>);

impl Iterator for SmallFirst<'_> {
    type Item = Item<u64>;

    #[inline(always)]
    fn next(&mut self) -> Option<Item<u64>> {
        let &first = self.0.block.get(self.0.at)?;
        if first < 128 {
            self.0.at += 1;
            return Some(Item::Number(first.into(), 1));
        }
        self.0.next()
    }
}

/// The number at the front of the bytes and what is behind it, or a refusal and the place in them of the byte that decided it: the decoder of the
/// crate unsigned-varint, with a test of the tenth byte.
#[inline(always)]
fn varint(bytes: &[u8]) -> Result<(u64, &[u8]), (u8, usize)> {
    let mut v = 0;
    for (i, &b) in bytes.iter().enumerate() {
        v |= u64::from(b & 127) << (7 * i);
        if b < 128 {
            if i == 9 && b > 1 {
                return Err((OVERFLOW, i));
            }
            if b == 0 && i > 0 {
                return Err((NOT_SHORTEST, i));
            }
            return Ok((v, &bytes[i + 1..]));
        }
        if i == 9 {
            return Err((OVERFLOW, i));
        }
    }
    Err((END, bytes.len()))
}

/// That decoder, with a test of whether what it refuses is a tail.
struct Varints<'a> {
    at: usize,
    rest: &'a [u8],
}

impl Iterator for Varints<'_> {
    type Item = Item<u64>;

    #[inline(always)]
    fn next(&mut self) -> Option<Item<u64>> {
        if self.rest.is_empty() {
            return None;
        }
        Some(match varint(self.rest) {
            Ok((v, behind)) => {
                let count = self.rest.len() - behind.len();
                (self.at, self.rest) = (self.at + count, behind);
                Item::Number(v, count)
            }
            Err((refusal, place)) => match self.rest.iter().position(|&b| b < 128) {
                Some(high) => Item::Gap(refusal, self.at + place, high + 1),
                None => Item::Tail(self.rest.len()),
            },
        })
    }
}
