//! Document 02's rules for setting slips, #104.
//!
//!   body_length             the length of a body, which the kind fixes
//!   Setting                 a kind and the bits of its body, good or not
//!   slip, is_good           its bytes, and whether the rules let it pass
//!   bits_of, bytes_of       the bits of each f32, from its bytes and back
//!   order                   which of two f32 is the smaller, by their bits
//!   read_slip, write_slip   the slip desk
//!   lies_in_range           whether a torque lies in a range
//!
//! Nothing here is a float. The bits of one are taken apart into sign, exponent and fraction, and
//! two are compared as multiples of one power of two: it is held against a program that compares
//! floats and must not share a slip with it. `order` stops the run if the bits taken as one number
//! say otherwise; `read_slip` if bytes behind the slip change the answer, if fewer give it too, or
//! if the setting is spelled otherwise than it was read; `write_slip` if it isn't read back.

use crate::numbers::{store, Refusal, END, PLACE, SLIP};
use std::cmp::Ordering;

/// What four bytes of a body are.
#[derive(Clone, Copy, PartialEq)]
enum Measure {
    Torque,
    Angle,
}
use Measure::*;

/// "Kind 0 has no body, 1 is a torque in newton metres (4 bytes), 2 an angle in degrees (4), 3 a
/// lowest and a highest torque (8), each the bits of an f32."
const BODIES: [&[Measure]; 4] = [&[], &[Torque], &[Angle], &[Torque, Torque]];

/// "One byte of kind, then a body whose length the kind fixes", if there is such a kind.
pub fn body_length(kind: u64) -> Option<usize> {
    let body = BODIES.get(usize::try_from(kind).ok()?)?;
    Some(4 * body.len())
}

/// A setting of a kind that there is, with the bits of each f32 in its body.
#[derive(Clone, PartialEq)]
pub struct Setting {
    pub kind: u8,
    pub bits: Vec<u32>,
}

impl Setting {
    pub fn slip(&self) -> Vec<u8> {
        [vec![self.kind], bytes_of(&self.bits)].concat()
    }

    /// If not, it is "11 for an infinity or not-a-number, for minus zero, for a torque below zero,
    /// and for a lowest above the highest. Equal ends are good. An angle may be negative."
    pub fn is_good(&self) -> bool {
        let measures = BODIES[self.kind as usize];
        let any = |test: fn(u32) -> bool| self.bits.iter().any(|bits| test(*bits));
        if any(infinity_or_not_a_number) || any(minus_zero) {
            return false;
        }
        let mut measured = measures.iter().zip(&self.bits);
        if measured.any(|(measure, bits)| *measure == Torque && below_zero(*bits)) {
            return false;
        }
        match self.bits[..] {
            [lowest, highest] => order(lowest, highest) != Ordering::Greater,
            _ => true,
        }
    }
}

/// Four bytes to each, "low byte first".
pub fn bits_of(bytes: &[u8]) -> Vec<u32> {
    let weighed = |(i, byte): (usize, &u8)| *byte as u32 * 256u32.pow(i as u32);
    let each = bytes.chunks(4);
    each.map(|four| four.iter().enumerate().map(weighed).sum())
        .collect()
}

pub fn bytes_of(bits: &[u32]) -> Vec<u8> {
    let byte = |bits: u32, i: u32| (bits / 256u32.pow(i) % 256) as u8;
    bits.iter()
        .flat_map(|each| [0, 1, 2, 3].map(|i| byte(*each, i)))
        .collect()
}

// ---- what the bits of an f32 stand for

const SIGN: u32 = 1 << 31;

/// One, as a multiple of the last of a fraction's 23 bits.
const ONE: u32 = 1 << 23;

fn is_negative(bits: u32) -> bool {
    bits / SIGN == 1
}

fn exponent(bits: u32) -> u32 {
    bits / ONE % 256
}

fn fraction(bits: u32) -> u32 {
    bits % ONE
}

fn infinity_or_not_a_number(bits: u32) -> bool {
    exponent(bits) == 255
}

fn not_a_number(bits: u32) -> bool {
    exponent(bits) == 255 && fraction(bits) > 0
}

fn minus_zero(bits: u32) -> bool {
    is_negative(bits) && exponent(bits) == 0 && fraction(bits) == 0
}

/// Minus zero is not: it equals zero.
fn below_zero(bits: u32) -> bool {
    order(bits, 0) == Ordering::Less
}

/// (m, e) for m times 2^e times the least subnormal, exactly. An infinity gets the next exponent,
/// and so a size above that of every other.
fn multiple(bits: u32) -> (i64, u32) {
    let (size, e) = match exponent(bits) {
        0 => (fraction(bits), 0),
        exponent => (ONE + fraction(bits), exponent - 1),
    };
    let sign = if is_negative(bits) { -1 } else { 1 };
    (sign * size as i64, e)
}

/// The order of two, neither of them a not-a-number, as multiples of the finer power of two. If
/// that is finer by 24 bits or more, the coarser one is the greater in size: it has 24 bits with
/// the first of them set, and the other has no more. To move it by 24 is then enough.
fn order(a: u32, b: u32) -> Ordering {
    assert!(!not_a_number(a) && !not_a_number(b));
    let finer = multiple(a).1.min(multiple(b).1);
    let finely = |(m, e): (i64, u32)| m * (1 << (e - finer).min(24));
    let said = finely(multiple(a)).cmp(&finely(multiple(b)));
    assert!(said == as_one_number(a).cmp(&as_one_number(b)));
    said
}

/// The sign, and all other bits as a size: both zeros are 0.
fn as_one_number(bits: u32) -> i64 {
    let size = (bits % SIGN) as i64;
    if is_negative(bits) {
        -size
    } else {
        size
    }
}

// ---- the slip desk

/// The setting and the count of bytes taken, or a refusal, which carries no place.
type Said = Result<(Setting, usize), Refusal>;

pub fn read_slip(bytes: &[u8], start: u64) -> Said {
    if start as u128 > bytes.len() as u128 {
        return Err(PLACE);
    }
    let there = &bytes[start as usize..];
    let said = read_front(there);
    check_read(there, &said);
    said
}

/// "No byte from the start is 1; an unknown kind is 11, Slip; a short body is 1; then 11" for a
/// setting that isn't good. "Bytes behind a body are not looked at."
fn read_front(there: &[u8]) -> Said {
    let (kind, behind) = there.split_first().ok_or(END)?;
    let length = body_length(*kind as u64).ok_or(SLIP)?;
    let body = behind.get(..length).ok_or(END)?;
    let setting = Setting {
        kind: *kind,
        bits: bits_of(body),
    };
    if !setting.is_good() {
        return Err(SLIP);
    }
    Ok((setting, 1 + length))
}

/// Stops the run if the answer isn't that of the slip's own bytes: cut off before their end it is
/// 1, and from there on, whatever is behind, the same.
fn check_read(there: &[u8], said: &Said) {
    let kind = there.first().copied().unwrap_or(0);
    let needed = 1 + body_length(kind as u64).unwrap_or(0);
    for count in 0..=there.len().min(12) {
        let early = count < needed;
        let cut = read_front(&there[..count]);
        assert!(early && cut == Err(END) || !early && cut == *said);
    }
    if there.len() >= needed {
        let own = &there[..needed];
        for behind in [0x00, 0x03, 0x80, 0xff] {
            assert!(read_front(&[own, &[behind; 9]].concat()) == *said);
        }
    }
    // "The bits come back as they went, one spelling per setting."
    if let Ok((setting, count)) = said {
        assert!(*count == needed && setting.slip() == there[..needed]);
    }
}

/// "The writer tests 11 by the same rules, then 5, and changes nothing when it refuses." Gives the
/// count of bytes.
pub fn write_slip(setting: &Setting, buffer: &mut [u8], place: u64) -> Result<usize, Refusal> {
    if !setting.is_good() {
        return Err(SLIP);
    }
    let count = store(&setting.slip(), buffer, place)?;
    assert!(read_slip(buffer, place) == Ok((setting.clone(), count)));
    Ok(count)
}

/// "Yes exactly when it is not under the lowest nor over the highest; a not-a-number among the
/// three gets no."
pub fn lies_in_range(torque: u32, lowest: u32, highest: u32) -> bool {
    if [torque, lowest, highest].into_iter().any(not_a_number) {
        return false;
    }
    let under = order(torque, lowest) == Ordering::Less;
    let over = order(torque, highest) == Ordering::Greater;
    !under && !over
}
