//! Ordinary lengths and writers. Each is called as ours is, and not inlined.
use super::{LIST_LIMIT, NO_ROOM, TOO_LONG};
use std::slice::IterMut;

/// The count of bytes, or a refusal.
pub type Written = Result<usize, u8>;

// ---- lengths

/// Shifts until what is left is below 128.
#[inline(always)]
fn by_shifts(v: u64) -> usize {
    let (mut rest, mut n) = (v, 1);
    while rest >= 128 {
        rest >>= 7;
        n += 1;
    }
    n
}

/// Seven bits a byte.
#[inline(always)]
fn by_sevens(v: u64) -> usize {
    let bits = 64 - (v | 1).leading_zeros() as usize;
    (bits + 6) / 7
}

/// The same without a division by seven, as in the crate prost.
#[inline(always)]
pub(super) fn by_bits(v: u64) -> usize {
    let bits = 64 - (v | 1).leading_zeros() as usize;
    (bits * 9 + 64) / 64
}

#[inline(never)]
pub fn lengths_by_shifts(numbers: &[u64]) -> usize {
    numbers.iter().map(|&v| by_shifts(v)).sum()
}

#[inline(never)]
pub fn lengths_by_sevens(numbers: &[u64]) -> usize {
    numbers.iter().map(|&v| by_sevens(v)).sum()
}

#[inline(never)]
pub fn lengths_by_bits(numbers: &[u64]) -> usize {
    numbers.iter().map(|&v| by_bits(v)).sum()
}

// ---- writers: the room is known before the first byte is stored

/// The part of the buffer that so many bytes take at the place.
#[inline(always)]
pub(super) fn room(buffer: &mut [u8], at: usize, n: usize) -> Result<&mut [u8], u8> {
    buffer.get_mut(at..).and_then(|behind| behind.get_mut(..n)).ok_or(NO_ROOM)
}

/// Stores the number's bytes from the place on, and gives the place behind them.
#[inline(always)]
pub(super) fn put_by_index(v: u64, out: &mut [u8], at: usize) -> usize {
    let (mut rest, mut to) = (v, at);
    while rest >= 128 {
        out[to] = rest as u8 | 128;
        rest >>= 7;
        to += 1;
    }
    out[to] = rest as u8;
    to + 1
}

/// The same to where the iterator stands.
#[inline(always)]
fn put_by_iterator(v: u64, out: &mut IterMut<u8>) {
    let mut rest = v;
    while rest >= 128 {
        *out.next().unwrap() = rest as u8 | 128;
        rest >>= 7;
    }
    *out.next().unwrap() = rest as u8;
}

#[inline(never)]
pub fn write_by_index(v: u64, buffer: &mut [u8], at: usize) -> Written {
    let n = by_bits(v);
    put_by_index(v, room(buffer, at, n)?, 0);
    Ok(n)
}

/// The length tells the last byte, so that no byte but that one is looked at.
#[inline(never)]
pub fn write_by_length(v: u64, buffer: &mut [u8], at: usize) -> Written {
    let n = by_bits(v);
    let (last, others) = room(buffer, at, n)?.split_last_mut().unwrap();
    let mut rest = v;
    for byte in others {
        *byte = rest as u8 | 128;
        rest >>= 7;
    }
    *last = rest as u8;
    Ok(n)
}

#[inline(never)]
pub fn list_by_sevens(numbers: &[u64], buffer: &mut [u8], at: usize) -> Written {
    if numbers.len() > LIST_LIMIT {
        return Err(TOO_LONG);
    }
    let total = numbers.iter().map(|&v| by_sevens(v)).sum();
    let out = room(buffer, at, total)?;
    numbers.iter().fold(0, |to, &v| put_by_index(v, out, to));
    Ok(total)
}

#[inline(never)]
pub fn list_by_index(numbers: &[u64], buffer: &mut [u8], at: usize) -> Written {
    if numbers.len() > LIST_LIMIT {
        return Err(TOO_LONG);
    }
    let total = numbers.iter().map(|&v| by_bits(v)).sum();
    let out = room(buffer, at, total)?;
    let mut to = 0;
    for &v in numbers {
        to = put_by_index(v, out, to);
    }
    Ok(total)
}

#[inline(never)]
pub fn list_by_iterator(numbers: &[u64], buffer: &mut [u8], at: usize) -> Written {
    if numbers.len() > LIST_LIMIT {
        return Err(TOO_LONG);
    }
    let total = numbers.iter().map(|&v| by_bits(v)).sum();
    let mut out = room(buffer, at, total)?.iter_mut();
    for &v in numbers {
        put_by_iterator(v, &mut out);
    }
    Ok(total)
}

// ---- forms, for what is checked and not timed

/// The number's bytes.
pub fn form(v: u64) -> Vec<u8> {
    let mut form = vec![0; by_shifts(v)];
    put_by_index(v, &mut form, 0);
    form
}

/// The signed number's bytes: the last is the one whose bit of weight 64 tells all that is left.
pub fn signed_form(v: i64) -> Vec<u8> {
    let (mut rest, mut form) = (v, vec![]);
    loop {
        let low = rest as u8 & 127;
        rest >>= 7;
        if rest == if low < 64 { 0 } else { -1 } {
            form.push(low);
            return form;
        }
        form.push(low | 128);
    }
}

pub fn write_signed(v: i64, buffer: &mut [u8], at: usize) -> Written {
    let form = signed_form(v);
    room(buffer, at, form.len())?.copy_from_slice(&form);
    Ok(form.len())
}
