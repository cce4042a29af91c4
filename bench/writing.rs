//! Lengths and writers. A pass goes over a list of 4,096 numbers.
use crate::common::{head, row_beside, time, Check, Mix, Random, MIXES, SAMPLES};
use crate::ordinary::writing::{self as ordinary, Written};
use crate::ordinary::LIST_LIMIT;
use crate::ours;
use std::io;

const NUMBERS: usize = 4096;

/// The most bytes of a number.
const MOST: u64 = 10;

type Length = fn(u64) -> usize;
type Lengths = fn(&[u64]) -> usize;
type Write = fn(u64, &mut [u8], usize) -> Written;
type Writes = fn(&[u64], &mut [u8]) -> usize;
type List = fn(&[u64], &mut [u8], usize) -> Written;

// ---- what is timed: ours stands first in each

const LENGTHS: [(&str, Lengths); 4] = [
    ("ours", ours::lengths),
    ("shifts", ordinary::lengths_by_shifts),
    ("sevens", ordinary::lengths_by_sevens),
    ("bits", ordinary::lengths_by_bits),
];
// Number after number, each by one call of a writer.
const WRITES: [(&str, Writes); 3] = [
    ("ours", |numbers, out| numbers.iter().fold(0, |at, &v| at + ours::write_u64(v, out, at).unwrap())),
    ("index", |numbers, out| numbers.iter().fold(0, |at, &v| at + ordinary::write_by_index(v, out, at).unwrap())),
    ("length", |numbers, out| numbers.iter().fold(0, |at, &v| at + ordinary::write_by_length(v, out, at).unwrap())),
];
const WRITE_LISTS: [(&str, List); 4] = [
    ("ours", ours::write_list),
    ("sevens", ordinary::list_by_sevens),
    ("index", ordinary::list_by_index),
    ("iterator", ordinary::list_by_iterator),
];

// ---- what is checked of one number

/// The lengths and writers of a width, for a number that is given as its bits. Ours stands first in each.
struct Width {
    name: &'static str,
    /// What is tried for a number of 64 bits.
    tried: fn(u64) -> Vec<u64>,
    lengths: &'static [(&'static str, Length)],
    writers: &'static [(&'static str, Write)],
}

const WIDTHS: [Width; 3] = [
    Width {
        name: "u64",
        tried: |v| vec![v],
        lengths: &[
            ("ours", ours::length_u64),
            ("our sum", |v| ours::lengths(&[v])),
            ("shifts", |v| ordinary::lengths_by_shifts(&[v])),
            ("sevens", |v| ordinary::lengths_by_sevens(&[v])),
            ("bits", |v| ordinary::lengths_by_bits(&[v])),
        ],
        writers: &[
            ("ours", ours::write_u64),
            ("our recursive one", ours::write_u64_rec),
            ("index", ordinary::write_by_index),
            ("length", ordinary::write_by_length),
        ],
    },
    Width {
        name: "u32",
        tried: |v| vec![u64::from(v as u32)],
        lengths: &[("ours", |v| ours::length_u32(v as u32)), ("shifts", |v| ordinary::lengths_by_shifts(&[v]))],
        writers: &[("ours", |v, buffer, at| ours::write_u32(v as u32, buffer, at)), ("index", ordinary::write_by_index)],
    },
    // A signed number grows by a byte at half of what an unsigned one does, and one below zero where its complement does.
    Width {
        name: "i64",
        tried: |v| vec![v, !v, v / 2, !(v / 2)],
        lengths: &[("ours", |v| ours::length_i64(v as i64)), ("form", |v| ordinary::signed_form(v as i64).len())],
        writers: &[
            ("ours", |v, buffer, at| ours::write_i64(v as i64, buffer, at)),
            ("form", |v, buffer, at| ordinary::write_signed(v as i64, buffer, at)),
        ],
    },
];

// ---- both sides answer alike

/// Numbers on both sides of each growth value, and many of each length.
fn numbers(random: &mut Random) -> Vec<u64> {
    let mut numbers = vec![0, 1, u64::MAX];
    for k in 1..MOST {
        let growth = 1 << (7 * k);
        numbers.extend([growth - 1, growth, growth + 1]);
    }
    for n in 1..=MOST {
        numbers.extend((0..2000).map(|_| random.of_bytes(n, u64::MAX)));
    }
    numbers
}

fn check_number(check: &mut Check, width: &Width, v: u64) {
    let ours = width.lengths[0].1(v);
    let others = width.lengths[1..].iter().map(|(name, length)| (*name, length(v)));
    check.agree(|| format!("length of {v} as {}", width.name), ours, others);
    // Room that is short by one, just fits, and is ample; the place at the front, behind it, at the end and past it.
    for (size, at) in [(0, 0), (ours - 1, 0), (ours, 0), (ours + 1, 0), (ours + 2, 3), (ours + 3, 3), (20, 3), (5, 5), (5, 6), (0, usize::MAX)] {
        let writers: Vec<_> = width.writers.iter().map(|(name, write)| (*name, move |buffer: &mut [u8]| write(v, buffer, at))).collect();
        check.agree_on_bytes(|| format!("{v} as {} at {at} of {size}", width.name), size, &writers);
    }
}

fn check_list(check: &mut Check, mix: &str, numbers: &[u64]) {
    let n = numbers.len();
    let total = ours::lengths(numbers);
    let others = LENGTHS[1..].iter().map(|(name, lengths)| (*name, lengths(numbers)));
    check.agree(|| format!("lengths of {n} numbers of {mix}"), total, others);
    let passes = WRITES.map(|(name, writes)| (name, move |buffer: &mut [u8]| Ok(writes(numbers, buffer))));
    check.agree_on_bytes(|| format!("{n} numbers of {mix}, one by one"), total, &passes);
    for size in [0, total.saturating_sub(1), total, total + 1, (10 * n).saturating_sub(1), 10 * n, 10 * n + 1] {
        for (at, more) in [(0, 0), (3, 3), (3, 2), (size, 0), (size + 1, 0), (usize::MAX, 0)] {
            let size = size + more;
            let writers = WRITE_LISTS.map(|(name, write)| (name, move |buffer: &mut [u8]| write(numbers, buffer, at)));
            check.agree_on_bytes(|| format!("{n} numbers of {mix} at {at} of {size}"), size, &writers);
        }
    }
}

pub fn check(check: &mut Check, random: &mut Random) {
    for v in numbers(random) {
        for width in &WIDTHS {
            for v in (width.tried)(v) {
                check_number(check, width, v);
            }
        }
    }
    for mix in &MIXES {
        for n in [0, 1, 2, 3, 17, 100, LIST_LIMIT - 1, LIST_LIMIT, LIST_LIMIT + 1] {
            check_list(check, &mix.name(MOST), &list(random, mix, n));
        }
    }
}

// ---- timing

fn list(random: &mut Random, mix: &Mix, n: usize) -> Vec<u64> {
    (0..n)
        .map(|_| {
            let n = (mix.bytes)(random, MOST);
            random.of_bytes(n, u64::MAX)
        })
        .collect()
}

pub fn table(random: &mut Random) -> io::Result<()> {
    head(&["what", "numbers", "ours", "ordinary", "ratio"])?;
    let mut lists = |mix| (0..SAMPLES).map(|_| list(random, mix, NUMBERS)).collect();
    let mixes: Vec<(String, Vec<Vec<u64>>)> = MIXES.iter().map(|mix| (mix.name(MOST), lists(mix))).collect();
    let mut buffer = vec![0; 10 * NUMBERS];
    for (mix, lists) in &mixes {
        let times = time(&LENGTHS, lists, Vec::len, |(_, lengths), numbers| lengths(numbers));
        row_beside("length", mix, &LENGTHS.map(|v| v.0), &times)?;
    }
    for (mix, lists) in &mixes {
        let times = time(&WRITES, lists, Vec::len, |(_, writes), numbers| writes(numbers, &mut buffer));
        row_beside("`write_u64`", mix, &WRITES.map(|v| v.0), &times)?;
    }
    for (room, size) in [("room that just fits", ours::lengths as Lengths), ("room for ten bytes each", |numbers| 10 * numbers.len())] {
        for (mix, lists) in &mixes {
            let sized: Vec<(&[u64], usize)> = lists.iter().map(|numbers| (&numbers[..], size(numbers))).collect();
            let times = time(&WRITE_LISTS, &sized, |list| list.0.len(), |(_, write), (numbers, size)| write(numbers, &mut buffer[..*size], 0).unwrap());
            row_beside(&format!("`write_list`, {room}"), mix, &WRITE_LISTS.map(|v| v.0), &times)?;
        }
    }
    Ok(())
}
