//! The cases: first those written down by hand, then each limit from both sides, then random ones;
//! after those for numbers, here, those for blocks, lists and turns from block_cases.rs, more for
//! strict reading from strict_cases.rs, those for setting slips from slip_cases.rs, those for phrases
//! inside phrases from phrase_cases.rs, and those for entries from entry_cases.rs.
//!
//!   committed   the cases that the repository holds
//!   large       these, the long ones that are written down by hand, all pairs of bytes, more turns,
//!               long frames and blocks, 1,470,000 random cases more, and more for strict reading,
//!               for setting slips, for phrases inside phrases and for entries
//!
//! Nothing here says what an answer should be. The same bytes come out on every machine.

use crate::block_cases;
use crate::blocks::MOST_OF_BLOCK;
use crate::entry_cases;
use crate::frames::{put, MOST_BYTES};
use crate::known::{put_entries, put_known, put_long, put_phrases, put_slips, put_strict};
use crate::numbers::{form, length, power, Rule, GROWTH};
use crate::phrase_cases;
use crate::random::Random;
use crate::slip_cases;
use crate::strict_cases;
use Rule::*;

const READERS: [(u8, Rule); 4] = [(1, U64), (2, U64), (3, U32), (4, I64)];
const WRITERS: [(u8, Rule); 4] = [(5, U64), (6, U64), (7, U32), (8, I64)];
const LENGTHS: [(u8, Rule); 3] = [(9, U64), (10, U32), (11, I64)];

/// Bytes around each bit that a rule looks at: the second bytes of the committed pairs.
pub const SPREAD: [u8; 12] = [
    0x00, 0x01, 0x3f, 0x40, 0x7e, 0x7f, 0x80, 0x81, 0xbf, 0xc0, 0xfe, 0xff,
];

/// The largest place there is.
pub const FAR: u64 = u64::MAX;

/// The cases that the repository holds. A frame cut short ends a run, so there is one, at the end:
/// its header says three bytes and two follow.
pub fn committed() -> Vec<u8> {
    let mut input = Vec::new();
    whole(&mut input);
    let mut last = Vec::new();
    put(&mut last, 1, 0, 0, &[128, 128, 1]);
    input.extend(&last[..last.len() - 1]);
    input
}

/// The large run. It ends with a frame that is all there and has one byte too many, and with a
/// good frame behind it that is not to be answered.
pub fn large() -> Vec<u8> {
    let mut input = Vec::new();
    whole(&mut input);
    put_long(&mut input);
    pairs(&mut input, &all_bytes());
    for count in (MOST_OF_BLOCK..=MOST_OF_BLOCK + 2).chain([MOST_BYTES as usize]) {
        long_reads(&mut input, count);
        long_writes(&mut input, &WRITERS, count);
    }
    random_cases(&mut input, 2, 1_000_000);
    refusals_at(&mut input, &[999, 1_000, 9_999, 10_000]);
    random_refusals(&mut input, 13, 150_000);
    block_cases::more(&mut input);
    strict_cases::more(&mut input);
    slip_cases::more(&mut input);
    phrase_cases::more(&mut input);
    entry_cases::more(&mut input);
    put(&mut input, 1, 0, 0, &vec![1; MOST_BYTES as usize + 1]);
    put(&mut input, 1, 0, 0, &[1]);
    input
}

/// The committed cases without the frame that is cut short.
fn whole(input: &mut Vec<u8>) {
    put_known(input);
    single_bytes(input);
    pairs(input, &SPREAD);
    runs(input);
    growth(input);
    starts(input);
    rooms(input);
    odd_frames(input);
    // The number desk knows no limit as a block has: the number begins where the longest block ends.
    long_reads(input, MOST_OF_BLOCK + 2);
    long_writes(input, &WRITERS[..1], MOST_OF_BLOCK + 2);
    random_cases(input, 1, 5_000);
    refusals(input);
    random_refusals(input, 12, 400);
    block_cases::whole(input);
    put_strict(input);
    strict_cases::whole(input);
    put_slips(input);
    slip_cases::whole(input);
    put_phrases(input);
    phrase_cases::whole(input);
    put_entries(input);
    entry_cases::whole(input);
}

// ---- reading

pub fn all_bytes() -> Vec<u8> {
    (0..=255).collect()
}

fn single_bytes(input: &mut Vec<u8>) {
    for (op, _) in READERS {
        for byte in all_bytes() {
            put(input, op, 0, 0, &[byte]);
        }
    }
}

fn pairs(input: &mut Vec<u8>, seconds: &[u8]) {
    for (op, _) in READERS {
        for first in all_bytes() {
            for second in seconds {
                put(input, op, 0, 0, &[first, *second]);
            }
        }
    }
}

/// Runs of 80 and of ff, as long as the most bytes and longer, with the bit of weight 64 of the
/// run's last byte as it is and turned over, then a last byte or none.
fn runs(input: &mut Vec<u8>) {
    const LASTS: [u8; 14] = [0, 1, 2, 14, 15, 16, 17, 62, 63, 64, 65, 125, 126, 127];
    for (op, _) in READERS {
        for count in 0..=12 {
            for (byte, turned) in [(0x80, 0xc0), (0xff, 0xbf)] {
                let same = vec![byte; count];
                let mut other = same.clone();
                if let Some(last) = other.last_mut() {
                    *last = turned;
                }
                for run in [same, other] {
                    put(input, op, 0, 0, &run);
                    for last in LASTS {
                        put(input, op, 0, 0, &[&run[..], &[last]].concat());
                    }
                }
            }
        }
    }
}

/// Numbers of each length with bytes before and behind them, read at every place there is and at
/// places past the end. The front ends in the middle of a group, or just behind one.
fn starts(input: &mut Vec<u8>) {
    for (op, rule) in READERS {
        for v in each_length(rule) {
            let number = form(rule, v);
            for (front, behind) in [
                (&[0x05, 0x80][..], &[0x00][..]),
                (&[0x80, 0x00], &[0xff, 0x81]),
            ] {
                let bytes = [front, &number, behind].concat();
                let end = bytes.len() as u64;
                let far = [end + 1, end + 2, 1 << 32, 1 << 63, FAR - end, FAR - 1, FAR];
                for place in (0..=end).chain(far) {
                    put(input, op, place, 0, &bytes);
                }
            }
        }
        for place in [0, 1, 2, FAR] {
            put(input, op, place, 0, &[]);
        }
    }
}

// ---- the byte that decides a refusal

/// Refusals of each kind at several starts, some in the middle of a group, with other bytes before
/// and behind that must not count. Then larger places; and starts past the end on both sides of each
/// power of ten, where their text grows by a digit.
fn refusals(input: &mut Vec<u8>) {
    for (op, rule) in READERS {
        for (front, behind) in [
            (&[][..], &[0x05][..]),
            (&[0x05], &[]),
            (&[0x05, 0x80], &[0x80, 0x00]),
            (&[0x00, 0x81, 0xff, 0xff, 0xff], &[0xff, 0x81, 0x80]),
        ] {
            let start = front.len() as u64;
            for number in high_bytes(rule) {
                put(input, op, start, 0, &[front, &number].concat());
            }
            for number in [too_large(rule), one_too_many(rule)].concat() {
                put(input, op, start, 0, &[front, &number, behind].concat());
            }
        }
    }
    refusals_at(input, &[9, 10, 100, 256]);
    for (op, _) in READERS {
        for zeros in 1..=19 {
            let ten = 10u64.pow(zeros);
            put(input, op, ten - 1, 0, &[0x80, 0x00]);
            put(input, op, ten, 0, &[0x80, 0x00]);
        }
    }
}

/// High bytes alone, fewer than the most.
fn high_bytes(rule: Rule) -> Vec<Vec<u8>> {
    let counts = [0, 1, 2, rule.most() - 2, rule.most() - 1];
    counts.iter().map(|count| vec![0x80; *count]).collect()
}

/// High bytes up to the greatest length, where a byte stands that the width may not allow: the
/// number ends there, some bytes later, or not at all.
fn too_large(rule: Rule) -> Vec<Vec<u8>> {
    let mut all = Vec::new();
    for byte in [0x80, 0xff] {
        let run = vec![byte; rule.most() - 1];
        for behind in [
            &[0x02][..],
            &[0x10],
            &[0x7e],
            &[0x80],
            &[0xff, 0x00],
            &[0x81, 0x80, 0xff, 0x80, 0x80, 0x01],
        ] {
            all.push([&run, behind].concat());
        }
    }
    all
}

/// Runs of 80 and of ff with a last byte that is one too many by one rule or another, up to the
/// greatest length.
fn one_too_many(rule: Rule) -> Vec<Vec<u8>> {
    let mut all = Vec::new();
    for count in [1, 2, rule.most() - 2, rule.most() - 1] {
        for byte in [0x80, 0xff] {
            for last in [0x00, 0x7f] {
                all.push([vec![byte; count], vec![last]].concat());
            }
        }
    }
    all
}

/// Refusals with the byte that decides at each place: the end, the byte at the greatest length, the
/// last byte.
fn refusals_at(input: &mut Vec<u8>, places: &[usize]) {
    for (op, rule) in READERS {
        let over = vec![0xff; rule.most()];
        for place in places {
            for (before, number, behind) in [
                (2, &[0x80, 0x80][..], &[][..]),
                (rule.most() - 1, &over, &[0xff, 0x05]),
                (1, &[0x80, 0x00], &[0xff, 0x05]),
            ] {
                let start = place - before;
                let bytes = [&filler(start), number, behind].concat();
                put(input, op, start as u64, 0, &bytes);
            }
        }
    }
}

// ---- writing

/// The numbers next to each value at which a form grows, on both sides, and the ends of the width.
pub fn numbers(rule: Rule) -> Vec<i128> {
    let turns: Vec<i128> = match rule {
        U64 | U32 => GROWTH.to_vec(),
        I64 => (1..=9)
            .flat_map(|k| [power(7 * k - 1), -power(7 * k - 1)])
            .collect(),
    };
    let ends = [rule.smallest(), 0, rule.largest()];
    let near = turns
        .iter()
        .chain(&ends)
        .flat_map(|at| [at - 2, at - 1, *at, at + 1]);
    let mut all: Vec<i128> = near
        .filter(|v| rule.smallest() <= *v && *v <= rule.largest())
        .collect();
    all.sort();
    all.dedup();
    all
}

/// The lowest and the highest number of each length.
pub fn each_length(rule: Rule) -> Vec<i128> {
    let all = numbers(rule);
    let mut some = Vec::new();
    for k in 1..=rule.most() {
        let mut of_k = all.iter().filter(|v| length(rule, **v) == k);
        some.push(*of_k.next().unwrap());
        some.push(*of_k.last().unwrap());
    }
    some
}

/// Bytes that are not 0 and differ, so that a store beside the place shows.
pub fn filler(count: usize) -> Vec<u8> {
    (0..count).map(|i| (53 + 29 * i % 199) as u8).collect()
}

/// Every number beside a growth value: its length, its form written between other bytes, and the
/// form read by each reader, of other widths too.
fn growth(input: &mut Vec<u8>) {
    for (op, rule) in LENGTHS {
        for v in numbers(rule) {
            put(input, op, v as u64, 0, &[]);
        }
    }
    for (op, rule) in WRITERS {
        for v in numbers(rule) {
            put(input, op, v as u64, 1, &filler(length(rule, v) + 2));
        }
    }
    for (op, _) in READERS {
        for rule in [U64, I64] {
            for v in numbers(rule) {
                put(input, op, 0, 0, &form(rule, v));
            }
        }
    }
}

/// Numbers of each length into buffers too small by one, just large enough and larger, at places
/// around the last that fits, around the buffer's length, and so far that place + bytes needed is
/// more than 64 bits hold, and would seem to fit if it were cut to them.
fn rooms(input: &mut Vec<u8>) {
    for (op, rule) in WRITERS {
        for v in each_length(rule) {
            let needed = length(rule, v) as u64;
            for room in [needed - 1, needed, needed + 1, needed + 3] {
                let spare = room.saturating_sub(needed);
                let mut places = vec![0, 1, spare, spare + 1, room, room + 1, 1 << 32, 1 << 63];
                places.extend([FAR - needed, FAR - (needed - 1), FAR - needed / 2, FAR]);
                places.sort();
                places.dedup();
                for place in places {
                    put(input, op, v as u64, place, &filler(room as usize));
                }
            }
        }
        for place in [0, 1, FAR] {
            put(input, op, 0, place, &[]);
        }
    }
}

// ---- ops and frames

/// Ops that the table does not have, numbers that 32 bits do not hold, and fields that an op does
/// not ask for.
fn odd_frames(input: &mut Vec<u8>) {
    for op in [0, 34, 100, 127, 128, 254, 255] {
        put(input, op, 0, 0, &[]);
        put(input, op, 1, FAR, &[0x80, 0x01, 0xff]);
    }
    for op in [7, 10] {
        let least = 1 << 32;
        for a in [least - 1, least, least + 1, least + 128, 1 << 63, FAR] {
            for place in [0, 3, FAR] {
                put(input, op, a, place, &filler(7));
            }
        }
    }
    for (op, _) in READERS {
        put(input, op, 1, FAR, &[0x80, 0x81, 0x01]);
    }
    for (op, _) in LENGTHS {
        put(input, op, 300, FAR, &filler(5));
    }
}

/// A number read at the very end of many bytes.
fn long_reads(input: &mut Vec<u8>, count: usize) {
    let bytes = [&filler(count - 2)[..], &[0x80, 0x01]].concat();
    for (op, _) in READERS {
        put(input, op, count as u64 - 2, 0, &bytes);
    }
}

/// A number written there.
fn long_writes(input: &mut Vec<u8>, writers: &[(u8, Rule)], count: usize) {
    for (op, _) in writers {
        put(input, *op, 300, count as u64 - 2, &filler(count));
    }
}

// ---- random cases

impl Random {
    /// One time in twenty 64 bits where 32 are asked for, so that some numbers are too large.
    fn at_times_wider(&mut self, rule: Rule) -> Rule {
        let wider = self.below(20) == 0;
        if rule == U32 && wider {
            U64
        } else {
            rule
        }
    }

    fn read_case(&mut self, input: &mut Vec<u8>, op: u8, rule: Rule) {
        let count = self.below(4);
        let front = self.bytes(count);
        let number = match self.below(6) {
            0 => {
                let count = self.below(14);
                self.bytes(count)
            }
            1 => {
                let other = [U64, U32, I64][self.below(3)];
                form(other, self.number(other))
            }
            2 => self.longest(rule),
            _ => {
                let number = form(rule, self.number(rule));
                self.damaged(number)
            }
        };
        let count = self.below(4);
        let behind = self.bytes(count);
        let bytes = [&front[..], &number, &behind].concat();
        let place = match self.below(16) {
            0 => self.far(),
            1..=3 => self.below(bytes.len() + 3) as u64,
            _ => front.len() as u64,
        };
        put(input, op, place, 0, &bytes);
    }

    fn write_case(&mut self, input: &mut Vec<u8>, op: u8, rule: Rule) {
        let v = self.number(rule);
        let needed = length(rule, v);
        let room = (needed + self.below(5)).saturating_sub(self.below(3));
        let buffer: Vec<u8> = (0..room).map(|_| self.byte()).collect();
        let place = match self.below(16) {
            0 => self.far(),
            1..=3 => self.below(room + 3) as u64,
            4..=6 => (room + 1).saturating_sub(needed) as u64,
            _ => self.below((room + 1).saturating_sub(needed).max(1)) as u64,
        };
        put(input, op, v as u64, place, &buffer);
    }

    /// Bytes that are mostly refused, behind some and before others: ones that end too early, too
    /// large, longer than the most bytes, or with a byte added that may be one too many.
    fn refusal_case(&mut self, input: &mut Vec<u8>, op: u8, rule: Rule) {
        let count = self.below(16);
        let mut bytes = self.bytes(count);
        let start = count as u64;
        let high = self.below(rule.most() + 8);
        let kind = self.below(4);
        match kind {
            0 | 1 => bytes.extend((0..high).map(|_| self.byte() | 128)),
            2 => bytes.extend(self.longest(rule)),
            _ => {
                let mut number = form(rule, self.number(rule));
                self.lengthen(&mut number);
                bytes.extend(number);
            }
        }
        if kind > 0 {
            let count = self.below(6);
            bytes.extend(self.bytes(count));
        }
        put(input, op, start, 0, &bytes);
    }
}

/// Random cases from a seed, spread over ops 1 to 11.
fn random_cases(input: &mut Vec<u8>, seed: u64, count: usize) {
    let mut random = Random(seed);
    for _ in 0..count {
        let pick = random.below(11);
        match pick {
            0..=3 => random.read_case(input, READERS[pick].0, READERS[pick].1),
            4..=7 => {
                let (op, rule) = WRITERS[pick - 4];
                let rule = random.at_times_wider(rule);
                random.write_case(input, op, rule);
            }
            _ => {
                let (op, rule) = LENGTHS[pick - 8];
                let rule = random.at_times_wider(rule);
                put(input, op, random.number(rule) as u64, 0, &[]);
            }
        }
    }
}

/// Random cases from a seed that are mostly refused, spread over ops 1 to 4.
fn random_refusals(input: &mut Vec<u8>, seed: u64, count: usize) {
    let mut random = Random(seed);
    for _ in 0..count {
        let (op, rule) = READERS[random.below(4)];
        random.refusal_case(input, op, rule);
    }
}
