//! The cases for setting slips: ops 19, 20 and 21.
//!
//!   whole   those that the repository holds
//!   more    those of the large run

use crate::cases::{all_bytes, filler, FAR, SPREAD};
use crate::frames::{put, MOST_BYTES};
use crate::random::Random;
use crate::slips::{body_length, bytes_of, read_slip, Setting};

const READ: u8 = 19;
const WRITE: u8 = 20;
const QUESTION: u8 = 21;

pub fn whole(input: &mut Vec<u8>) {
    kind_bytes(input, &[0, 8]);
    for bits in edges() {
        read_and_written(input, &alone(bits));
    }
    read_and_written(input, &ranges(&edges()));
    for bits in single_bits() {
        read_and_written(input, &alone(bits));
        read_and_written(input, &as_ends(bits));
    }
    lengths(input);
    starts(input);
    slips_in_slips(input);
    bytes_behind(input, &SPREAD);
    rooms(input, &one_of_each());
    bad_with_each_room(input);
    odd_frames(input);
    triples(input, &SOME_EDGES);
    neighbours(input, &edges());
    long_reads(input, &one_of_each()[3..], 65_536);
    random_cases(input, 18, 1_000);
}

pub fn more(input: &mut Vec<u8>) {
    kind_bytes(input, &[1, 2, 3, 4, 5, 6, 7, 9]);
    let every = every_exponent();
    for bits in &every {
        read_and_written(input, &alone(*bits));
        read_and_written(input, &as_ends(*bits));
    }
    neighbours(input, &every);
    read_and_written(input, &ranges(&near_edges()));
    bytes_behind(input, &all_bytes());
    rooms(input, &[good(), bad()].concat());
    triples(input, &edges());
    let most = MOST_BYTES as usize;
    for count in [65_535, 65_536, 65_537, most - 9] {
        long_reads(input, &one_of_each(), count);
    }
    for count in [65_536, most - 17] {
        long_writes(input, &one_of_each(), count);
    }
    random_cases(input, 19, 200_000);
}

// ---- the bits of an f32

const MINUS: u32 = 1 << 31;
const ONE: u32 = 0x3f800000;
const PI: u32 = 0x40490fdb;
const GREATEST: u32 = 0x7f7fffff;
const INFINITY: u32 = 0x7f800000;
const QUIET: u32 = 0x7fc00000;

/// Sizes beside each limit: zero and the least, the greatest subnormal and the least normal, both
/// sides of 1, the greatest; three in which all four bytes differ. Then infinity, and five
/// not-a-numbers, the first and last that are signalling and that are quiet among them.
const SIZES: [u32; 20] = [
    0, 1, 2, 0x007fffff, 0x00800000, 0x00800001, 0x3f7fffff, ONE, 0x3f800001, 0x7f7ffffe, GREATEST,
    0x01020304, PI, 0x44332211, INFINITY, 0x7f800001, 0x7fbfffff, QUIET, 0x7fc00001, 0x7fffffff,
];
const FINITE: usize = 14;

/// Some edges, of each sort one.
const SOME_EDGES: [u32; 14] = [
    0,
    MINUS,
    1,
    MINUS | 1,
    0x007fffff,
    ONE,
    0x3f800001,
    MINUS | ONE,
    GREATEST,
    MINUS | GREATEST,
    INFINITY,
    MINUS | INFINITY,
    0x7f800001,
    MINUS | QUIET,
];

fn both_signs(sizes: impl IntoIterator<Item = u32>) -> Vec<u32> {
    let each = sizes.into_iter();
    each.flat_map(|size| [size, MINUS | size]).collect()
}

fn edges() -> Vec<u32> {
    both_signs(SIZES)
}

/// Each edge, with the one next to it to each side.
fn near_edges() -> Vec<u32> {
    let each = edges().into_iter();
    let mut all: Vec<u32> = each.flat_map(beside).collect();
    all.sort();
    all.dedup();
    all
}

/// Bits and those next to them: beyond zero and the last not-a-number they are of the other sign.
fn beside(bits: u32) -> [u32; 3] {
    [bits.wrapping_sub(1), bits, bits.wrapping_add(1)]
}

/// Each bit alone, and all but one.
fn single_bits() -> Vec<u32> {
    (0..32).flat_map(|bit| [1 << bit, !(1 << bit)]).collect()
}

/// The first two and the last of each exponent.
fn every_exponent() -> Vec<u32> {
    let firsts = (0..=255).map(|exponent| exponent << 23);
    both_signs(firsts.flat_map(|first| [first, first + 1, first + 0x007fffff]))
}

// ---- settings

fn setting(kind: u8, bits: &[u32]) -> Setting {
    let bits = bits.to_vec();
    Setting { kind, bits }
}

/// As a torque and as an angle.
fn alone(bits: u32) -> [Setting; 2] {
    [1, 2].map(|kind| setting(kind, &[bits]))
}

/// As a lowest and as a highest, with the other end as far off as it may be.
fn as_ends(bits: u32) -> [Setting; 2] {
    [[bits, GREATEST], [0, bits]].map(|ends| setting(3, &ends))
}

/// All pairs.
fn ranges(all: &[u32]) -> Vec<Setting> {
    let mut settings = Vec::new();
    for lowest in all {
        for highest in all {
            settings.push(setting(3, &[*lowest, *highest]));
        }
    }
    settings
}

fn one_of_each() -> Vec<Setting> {
    vec![
        setting(0, &[]),
        setting(1, &[PI]),
        setting(2, &[0x44332211]),
        setting(3, &[0x01020304, PI]),
    ]
}

fn good() -> Vec<Setting> {
    let mut all = one_of_each();
    all.extend([
        setting(1, &[0]),
        setting(2, &[MINUS | PI]),
        setting(3, &[ONE, ONE]),
    ]);
    all
}

/// For each reason there is, of each kind.
fn bad() -> Vec<Setting> {
    vec![
        setting(1, &[INFINITY]),
        setting(1, &[QUIET]),
        setting(1, &[MINUS]),
        setting(1, &[MINUS | ONE]),
        setting(2, &[MINUS | INFINITY]),
        setting(2, &[0x7f800001]),
        setting(2, &[MINUS]),
        setting(3, &[INFINITY, INFINITY]),
        setting(3, &[ONE, QUIET]),
        setting(3, &[MINUS, ONE]),
        setting(3, &[0, MINUS]),
        setting(3, &[MINUS | ONE, ONE]),
        setting(3, &[PI, ONE]),
    ]
}

// ---- frames

/// Places past the end of short bytes that would be 0 if they were cut to fewer bits.
const CUT_TO_0: [u64; 3] = [1 << 16, 1 << 32, 1 << 63];

fn read(input: &mut Vec<u8>, start: u64, bytes: &[u8]) {
    put(input, READ, start, 0, bytes);
}

fn write(input: &mut Vec<u8>, setting: &Setting, place: u64, buffer: &[u8]) {
    let bytes = [&bytes_of(&setting.bits), buffer].concat();
    put(input, WRITE, setting.kind as u64, place, &bytes);
}

fn ask(input: &mut Vec<u8>, torque: u32, lowest: u32, highest: u32) {
    put(input, QUESTION, 0, 0, &bytes_of(&[torque, lowest, highest]));
}

/// Each with nothing beside it, and written with one byte to each side: what is written, if it is
/// good, is what is read.
fn read_and_written(input: &mut Vec<u8>, settings: &[Setting]) {
    for setting in settings {
        let slip = setting.slip();
        read(input, 0, &slip);
        write(input, setting, 1, &filler(slip.len() + 2));
    }
}

// ---- reading

/// Every byte as a kind, with so many bytes behind it.
fn kind_bytes(input: &mut Vec<u8>, counts: &[usize]) {
    for kind in all_bytes() {
        for count in counts {
            let body = bytes_of(&[ONE, PI, PI]);
            read(input, 0, &[&[kind], &body[..*count]].concat());
        }
    }
}

/// What is there of a slip, from nothing to all and two bytes more, behind none, one and five.
fn lengths(input: &mut Vec<u8>) {
    for setting in [good(), bad()].concat() {
        let slip = [&setting.slip()[..], &[0x7f, 0x80]].concat();
        for front in [0, 1, 5] {
            for count in 0..=slip.len() {
                let bytes = [&filler(front), &slip[..count]].concat();
                read(input, front as u64, &bytes);
            }
        }
    }
}

/// Starts at the end of what is there of a slip, and past it: some would be 0 if they were cut, and
/// from the last ones a slip would run past what 64 bits hold.
fn starts(input: &mut Vec<u8>) {
    let mut all = vec![vec![], vec![4]];
    for slip in one_of_each().iter().map(Setting::slip) {
        all.extend((1..=slip.len()).map(|count| slip[..count].to_vec()));
    }
    all.extend(bad().iter().map(Setting::slip));
    for bytes in all {
        let end = bytes.len() as u64;
        let last = [FAR - 8, FAR - 4, FAR - 1, FAR];
        for start in (end..=end + 2).chain(CUT_TO_0).chain(last) {
            read(input, start, &bytes);
        }
    }
}

/// A slip behind another, with bodies of bytes that are kinds too, read at every place. What is
/// good is written where it was read, into bytes that all are others.
fn slips_in_slips(input: &mut Vec<u8>) {
    let settings = [
        setting(0, &[]),
        setting(1, &[0x01020300]),
        setting(2, &[0x03000102]),
        setting(3, &[0x00010203, 0x01000302]),
    ];
    for first in &settings {
        for second in &settings {
            let bytes = [first.slip(), second.slip()].concat();
            let others: Vec<u8> = bytes.iter().map(|byte| !byte).collect();
            for place in 0..=bytes.len() as u64 {
                read(input, place, &bytes);
                if let Ok((setting, _)) = read_slip(&bytes, place) {
                    write(input, &setting, place, &others);
                }
            }
        }
    }
}

/// Each byte of those given, five times; and behind what is good bits that are bad in a body.
fn bytes_behind(input: &mut Vec<u8>, behinds: &[u8]) {
    for setting in [good(), bad()].concat() {
        for behind in behinds {
            read(input, 0, &[setting.slip(), vec![*behind; 5]].concat());
        }
    }
    for setting in good() {
        for behind in bad() {
            read(input, 0, &[setting.slip(), bytes_of(&behind.bits)].concat());
        }
    }
}

/// Slips behind so many bytes: no limit holds here as one does for a block.
fn long_reads(input: &mut Vec<u8>, settings: &[Setting], count: usize) {
    for setting in settings {
        let bytes = [filler(count), setting.slip()].concat();
        read(input, count as u64, &bytes);
    }
}

// ---- writing

/// Every place of buffers of up to 12 bytes and two past their end, and far ones: at the last nine
/// place + bytes needed may be more than 64 bits hold.
fn rooms(input: &mut Vec<u8>, settings: &[Setting]) {
    for setting in settings {
        for room in 0..=12 {
            for place in (0..=room + 2).chain(CUT_TO_0).chain(FAR - 8..=FAR) {
                write(input, setting, place, &filler(room as usize));
            }
        }
    }
}

/// "11, then 5."
fn bad_with_each_room(input: &mut Vec<u8>) {
    for setting in bad() {
        for room in [0, 4, 5, 8, 9, 12] {
            for place in [0, 1, room, room + 1, FAR] {
                write(input, &setting, place, &filler(room as usize));
            }
        }
    }
}

fn long_writes(input: &mut Vec<u8>, settings: &[Setting], count: usize) {
    for setting in settings {
        let needed = setting.slip().len();
        write(input, setting, count as u64, &filler(count + needed));
        write(input, setting, count as u64, &filler(count + needed - 1));
    }
}

// ---- the question

/// All triples.
fn triples(input: &mut Vec<u8>, all: &[u32]) {
    for torque in all {
        for lowest in all {
            for highest in all {
                ask(input, *torque, *lowest, *highest);
            }
        }
    }
}

/// Each as a torque, with both ends there or next to it.
fn neighbours(input: &mut Vec<u8>, all: &[u32]) {
    for torque in all {
        for lowest in beside(*torque) {
            for highest in beside(*torque) {
                ask(input, *torque, lowest, highest);
            }
        }
    }
}

// ---- frames that are not right

/// Kinds that there aren't, some of which would be one if they were cut; bits that the frame does
/// not hold; questions that do not have twelve bytes; fields that an op does not ask for.
fn odd_frames(input: &mut Vec<u8>) {
    let cut = [256, 257, 1 << 32, (1 << 32) + 3, 1 << 63, FAR];
    for kind in [4, 5, 127, 128, 255].into_iter().chain(cut) {
        for count in [0, 3, 8, 20] {
            for place in [0, FAR] {
                put(input, WRITE, kind, place, &filler(count));
            }
        }
    }
    for kind in 0..4 {
        for count in 0..body_length(kind).unwrap() {
            for place in [0, 1, FAR] {
                put(input, WRITE, kind, place, &filler(count));
            }
        }
    }
    let asked = bytes_of(&[ONE, ONE, ONE, ONE, ONE, ONE]);
    for count in (0..=16).chain([23, 24]) {
        put(input, QUESTION, 0, 0, &asked[..count]);
    }
    for (a, b) in [(1, 0), (0, 1), (12, 13), (FAR, FAR)] {
        put(input, QUESTION, a, b, &asked[..12]);
        put(input, READ, 0, b, &[0x00]);
        put(input, READ, 1, b, &[0x04, 0x00]);
    }
}

// ---- random cases

impl Random {
    /// Mostly near an edge, mostly not below zero and not an infinity or a not-a-number.
    fn f32_bits(&mut self) -> u32 {
        let sizes = match self.below(8) {
            0 => &SIZES[..],
            _ => &SIZES[..FINITE],
        };
        let size = sizes[self.below(sizes.len())];
        match self.below(8) {
            0 => self.below(1 << 32) as u32,
            1 => MINUS | size,
            2 | 3 => size,
            _ => self.near(size),
        }
    }

    /// At most two steps off, at times with the other sign.
    fn near(&mut self, bits: u32) -> u32 {
        let moved = bits.wrapping_add(self.below(5) as u32).wrapping_sub(2);
        match self.below(16) {
            0 => moved ^ MINUS,
            _ => moved,
        }
    }

    /// The ends of a range are near each other one time in two.
    fn any_setting(&mut self) -> Setting {
        let kind = [0, 1, 1, 2, 2, 3, 3, 3][self.below(8)];
        let first = self.f32_bits();
        let second = match self.below(2) {
            0 => self.near(first),
            _ => self.f32_bits(),
        };
        let count = body_length(kind).unwrap() / 4;
        setting(kind as u8, &[first, second][..count])
    }

    fn slip_read_case(&mut self, input: &mut Vec<u8>) {
        let mut slip = self.any_setting().slip();
        if self.below(3) == 0 {
            slip = self.damaged(slip);
        }
        let [front, behind] = [0, 0].map(|_| {
            let count = self.below(6);
            (0..count).map(|_| self.byte() % 5).collect::<Vec<u8>>()
        });
        let bytes = [&front[..], &slip, &behind].concat();
        let start = match self.below(16) {
            0 => self.far(),
            1..=3 => self.below(bytes.len() + 3) as u64,
            _ => front.len() as u64,
        };
        read(input, start, &bytes);
    }

    /// One time in sixteen any kind is said, or one that there isn't: bits may then be taken from
    /// the buffer, or left to it.
    fn slip_write_case(&mut self, input: &mut Vec<u8>) {
        let setting = self.any_setting();
        let needed = setting.slip().len();
        let room = (needed + self.below(5)).saturating_sub(self.below(3));
        let last = (room + 1).saturating_sub(needed);
        let place = match self.below(16) {
            0 => self.far(),
            1..=3 => self.below(room + 3) as u64,
            _ => self.below(last + 1) as u64,
        };
        let kind = match self.below(16) {
            0 => self.below(6) as u64,
            _ => setting.kind as u64,
        };
        let mut bytes = bytes_of(&setting.bits);
        bytes.extend((0..room).map(|_| self.byte()));
        put(input, WRITE, kind, place, &bytes);
    }

    /// Mostly with ends that are near the torque.
    fn question_case(&mut self, input: &mut Vec<u8>) {
        let torque = self.f32_bits();
        let [lowest, highest] = [0, 0].map(|_| match self.below(4) {
            0 => self.f32_bits(),
            _ => self.near(torque),
        });
        ask(input, torque, lowest, highest);
    }
}

/// Random cases from a seed, spread over ops 19 to 21.
fn random_cases(input: &mut Vec<u8>, seed: u64, count: usize) {
    let mut random = Random(seed);
    for _ in 0..count {
        match random.below(8) {
            0..=2 => random.slip_read_case(input),
            3..=5 => random.slip_write_case(input),
            _ => random.question_case(input),
        }
    }
}
