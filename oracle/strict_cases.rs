//! More cases for strict reading, op 15. A quick form of it may look at several bytes at once, at
//! windows of bytes, at both halves of a block at the same time, count in parts, and finish the ends
//! apart. Each kind of case here is there for a slip in one of these.
//!
//!   whole   those that the repository holds
//!   more    those of the large run

use crate::answers::MOST_OF_SLICE;
use crate::block_cases::{groups, into_slices};
use crate::blocks::MOST_OF_BLOCK;
use crate::cases::each_length;
use crate::numbers::{form, length, power, Rule};
use crate::random::Random;
use Rule::*;

/// Every place within eight bytes.
const EIGHT: [usize; 8] = [0, 1, 2, 3, 4, 5, 6, 7];

pub fn whole(input: &mut Vec<u8>) {
    let random = &mut Random(16);
    few_numbers(input, random);
    few_faults(input, random);
    few_halves(input, random);
    few_counts(input, random);
    few_long(input, random);
}

pub fn more(input: &mut Vec<u8>) {
    let random = &mut Random(17);
    many_numbers(input, random);
    many_faults(input, random);
    many_halves(input, random);
    many_counts(input, random);
    many_long(input, random);
}

// ---- what the repository holds of each kind

fn few_numbers(input: &mut Vec<u8>, random: &mut Random) {
    for (one_in, plans) in [
        (17, numbers_at_offsets(random, &[17, 33, 50])),
        (79, bits_alone(&EIGHT)),
        (3, numbers_at_places(random, &[33], &[2, 9, 10])),
        (1, numbers_across_middle(random, &[20, 33, 48])),
        (3, patterns(random, 8, &[0, 5])),
        (1, random_plans(random, 150, 20)),
    ] {
        plans.one_room(input, random, one_in);
    }
    for (one_in, plans) in [
        (7, numbers_at_three(random, &[60])),
        (7, numbers_at_places(random, &[150], &[10])),
        (3, numbers_across_multiples(random, &[140])),
    ] {
        plans.enough_room(input, random, one_in);
    }
    bits_together(&[0, 3]).room(ENOUGH, input, random, 3);
}

fn few_faults(input: &mut Vec<u8>, random: &mut Random) {
    for (one_in, plans) in [
        (11, faults_at_places(&[12, 26, 33])),
        (5, tails(&[15, 30])),
        (7, bytes_replaced(random, &[9, 17, 26])),
        (7, last_bytes(&[0, 1, 7, 8, 15], &[0, 1, 9])),
        (7, faults_near(&[0, 5], &[0, 1, 6, 8])),
    ] {
        plans.one_room(input, random, one_in);
    }
    for (one_in, plans) in [
        (211, faults_at_places(&[300])),
        (5, long_groups(&[0, 7], &[128, 129, 256])),
        (7, faults_in_both_halves(random, &[66])),
    ] {
        plans.little_room(input, random, one_in);
    }
    faults_at_places(&[64]).room(NONE, input, random, 7);
}

fn few_halves(input: &mut Vec<u8>, random: &mut Random) {
    halves(&[2, 15, 16, 24, 41], &[0]).every_room(input, random, 5);
    halves(&[65, 128, 300], &[0]).enough_room(input, random, 5);
    for (one_in, plans) in [
        (11, halves(&[64], &MOVES)),
        (17, one_apart(random, 20)),
        (1, groups_of_half(&[19, 20, 22, 64])),
        (7, whole_groups(1..=40)),
        (1, centred_groups(&[64], &[10, 11, 26, 62])),
    ] {
        plans.one_room(input, random, one_in);
    }
}

fn few_counts(input: &mut Vec<u8>, random: &mut Random) {
    of_one_length(&[1, 2, 10], 0..=34).one_room(input, random, 2);
    counts(&[1, 2, 5, 10], 54).one_room(input, random, 7);
    of_one_number(0..=34).one_room(input, random, 11);
    let sizes = [127, 128, 129, 255, 256, 257, 300];
    of_one_length(&[1, 2, 10], sizes).enough_room(input, random, 1);
}

/// Each takes as many bytes as a hundred others, and the last as some thousands.
fn few_long(input: &mut Vec<u8>, random: &mut Random) {
    let kinds = kinds_of_fault();
    faults_at_ends(1_000, &kinds, &FILLS).little_room(input, random, 97);
    faults_at_ends(4_096, &kinds, &FILLS).room(NONE, input, random, 97);
    halves(&[1_000], &[0]).room(ENOUGH, input, random, 5);
    of_one_length(&[1], [2_049]).room(ENOUGH, input, random, 1);
    let half = MOST_OF_BLOCK / 2;
    let mut end = random.forms(LONG, half - 10);
    end.push(run(0xff, 9, 0x02));
    let last = plan((SMALL, half), &end.concat(), (SMALL, 0));
    Plans(vec![last]).room(NONE, input, random, 1);
}

// ---- what the large run has of each kind

fn many_numbers(input: &mut Vec<u8>, random: &mut Random) {
    let some = [
        11, 16, 17, 24, 27, 33, 48, 64, 65, 96, 128, 131, 200, 256, 300, 513,
    ];
    let long = [1_000, 4_096, 8_191, 20_001, MOST_OF_BLOCK];
    let lengths: Vec<usize> = (1..=10).collect();
    let each: Vec<usize> = (10..=300).collect();
    for plans in [
        numbers_at_offsets(random, &some),
        bits_alone(&EIGHT),
        numbers_at_places(random, &[26, 131, 300], &lengths),
        numbers_at_places(random, &[1_024], &[10]),
        numbers_across_middle(random, &each),
        numbers_across_multiples(random, &[160, 300, 1_024]),
        patterns(random, 8, &[0, 1, 2, 3, 4, 5, 6, 7, 8, 13]),
        patterns(random, 12, &[0, 3, 6]),
        patterns(random, 16, &[0]),
        random_plans(random, 18_000, 40),
        random_plans(random, 10_000, 300),
    ] {
        plans.one_room(input, random, 1);
    }
    bits_together(&[0, 1, 2, 3, 4, 5, 6, 7, 8, 16, 64, 100]).room(ENOUGH, input, random, 1);
    for plans in [
        numbers_at_three(random, &long),
        numbers_across_multiples(random, &[4_096, MOST_OF_BLOCK]),
    ] {
        plans.enough_room(input, random, 1);
    }
}

fn many_faults(input: &mut Vec<u8>, random: &mut Random) {
    let offsets: Vec<usize> = (0..=17).collect();
    let short: Vec<usize> = (1..=40).collect();
    let sizes = [8, 9, 16, 17, 26, 33, 52, 64, 100, 131, 300];
    let long = [127, 128, 129, 136, 143, 200, 255, 256, 257, 1_000, 4_096];
    for plans in [
        faults_at_places(&short),
        faults_at_places(&[64, 100, 131, 300]),
        tails(&short),
        tails(&[64, 100, 128, 131, 256, 300, 1_000]),
        bytes_replaced(random, &sizes),
        last_bytes(&offsets, &[0, 1, 7, 20]),
        long_groups(&offsets, &long),
        faults_in_both_halves(random, &[64, 65, 100, 131, 300]),
        faults_near(&EIGHT, &offsets),
    ] {
        plans.one_room(input, random, 1);
    }
}

fn many_halves(input: &mut Vec<u8>, random: &mut Random) {
    let each: Vec<usize> = (2..=300).collect();
    halves(&each, &[0]).every_room(input, random, 1);
    let lengths = [10, 11, 12, 16, 17, 20, 26, 34, 50, 62];
    for plans in [
        halves(&[64, 65, 100, 257, 300], &MOVES),
        one_apart(random, 40),
        groups_of_half(&each),
        whole_groups(1..=300),
        centred_groups(&[64, 65, 100, 131, 300], &lengths),
    ] {
        plans.one_room(input, random, 1);
    }
    let long = [1_000, 4_096, 30_000, MOST_OF_BLOCK - 1];
    halves(&long, &[0]).every_room(input, random, 1);
    halves(&[MOST_OF_BLOCK], &MOVES).enough_room(input, random, 1);
}

fn many_counts(input: &mut Vec<u8>, random: &mut Random) {
    let lengths: Vec<usize> = (1..=10).collect();
    of_one_length(&[1, 2, 10], 0..=300).every_room(input, random, 1);
    counts(&lengths, 260).every_room(input, random, 1);
    of_one_number(0..=300).one_room(input, random, 1);
    // Where a count kept in a byte for each of so many bytes is full, and where all of them together
    // are more than one holds.
    for unit in [8, 16, 32, 64, 128] {
        for times in [127, 128, 255, 256] {
            let full = unit * times;
            let sizes = [full - 1, full, full + 1, full + unit];
            of_one_length(&[1, 2], sizes).enough_room(input, random, 1);
        }
    }
}

fn many_long(input: &mut Vec<u8>, random: &mut Random) {
    let kinds = kinds_of_fault();
    for size in [1_000, 4_096] {
        faults_at_ends(size, &kinds, &FILLS).little_room(input, random, 1);
    }
    let few = [0, 3, 4, 6, 9].map(|kind| kinds[kind].clone());
    faults_at_ends(MOST_OF_BLOCK, &few, &[SMALL, LONG]).little_room(input, random, 1);
    tails(&[4_096, MOST_OF_BLOCK]).little_room(input, random, 1);
    whole_groups([1_000, 4_096, MOST_OF_BLOCK]).little_room(input, random, 1);
    random_plans(random, 100, MOST_OF_BLOCK / 2 - 20).little_room(input, random, 1);
    // "On 60,000-byte blocks: nine in ten numbers small, then all ten bytes long."
    for size in [60_000, MOST_OF_BLOCK - 1, MOST_OF_BLOCK] {
        for fill in [Usual, LONG, Mixed] {
            let same = Plans(vec![plan((fill, 0), &[], (fill, size))]);
            same.every_room(input, random, 1);
        }
    }
}

// ---- blocks

/// What numbers a block is filled with: of one length, of any, or nine in ten of one byte.
#[derive(Clone, Copy)]
enum Fill {
    Of(usize),
    Mixed,
    Usual,
}
use Fill::*;

const SMALL: Fill = Of(1);
const LONG: Fill = Of(10);
const FILLS: [Fill; 3] = [SMALL, Mixed, LONG];

/// A block to be made: a part, with numbers that have so many bytes before it and behind.
struct Plan {
    before: (Fill, usize),
    part: Vec<u8>,
    behind: (Fill, usize),
}

fn plan(before: (Fill, usize), part: &[u8], behind: (Fill, usize)) -> Plan {
    let part = part.to_vec();
    Plan {
        before,
        part,
        behind,
    }
}

impl Random {
    /// Forms that have just so many bytes together. The last is a shorter one if it has to be.
    fn forms(&mut self, fill: Fill, count: usize) -> Vec<Vec<u8>> {
        let mut all = Vec::new();
        let mut left = count;
        while left > 0 {
            let longest = match fill {
                Of(length) => length,
                Usual if self.below(10) < 9 => 1,
                Usual | Mixed => 1 + self.below(10),
            };
            let length = longest.min(left);
            all.push(form(U64, self.number_of(length)));
            left -= length;
        }
        all
    }

    /// Before the part the shorter one comes first, so that full ones stand on both sides of it.
    fn made(&mut self, plan: &Plan) -> Vec<u8> {
        let (fill, count) = plan.before;
        let mut before = self.forms(fill, count);
        before.reverse();
        let (fill, count) = plan.behind;
        let behind = self.forms(fill, count);
        [before.concat(), plan.part.clone(), behind.concat()].concat()
    }
}

const ENOUGH: usize = 0;
const NONE: usize = 2;

/// Rooms of the answer slice: just enough, one short, none, one more, twenty more.
pub fn rooms_around(enough: usize) -> [u64; 5] {
    let short = enough.saturating_sub(1);
    let all = [enough, short, 0, enough + 1, enough + 20];
    all.map(|room| (room as u64).min(MOST_OF_SLICE))
}

fn rooms(block: &[u8]) -> [u64; 5] {
    rooms_around(groups(block))
}

/// Plans of one kind. Only one in so many of them is made: a count that has no factor in common with
/// the counts that the plans go through leaves some of everything.
struct Plans(Vec<Plan>);

impl Plans {
    fn blocks<'a>(
        &'a self,
        random: &'a mut Random,
        one_in: usize,
    ) -> impl Iterator<Item = (Vec<u8>, usize)> + 'a {
        let some = self.0.iter().step_by(one_in);
        some.map(|plan| (random.made(plan), random.below(20)))
    }

    /// A part in a block of just so many bytes, if it is not past the end there.
    fn add_within(&mut self, fill: Fill, size: usize, place: usize, part: &[u8]) {
        if let Some(rest) = size.checked_sub(place + part.len()) {
            self.0.push(plan((fill, place), part, (fill, rest)));
        }
    }

    /// A part that is the whole block.
    fn add_whole(&mut self, part: &[u8]) {
        self.0.push(plan((SMALL, 0), part, (SMALL, 0)));
    }

    fn every_room(&self, input: &mut Vec<u8>, random: &mut Random, one_in: usize) {
        for (block, _) in self.blocks(random, one_in) {
            let mut sizes = rooms(&block).to_vec();
            sizes.sort();
            sizes.dedup();
            into_slices(input, &block, sizes);
        }
    }

    /// Twenty more is rarer than the others, since the line has twenty characters for each number that
    /// is not written.
    fn one_room(&self, input: &mut Vec<u8>, random: &mut Random, one_in: usize) {
        for (block, pick) in self.blocks(random, one_in) {
            let [enough, short, none, one_more, more] = rooms(&block);
            let room = match pick {
                0 | 1 => more,
                2..=5 => short,
                6..=8 => none,
                9..=12 => one_more,
                _ => enough,
            };
            into_slices(input, &block, [room]);
        }
    }

    /// For numbers of which there are many: mostly just enough, and rarely one short.
    fn enough_room(&self, input: &mut Vec<u8>, random: &mut Random, one_in: usize) {
        for (block, pick) in self.blocks(random, one_in) {
            let [enough, short, none, one_more, more] = rooms(&block);
            let room = match pick {
                0 => short,
                1 | 2 => none,
                3..=6 => one_more,
                7..=9 => more,
                _ => enough,
            };
            into_slices(input, &block, [room]);
        }
    }

    /// For numbers that all are asked, and for faults of which the place alone is.
    fn room(&self, which: usize, input: &mut Vec<u8>, random: &mut Random, one_in: usize) {
        for (block, _) in self.blocks(random, one_in) {
            into_slices(input, &block, [rooms(&block)[which]]);
        }
    }

    /// For faults in long blocks: room for few numbers, rarely for all.
    fn little_room(&self, input: &mut Vec<u8>, random: &mut Random, one_in: usize) {
        for (block, pick) in self.blocks(random, one_in) {
            let room = match pick {
                0 => rooms(&block)[0],
                1..=5 => 0,
                _ => pick as u64,
            };
            into_slices(input, &block, [room]);
        }
    }
}

// ---- numbers

/// The lowest and the highest number of a length.
fn ends(count: usize) -> [i128; 2] {
    let all = each_length(U64);
    [all[2 * count - 2], all[2 * count - 1]]
}

/// Numbers of each length at each place within eight bytes: near the start, near the middle, and near
/// the end.
fn numbers_at_offsets(random: &mut Random, sizes: &[usize]) -> Plans {
    let mut plans = Plans(Vec::new());
    for size in sizes {
        for count in 1..=10 {
            let [first, last] = ends(count);
            for v in [first, last, random.number_of(count)] {
                for offset in EIGHT {
                    let middle = (size / 2).checked_sub(offset);
                    let end = size.checked_sub(count + offset);
                    for place in [Some(offset), middle, end].into_iter().flatten() {
                        for fill in [SMALL, LONG] {
                            plans.add_within(fill, *size, place, &form(U64, v));
                        }
                    }
                }
            }
        }
    }
    plans
}

/// The same at all three places of one block.
fn numbers_at_three(random: &mut Random, sizes: &[usize]) -> Plans {
    let mut plans = Plans(Vec::new());
    for size in sizes {
        for count in 1..=10 {
            for offset in EIGHT {
                for fill in [SMALL, LONG] {
                    let half = size / 2;
                    let mut part = form(U64, random.number_of(count));
                    for between in [half - 2 * offset - count, size - half - 2 * count] {
                        part.extend(random.forms(fill, between).concat());
                        part.extend(form(U64, random.number_of(count)));
                    }
                    plans.add_within(fill, *size, offset, &part);
                }
            }
        }
    }
    plans
}

/// Every bit alone; every bit with the lowest of the last byte, so that each digit of each length has
/// its turn; and all but one.
fn bits(count: usize) -> Vec<i128> {
    let [first, last] = ends(count);
    let powers = (0..7 * count).map(power);
    let all = powers.flat_map(|bit| [bit, first | bit, last & !bit]);
    all.filter(|v| *v <= U64.largest() && length(U64, *v) == count)
        .collect()
}

/// All of these in one block, from the shortest to the longest and from the longest, behind so many
/// small numbers.
fn bits_together(offsets: &[usize]) -> Plans {
    let mut plans = Plans(Vec::new());
    let mut all: Vec<Vec<u8>> = (1..=10).flat_map(bits).map(|v| form(U64, v)).collect();
    for _ in 0..2 {
        for offset in offsets {
            plans.add_within(
                SMALL,
                offset + all.concat().len() + 9,
                *offset,
                &all.concat(),
            );
        }
        all.reverse();
    }
    plans
}

/// Each of these in a block of its own.
fn bits_alone(offsets: &[usize]) -> Plans {
    let mut plans = Plans(Vec::new());
    for v in (1..=10).flat_map(bits) {
        for offset in offsets {
            let fill = if v % 3 == 0 { LONG } else { SMALL };
            plans.add_within(fill, offset + 23, *offset, &form(U64, v));
        }
    }
    plans
}

/// A number of each length at every place of a block.
fn numbers_at_places(random: &mut Random, sizes: &[usize], lengths: &[usize]) -> Plans {
    let mut plans = Plans(Vec::new());
    for size in sizes {
        for count in lengths {
            for place in 0..=size - count {
                let fill = [SMALL, Mixed, LONG][random.below(3)];
                let number = form(U64, random.number_of(*count));
                plans.add_within(fill, *size, place, &number);
            }
        }
    }
    plans
}

/// A number of ten bytes before the middle of a block, behind it, and across it in each way.
fn numbers_across_middle(random: &mut Random, sizes: &[usize]) -> Plans {
    let mut plans = Plans(Vec::new());
    for size in sizes {
        for back in 0..=10 {
            for fill in [SMALL, LONG] {
                if let Some(place) = (size / 2).checked_sub(back) {
                    let number = form(U64, random.number_of(10));
                    plans.add_within(fill, *size, place, &number);
                }
            }
        }
    }
    plans
}

/// Small numbers, and numbers of ten bytes across each multiple of 16, 32, 64 and 128 or, so that
/// there is room for them, each second multiple of 8: in each way.
fn numbers_across_multiples(random: &mut Random, sizes: &[usize]) -> Plans {
    let mut plans = Plans(Vec::new());
    for size in sizes {
        for (first, every) in [(8, 16), (16, 16), (32, 32), (64, 64), (128, 128)] {
            for back in 0..10 {
                let mut block = random.forms(SMALL, *size).concat();
                for at in (first..=size + back - 10).step_by(every) {
                    if let Some(place) = usize::checked_sub(at, back) {
                        let number = form(U64, random.number_of(10));
                        block[place..place + 10].copy_from_slice(&number);
                    }
                }
                plans.add_whole(&block);
            }
        }
    }
    plans
}

/// Every pattern of high and low bytes of so many bytes, none of them 0, behind small numbers and
/// before some or none.
fn patterns(random: &mut Random, bits: usize, offsets: &[usize]) -> Plans {
    let mut plans = Plans(Vec::new());
    for pattern in 0..1 << bits {
        for offset in offsets {
            let mut part = Vec::new();
            for bit in 0..bits {
                let high = pattern >> bit & 1;
                part.push((1 + random.below(127) + 128 * high) as u8);
            }
            let behind = [0, 1, 8][random.below(3)];
            let size = offset + bits + behind;
            plans.add_within(SMALL, size, *offset, &part);
        }
    }
    plans
}

// ---- faults

/// So many high bytes and a last one.
fn run(byte: u8, count: usize, last: u8) -> Vec<u8> {
    [vec![byte; count], vec![last]].concat()
}

/// A last byte that is one too many; a tenth byte that is too large, and one that is high.
fn kinds_of_fault() -> Vec<Vec<u8>> {
    vec![
        run(0x80, 1, 0x00),
        run(0xff, 2, 0x00),
        run(0x80, 8, 0x00),
        run(0xff, 9, 0x00),
        run(0x80, 9, 0x02),
        run(0xff, 9, 0x7f),
        run(0x80, 10, 0x00),
        run(0xff, 10, 0x01),
        run(0x80, 16, 0x01),
        run(0xff, 30, 0x7f),
    ]
}

/// One fault at every place of a block.
fn faults_at_places(sizes: &[usize]) -> Plans {
    let mut plans = Plans(Vec::new());
    for size in sizes {
        for place in 0..*size {
            for fault in kinds_of_fault() {
                for fill in FILLS {
                    plans.add_within(fill, *size, place, &fault);
                }
            }
        }
    }
    plans
}

/// One fault at each of the first twenty places of a long block, at the last twenty, and at some in
/// the middle.
fn faults_at_ends(size: usize, faults: &[Vec<u8>], fills: &[Fill]) -> Plans {
    let mut plans = Plans(Vec::new());
    for fault in faults {
        let last = size - fault.len();
        let middle = size / 2;
        for place in (0..20)
            .chain(middle - 5..middle + 5)
            .chain(last - 19..=last)
        {
            for fill in fills {
                plans.add_within(*fill, size, place, fault);
            }
        }
    }
    plans
}

/// Tails of each length up to longer than ten, and some of more, at the end of a block.
fn tails(sizes: &[usize]) -> Plans {
    let mut plans = Plans(Vec::new());
    for size in sizes {
        for count in (1..=12).chain([17, 26, 128]) {
            for byte in [0x80, 0xff] {
                for fill in FILLS {
                    let place = size.saturating_sub(count);
                    plans.add_within(fill, *size, place, &vec![byte; count]);
                }
            }
        }
    }
    plans
}

/// Each byte of a block replaced by one on each side of what a rule looks at.
fn bytes_replaced(random: &mut Random, sizes: &[usize]) -> Plans {
    let mut plans = Plans(Vec::new());
    for size in sizes {
        for fill in FILLS {
            let old = random.forms(fill, *size).concat();
            for place in 0..*size {
                for byte in [0, 1, 2, 127, 128, 255] {
                    let mut new = old.clone();
                    new[place] = byte;
                    plans.add_whole(&new);
                }
            }
        }
    }
    plans
}

/// Groups around the most bytes with each last byte, behind and before so many bytes.
fn last_bytes(offsets: &[usize], behinds: &[usize]) -> Plans {
    let mut plans = Plans(Vec::new());
    for high in 7..=10 {
        for last in [0, 1, 2, 127] {
            for byte in [0x80, 0xff] {
                let group = run(byte, high, last);
                for offset in offsets {
                    for behind in behinds {
                        let size = offset + group.len() + behind;
                        plans.add_within(SMALL, size, *offset, &group);
                        plans.add_within(LONG, size, *offset, &group);
                    }
                }
            }
        }
    }
    plans
}

/// Groups and tails that are longer by far, behind so many bytes.
fn long_groups(offsets: &[usize], lengths: &[usize]) -> Plans {
    let mut plans = Plans(Vec::new());
    for count in lengths {
        for last in [0, 1, 127, 128] {
            for byte in [0x80, 0xff] {
                for offset in offsets {
                    let group = run(byte, count - 1, last);
                    plans.add_within(SMALL, offset + count, *offset, &group);
                    plans.add_within(SMALL, offset + count + 9, *offset, &group);
                }
            }
        }
    }
    plans
}

/// A fault in the one half and one in the other, or a tail at the end.
fn faults_in_both_halves(random: &mut Random, sizes: &[usize]) -> Plans {
    let mut plans = Plans(Vec::new());
    let kinds = kinds_of_fault();
    let others = [vec![0x80], vec![0xff; 11]];
    for size in sizes {
        for first in &kinds {
            for second in kinds.iter().chain(&others) {
                for fill in FILLS {
                    let half = size / 2;
                    let place = random.below(half - first.len() + 1);
                    let between = half - place - first.len() + random.below(2);
                    let numbers = random.forms(fill, between).concat();
                    let part = [&first[..], &numbers, second].concat();
                    plans.add_within(fill, place + part.len(), place, &part);
                    plans.add_within(fill, *size, place, &part);
                }
            }
        }
    }
    plans
}

/// Two faults with so many small numbers before them and between them.
fn faults_near(offsets: &[usize], distances: &[usize]) -> Plans {
    let mut plans = Plans(Vec::new());
    let kinds = [0, 3, 4, 6].map(|kind| kinds_of_fault()[kind].clone());
    for first in &kinds {
        for second in &kinds {
            for offset in offsets {
                for distance in distances {
                    let part = [&first[..], &vec![5; *distance], second].concat();
                    let size = offset + part.len() + 3;
                    plans.add_within(SMALL, size, *offset, &part);
                }
            }
        }
    }
    plans
}

// ---- halves

/// How far from the middle a block may change.
const MOVES: [isize; 15] = [-12, -10, -9, -8, -7, -4, -1, 0, 1, 2, 5, 8, 9, 10, 12];

/// Numbers of one kind, and from about the middle on of another.
fn halves(sizes: &[usize], moves: &[isize]) -> Plans {
    let mut plans = Plans(Vec::new());
    for size in sizes {
        for moved in moves {
            for (first, second) in [
                (SMALL, LONG),
                (LONG, SMALL),
                (SMALL, Mixed),
                (Mixed, SMALL),
                (LONG, Mixed),
                (Mixed, LONG),
            ] {
                let half = (size / 2).saturating_add_signed(*moved).min(*size);
                plans
                    .0
                    .push(plan((first, half), &[], (second, size - half)));
            }
        }
    }
    plans
}

/// Up to so many numbers of one or of ten bytes, and one of any length behind or before them.
fn one_apart(random: &mut Random, most: usize) -> Plans {
    let mut plans = Plans(Vec::new());
    for numbers in 0..=most {
        for count in 1..=10 {
            let number = form(U64, random.number_of(count));
            for (fill, each) in [(SMALL, 1), (LONG, 10)] {
                let all = (fill, each * numbers);
                plans.0.push(plan(all, &number, (fill, 0)));
                plans.0.push(plan((fill, 0), &number, all));
            }
        }
    }
    plans
}

/// Numbers in the one half; the other is one group or a tail.
fn groups_of_half(sizes: &[usize]) -> Plans {
    let mut plans = Plans(Vec::new());
    for size in sizes {
        for fill in [SMALL, LONG] {
            let half = size / 2;
            let rest = size - half;
            plans
                .0
                .push(plan((fill, half), &run(0x80, rest - 1, 1), (fill, 0)));
            plans
                .0
                .push(plan((fill, 0), &run(0xff, half - 1, 1), (fill, rest)));
            plans
                .0
                .push(plan((fill, half), &vec![0xff; rest], (fill, 0)));
        }
    }
    plans
}

/// A group that is the whole block.
fn whole_groups(lengths: impl IntoIterator<Item = usize>) -> Plans {
    let mut plans = Plans(Vec::new());
    for count in lengths {
        for last in [0, 1, 127] {
            plans.add_whole(&run(0x80, count - 1, last));
            plans.add_whole(&run(0xff, count - 1, last));
        }
    }
    plans
}

/// A group about the middle, so that no start is near it.
fn centred_groups(sizes: &[usize], lengths: &[usize]) -> Plans {
    let mut plans = Plans(Vec::new());
    for size in sizes {
        for count in lengths {
            for last in [0, 1] {
                for fill in [SMALL, LONG] {
                    let group = run(0xff, count - 1, last);
                    plans.add_within(fill, *size, (size - count) / 2, &group);
                }
            }
        }
    }
    plans
}

// ---- counts

/// Blocks of just so many bytes with numbers of one length. If these don't fill it, one that is
/// shorter comes first, or last.
fn of_one_length(lengths: &[usize], sizes: impl IntoIterator<Item = usize>) -> Plans {
    let mut plans = Plans(Vec::new());
    for size in sizes {
        for count in lengths {
            plans.0.push(plan((Of(*count), 0), &[], (Of(*count), size)));
            if size % count > 0 {
                plans.0.push(plan((Of(*count), size), &[], (Of(*count), 0)));
            }
        }
    }
    plans
}

/// Blocks of just so many bytes with one number again and again: the lowest or the highest of its
/// length. Zeros fill what is left.
fn of_one_number(sizes: impl IntoIterator<Item = usize>) -> Plans {
    let mut plans = Plans(Vec::new());
    for size in sizes {
        for count in [1, 2, 9, 10] {
            for v in ends(count) {
                let mut block = form(U64, v).repeat(size / count);
                block.resize(size, 0);
                plans.add_whole(&block);
            }
        }
    }
    plans
}

/// Numbers of one length, as many as a multiple of what a part may count, one less and one more.
fn counts(lengths: &[usize], most: usize) -> Plans {
    let multiples = |of: &usize| (*of..most).step_by(*of).collect::<Vec<usize>>();
    let all = [8, 16, 17, 26, 128].iter().flat_map(multiples);
    let mut numbers: Vec<usize> = all.flat_map(|of| [of - 1, of, of + 1]).collect();
    numbers.sort();
    numbers.dedup();
    let mut plans = Plans(Vec::new());
    for count in lengths {
        for all in &numbers {
            plans
                .0
                .push(plan((SMALL, 0), &[], (Of(*count), count * all)));
        }
    }
    plans
}

// ---- random cases

/// Numbers of some kind, a part that may be a fault or not, and numbers of some kind, with no more
/// than so many bytes before the part and behind it.
fn random_plans(random: &mut Random, count: usize, longest: usize) -> Plans {
    let kinds = kinds_of_fault();
    let mut plans = Plans(Vec::new());
    for _ in 0..count {
        let length = 1 + random.below(10);
        let fills = [SMALL, Usual, Usual, Mixed, LONG, Of(length)];
        let [before, behind] = [0, 0].map(|_| {
            let fill = fills[random.below(fills.len())];
            (fill, random.below(longest + 1))
        });
        let part = match random.below(4) {
            0 => Vec::new(),
            1 => kinds[random.below(kinds.len())].clone(),
            _ => random.part(),
        };
        plans.0.push(plan(before, &part, behind));
    }
    plans
}
