//! The cases for blocks, lists, turns and listings: ops 12 to 18.
//!
//!   whole   those that the repository holds
//!   more    those of the large run

use crate::answers::MOST_OF_SLICE;
use crate::blocks::{starts, MOST_OF_BLOCK, MOST_OF_LIST};
use crate::cases::{all_bytes, each_length, filler, numbers, FAR, SPREAD};
use crate::frames::{put, put_list, MOST_BYTES};
use crate::listing;
use crate::numbers::{form, length, power, Rule};
use crate::random::Random;
use Rule::*;

const STEP_UNSIGNED: u8 = 12;
const STEP_SIGNED: u8 = 13;
const SET_DOWN: u8 = 14;
const STRICT: u8 = 15;
const LIST: u8 = 16;
const TURN: u8 = 17;
const LISTING: u8 = 18;

const STEPS: [u8; 2] = [STEP_UNSIGNED, STEP_SIGNED];
const WITH_PLACE: [u8; 3] = [STEP_UNSIGNED, STEP_SIGNED, SET_DOWN];

pub fn whole(input: &mut Vec<u8>) {
    for byte in all_bytes() {
        at_places(input, &[byte], 0..=2);
        into_slices(input, &[byte], 0..=2);
        listed(input, &[byte]);
    }
    for first in SPREAD {
        for second in SPREAD {
            at_places(input, &[first, second], 0..=3);
            into_slices(input, &[first, second], 0..=2);
            listed(input, &[first, second]);
        }
    }
    runs(input);
    growth(input);
    places(input);
    injuries(input);
    lost_fronts(input);
    faults(input);
    slices(input);
    rooms(input);
    odd_frames(input);
    turns(input);
    listings(input);
    limits(input);
    random_cases(input, 4, 2_000, 40);
    random_listings(input, 8, 200, 40);
    moved_gaps(input);
    fault_at_each_start(input);
    faults_at(input, &[9, 10, 100, 256]);
    random_faults(input, 14, 250, 20);
}

pub fn more(input: &mut Vec<u8>) {
    for first in all_bytes() {
        for second in all_bytes() {
            at_places(input, &[first, second], 0..=2);
            into_slices(input, &[first, second], 1..=2);
        }
    }
    turns_at_powers(input, 0..=255);
    every_sort(input);
    long_blocks(input);
    long_lists(input);
    random_cases(input, 5, 100_000, 40);
    random_cases(input, 6, 100_000, 300);
    long_listings(input);
    random_listings(input, 9, 20_000, 300);
    faults_at(input, &[999, 1_000, 9_999, 10_000]);
    random_faults(input, 15, 100_000, 60);
}

fn at_places(input: &mut Vec<u8>, block: &[u8], places: impl IntoIterator<Item = u64>) {
    for place in places {
        for op in WITH_PLACE {
            put(input, op, place, 0, block);
        }
    }
}

pub fn into_slices(input: &mut Vec<u8>, block: &[u8], sizes: impl IntoIterator<Item = u64>) {
    for size in sizes {
        put(input, STRICT, size, 0, block);
    }
}

fn listed(input: &mut Vec<u8>, block: &[u8]) {
    put(input, LISTING, 0, 0, block);
}

/// Both rules from each start, and from the length, which is none behind a tail; and the listing,
/// which has the unsigned ones in one text.
fn stepped_through(input: &mut Vec<u8>, block: &[u8]) {
    let mut places = starts(block);
    places.push(block.len());
    places.dedup();
    for place in places {
        for op in STEPS {
            put(input, op, place as u64, 0, block);
        }
    }
    listed(input, block);
}

// ---- steps and set-down

/// Runs of 80 and of ff, short or around the most bytes, at place 0 and behind a group: tails, or
/// groups if a last byte ends them.
fn runs(input: &mut Vec<u8>) {
    for front in [&[][..], &[0x05]] {
        let start = front.len() as u64;
        for count in [0, 1, 2, 3, 8, 9, 10, 11, 12] {
            for byte in [0x80, 0xff] {
                for last in [&[][..], &[0x00], &[0x01], &[0x7f, 0x05]] {
                    let block = [front, &vec![byte; count], last].concat();
                    for op in STEPS {
                        put(input, op, start, 0, &block);
                    }
                    put(input, SET_DOWN, start + 1, 0, &block);
                    put(input, STRICT, 1, 0, &block);
                }
            }
        }
    }
}

/// The forms beside each value at which one grows, by both rules, strictly and listed.
fn growth(input: &mut Vec<u8>) {
    for rule in [U64, I64] {
        for v in numbers(rule) {
            let block = form(rule, v);
            for op in STEPS {
                put(input, op, 0, 0, &block);
            }
            put(input, STRICT, 1, 0, &block);
            listed(input, &block);
        }
    }
}

/// Blocks with and without a tail, at every place, at the length and past it.
fn places(input: &mut Vec<u8>) {
    let document = listing::input("document").unwrap();
    let over = [&[0x05][..], &[0xff; 11], &[0x01, 0x80, 0x00, 0x40]].concat();
    for block in [&document[..], &over, &over[..15], &[0x80; 12], &[]] {
        let end = block.len() as u64;
        let far = [1 << 32, (1 << 32) + 1, 1 << 63, FAR - end, FAR - 1, FAR];
        at_places(input, block, (0..=end + 2).chain(far));
    }
}

/// An old block, and new ones with one stretch of it replaced: by less, by more, by nothing, at the
/// front, in the middle, at the end.
fn injuries(input: &mut Vec<u8>) {
    let document = listing::input("document").unwrap();
    let other = [0x40, 0xc0, 0x00, 0x80, 0x7f, 0xff, 0x7f, 0xe5, 0x8e, 0x26];
    for old in [&document[..], &other] {
        stepped_through(input, old);
        let end = old.len();
        for (from, to) in [
            (0, 0),
            (0, 1),
            (0, 2),
            (2, 3),
            (3, 5),
            (4, 8),
            (end - 1, end),
            (end, end),
        ] {
            for stretch in [&[][..], &[0x07], &[0x80], &[0xff, 0xff, 0x01]] {
                if from < to || !stretch.is_empty() {
                    let new = [&old[..from], stretch, &old[to..]].concat();
                    stepped_through(input, &new);
                    put(input, SET_DOWN, to as u64, 0, &new);
                }
            }
        }
    }
}

/// "A copy whose front is lost is read from just past its first byte below 128."
fn lost_fronts(input: &mut Vec<u8>) {
    let block = listing::input("document").unwrap();
    for lost in 0..=block.len() {
        put(input, SET_DOWN, 1, 0, &block[lost..]);
        stepped_through(input, &block[lost..]);
    }
}

/// Gaps by the unsigned rule: the last byte decides, or the one at the greatest length, which is
/// the group's last or not.
fn kinds_of_gap() -> [Vec<u8>; 5] {
    [
        vec![0x80, 0x00],
        [&[0x80; 9][..], &[0x00]].concat(),
        [&[0xff; 9][..], &[0x02]].concat(),
        [&[0xff; 10][..], &[0x00]].concat(),
        [&[0x80; 12][..], &[0x01]].concat(),
    ]
}

/// A gap before a stretch and one behind it, and the stretch replaced: by nothing, by less, by more
/// than it and than the gap, by bytes that are a gap, and by some that run on into the group behind.
/// Stepped from both gaps and from the stretch.
fn moved_gaps(input: &mut Vec<u8>) {
    let longer = [&[0x80; 12][..], &[0x00]].concat();
    let stretches = [
        &[0x81, 0x02][..],
        &[],
        &[0x07],
        &[0xff, 0xff, 0x01],
        &longer,
        &[0x80],
    ];
    let signed = [vec![0xff, 0x7f], [&[0x80; 9][..], &[0x01]].concat()];
    for gap in kinds_of_gap().into_iter().chain(signed) {
        for stretch in stretches {
            let front = [&[0x05], &gap[..]].concat();
            let moved = [&front, stretch, &[0x06]].concat();
            let block = [&moved[..], &gap, &[0x80, 0x01]].concat();
            for place in [1, front.len(), moved.len()] {
                for op in STEPS {
                    put(input, op, place as u64, 0, &block);
                }
            }
        }
    }
}

// ---- strict reading

/// One gap at each start of a block of numbers, with a tail at the end and without one; then a tail
/// alone there.
fn fault_at_each_start(input: &mut Vec<u8>) {
    let old: Vec<u8> = [5, 300, power(63), 70_000]
        .iter()
        .flat_map(|v| form(U64, *v))
        .collect();
    for start in starts(&old) {
        let (front, behind) = old.split_at(start);
        for gap in kinds_of_gap() {
            for count in [0, 1, 12] {
                let block = [front, &gap, behind, &vec![0xff; count]].concat();
                into_slices(input, &block, [0, 6]);
            }
        }
        for count in [1, 2, 8, 9, 10, 11, 20] {
            into_slices(input, &[front, &tail(count)].concat(), [1]);
        }
    }
}

/// Gaps with the byte that decides at each place, strictly and by both rules; and tails with the
/// block's end there.
fn faults_at(input: &mut Vec<u8>, places: &[usize]) {
    let [shorter, _, over, longer, _] = kinds_of_gap();
    for place in places {
        for (before, gap) in [(1, &shorter), (9, &over), (9, &longer)] {
            let start = place - before;
            let block = [&vec![5; start], &gap[..], &[0x06]].concat();
            for op in STEPS {
                put(input, op, start as u64, 0, &block);
            }
            into_slices(input, &block, [0]);
        }
        into_slices(input, &[vec![5; place - 1], tail(1)].concat(), [0]);
    }
}

/// Faults of every kind in both orders, with room for the numbers between them and without. Bytes
/// that would be a tail at the end run on into the number behind them elsewhere.
fn faults(input: &mut Vec<u8>) {
    let over = [&[0xff; 9][..], &[0x02]].concat();
    let longer = [&[0x80; 10][..], &[0x00]].concat();
    let faults = [&[0x80, 0x00][..], &over, &longer, &[0x80], &[0x80; 10]];
    for first in faults {
        for second in faults {
            let block = [&[0x05], first, &[0x80, 0x01], second].concat();
            into_slices(input, &block, [0, 2, 4]);
            listed(input, &block);
        }
    }
}

/// Numbers of each length, into slices too small, just large enough and larger.
fn slices(input: &mut Vec<u8>) {
    let all = each_length(U64);
    for count in 0..=6 {
        let block: Vec<u8> = all[..count].iter().flat_map(|v| form(U64, *v)).collect();
        into_slices(input, &block, 0..=7);
    }
    let size = all.len() as u64;
    let block: Vec<u8> = all.iter().rev().flat_map(|v| form(U64, *v)).collect();
    into_slices(input, &block, [size - 1, size, size + 2]);
}

// ---- list writing

/// Lists into buffers too small by one, just large enough and larger, at places around the last
/// that fits, around the buffer's length, and so far that place + bytes needed is more than 64 bits
/// hold.
fn rooms(input: &mut Vec<u8>) {
    let lists = [
        &[][..],
        &[0],
        &[300],
        &[0, 127, 128],
        &[u64::MAX, 0],
        &[16383, 1 << 63, 5, 16384],
    ];
    for list in lists {
        let needed = needed_by(list);
        for room in [needed.saturating_sub(1), needed, needed + 1, needed + 3] {
            let spare = room.saturating_sub(needed);
            let mut places = vec![0, 1, spare, spare + 1, room, room + 1, 1 << 32, 1 << 63];
            places.extend([FAR - needed, FAR - needed.max(1) + 1, FAR - needed / 2, FAR]);
            places.sort();
            places.dedup();
            for place in places {
                put_list(input, place, list, &filler(room as usize));
            }
        }
    }
    let all: Vec<u64> = numbers(U64).iter().map(|v| *v as u64).collect();
    put_list(input, 3, &all, &filler(needed_by(&all) as usize + 7));
    for v in all {
        let list = [v, 5, v];
        put_list(input, 1, &list, &filler(needed_by(&list) as usize + 2));
    }
}

fn needed_by(list: &[u64]) -> u64 {
    list.iter().map(|v| length(U64, *v as i128) as u64).sum()
}

// ---- frames and turns

/// Lists that the frame does not hold, also where 8 times their numbers is more than 64 bits hold
/// and would seem to fit if it were cut to them; slices above the cap, with a block too long as
/// well; fields that an op does not ask for, and the listing asks for neither. A turn asks for both
/// and for no bytes.
fn odd_frames(input: &mut Vec<u8>) {
    for place in [0, FAR] {
        let wrapping = [1 << 61, (1 << 61) + 1, 1 << 63, FAR];
        let above = MOST_OF_LIST as u64 + 1;
        for count in [1, 2, 3, above, 1 << 32].into_iter().chain(wrapping) {
            for n in [0, 7, 8, 15, 16, 17] {
                put(input, LIST, place, count, &filler(n));
            }
        }
    }
    let above = MOST_OF_SLICE + 1;
    for size in [above, 1 << 32, (1 << 32) + 1, 1 << 63, FAR] {
        put(input, STRICT, size, 0, &[0x80, 0x01, 0x05]);
    }
    put(input, STRICT, above, 0, &[5; MOST_OF_BLOCK + 1]);
    for op in [STEP_UNSIGNED, STEP_SIGNED, SET_DOWN, STRICT, TURN, LISTING] {
        put(input, op, 1, FAR, &[0x05, 0x81, 0x01]);
    }
    for code in 0..=2 {
        put(input, TURN, 1, code, &[0x05, 0x81, 0x01]);
    }
    for a in [3, 4, above, FAR] {
        put(input, LISTING, a, 1, &[0x05, 0x81, 0x01]);
    }
}

/// Every thread code with the turns around zero and at both ends; both threads with every power of
/// two; codes that are no byte, most of which would be a thread's if they were cut to one.
fn turns(input: &mut Vec<u8>) {
    let (smallest, largest) = (I64.smallest(), I64.largest());
    for code in 0..=255 {
        let ends = [smallest, smallest + 1, largest - 1, largest];
        turned(input, code, (-2..=2).chain(ends));
    }
    turns_at_powers(input, 0..=1);
    let far = [1 << 32, (1 << 32) + 1, 1 << 63, FAR];
    for code in [256, 257, 511, 512, 65_536].into_iter().chain(far) {
        turned(input, code, [-1, 0, 1, smallest, largest]);
    }
}

/// Zero, every power of two, its negation, and the number below each.
fn turns_at_powers(input: &mut Vec<u8>, codes: impl IntoIterator<Item = u64>) {
    for code in codes {
        for of in 0..=63 {
            for v in [power(of), -power(of)] {
                turned(input, code, [v - 1, v]);
            }
        }
    }
}

fn turned(input: &mut Vec<u8>, code: u64, turns: impl IntoIterator<Item = i128>) {
    for turn in turns {
        put(input, TURN, turn as u64, code, &[]);
    }
}

// ---- listings

/// Groups and tails of each length up to longer than the most bytes, alone and between others. Then
/// both sides of each power of ten, where the text of a number grows by a digit: as numbers, as
/// lengths and as places.
fn listings(input: &mut Vec<u8>) {
    for count in 0..=12 {
        for byte in [0x80, 0xff] {
            for last in [&[][..], &[0x00], &[0x01], &[0x02], &[0x7f]] {
                let part = [&vec![byte; count], last].concat();
                listed(input, &part);
                listed(input, &[&[0x05], &part[..], &[0x06]].concat());
            }
        }
    }
    let tens = (1..=19).map(|zeros| 10i128.pow(zeros));
    let sides = tens.flat_map(|ten| [ten - 1, ten]);
    let forms: Vec<u8> = sides.flat_map(|v| form(U64, v)).collect();
    listed(input, &forms);
    for count in [9, 10, 99, 100, 999, 1_000, 9_999, 10_000] {
        listed(input, &tail(count));
        listed(input, &[&group(count)[..], &[0x80, 0x00, 0x80]].concat());
    }
}

// ---- limits

fn tail(count: usize) -> Vec<u8> {
    vec![0x80; count]
}

fn group(count: usize) -> Vec<u8> {
    [tail(count - 1), vec![0x01]].concat()
}

/// The forms of numbers, again and again; fives where the next does not fit.
fn forms(numbers: &[i128], count: usize) -> Vec<u8> {
    let all: Vec<u8> = numbers.iter().flat_map(|v| form(U64, *v)).collect();
    let mut block: Vec<u8> = all.into_iter().cycle().take(count).collect();
    block.truncate(*starts(&block).last().unwrap());
    block.resize(count, 0x05);
    block
}

/// Forms of each length, the longest first.
fn mixed(count: usize) -> Vec<u8> {
    let numbers: Vec<i128> = each_length(U64).into_iter().rev().collect();
    forms(&numbers, count)
}

/// Gaps of two bytes, the first of three if the count is odd.
fn gaps(count: usize) -> Vec<u8> {
    [tail(count % 2), [0x80, 0x00].repeat(count / 2)].concat()
}

/// The start in the middle of all that a block has.
fn middle(block: &[u8]) -> u64 {
    let starts = starts(block);
    starts[starts.len() / 2] as u64
}

/// Blocks of the most bytes and of one less, of each sort, and one that would seem short if its count
/// were cut to 16 bits. They are long, so each comes with few ops, and with the others in the large
/// run; those of one more, and lists at their limit, are among the answers written down by hand. Then
/// a listing of some thousand bytes, and places that would be in a short block if they were cut.
fn limits(input: &mut Vec<u8>) {
    let (less, most) = (MOST_OF_BLOCK - 1, MOST_OF_BLOCK);
    let middle = middle(&mixed(less));
    let end = most as u64;
    for (op, a, block) in [
        (STEP_UNSIGNED, middle, mixed(less)),
        (STRICT, 2, vec![5; less]),
        (STEP_UNSIGNED, 0, tail(most)),
        (SET_DOWN, 1, tail(less)),
        (SET_DOWN, 0, tail(most + 17)),
        (LISTING, 0, vec![0xff; less]),
        (STRICT, 1, vec![0xff; most]),
        (STEP_SIGNED, 0, group(less)),
        (SET_DOWN, 1, group(most)),
        (LISTING, 0, group(most)),
        (STEP_UNSIGNED, end - 2, gaps(most)),
        (SET_DOWN, end + 1, gaps(most)),
        (STRICT, 1, gaps(less)),
    ] {
        put(input, op, a, 0, &block);
    }
    listed(input, &listing::input("limit").unwrap()[..4_097]);
    let document = listing::input("document").unwrap();
    for place in (1 << 16) - 1..=(1 << 16) + 18 {
        at_places(input, &document, [place]);
        put_list(input, place, &[300], &filler(18));
    }
}

/// Blocks of every sort on both sides of the most bytes, by every op. Then longer ones, which would
/// seem short enough if their count were cut to 16 bits.
fn every_sort(input: &mut Vec<u8>) {
    let short: Vec<i128> = (0..128).collect();
    for count in MOST_OF_BLOCK - 1..=MOST_OF_BLOCK + 1 {
        for block in [
            forms(&short, count),
            mixed(count),
            forms(&[U64.largest()], count),
            tail(count),
            vec![0xff; count],
            group(count),
            gaps(count),
        ] {
            let end = count as u64;
            let last = *starts(&block[..count - 1]).last().unwrap() as u64;
            let mut places = vec![0, 1, middle(&block), last, end, end + 1];
            places.sort();
            places.dedup();
            at_places(input, &block, places);
            let size = groups(&block) as u64;
            let mut sizes = vec![0, size.saturating_sub(1), size, size + 1];
            sizes.dedup();
            into_slices(input, &block, sizes);
            listed(input, &block);
        }
    }
    for count in [(1 << 16) + 17, 1 << 17, MOST_BYTES as usize] {
        let block = filler(count);
        at_places(input, &block, [0, count as u64]);
        into_slices(input, &block, [1]);
        listed(input, &block);
    }
}

/// Random blocks around the most bytes.
fn long_blocks(input: &mut Vec<u8>) {
    let mut random = Random(7);
    for count in MOST_OF_BLOCK - 3..=MOST_OF_BLOCK + 3 {
        for _ in 0..2 {
            let block = random.block(count);
            for op in WITH_PLACE {
                let place = random.place_of(&block);
                put(input, op, place, 0, &block);
            }
            put(input, STRICT, 1, 0, &block);
            let forms = random.list_block(count);
            let size = groups(&forms) as u64;
            into_slices(input, &forms, [size - 1, size, size + 1]);
        }
    }
}

/// Lists around the most numbers, of the shortest, of the longest and of random forms: at place 0 and
/// behind a byte, with just enough room and one byte less; at the largest place; and where the frame
/// does not hold them. Then lists that are longer by far; and no numbers into the longest buffer.
fn long_lists(input: &mut Vec<u8>) {
    let mut random = Random(11);
    for count in MOST_OF_LIST - 1..=MOST_OF_LIST + 1 {
        let mixed: Vec<u64> = (0..count).map(|_| random.number(U64) as u64).collect();
        for list in [vec![5; count], vec![u64::MAX; count], mixed] {
            let needed = needed_by(&list) as usize;
            for (place, room) in [(0, needed), (0, needed - 1), (1, needed + 1), (1, needed)] {
                put_list(input, place, &list, &filler(room));
            }
            put_list(input, FAR, &list, &filler(1));
        }
        put(input, LIST, 0, count as u64, &filler(8 * count - 1));
    }
    let longest = MOST_BYTES as usize / 8;
    for count in [MOST_OF_LIST + 17, 2 * MOST_OF_LIST, longest - 3] {
        put_list(input, 0, &vec![5; count], &filler(24));
    }
    put_list(input, 0, &[], &filler(MOST_BYTES as usize));
}

/// Random blocks around the most bytes: of parts of every kind, of forms with one of them damaged,
/// and of numbers of one byte, which have the longest text.
fn long_listings(input: &mut Vec<u8>) {
    let mut random = Random(10);
    for count in MOST_OF_BLOCK - 3..=MOST_OF_BLOCK + 3 {
        for _ in 0..2 {
            listed(input, &random.block(count));
            let forms = random.list_block(count);
            listed(input, &random.damaged(forms));
            let short: Vec<u8> = (0..count).map(|_| random.byte() % 128).collect();
            listed(input, &short);
        }
    }
}

// ---- random cases

/// How many groups a block has.
pub fn groups(block: &[u8]) -> usize {
    block.iter().filter(|byte| **byte < 128).count()
}

impl Random {
    /// Mostly a start, at times any place of the block or one past its end.
    fn place_of(&mut self, block: &[u8]) -> u64 {
        let starts = starts(block);
        match self.below(16) {
            0 => self.far(),
            1..=3 => self.below(block.len() + 3) as u64,
            _ => starts[self.below(starts.len())] as u64,
        }
    }

    /// A block of no more than so many bytes, at least one time in two without a tail.
    fn block_up_to(&mut self, longest: usize) -> Vec<u8> {
        let count = self.below(longest + 1);
        let mut block = self.block(count);
        if self.below(2) == 0 {
            block.truncate(*starts(&block).last().unwrap());
        }
        block
    }

    fn step_case(&mut self, input: &mut Vec<u8>, op: u8, longest: usize) {
        let block = self.block_up_to(longest);
        put(input, op, self.place_of(&block), 0, &block);
    }

    fn set_down_case(&mut self, input: &mut Vec<u8>, longest: usize) {
        let block = self.block_up_to(longest);
        let place = match self.below(16) {
            0 => self.far(),
            _ => self.below(block.len() + 2) as u64,
        };
        put(input, SET_DOWN, place, 0, &block);
    }

    /// Mostly a block of forms alone, at times with one of them damaged, at times one of all kinds.
    fn mostly_forms(&mut self, longest: usize) -> Vec<u8> {
        let most = self.below(longest + 1);
        let block = self.list_block(most);
        match self.below(4) {
            0 => self.block_up_to(longest),
            1 if !block.is_empty() => self.damaged(block),
            _ => block,
        }
    }

    fn strict_case(&mut self, input: &mut Vec<u8>, longest: usize) {
        let block = self.mostly_forms(longest);
        let size = (groups(&block) + self.below(3)).saturating_sub(self.below(3));
        put(input, STRICT, size as u64, 0, &block);
    }

    /// One time in sixteen the frame says one number more than the list has.
    fn list_case(&mut self, input: &mut Vec<u8>, longest: usize) {
        let count = self.below(longest / 5);
        let list: Vec<u64> = (0..count).map(|_| self.number(U64) as u64).collect();
        let needed = needed_by(&list) as usize;
        let room = (needed + self.below(6)).saturating_sub(self.below(3));
        let last = (room + 1).saturating_sub(needed);
        let place = match self.below(16) {
            0 => self.far(),
            1 | 2 => self.below(room + 3) as u64,
            3..=5 => last as u64,
            _ => self.below(last.max(1)) as u64,
        };
        let mut bytes: Vec<u8> = list.iter().flat_map(|v| v.to_le_bytes()).collect();
        bytes.extend((0..room).map(|_| self.byte()));
        let said = count + usize::from(self.below(16) == 0);
        put(input, LIST, place, said as u64, &bytes);
    }

    /// Mostly a right or a left thread, at times any code, rarely one that is no byte. The code has a
    /// seed of its own, the turn, so that the cases of other ops don't depend on it.
    fn turn_case(&mut self, input: &mut Vec<u8>) {
        let turn = self.number(I64) as u64;
        let mut seeded = Random(turn);
        let code = match seeded.below(16) {
            0 => seeded.far(),
            1 | 2 => seeded.byte() as u64,
            _ => seeded.below(2) as u64,
        };
        put(input, TURN, turn, code, &[]);
    }

    /// Forms with one part of any kind among them: strict reading, or a step there.
    fn fault_case(&mut self, input: &mut Vec<u8>, longest: usize) {
        let most = self.below(longest + 1);
        let front = self.list_block(most);
        let part = self.part();
        let most = self.below(longest + 1);
        let behind = self.list_block(most);
        let block = [front.clone(), part, behind].concat();
        let op = [STEP_UNSIGNED, STEP_SIGNED, STRICT, STRICT][self.below(4)];
        let a = match op {
            STRICT => self.below(3),
            _ => front.len(),
        };
        put(input, op, a as u64, 0, &block);
    }
}

/// Random cases from a seed, spread over ops 12 to 17, with blocks of no more than so many bytes.
fn random_cases(input: &mut Vec<u8>, seed: u64, count: usize, longest: usize) {
    let mut random = Random(seed);
    for _ in 0..count {
        match random.below(16) {
            0..=3 => random.step_case(input, STEP_UNSIGNED, longest),
            4..=7 => random.step_case(input, STEP_SIGNED, longest),
            8 | 9 => random.set_down_case(input, longest),
            10..=12 => random.strict_case(input, longest),
            13 | 14 => random.list_case(input, longest),
            _ => random.turn_case(input),
        }
    }
}

/// Random listings from a seed, of blocks of no more than so many bytes.
fn random_listings(input: &mut Vec<u8>, seed: u64, count: usize, longest: usize) {
    let mut random = Random(seed);
    for _ in 0..count {
        let block = match random.below(2) {
            0 => random.block_up_to(longest),
            _ => random.mostly_forms(longest),
        };
        listed(input, &block);
    }
}

/// Random cases from a seed for gaps and faults, with no more than so many bytes before and behind.
fn random_faults(input: &mut Vec<u8>, seed: u64, count: usize, longest: usize) {
    let mut random = Random(seed);
    for _ in 0..count {
        random.fault_case(input, longest);
    }
}
