//! The cases for entries opened by a mark and for their turns: ops 23 and 24; ops 12, 13, 15 and 18 on
//! blocks with marks; and ops 4, 8, 11, 12, 13, 15, 17 and 18 on turns that are absurd in an entry.
//!
//!   whole   those that the repository holds
//!   more    those of the large run

use crate::blocks::MOST_OF_BLOCK;
use crate::cases::{all_bytes, each_length, filler, numbers, FAR, SPREAD};
use crate::entries::{Entry, HIGHEST_TURN, LOWEST_TURN, MARK};
use crate::frames::{put, put_numbers, MOST_BYTES};
use crate::numbers::{form, power, Rule};
use crate::random::Random;
use Rule::*;

const READ: u8 = 23;
const WRITE: u8 = 24;
const STEPS: [u8; 2] = [12, 13];
const STRICT: u8 = 15;
const LISTING: u8 = 18;

/// Of a signed number: the reader, the writer, the length, and what it means as a turn.
const SIGNED_READ: u8 = 4;
const SIGNED_WRITE: u8 = 8;
const SIGNED_LENGTH: u8 = 11;
const MEANING: u8 = 17;

pub fn whole(input: &mut Vec<u8>) {
    let random = &mut Random(22);
    few_blocks(input);
    for count in 0..=4 {
        for row in rows(&PIECES, count) {
            at_places(input, &[&MARK, &row], [0]);
        }
    }
    for entry in all_entries() {
        hurt_groups(input, &entry);
        exchanged(input, &entry);
    }
    each_byte(input, &SMALL, &SPREAD);
    marks(input);
    tails(input, (1..=12).chain([20, 127, 128, 256]));
    hidden(input, 0..=12);
    nearly_marks(input);
    values(input);
    places(input);
    distances(
        input,
        &[100, 128, 251, 252, 254, 255, 256, 257, 258, 259, 300],
    );
    for entry in [SMALL, MIDDLE, BEYOND] {
        every_room(input, &entry);
    }
    for entry in [LONGEST, ABSURD] {
        some_rooms(input, &entry);
    }
    far_writes(input);
    odd_frames(input);
    injuries(
        input,
        &old_block(),
        &STRETCHES[..12],
        &[&[], &[0x80], &MARK],
    );
    lost_fronts(input);
    plain(input);
    turns(input);
    random_reads(input, random, 900);
    random_writes(input, random, 150);
}

pub fn more(input: &mut Vec<u8>) {
    let random = &mut Random(23);
    many_blocks(input, random);
    for entry in all_entries() {
        hurt_pairs(input, &entry);
        every_room(input, &entry);
    }
    each_byte(input, &SMALL, &all_bytes());
    tails(input, 13..=300);
    hidden(input, 13..=40);
    bits(input);
    lengths(input);
    distances(input, &(1..=600).collect::<Vec<usize>>());
    injuries(
        input,
        &old_block(),
        &STRETCHES,
        &[&[], &[0x05], &[0x80], &[0x00], &MARK, &[0xff, 0xff, 0x01]],
    );
    random_injuries(input, random, 1_000);
    limits(input, random);
    long_writes(input);
    many_turns(input, random);
    random_reads(input, random, 200_000);
    random_writes(input, random, 30_000);
}

// ---- entries

/// One byte to each number; two or three, and a turn below zero; the longest that is good.
const SMALL: Entry = entry_of(1, 2, 3);
const MIDDLE: Entry = entry_of(300, 70_000, -300);
const LONGEST: Entry = entry_of(1 << 63, u64::MAX, LOWEST_TURN);

/// With an absurd turn: the first that is one, in an entry that is good if it and the segment change
/// places; and the longest entry that there is.
const BEYOND: Entry = entry_of(400, 401, LOWEST_TURN - 1);
const ABSURD: Entry = entry_of(1 << 63, u64::MAX, i64::MIN);

fn all_entries() -> [Entry; 5] {
    [SMALL, MIDDLE, LONGEST, BEYOND, ABSURD]
}

/// A neighbour, which differs from them.
const OTHER: Entry = entry_of(7, 8, 9);

const fn entry_of(segment: u64, sentence: u64, turn: i64) -> Entry {
    Entry {
        segment,
        sentence,
        turn,
    }
}

/// The rule of each number of an entry.
const RULES: [Rule; 3] = [U64, U64, I64];

fn entry_with(field: usize, v: i128) -> Entry {
    let mut entry = SMALL;
    match field {
        0 => entry.segment = v as u64,
        1 => entry.sentence = v as u64,
        _ => entry.turn = v as i64,
    }
    entry
}

/// Groups with other bytes in place of one.
fn replaced(groups: &[Vec<u8>; 4], at: usize, bytes: &[u8]) -> [Vec<u8>; 4] {
    let mut new = groups.clone();
    new[at] = bytes.to_vec();
    new
}

// ---- frames

/// A block of these pieces, read at each place once.
fn at_places(input: &mut Vec<u8>, pieces: &[&[u8]], places: impl IntoIterator<Item = u64>) {
    let block = pieces.concat();
    let mut places: Vec<u64> = places.into_iter().collect();
    places.sort();
    places.dedup();
    for place in places {
        put(input, READ, place, 0, &block);
    }
}

/// At the length and just past it too.
fn at_every_place(input: &mut Vec<u8>, block: &[u8]) {
    at_places(input, &[block], 0..=block.len() as u64 + 1);
}

/// Alone; behind a group and before a mark; between two entries. There it is read at its own place
/// and just behind, where the next one is the least.
fn among_others(input: &mut Vec<u8>, bytes: &[u8]) {
    let other = OTHER.bytes();
    let end = other.len() as u64;
    at_places(input, &[bytes], [0]);
    at_places(input, &[&[0x05], bytes, &MARK], [0]);
    at_places(input, &[&other, bytes, &other], [end, end + 1]);
}

/// The language is not looked at: it is such as would show in each place.
fn put_write(input: &mut Vec<u8>, place: u64, entry: &Entry, buffer: &[u8]) {
    let language = 0x1234_5678_9abc_def0;
    let numbers = [entry.segment, entry.sentence, language, entry.turn as u64];
    put_numbers(input, WRITE, place, &numbers, buffer);
}

// ---- all blocks of few bytes, and of few pieces

const BYTES: [&[u8]; 4] = [&[0x00], &[0x01], &[0x80], &[0x81]];

/// A mark, numbers of one byte and of two, a group with a mark's bytes at its end, and a byte that
/// runs on into what is behind it.
const PIECES: [&[u8]; 6] = [
    &MARK,
    &[0x05],
    &[0x7f],
    &[0x80, 0x01],
    &[0x81, 0x80, 0x00],
    &[0x80],
];

/// All rows of so many pieces out of those given.
fn rows(pieces: &[&[u8]], count: u32) -> Vec<Vec<u8>> {
    let base = pieces.len();
    let row = |code: usize| {
        let digits = (0..count).map(|i| code / base.pow(i) % base);
        digits.flat_map(|digit| pieces[digit].to_vec()).collect()
    };
    (0..base.pow(count)).map(row).collect()
}

/// Up to four bytes at every place; five at the first and at another.
fn few_blocks(input: &mut Vec<u8>) {
    for count in 0..=4 {
        for block in rows(&BYTES, count) {
            at_every_place(input, &block);
        }
    }
    for (i, block) in rows(&BYTES, 5).iter().enumerate() {
        at_places(input, &[block], [0, 1 + i as u64 % 3]);
    }
}

fn many_blocks(input: &mut Vec<u8>, random: &mut Random) {
    for count in 5..=7 {
        for block in rows(&BYTES, count) {
            at_every_place(input, &block);
        }
    }
    for block in rows(&BYTES, 8) {
        at_places(input, &[&block], [0]);
    }
    for count in 1..=6 {
        for block in rows(&PIECES, count) {
            let place = random.below(block.len() + 1) as u64;
            at_places(input, &[&block], [0, place]);
        }
    }
    let more = [
        &[0x00][..],
        &[0x40],
        &[0xc0, 0x00],
        &[0xff, 0x7f],
        &[0x80, 0x80, 0x00],
        &[0xff],
    ];
    for row in rows(&[&PIECES[..], &more].concat(), 4) {
        at_places(input, &[&MARK, &row], [0]);
    }
}

// ---- damaged groups

/// What may stand in place of a group: nothing; it without its first byte, or its last; it twice; with
/// a byte before it or behind, also such as run on or are one too many; with a group or a mark beside
/// it; the largest groups, and such as are too large; and other bytes.
fn hurt(group: &[u8]) -> Vec<Vec<u8>> {
    let (last, but_last) = group.split_last().unwrap();
    let longer = |byte: u8| [but_last, &[last | 0x80, byte]].concat();
    let run = |byte: u8, count: usize, last: u8| [vec![byte; count], vec![last]].concat();
    let mut all = vec![
        vec![],
        group[1..].to_vec(),
        but_last.to_vec(),
        group.repeat(2),
        longer(0x00),
        longer(0x01),
        longer(0x7f),
        [&[0x80], group].concat(),
        [group, &[0x80]].concat(),
        [&[0x05], group].concat(),
        [group, &[0x00]].concat(),
        [&MARK, group].concat(),
        [group, &MARK].concat(),
        vec![0x40],
        vec![0x80, 0x01],
        vec![0x80, 0x80, 0x00],
    ];
    for last in [0x00, 0x01, 0x02, 0x7e, 0x7f] {
        all.push(run(0x80, 9, last));
        all.push(run(0xff, 9, last));
    }
    all.push(run(0x80, 10, 0x00));
    all.push(run(0xff, 12, 0x01));
    all.sort();
    all.dedup();
    all
}

fn hurt_groups(input: &mut Vec<u8>, entry: &Entry) {
    let good = entry.groups();
    for (at, group) in good.iter().enumerate() {
        for bytes in hurt(group) {
            among_others(input, &replaced(&good, at, &bytes).concat());
        }
    }
}

/// An entry behind a group and before a mark, with one byte replaced in turn by each of those given.
fn each_byte(input: &mut Vec<u8>, entry: &Entry, bytes: &[u8]) {
    let old = [&[0x05], &entry.bytes()[..], &MARK].concat();
    for at in 0..old.len() {
        for byte in bytes {
            let (front, behind) = (&old[..at], &old[at + 1..]);
            at_places(input, &[front, &[*byte], behind], [0]);
        }
    }
}

/// Two groups of one entry, each in each way.
fn hurt_pairs(input: &mut Vec<u8>, entry: &Entry) {
    let good = entry.groups();
    for second in 1..4 {
        for first in 0..second {
            for one in hurt(&good[first]) {
                for other in hurt(&good[second]) {
                    let new = replaced(&replaced(&good, first, &one), second, &other);
                    at_places(input, &[&new.concat(), &OTHER.bytes()], [0, 1]);
                }
            }
        }
    }
}

/// The groups in every order.
fn exchanged(input: &mut Vec<u8>, entry: &Entry) {
    let good = entry.groups();
    for order in 0..256 {
        let digits = [order / 64, order / 16 % 4, order / 4 % 4, order % 4];
        if (0..4).all(|group| digits.contains(&group)) {
            among_others(input, &digits.map(|group| good[group].clone()).concat());
        }
    }
}

// ---- marks

/// Some back to back, alone, before an entry, behind one, on both sides, and with a group between.
fn marks(input: &mut Vec<u8>) {
    for count in 1..=4 {
        let marks = &MARK.repeat(count)[..];
        let small = &SMALL.bytes()[..];
        for pieces in [
            &[marks][..],
            &[marks, small],
            &[small, marks],
            &[marks, small, marks],
            &[marks, &[0x05], marks],
        ] {
            at_every_place(input, &pieces.concat());
        }
    }
}

/// A tail behind the mark and behind each group, at the end of the block; the same bytes before the
/// groups that follow or before a mark, into which they run on; and before the first mark.
fn tails(input: &mut Vec<u8>, counts: impl Iterator<Item = usize>) {
    let good = SMALL.groups();
    for count in counts {
        for byte in [0x80, 0xff] {
            let tail = vec![byte; count];
            for behind in 1..=4 {
                let front = good[..behind].concat();
                at_places(input, &[&front, &tail], [0]);
                at_places(input, &[&front, &tail, &OTHER.bytes()], [0, 1]);
                if behind < 4 {
                    let rest = good[behind..].concat();
                    at_places(input, &[&front, &tail, &rest], [0]);
                }
            }
            let end = count as u64;
            at_places(input, &[&tail, &SMALL.bytes(), &MARK], [0, end, end + 1]);
        }
    }
}

/// Groups that end with a mark's two bytes, and those two alone: at the start, behind a group and
/// behind an entry; with nothing behind, with three groups, and with an entry.
fn hidden(input: &mut Vec<u8>, counts: impl Iterator<Item = usize>) {
    for count in counts {
        for byte in [0x80, 0x81, 0xff] {
            let high = vec![byte; count];
            for front in [&[][..], &[0x05], &SMALL.bytes()] {
                for behind in [&[][..], &[0x04, 0x05, 0x06], &OTHER.bytes()] {
                    let two = (front.len() + count) as u64;
                    at_places(input, &[front, &high, &MARK, behind], [0, two]);
                }
            }
        }
    }
}

/// What looks nearly like a mark: in its place, in that of each group, behind the last one and before
/// what follows.
fn nearly_marks(input: &mut Vec<u8>) {
    let good = SMALL.groups();
    let (numbers, small, other) = (good[1..].concat(), good.concat(), OTHER.bytes());
    for nearly in [
        &[0x80, 0x01][..],
        &[0x80, 0x02],
        &[0x80, 0x40],
        &[0x80, 0x7f],
        &[0x80, 0x80],
        &[0x80, 0x81],
        &[0x81, 0x00],
        &[0xc0, 0x00],
        &[0xff, 0x00],
        &[0x00, 0x80],
        &[0x00, 0x00],
        &[0x01, 0x80],
        &[0x80],
        &[0x00],
        &[0x00, 0x80, 0x80],
    ] {
        at_places(input, &[nearly], [0]);
        at_places(input, &[nearly, nearly], [0]);
        at_places(input, &[nearly, &numbers], [0]);
        at_places(input, &[&[0x05], nearly, &numbers], [0]);
        at_places(input, &[nearly, &numbers, nearly, &other], [0, 1]);
        for at in 1..4 {
            at_places(input, &[&replaced(&good, at, nearly).concat()], [0]);
        }
        at_places(input, &[&small, nearly], [0]);
        at_places(input, &[&small, nearly, &numbers], [0]);
        at_places(input, &[&small, nearly, &other], [0]);
    }
}

// ---- numbers

/// Both sides of every value at which a form grows, and the ends of each width, as each number of an
/// entry: read, and written between other bytes. The forms of the other rule are read too.
fn values(input: &mut Vec<u8>) {
    for (field, rule) in RULES.into_iter().enumerate() {
        for v in numbers(rule) {
            let entry = entry_with(field, v);
            let bytes = entry.bytes();
            at_places(input, &[&bytes], [0]);
            put_write(input, 1, &entry, &filler(bytes.len() + 2));
        }
        let other = if rule == U64 { I64 } else { U64 };
        for v in numbers(other) {
            let groups = replaced(&SMALL.groups(), field + 1, &form(other, v));
            at_places(input, &[&groups.concat()], [0]);
        }
    }
}

/// Each bit of each number alone, and all but one.
fn bits(input: &mut Vec<u8>) {
    for field in 0..3 {
        for bit in 0..64 {
            for v in [1u64 << bit, !(1u64 << bit)] {
                let entry = entry_with(field, v as i128);
                at_places(input, &[&entry.bytes(), &MARK], [0]);
                put_write(input, 2, &entry, &filler(entry.bytes().len() + 4));
            }
        }
    }
}

/// The lowest and the highest numbers of each length, and the turns on both sides of each limit, in
/// all triples: read behind a group and before a mark, and written with a byte to spare.
fn lengths(input: &mut Vec<u8>) {
    let ends = each_length(I64).into_iter().map(|turn| turn as i64);
    let turns: Vec<i64> = ends.chain(BESIDE).collect();
    for segment in each_length(U64) {
        for sentence in each_length(U64) {
            for turn in &turns {
                let entry = entry_of(segment as u64, sentence as u64, *turn);
                let bytes = entry.bytes();
                at_places(input, &[&[0x05], &bytes, &MARK], [0]);
                put_write(input, 0, &entry, &filler(bytes.len() + 1));
            }
        }
    }
}

// ---- places

/// Every place of small blocks, and past their end on both sides of what 8, 16, 32 and 63 bits hold,
/// also where the place is a good one if it is cut to them.
fn places(input: &mut Vec<u8>) {
    let small = SMALL.bytes();
    let two = [&small[..], &MIDDLE.bytes()].concat();
    for block in [&small[..], &two, &MARK, &[0x05], &[]] {
        at_every_place(input, block);
        let end = block.len() as u64;
        let powers = [8, 16, 31, 32, 63].map(|power| 1 << power);
        let around = powers.map(|power| [power - 1, power, power + 1, power + end]);
        let far = [end + 2, FAR - end, FAR - 1, FAR];
        at_places(input, &[block], around.concat().into_iter().chain(far));
    }
}

/// A mark so far from the start, an entry with so many groups, and entries with a group of so many
/// bytes, which hides a mark or stands before one.
fn distances(input: &mut Vec<u8>, counts: &[usize]) {
    let small = SMALL.bytes();
    for count in counts {
        let (fives, highs) = (vec![5; *count], vec![0x80; *count]);
        let at = *count as u64;
        at_places(input, &[&fives, &small, &MARK], [0, at, at + 1]);
        at_places(input, &[&MARK, &fives], [0]);
        at_places(input, &[&MARK, &highs, &small], [0, at + 2]);
        at_places(input, &[&small, &highs, &[0x01], &MARK], [0, 1]);
    }
}

// ---- writes

/// At every place of buffers with no room at all to three bytes to spare, and past their end.
fn every_room(input: &mut Vec<u8>, entry: &Entry) {
    for room in 0..=entry.bytes().len() + 3 {
        for place in 0..=room as u64 + 1 {
            put_write(input, place, entry, &filler(room));
        }
    }
}

/// Buffers that end within each group of the entry, one short, just large enough and larger, at the
/// first places and around the last that fits.
fn some_rooms(input: &mut Vec<u8>, entry: &Entry) {
    let needed = entry.bytes().len();
    let around = [needed - 1, needed, needed + 1, needed + 3];
    for room in [0, 1, 2, 3, 11, 12, 13, 22].into_iter().chain(around) {
        let spare = room.saturating_sub(needed);
        let mut places = vec![0, 1, spare, spare + 1, spare + 2, room, room + 1];
        places.sort();
        places.dedup();
        for place in places {
            put_write(input, place as u64, entry, &filler(room));
        }
    }
}

/// Places so far that place + bytes needed is more than 64 bits hold, and would seem to fit if it
/// were cut to them; and places that are good ones if they are cut.
fn far_writes(input: &mut Vec<u8>) {
    for entry in all_entries() {
        let needed = entry.bytes().len();
        for room in [needed, needed + 3] {
            for less in (0..=needed as u64 + 1).step_by(1 + needed / 12) {
                put_write(input, FAR - less, &entry, &filler(room));
            }
            for power in [8, 16, 31, 32, 63] {
                put_write(input, 1 << power, &entry, &filler(room));
            }
        }
    }
}

/// An entry written at the end of many bytes, and with too little room there.
fn long_writes(input: &mut Vec<u8>) {
    for entry in all_entries() {
        let needed = entry.bytes().len();
        for room in [
            MOST_OF_BLOCK,
            MOST_OF_BLOCK + needed,
            MOST_BYTES as usize - 32,
        ] {
            let last = (room - needed) as u64;
            for place in [last, last + 1] {
                put_write(input, place, &entry, &filler(room));
            }
        }
    }
}

/// Too few bytes for an entry, good or not, at places that are good and not; other languages, with turns
/// that pass and not, and such as would pass or not in their stead; and fields that an op doesn't ask
/// for.
fn odd_frames(input: &mut Vec<u8>) {
    let good = [1u64, 2, 3, 4].map(u64::to_le_bytes).concat();
    for n in [0, 1, 7, 8, 16, 24, 30, 31, 32] {
        for place in [0, 1, FAR] {
            // Of 32 bytes of these, the last eight are an absurd turn.
            put(input, WRITE, place, 0, &filler(n));
            put(input, WRITE, place, 0, &good[..n]);
        }
    }
    let [below, above] = [LOWEST_TURN - 1, HIGHEST_TURN + 1].map(|turn| turn as u64);
    for language in [0, 1, 127, 128, 400, above, 1 << 32, 1 << 63, below, FAR] {
        for turn in [7, 400, above, below] {
            put_numbers(input, WRITE, 1, &[5, 6, language, turn], &filler(7));
            put_numbers(input, WRITE, 3, &[5, 6, language, turn], &filler(7));
        }
    }
    for b in [1, 5, 1 << 32, FAR] {
        for entry in [SMALL, BEYOND] {
            put(input, READ, 0, b, &entry.bytes());
            put(input, READ, 1, b, &entry.bytes());
        }
        put(input, WRITE, 0, b, &filler(32 + 32));
        put(input, WRITE, 0, b, &[&good[..], &filler(7)].concat());
    }
}

// ---- damage

/// Four entries with numbers of one byte and of two.
fn old_block() -> Vec<u8> {
    let entries = [
        SMALL,
        entry_of(128, 5, -64),
        entry_of(7, 12857, 64),
        entry_of(9, 10, 11),
    ];
    entries.map(|entry| entry.bytes()).concat()
}

/// Where the old block is damaged: marks and the bytes of marks, groups and the bytes of groups, whole
/// entries, and between two bytes.
const STRETCHES: [(usize, usize); 18] = [
    (5, 6),
    (6, 7),
    (5, 7),
    (4, 5),
    (7, 8),
    (8, 9),
    (9, 10),
    (10, 11),
    (5, 11),
    (11, 11),
    (0, 1),
    (22, 23),
    (0, 2),
    (9, 9),
    (16, 17),
    (10, 13),
    (18, 20),
    (23, 23),
];

/// An old block, and new ones with one stretch replaced, each at every place.
fn injuries(input: &mut Vec<u8>, old: &[u8], stretches: &[(usize, usize)], by: &[&[u8]]) {
    at_every_place(input, old);
    for (from, to) in stretches {
        for bytes in by {
            if from < to || !bytes.is_empty() {
                let new = [&old[..*from], bytes, &old[*to..]].concat();
                at_every_place(input, &new);
            }
        }
    }
}

/// "A copy whose front is lost" is read at place 1; at place 0 what is left of a group may be a mark.
fn lost_fronts(input: &mut Vec<u8>) {
    let old = [old_block(), vec![0x81], SMALL.bytes()].concat();
    for lost in 0..=old.len() {
        at_places(input, &[&old[lost..]], [0, 1]);
    }
}

/// Random blocks of entries that are mostly good, with one stretch replaced, at every place.
fn random_injuries(input: &mut Vec<u8>, random: &mut Random, count: usize) {
    for _ in 0..count {
        let old: Vec<u8> = (0..4).flat_map(|_| random.entry().bytes()).collect();
        let from = random.below(old.len());
        let to = (from + random.below(8)).min(old.len());
        let stretch = match random.below(3) {
            0 => random.part(),
            1 => MARK.to_vec(),
            _ => {
                let count = random.below(4);
                random.bytes(count)
            }
        };
        at_every_place(input, &[&old[..from], &stretch, &old[to..]].concat());
    }
}

// ---- what knows no marks

/// "The plain step and the listing still call 80 00 NotShortest": blocks with marks stepped through by
/// both rules, read strictly and listed.
fn plain(input: &mut Vec<u8>) {
    let small = SMALL.bytes();
    for block in [
        &MARK[..],
        &MARK.repeat(3),
        &small,
        &[&[0x05], &small[..], &MARK].concat(),
        &[&small[1..], &small, &[0x80]].concat(),
        &[&[0x81], &small[..], &small].concat(),
        &ABSURD.bytes(),
        &old_block(),
    ] {
        for place in 0..=block.len() as u64 {
            for op in STEPS {
                put(input, op, place, 0, block);
            }
        }
        for size in [0, 4] {
            put(input, STRICT, size, 0, block);
        }
        put(input, LISTING, 0, 0, block);
    }
}

// ---- turns

fn turns(input: &mut Vec<u8>) {
    each_turn(input, -410..=410);
    for turn in power_turns() {
        at_an_end(input, turn);
    }
    for turn in BESIDE.into_iter().chain(ENDS) {
        turn_places(input, turn);
        plain_turn(input, turn);
    }
    for turn in [i64::MIN, -401, -400, 400, 401, i64::MAX] {
        turn_rooms(input, turn);
    }
    for count in 0..=4 {
        for row in rows(&TURN_PIECES, count) {
            at_places(input, &[&MARK, &row], [0]);
        }
    }
    turn_damage(input);
    too_many_bytes(input);
    unlimited(input);
}

/// Every turn of one byte and of two, and some of three; all pairs of bytes as a turn; and the sorts
/// above with more turns, pieces and bytes.
fn many_turns(input: &mut Vec<u8>, random: &mut Random) {
    each_turn(input, -9_000..=9_000);
    for first in all_bytes() {
        for second in all_bytes() {
            let groups = replaced(&SMALL.groups(), 3, &[first, second]);
            at_places(input, &[&groups.concat()], [0]);
        }
    }
    for turn in power_turns() {
        turn_places(input, turn);
        plain_turn(input, turn);
        turn_rooms(input, turn);
    }
    for turn in BESIDE {
        every_room(input, &entry_with(2, turn as i128));
        each_byte(input, &entry_with(2, turn as i128), &all_bytes());
    }
    for row in rows(&TURN_PIECES, 6) {
        let place = random.below(row.len() + 1) as u64;
        at_places(input, &[&row], [0, place]);
    }
    injuries(
        input,
        &turn_block(),
        &(0..24).map(|at| (at, at + 1)).collect::<Vec<_>>(),
        &all_bytes().chunks(1).collect::<Vec<_>>(),
    );
}

/// The last turns that pass on both sides of zero, and the first that don't, and one more of each.
const BESIDE: [i64; 8] = [-402, -401, -400, -399, 399, 400, 401, 402];

/// The ends of the width.
const ENDS: [i64; 4] = [i64::MIN, i64::MIN + 1, i64::MAX - 1, i64::MAX];

/// Turns that may be taken for others: each power of two, its negation and those beside them; each
/// limit with a power of two added or taken away, which passes if it is cut to fewer bits or loses its
/// sign; and each limit times a power of two, whose form ends as the limit's does if that is a power of
/// 128. Most are absurd.
fn power_turns() -> Vec<i64> {
    let limits = [LOWEST_TURN, HIGHEST_TURN].map(i128::from);
    let mut all = Vec::new();
    for of in 0..64 {
        for near in limits.into_iter().chain([-1, 0, 1]) {
            all.extend([near + power(of), near - power(of)]);
        }
        all.extend(limits.map(|limit| limit * power(of)));
    }
    all.sort();
    all.dedup();
    all.retain(|turn| I64.smallest() <= *turn && *turn <= I64.largest());
    all.into_iter().map(|turn| turn as i64).collect()
}

/// Behind small numbers, and behind the longest.
fn with_turn(turn: i64) -> [Entry; 2] {
    [SMALL, LONGEST].map(|entry| Entry { turn, ..entry })
}

/// Read alone and between two entries, and written between other bytes.
fn each_turn(input: &mut Vec<u8>, turns: impl Iterator<Item = i64>) {
    let other = OTHER.bytes();
    for turn in turns {
        let entry = entry_with(2, turn as i128);
        let bytes = entry.bytes();
        at_places(input, &[&bytes], [0]);
        at_places(input, &[&other, &bytes, &other], [other.len() as u64]);
        put_write(input, 1, &entry, &filler(bytes.len() + 2));
    }
}

/// Read before a mark, and written at the end of a buffer.
fn at_an_end(input: &mut Vec<u8>, turn: i64) {
    for entry in with_turn(turn) {
        let bytes = entry.bytes();
        at_places(input, &[&bytes, &MARK], [0]);
        put_write(input, 2, &entry, &filler(bytes.len() + 2));
    }
}

/// Read between two entries, at every place.
fn turn_places(input: &mut Vec<u8>, turn: i64) {
    let other = OTHER.bytes();
    for entry in with_turn(turn) {
        at_every_place(input, &[&other[..], &entry.bytes(), &other].concat());
    }
}

/// Buffers with no room at all to three bytes to spare, at the first places, past the end and at the
/// largest place.
fn turn_rooms(input: &mut Vec<u8>, turn: i64) {
    for entry in with_turn(turn) {
        for room in 0..=entry.bytes().len() + 3 {
            for place in [0, 1, room as u64 + 2, FAR] {
                put_write(input, place, &entry, &filler(room));
            }
        }
    }
}

/// A mark, a number of one byte, and the turns on both sides of each limit, which are good numbers
/// wherever no turn is.
const TURN_PIECES: [&[u8]; 6] = [
    &MARK,
    &[0x05],
    &[0x90, 0x03],
    &[0x91, 0x03],
    &[0xf0, 0x7c],
    &[0xef, 0x7c],
];

/// Four entries, with the turns on both sides of each limit.
fn turn_block() -> Vec<u8> {
    let turns = [400, 401, -400, -401];
    turns.map(|turn| entry_with(2, turn).bytes()).concat()
}

/// The two bytes of each turn of that block.
const TURN_STRETCHES: [(usize, usize); 8] = [
    (4, 5),
    (5, 6),
    (10, 11),
    (11, 12),
    (16, 17),
    (17, 18),
    (22, 23),
    (23, 24),
];

/// Each byte of a turn lost or replaced by the first byte of another, at every place; and each byte of
/// an entry replaced, those of a turn by every byte there is.
fn turn_damage(input: &mut Vec<u8>) {
    injuries(
        input,
        &turn_block(),
        &TURN_STRETCHES,
        &[&[], &[0x90], &[0x91], &[0xef], &[0xf0]],
    );
    for turn in [400, 401, -400, -401] {
        each_byte(input, &entry_with(2, turn), &SPREAD);
    }
    for byte in all_bytes() {
        for turn in [[0x90, byte], [byte, 0x03], [0xef, byte], [byte, 0x7c]] {
            let groups = replaced(&SMALL.groups(), 3, &turn);
            at_places(input, &[&groups.concat(), &OTHER.bytes()], [0]);
        }
    }
}

/// Turns with one to nine bytes more, which are too many or make another number of them: alone, and
/// behind a group and before a mark.
fn too_many_bytes(input: &mut Vec<u8>) {
    for turn in BESIDE {
        let mut bytes = form(I64, turn as i128);
        *bytes.last_mut().unwrap() |= 0x80;
        for count in 0..=8 {
            for (byte, last) in [(0x80, 0x00), (0xff, 0x7f)] {
                let long = [&bytes[..], &vec![byte; count], &[last]].concat();
                let groups = replaced(&SMALL.groups(), 3, &long).concat();
                at_places(input, &[&groups], [0]);
                at_places(input, &[&[0x05], &groups, &MARK], [0]);
            }
        }
    }
}

/// Segments and sentences on both sides of a turn's limits, of every value at which a form grows and of
/// the ends of the width, before a turn that is the last to pass or the first not to: read and written.
fn unlimited(input: &mut Vec<u8>) {
    let as_turns = BESIDE.map(|turn| turn as u64 as i128);
    for field in 0..2 {
        for v in numbers(U64).into_iter().chain(as_turns) {
            for turn in [LOWEST_TURN, HIGHEST_TURN, HIGHEST_TURN + 1] {
                let entry = Entry {
                    turn,
                    ..entry_with(field, v)
                };
                let bytes = entry.bytes();
                at_places(input, &[&bytes, &MARK], [0]);
                put_write(input, 0, &entry, &filler(bytes.len() + 1));
            }
        }
    }
}

/// "Plain signed numbers are untouched": a turn read as a number, written with room and without, and
/// measured, and what it means under each thread; its entry stepped through by both rules, read strictly
/// behind its mark, and listed.
fn plain_turn(input: &mut Vec<u8>, turn: i64) {
    let number = form(I64, turn as i128);
    let block = entry_with(2, turn as i128).bytes();
    put(input, SIGNED_READ, 0, 0, &number);
    put(input, SIGNED_READ, 4, 0, &block);
    for room in [number.len() + 2, number.len()] {
        put(input, SIGNED_WRITE, turn as u64, 1, &filler(room));
    }
    put(input, SIGNED_LENGTH, turn as u64, 0, &[]);
    for code in [0, 1] {
        put(input, MEANING, turn as u64, code, &[]);
    }
    for place in [0, 2, 3, 4] {
        for op in STEPS {
            put(input, op, place, 0, &block);
        }
    }
    put(input, STRICT, 3, 0, &block[MARK.len()..]);
    put(input, LISTING, 0, 0, &block);
}

// ---- blocks at the limit

/// Blocks of just so many bytes: the mark at the very start with fives, a tail or one group behind it;
/// in the middle; in the last two bytes, and its 80 in the last; a good entry at both ends; good
/// entries alone; and damaged ones.
fn long_blocks(random: &mut Random, count: usize) -> Vec<Vec<u8>> {
    let small = SMALL.bytes();
    let fives = |less: usize| vec![5; count - less];
    let highs = vec![0xff; count - 3];
    let (half, rest) = (vec![5; count / 2], fives(count / 2 + 7));
    // The first segment takes up what is left.
    let longer = [&MARK[..], &[0x81; 4][..count % 5], &small[2..]].concat();
    let hurt = std::iter::repeat_with(|| random.hurt_entry()).flatten();
    vec![
        [&MARK, &fives(2)[..]].concat(),
        [&MARK, &highs[..], &[0xff]].concat(),
        [&MARK, &highs[..], &[0x01]].concat(),
        [&half[..], &small, &MARK, &rest].concat(),
        [&fives(2), &MARK[..]].concat(),
        [&fives(1)[..], &[0x80]].concat(),
        [&small, &fives(10), &small[..]].concat(),
        [longer, small.repeat(count / 5 - 1)].concat(),
        hurt.take(count).collect(),
    ]
}

/// At both ends of each block, in the middle, at the length and past it; then blocks that are short or
/// empty if their count is cut to 16 bits, and the longest that a frame holds.
fn limits(input: &mut Vec<u8>, random: &mut Random) {
    for count in [MOST_OF_BLOCK - 1, MOST_OF_BLOCK, MOST_OF_BLOCK + 1] {
        let end = count as u64;
        for block in long_blocks(random, count) {
            let last = [end - 5, end - 2, end - 1, end, end + 1];
            at_places(input, &[&block], [0, 1, end / 2].into_iter().chain(last));
        }
    }
    for count in [MOST_OF_BLOCK + 5, 2 * MOST_OF_BLOCK, MOST_BYTES as usize] {
        let fives = vec![5; count - 7];
        let places = [0, 1, count as u64, FAR];
        at_places(input, &[&SMALL.bytes(), &MARK, &fives], places);
    }
}

// ---- random cases

impl Random {
    /// Mostly small numbers, and ones of each length up to the ends of their width.
    fn entry(&mut self) -> Entry {
        let [segment, sentence] = [U64, U64].map(|rule| match self.below(3) {
            0 => self.number(rule),
            _ => self.below(64) as i128,
        });
        entry_of(segment as u64, sentence as u64, self.turn())
    }

    /// Mostly a turn that passes; at times one beside a limit, on one side of it or the other, or any of
    /// the width.
    fn turn(&mut self) -> i64 {
        match self.below(8) {
            0 => self.number(I64) as i64,
            1 => LOWEST_TURN - 4 + self.below(8) as i64,
            2 => HIGHEST_TURN - 3 + self.below(8) as i64,
            3 | 4 => self.below(64) as i64,
            _ => LOWEST_TURN + self.below(801) as i64,
        }
    }

    /// An entry as it is, or with a group damaged, replaced, removed, doubled, put in or exchanged, its
    /// mark too; or with bytes behind that may be a tail or run on.
    fn hurt_entry(&mut self) -> Vec<u8> {
        let mut all = self.entry().groups().to_vec();
        let [at, other] = [self.below(4), self.below(4)];
        match self.below(20) {
            0 => all[at] = self.damaged(all[at].clone()),
            1 => all[at] = self.part(),
            2 => {
                all.remove(at);
            }
            3 => all.insert(at, all[other].clone()),
            4 => all.insert(at, self.part()),
            5 => all.swap(at, other),
            6 => all.push(self.part()),
            7 => {
                let count = 1 + self.below(12);
                all.push(vec![0x80; count]);
            }
            8 => self.lengthen(&mut all[at]),
            _ => {}
        }
        all.concat()
    }

    /// Some entries, at times behind other bytes, at times cut off.
    fn entry_block(&mut self) -> Vec<u8> {
        let mut block = match self.below(4) {
            0 => self.part(),
            _ => Vec::new(),
        };
        for _ in 0..self.below(5) {
            block.extend(self.hurt_entry());
        }
        if self.below(6) == 0 {
            block.truncate(self.below(block.len() + 1));
        }
        block
    }
}

/// Random blocks, at the first place, at any, or past the end.
fn random_reads(input: &mut Vec<u8>, random: &mut Random, count: usize) {
    for _ in 0..count {
        let block = random.entry_block();
        let place = match random.below(16) {
            0 => random.far(),
            1..=4 => 0,
            _ => random.below(block.len() + 2) as u64,
        };
        put(input, READ, place, 0, &block);
    }
}

/// Random entries into buffers a little too small, large enough or larger, mostly around the last
/// place that fits.
fn random_writes(input: &mut Vec<u8>, random: &mut Random, count: usize) {
    for _ in 0..count {
        let entry = random.entry();
        let needed = entry.bytes().len();
        let room = needed + random.below(6) - random.below(3);
        let spare = room.saturating_sub(needed);
        let place = match random.below(16) {
            0 => random.far(),
            1..=3 => random.below(room + 3) as u64,
            4..=6 => spare as u64 + 1,
            _ => random.below(spare + 1) as u64,
        };
        put_write(input, place, &entry, &filler(room));
    }
}
