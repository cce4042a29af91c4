//! Entries. A pass of reading goes over a block of 65,000 bytes, or as many as whole entries make; one of writing lays down 2,000 entries.
use crate::blocks::{self, gap, Block, Blocks, I64, U64};
use crate::common::{figure, head, row, row_beside, row_beside_both, shown, time, time_passes, Check, Mix, Random, LONGEST, NINE_IN_TEN, ONE_BYTE, SAMPLES};
use crate::ordinary::entries::{self as ordinary, Entry, ReadEntry, MARK};
use crate::ordinary::reading::Pass;
use crate::ordinary::writing::Written;
use crate::ordinary::{BLOCK_LIMIT, ENTRY};
use crate::ours;
use std::io;
use std::iter::{once, successors};

const SIZE: usize = 65_000;
const ENTRIES: usize = 2000;

/// The most bytes of an entry.
const MOST: usize = 24;

/// The numbers of an entry, as the tables call them.
const MIXES: [(&str, Mix); 3] = [("small", ONE_BYTE), ("mixed", NINE_IN_TEN), ("long", LONGEST)];

type WriteEntry = fn(&Entry, &mut [u8], usize) -> Written;

/// Ours stands first.
const WRITERS: [(&str, WriteEntry); 3] =
    [("ours", ours::write_entry), ("lengths", ordinary::write_by_lengths), ("array", ordinary::write_by_array)];

/// Ours, then each ordinary one called, then each inlined.
fn passes() -> Vec<(&'static str, Pass)> {
    let called = ordinary::READERS.iter().map(|other| (other.name, other.called));
    let inlined = ordinary::READERS.iter().map(|other| (other.name, other.inlined));
    once(("ours", ours::reads_entry as Pass)).chain(called).chain(inlined).collect()
}

// ---- blocks

/// A turn of one byte, or of two where a number of the mix has more: none that passes is longer.
fn turn(random: &mut Random, mix: &Mix) -> i64 {
    let v = if (mix.bytes)(random, I64.most) == 1 { random.below(64) } else { 64 + random.below(336) };
    [v as i64, !v as i64][random.below(2) as usize]
}

/// One that doesn't pass, of two bytes or more.
fn absurd_turn(random: &mut Random) -> i64 {
    let n = 2 + random.below(9);
    let turn = (I64.number)(random, n) as i64;
    if (-400..=400).contains(&turn) { turn + 801 } else { turn }
}

fn entry(random: &mut Random, mix: &Mix) -> Entry {
    let mut number = || {
        let n = (mix.bytes)(random, U64.most);
        (U64.number)(random, n)
    };
    let (segment, sentence) = (number(), number());
    Entry { segment, sentence, turn: turn(random, mix) }
}

fn bytes_of(entry: &Entry) -> Vec<u8> {
    [MARK.to_vec(), (U64.form)(entry.segment), (U64.form)(entry.sentence), (I64.form)(entry.turn as u64)].concat()
}

fn good(random: &mut Random, mix: &Mix) -> Vec<u8> {
    bytes_of(&entry(random, mix))
}

/// An entry with a number too few, one too many, a group of three bytes or more that is none, or an absurd turn.
fn bad(random: &mut Random, mix: &Mix) -> Vec<u8> {
    let mut bytes = good(random, mix);
    match random.below(4) {
        0 => bytes = [&MARK[..], &U64.group(random, 1), &U64.group(random, 1)].concat(),
        1 => bytes.extend(U64.group(random, 1)),
        2 => bytes = bytes_of(&Entry { turn: absurd_turn(random), ..entry(random, mix) }),
        _ => {
            let n = 3 + random.below(18);
            let at = [MARK.len(), bytes.len()][random.below(2) as usize];
            bytes.splice(at..at, gap(random, n));
        }
    }
    bytes
}

/// A sort of blocks, each of at most so many bytes.
struct Sort {
    name: &'static str,
    block: fn(&mut Random, usize) -> Block,
}

/// Every third entry is bad.
fn with_bad(random: &mut Random, size: usize, mix: &Mix) -> Block {
    let mut n = 0;
    blocks::block(random, size, |random| {
        n += 1;
        if n % 3 == 0 { bad(random, mix) } else { good(random, mix) }
    })
}

/// These bytes at the front, and then numbers. A byte counts as a group: there is but one entry, or none.
fn one(random: &mut Random, size: usize, front: &[u8], mix: &Mix) -> Block {
    let numbers = blocks::some_block(random, &U64, mix, size - front.len());
    counted_by_bytes([front, &numbers].concat())
}

fn counted_by_bytes(bytes: Vec<u8>) -> Block {
    Block { groups: bytes.len(), bytes }
}

const SORTS: [Sort; 9] = [
    Sort { name: "small", block: |random, size| blocks::block(random, size, |random| good(random, &ONE_BYTE)) },
    Sort { name: "mixed", block: |random, size| blocks::block(random, size, |random| good(random, &NINE_IN_TEN)) },
    Sort { name: "long", block: |random, size| blocks::block(random, size, |random| good(random, &LONGEST)) },
    Sort { name: "small, every third bad", block: |random, size| with_bad(random, size, &ONE_BYTE) },
    Sort { name: "mixed, every third bad", block: |random, size| with_bad(random, size, &NINE_IN_TEN) },
    Sort { name: "one bad entry, a byte", block: |random, size| one(random, size, &MARK, &NINE_IN_TEN) },
    Sort { name: "one bad entry of 80 01, a byte", block: |_, size| counted_by_bytes([&MARK[..], &[0x80, 1].repeat(size / 2 - 1)].concat()) },
    Sort { name: "no mark, a byte", block: |random, size| one(random, size, &[], &NINE_IN_TEN) },
    Sort { name: "80 alone, a byte", block: |_, size| counted_by_bytes(vec![0x80; size]) },
];

/// The first so many are timed for an entry. Those behind them have one entry or none, and are timed for a byte.
const COUNTED: usize = 5;

fn of_sort(random: &mut Random, sort: &Sort, size: usize) -> Blocks {
    (sort.name.to_string(), (0..SAMPLES).map(|_| (sort.block)(random, size)).collect())
}

// ---- both sides answer alike

fn check_read(check: &mut Check, block: &[u8], at: usize) {
    let others = ordinary::READERS.iter().map(|other| (other.name, (other.read)(block, at)));
    check.agree(|| format!("an entry at {at} of {}", shown(block)), ours::read_entry(block, at), others);
}

fn check_passes(check: &mut Check, block: &[u8]) {
    check.agree_on_pass(|| format!("a pass over entries of {}", shown(block)), &passes(), block);
}

/// At every place up to the end, and two past it.
fn check_block(check: &mut Check, block: &[u8]) {
    for at in (0..=block.len() + 1).chain(once(usize::MAX)) {
        check_read(check, block, at);
    }
    check_passes(check, block);
}

/// At some places of a block that is too long for all of them.
fn check_long_block(check: &mut Check, random: &mut Random, block: &[u8]) {
    let n = block.len();
    for at in [0, 1, 2, n.saturating_sub(2), n.saturating_sub(1), n, n + 1, usize::MAX] {
        check_read(check, block, at);
    }
    for _ in 0..50 {
        check_read(check, block, random.below(n as u64 + 1) as usize);
    }
    check_passes(check, block);
}

/// Few entries, good ones and bad ones, and sometimes something in front of the first mark.
fn some_entries(random: &mut Random) -> Vec<u8> {
    let mut block = if random.below(2) == 0 { vec![] } else { blocks::edges(random) };
    for _ in 0..random.below(6) {
        let (_, mix) = &MIXES[random.below(3) as usize];
        block.extend(if random.below(3) == 0 { bad(random, mix) } else { good(random, mix) });
    }
    block
}

fn check_short_blocks(check: &mut Check, random: &mut Random) {
    for _ in 0..20_000 {
        check_block(check, &blocks::edges(random));
    }
    for _ in 0..4000 {
        let block = some_entries(random);
        check_block(check, &block);
        check_block(check, &blocks::damaged(random, &block));
        for byte in [0, 1, 127, 128, 129, 255] {
            check_block(check, &blocks::struck(random, &block, byte));
        }
    }
}

/// Blocks of each sort up to one byte above the limit, whole and damaged.
fn check_long_blocks(check: &mut Check, random: &mut Random) {
    for sort in &SORTS {
        for size in [1000, SIZE, BLOCK_LIMIT] {
            let block = (sort.block)(random, size).bytes;
            check_long_block(check, random, &block);
            for _ in 0..20 {
                for damaged in [blocks::damaged(random, &block), blocks::struck(random, &block, 0), blocks::struck(random, &block, 128)] {
                    check_long_block(check, random, &damaged);
                }
            }
        }
    }
    for bytes in [[1, 1], [0x80, 0x80], MARK] {
        let block = bytes.repeat(BLOCK_LIMIT / 2 + 1);
        for size in [BLOCK_LIMIT - 1, BLOCK_LIMIT, BLOCK_LIMIT + 1] {
            check_long_block(check, random, &block[..size]);
        }
    }
}

/// A pass goes to the block's end, over as many entries as its time is divided by; where that is bytes, over one entry or none.
fn check_whole_passes(check: &mut Check, random: &mut Random) {
    let next = |block: &[u8], at| match ours::read_entry(block, at) {
        ReadEntry::Good(_, end) | ReadEntry::Bad(_, end) => Some(end),
        ReadEntry::Refused(_) => None,
    };
    for (i, sort) in SORTS.iter().enumerate() {
        for Block { bytes, groups } in of_sort(random, sort, SIZE).1 {
            check_passes(check, &bytes);
            let ends: Vec<usize> = successors(next(&bytes, 0), |&at| next(&bytes, at)).collect();
            let what = || format!("how many entries a block has, {}", sort.name);
            if i < COUNTED {
                check.agree(what, (ends.len(), ends.last()), [("the block", (groups, Some(&bytes.len())))]);
            } else {
                let marked = usize::from(bytes.starts_with(&MARK));
                check.agree(what, (ends.len(), groups), [("the block", (marked, bytes.len()))]);
            }
        }
    }
}

/// All write an entry alike, or refuse it; and its bytes read back, or are bad, alone and with a mark behind them.
fn check_write(check: &mut Check, entry: &Entry) {
    let mut bytes = bytes_of(entry);
    let n = bytes.len();
    for (size, at) in [(0, 0), (n - 1, 0), (n, 0), (n + 1, 0), (n + 2, 3), (n + 3, 3), (40, 3), (5, 5), (5, 6), (0, usize::MAX)] {
        let writers = WRITERS.map(|(name, write)| (name, move |buffer: &mut [u8]| write(entry, buffer, at)));
        check.agree_on_bytes(|| format!("{entry:?} at {at} of {size}"), size, &writers);
    }
    bytes.extend(MARK);
    let mut buffer = vec![0; n];
    let read = match ours::write_entry(entry, &mut buffer, 0) {
        Ok(count) => {
            check.agree(|| format!("what was written of {entry:?}"), (count, &buffer[..]), [("its bytes", (n, &bytes[..n]))]);
            ReadEntry::Good(*entry, n)
        }
        Err(_) => ReadEntry::Bad(ENTRY, n),
    };
    for end in [n, n + MARK.len()] {
        check.agree(|| format!("the bytes of {entry:?}"), &ours::read_entry(&bytes[..end], 0), [("the entry", &read)]);
    }
}

fn check_writes(check: &mut Check, random: &mut Random) {
    for (_, mix) in &MIXES {
        for _ in 0..4000 {
            let entry = entry(random, mix);
            check_write(check, &entry);
            check_write(check, &Entry { turn: absurd_turn(random), ..entry });
        }
    }
    for turn in (-410..=410).chain([i64::MIN, i64::MIN + 1, i64::MAX - 1, i64::MAX]) {
        check_write(check, &Entry { segment: 1, sentence: 2, turn });
    }
    let edges = (0..=63).flat_map(|k| [1 << k, (1 << k) - 1, !(1 << k), !((1 << k) - 1)]);
    for v in edges.clone() {
        check_write(check, &Entry { segment: v, sentence: 0, turn: v as i64 });
        check_write(check, &Entry { segment: !v, sentence: v, turn: 0 });
    }
}

pub fn check(check: &mut Check, random: &mut Random) {
    check_short_blocks(check, random);
    check_long_blocks(check, random);
    check_whole_passes(check, random);
    check_writes(check, random);
}

// ---- timing

fn table_of_reads(random: &mut Random) -> io::Result<()> {
    head(&["what", "entries", "ours", "called", "ratio", "inlined", "ratio"])?;
    let names: Vec<&str> = ordinary::READERS.iter().map(|other| other.name).collect();
    for sort in &SORTS {
        let (name, blocks) = of_sort(random, sort, SIZE);
        row_beside_both("`read_entry`", &name, &names, &time_passes(&passes(), &blocks))?;
    }
    Ok(())
}

/// An entry, the place where it is written, and where it ends.
type Placed = (Entry, usize, usize);

fn placed(random: &mut Random, mix: &Mix) -> Vec<Placed> {
    let mut at = 0;
    (0..ENTRIES)
        .map(|_| {
            let (entry, from) = (entry(random, mix), at);
            at += ours::write_entry(&entry, &mut [0; MOST], 0).unwrap();
            (entry, from, at)
        })
        .collect()
}

/// Entry after entry, each by one call: into a buffer with room for more, each behind the one before; into one that ends with the entry; and into
/// one that is a byte short.
const WRITINGS: [(&str, fn(WriteEntry, &[Placed], &mut [u8]) -> usize); 3] = [
    ("`write_entry`, ample room", |write, list, buffer| list.iter().fold(0, |at, (entry, ..)| at + write(entry, buffer, at).unwrap())),
    ("`write_entry`, room that just fits", |write, list, buffer| list.iter().map(|(entry, at, end)| write(entry, &mut buffer[..*end], *at).unwrap()).sum()),
    ("`write_entry`, refused", |write, list, buffer| list.iter().filter(|(entry, at, end)| write(entry, &mut buffer[..end - 1], *at).is_err()).count()),
];

fn table_of_writes(random: &mut Random) -> io::Result<()> {
    head(&["what", "entries", "ours", "ordinary", "ratio"])?;
    let mut buffer = vec![0; MOST * ENTRIES + MOST];
    let mut lists = |mix| (0..SAMPLES).map(|_| placed(random, mix)).collect();
    let mixes: Vec<(&str, Vec<Vec<Placed>>)> = MIXES.iter().map(|(name, mix)| (*name, lists(mix))).collect();
    for (what, pass) in &WRITINGS {
        for (mix, lists) in &mixes {
            let times = time(&WRITERS, lists, Vec::len, |(_, write), list| pass(*write, list, &mut buffer));
            row_beside(what, mix, &WRITERS.map(|writer| writer.0), &times)?;
        }
    }
    Ok(())
}

/// Our times in blocks of growing size.
fn table_of_growth(random: &mut Random) -> io::Result<()> {
    head(&["what", "entries", "4 KB", "8 KB", "16 KB", "32 KB", "64 KB"])?;
    for sort in &SORTS {
        let mut cells = vec!["`read_entry`".to_string(), sort.name.to_string()];
        for size in [4096, 8192, 16384, 32768, 65536] {
            let (_, blocks) = of_sort(random, sort, size);
            cells.push(figure(time_passes(&passes()[..1], &blocks)[0]));
        }
        row(&cells)?;
    }
    Ok(())
}

pub fn tables(random: &mut Random) -> io::Result<()> {
    table_of_reads(random)?;
    table_of_writes(random)?;
    table_of_growth(random)
}
