//! Single reads, steps, and what goes over a whole block. A pass goes over a block of 60,000 bytes, or as many as whole groups make.
use crate::blocks::{self, Block, Blocks, Kind, I64, U32, U64};
use crate::common::{beside, figure, head, row, row_beside, row_beside_both, shown, time, time_passes, Check, Random, LONGEST, MIXES, NINE_IN_TEN, ONE_BYTE};
use crate::ordinary::reading::{self as ordinary, Pass, Read, Reader, Step, Stepper, Strict};
use crate::ordinary::BLOCK_LIMIT;
use crate::ours;
use std::io;
use std::iter::{once, successors};

const SIZE: usize = 60_000;

// ---- what is checked and timed

/// A reader of ours, what it reads, and the ordinary ones.
struct Reading {
    what: &'static str,
    kind: Kind,
    read: fn(&[u8], usize) -> Read<u64>,
    pass: Pass,
    ordinary: &'static [Reader],
}

const READ_U64: Reading = Reading { what: "`read_u64`", kind: U64, read: ours::read_u64, pass: ours::reads_u64, ordinary: ordinary::U64 };
const READINGS: [Reading; 4] = [
    READ_U64,
    Reading { what: "`read_u64_rec`", kind: U64, read: ours::read_u64_rec, pass: ours::reads_u64_rec, ordinary: ordinary::U64_REC },
    Reading { what: "`read_u32`", kind: U32, read: ours::read_u32, pass: ours::reads_u32, ordinary: ordinary::U32 },
    Reading { what: "`read_i64`", kind: I64, read: ours::read_i64, pass: ours::reads_i64, ordinary: ordinary::I64 },
];

/// Our step by a rule, what it goes through, and the ordinary ones.
struct Stepping {
    what: &'static str,
    kind: Kind,
    step: fn(&[u8], usize) -> Result<Step, u8>,
    pass: Pass,
    ordinary: &'static [Stepper],
}

const STEP_UNSIGNED: Stepping = Stepping {
    what: "`step`, unsigned",
    kind: U64,
    step: |block, at| ours::step(block, at, false),
    pass: ours::steps_unsigned,
    ordinary: ordinary::UNSIGNED,
};
const STEP_SIGNED: Stepping = Stepping {
    what: "`step`, signed",
    kind: I64,
    step: |block, at| ours::step(block, at, true),
    pass: ours::steps_signed,
    ordinary: ordinary::SIGNED,
};
const STEPPINGS: [Stepping; 2] = [STEP_UNSIGNED, STEP_SIGNED];

type Passes = Vec<(&'static str, Pass)>;

impl Reading {
    /// Ours, then each ordinary one called, then each inlined.
    fn passes(&self) -> Passes {
        let called = self.ordinary.iter().map(|other| (other.name, other.called));
        let inlined = self.ordinary.iter().map(|other| (other.name, other.inlined));
        once(("ours", self.pass)).chain(called).chain(inlined).collect()
    }

    fn blocks(&self, random: &mut Random) -> Vec<Blocks> {
        blocks::of_all_mixes(random, &self.kind, SIZE)
    }
}

impl Stepping {
    /// Ours, then each ordinary one.
    fn passes(&self) -> Passes {
        once(("ours", self.pass)).chain(self.ordinary.iter().map(|other| (other.name, other.pass))).collect()
    }

    fn blocks(&self, random: &mut Random) -> Vec<Blocks> {
        let gaps = blocks::with_gaps(random, &self.kind, SIZE);
        blocks::of_all_mixes(random, &self.kind, SIZE).into_iter().chain(once(gaps)).collect()
    }
}

type ReadStrict = fn(&[u8], &mut [u64]) -> Strict;

/// Ours, then each ordinary one.
fn strict_readers() -> Vec<(&'static str, ReadStrict)> {
    once(("ours", ours::read_strict as ReadStrict)).chain(ordinary::STRICT.iter().map(|other| (other.name, other.read))).collect()
}

/// Blocks of each mix; blocks whose halves differ; and blocks that are refused by their last byte.
fn strict_blocks(random: &mut Random) -> Vec<Blocks> {
    let mut half = |mix| blocks::of_mix(random, &U64, mix, SIZE / 2).1;
    let [small, long] = [half(&ONE_BYTE), half(&LONGEST)];
    let halves = [
        ("one byte, then ten bytes".to_string(), blocks::joined(&small, &long)),
        ("ten bytes, then one byte".to_string(), blocks::joined(&long, &small)),
    ];
    let refused = [ONE_BYTE, NINE_IN_TEN, LONGEST].map(|mix| {
        let (name, blocks) = blocks::of_mix(random, &U64, &mix, SIZE);
        (format!("{name}, refused at the end"), blocks.into_iter().map(blocks::with_a_gap).collect())
    });
    blocks::of_all_mixes(random, &U64, SIZE).into_iter().chain(halves).chain(refused).collect()
}

// ---- both sides answer alike

/// Every place up to the end, and two past it.
fn places(bytes: &[u8]) -> impl Iterator<Item = usize> {
    (0..=bytes.len() + 1).chain(once(usize::MAX))
}

fn check_read(check: &mut Check, reading: &Reading, bytes: &[u8], at: usize) {
    let others = reading.ordinary.iter().map(|other| (other.name, (other.read)(bytes, at)));
    check.agree(|| format!("{} at {at} of {}", reading.what, shown(bytes)), (reading.read)(bytes, at), others);
}

/// A number's form reads back, alone and with a byte behind it, and wherever it is cut off all say the same.
fn check_form(check: &mut Check, reading: &Reading, v: u64) {
    let mut bytes = (reading.kind.form)(v);
    let n = bytes.len();
    bytes.push(128);
    for end in 0..=n + 1 {
        check_read(check, reading, &bytes[..end], 0);
    }
    for end in [n, n + 1] {
        check.agree(|| format!("{} of the form of {v}", reading.what), (reading.read)(&bytes[..end], 0), [("the number", Ok((v, n)))]);
    }
}

fn check_reads(check: &mut Check, random: &mut Random) {
    for _ in 0..20_000 {
        let bytes = blocks::edges(random);
        for at in places(&bytes) {
            for reading in &READINGS {
                check_read(check, reading, &bytes, at);
            }
        }
    }
    for reading in &READINGS {
        for n in 1..=reading.kind.most {
            for _ in 0..1000 {
                check_form(check, reading, (reading.kind.number)(random, n));
            }
        }
    }
}

fn check_places(check: &mut Check, block: &[u8], places: impl IntoIterator<Item = usize>) {
    for at in places {
        for stepping in &STEPPINGS {
            let others = stepping.ordinary.iter().map(|other| (other.name, (other.step)(block, at)));
            check.agree(|| format!("{} at {at} of {}", stepping.what, shown(block)), (stepping.step)(block, at), others);
        }
        check.agree(|| format!("set-down at {at} of {}", shown(block)), ours::set_down(block, at), [("set-down", ordinary::set_down(block, at))]);
    }
}

fn check_strict(check: &mut Check, block: &[u8]) {
    let groups = block.iter().filter(|&&b| b < 128).count();
    check.agree_into(|| format!("strict reading of {}", shown(block)), block, groups, &strict_readers());
}

/// Strict reading of blocks long enough for every way that it has: whole, damaged, and with each byte that decides something at one place.
fn check_long_blocks(check: &mut Check, random: &mut Random) {
    for mix in &MIXES {
        for _ in 0..400 {
            let size = random.below(700) as usize;
            let block = blocks::some_block(random, &U64, mix, size);
            check_strict(check, &block);
            check_strict(check, &blocks::damaged(random, &block));
            for byte in [0, 1, 2, 127, 128, 255] {
                check_strict(check, &blocks::struck(random, &block, byte));
            }
        }
    }
    for (_, blocks) in strict_blocks(random) {
        blocks.iter().for_each(|block| check_strict(check, &block.bytes));
    }
}

fn check_block(check: &mut Check, block: &[u8]) {
    check_places(check, block, places(block));
    check_strict(check, block);
    for stepping in &STEPPINGS {
        check.agree_on_pass(|| format!("a pass by {} over {}", stepping.what, shown(block)), &stepping.passes(), block);
    }
}

fn check_blocks(check: &mut Check, random: &mut Random) {
    for kind in [U64, I64] {
        for gaps in [false, true] {
            for _ in 0..1000 {
                let block = blocks::some_groups(random, &kind, gaps);
                check_block(check, &block);
                check_block(check, &blocks::damaged(random, &block));
            }
        }
    }
    for byte in [1, 128] {
        for size in [BLOCK_LIMIT, BLOCK_LIMIT + 1] {
            let block = vec![byte; size];
            check_places(check, &block, [0, 1, size / 2, size - 1, size, size + 1, usize::MAX]);
            check_strict(check, &block);
        }
    }
}

/// All passes agree, and a pass goes to the block's end, over as many groups as its time is divided by: none ends early at what isn't a number.
fn check_whole_passes(check: &mut Check, what: &str, passes: &Passes, all: &[Blocks], next: impl Fn(&[u8], usize) -> Option<usize>) {
    for (mix, blocks) in all {
        let what = || format!("a pass by {what} over {mix}");
        for Block { bytes, groups } in blocks {
            check.agree_on_pass(what, passes, bytes);
            let starts: Vec<usize> = successors(Some(0), |&at| next(bytes, at)).collect();
            check.agree(what, (starts.len() - 1, starts.last()), [("the block", (*groups, Some(&bytes.len())))]);
        }
    }
}

fn check_all_passes(check: &mut Check, random: &mut Random) {
    for reading in &READINGS {
        let next = |bytes: &[u8], at| (reading.read)(bytes, at).ok().map(|(_, count)| at + count);
        check_whole_passes(check, reading.what, &reading.passes(), &reading.blocks(random), next);
    }
    for stepping in &STEPPINGS {
        let next = |block: &[u8], at| match (stepping.step)(block, at) {
            Ok(Step::Number(_, _, next) | Step::Gap(_, _, _, next)) => Some(next),
            _ => None,
        };
        check_whole_passes(check, stepping.what, &stepping.passes(), &stepping.blocks(random), next);
    }
}

/// Document 01's listing, that of an empty block, and that of a block above the limit. Behind each the buffer is as it was.
fn check_listings(check: &mut Check) {
    let document = [0x00, 0x80, 0x01, 0x80, 0x00, 0xff, 0xff, 0xff, 0xff, 0xff, 0xff, 0xff, 0xff, 0xff, 0x02, 0x05, 0x83];
    let listing = "place what value\n0 number 0\n1 number 128\n3 not-shortest 2\n5 overflow 10\n15 number 5\n16 tail 1\n";
    for (block, listing) in [(&document[..], listing), (&[], "place what value\n"), (&[0; BLOCK_LIMIT + 1], "refused 7\n")] {
        let mut text = vec![0xa5; ours::text_room()];
        let mut expected = text.clone();
        expected[..listing.len()].copy_from_slice(listing.as_bytes());
        let count = ours::lay_listing(block, &mut text);
        check.agree(|| format!("listing of {}", shown(block)), (count, text), [("document 01", (listing.len(), expected))]);
    }
}

pub fn check(check: &mut Check, random: &mut Random) {
    check_reads(check, random);
    check_blocks(check, random);
    check_long_blocks(check, random);
    check_all_passes(check, random);
    check_listings(check);
}

// ---- timing

fn table_of_reads(random: &mut Random) -> io::Result<()> {
    head(&["what", "numbers", "ours", "called", "ratio", "inlined", "ratio"])?;
    for reading in &READINGS {
        let names: Vec<&str> = reading.ordinary.iter().map(|other| other.name).collect();
        for (mix, blocks) in reading.blocks(random) {
            row_beside_both(reading.what, &mix, &names, &time_passes(&reading.passes(), &blocks))?;
        }
    }
    Ok(())
}

fn table_of_steps(random: &mut Random) -> io::Result<()> {
    head(&["what", "numbers", "ours", "ordinary", "ratio"])?;
    for stepping in &STEPPINGS {
        let passes = stepping.passes();
        let names: Vec<&str> = passes.iter().map(|(name, _)| *name).collect();
        for (mix, blocks) in stepping.blocks(random) {
            row_beside(stepping.what, &mix, &names, &time_passes(&passes, &blocks))?;
        }
    }
    Ok(())
}

/// The times of strict readers. The slice has room for more numbers than any block has.
fn time_strict(readers: &[(&str, ReadStrict)], blocks: &[Block]) -> Vec<f64> {
    let mut numbers = vec![0; BLOCK_LIMIT];
    time(readers, blocks, |block| block.groups, |(_, read), block| read(&block.bytes, &mut numbers))
}

/// Beside the quickest ordinary version two of them have a column of their own: the plain one with a test for one small byte, and the one for long
/// numbers.
fn table_of_strict(random: &mut Random) -> io::Result<()> {
    head(&["what", "numbers", "ours", "ordinary", "of small", "of varint", "of the quickest"])?;
    let readers = strict_readers();
    let names: Vec<&str> = readers[1..].iter().map(|(name, _)| *name).collect();
    for (mix, blocks) in strict_blocks(random) {
        let times = time_strict(&readers, &blocks);
        let of = |name| figure(times[0] / times[readers.iter().position(|reader| reader.0 == name).unwrap()]);
        let [all, ratio] = beside(times[0], &names, &times[1..]);
        row(&["`read_strict`", &mix, &figure(times[0]), &all, &of("small"), &of("varint"), &ratio])?;
    }
    Ok(())
}

/// Our times in blocks of growing size.
fn table_of_growth(random: &mut Random) -> io::Result<()> {
    head(&["what", "numbers", "4 KB", "8 KB", "16 KB", "32 KB", "64 KB"])?;
    let pass = |pass: Pass| move |blocks: &[Block]| time_passes(&[("ours", pass)], blocks)[0];
    let strict = |blocks: &[Block]| time_strict(&strict_readers()[..1], blocks)[0];
    let ours: [(&str, &dyn Fn(&[Block]) -> f64); 3] =
        [(STEP_UNSIGNED.what, &pass(STEP_UNSIGNED.pass)), (READ_U64.what, &pass(READ_U64.pass)), ("`read_strict`", &strict)];
    for (what, timed) in ours {
        for mix in [ONE_BYTE, NINE_IN_TEN, LONGEST] {
            let mut cells = vec![what.to_string(), mix.name(U64.most)];
            for size in [4096, 8192, 16384, 32768, 65536] {
                let (_, blocks) = blocks::of_mix(random, &U64, &mix, size);
                cells.push(figure(timed(&blocks)));
            }
            row(&cells)?;
        }
    }
    Ok(())
}

pub fn tables(random: &mut Random) -> io::Result<()> {
    table_of_reads(random)?;
    table_of_steps(random)?;
    table_of_strict(random)?;
    table_of_growth(random)
}
