//! What lengths, writers and readers share: random numbers and mixes of them, the check, the clock and the tables.
use crate::blocks::Block;
use crate::ordinary::reading::Pass;
use crate::ordinary::writing::Written;
use std::borrow::Borrow;
use std::hint::black_box;
use std::io::{self, Write as _};
use std::time::Instant;

// ---- numbers

/// SplitMix64.
pub struct Random(pub u64);

impl Random {
    fn next(&mut self) -> u64 {
        self.0 = self.0.wrapping_add(0x9e3779b97f4a7c15);
        let z = (self.0 ^ (self.0 >> 30)).wrapping_mul(0xbf58476d1ce4e5b9);
        let z = (z ^ (z >> 27)).wrapping_mul(0x94d049bb133111eb);
        z ^ (z >> 31)
    }

    pub fn below(&mut self, n: u64) -> u64 {
        self.next() % n
    }

    /// A number that takes so many bytes and is at most the largest.
    pub fn of_bytes(&mut self, n: u64, largest: u64) -> u64 {
        let low = if n == 1 { 0 } else { 1 << (7 * (n - 1)) };
        let high = if n == 10 { u64::MAX } else { (1 << (7 * n)) - 1 };
        low + self.below(high.min(largest) - low + 1)
    }
}

/// A mix of numbers of different lengths.
pub struct Mix {
    name: &'static str,
    /// How many bytes the next number takes, where the longest takes so many.
    pub bytes: fn(&mut Random, u64) -> u64,
}

impl Mix {
    pub fn name(&self, most: u64) -> String {
        self.name.replace("MOST", if most == 5 { "five" } else { "ten" })
    }
}

pub const ONE_BYTE: Mix = Mix { name: "one byte", bytes: |_, _| 1 };
pub const NINE_IN_TEN: Mix =
    Mix { name: "nine in ten one byte", bytes: |random, most| if random.below(10) < 9 { 1 } else { 2 + random.below(most - 1) } };
pub const ALL_LENGTHS: Mix = Mix { name: "one to MOST bytes", bytes: |random, most| 1 + random.below(most) };
pub const TWO_BYTES: Mix = Mix { name: "two bytes", bytes: |_, _| 2 };
pub const LONGEST: Mix = Mix { name: "MOST bytes", bytes: |_, most| most };
pub const MIXES: [Mix; 5] = [ONE_BYTE, NINE_IN_TEN, ALL_LENGTHS, TWO_BYTES, LONGEST];

// ---- both sides answer alike

/// How many cases were tried. The first in which an answer isn't ours ends the bench.
pub struct Check {
    pub cases: usize,
}

impl Check {
    pub fn agree<'a, A: PartialEq>(&mut self, what: impl Fn() -> String, ours: A, others: impl IntoIterator<Item = (&'a str, A)>) {
        self.cases += 1;
        for (name, other) in others {
            if other != ours {
                differ(&what(), name);
            }
        }
    }

    /// The same for readers that fill a slice: into one that is empty, one that is short by one, one that just fits, and an ample one. What each leaves
    /// there agrees too, and a refusal changes no number.
    pub fn agree_into<I: ?Sized, A: PartialEq, E: PartialEq>(&mut self, what: impl Fn() -> String, input: &I, needed: usize, readers: &[(&str, IntoSlice<I, A, E>)]) {
        for room in [0, needed.saturating_sub(1), needed, needed + 3] {
            let what = || format!("{} into {room}", what());
            let marked: Vec<u64> = (0..room as u64).map(|i| !i).collect();
            let mut answers = readers.iter().map(|(name, read)| {
                let mut slice = marked.clone();
                let answer = read(input, &mut slice);
                if answer.is_err() && slice != marked {
                    differ(&format!("{}: a refused reading changed a number", what()), name);
                }
                (*name, (answer, slice))
            });
            let (_, ours) = answers.next().unwrap();
            self.agree(what, ours, answers);
        }
    }

    /// The same for writers, into a buffer of so many bytes. What each leaves there agrees too, and a refusal changes no byte.
    pub fn agree_on_bytes<F: Fn(&mut [u8]) -> Written>(&mut self, what: impl Fn() -> String, size: usize, writers: &[(&str, F)]) {
        let marked: Vec<u8> = (0..size).map(|i| 0xa5 ^ i as u8).collect();
        let mut answers = writers.iter().map(|(name, write)| {
            let mut buffer = marked.clone();
            let written = write(&mut buffer);
            if written.is_err() && buffer != marked {
                differ(&format!("{}: a refused write changed a byte", what()), name);
            }
            (*name, (written, buffer))
        });
        let (_, ours) = answers.next().unwrap();
        self.agree(&what, ours, answers);
    }

    /// The same for passes over bytes.
    pub fn agree_on_pass(&mut self, what: impl Fn() -> String, passes: &[(&str, Pass)], bytes: &[u8]) {
        let mut sums = passes.iter().map(|(name, pass)| (*name, pass(bytes)));
        let (_, ours) = sums.next().unwrap();
        self.agree(what, ours, sums);
    }
}

/// Reads into the front of a slice.
pub type IntoSlice<I, A, E> = fn(&I, &mut [u64]) -> Result<A, E>;

/// Bytes, as the case is told in which two sides differ.
pub fn shown(bytes: &[u8]) -> String {
    format!("{} bytes: {:02x?}", bytes.len(), &bytes[..bytes.len().min(100)])
}

pub fn differ(what: &str, name: &str) -> ! {
    eprintln!("bench: {name} and ours differ: {what}");
    std::process::exit(1);
}

// ---- timing

/// How many lists or blocks there are of each mix: more than a processor can learn by heart.
pub const SAMPLES: usize = 16;
const ROUNDS: usize = 200;
const DEPTHS: usize = 16;

/// The mean over the samples of each version's quickest pass, in nanoseconds for a number. Each round takes each sample, and with each sample all
/// versions in turn.
pub fn time<V, S, R>(versions: &[V], samples: &[S], numbers: impl Fn(&S) -> usize, mut pass: impl FnMut(&V, &S) -> R) -> Vec<f64> {
    let mut best = vec![vec![f64::MAX; samples.len()]; versions.len()];
    for round in 0..ROUNDS {
        deeper(round % DEPTHS, &mut || {
            for (i, sample) in samples.iter().enumerate() {
                for (version, best) in versions.iter().zip(&mut best) {
                    let begun = Instant::now();
                    black_box(pass(version, black_box(sample)));
                    let taken = begun.elapsed().as_nanos() as f64 / numbers(sample) as f64;
                    best[i] = best[i].min(taken);
                }
            }
        });
    }
    best.iter().map(|times| times.iter().sum::<f64>() / times.len() as f64).collect()
}

/// The same of passes over blocks, in nanoseconds for a group.
pub fn time_passes(passes: &[(&str, Pass)], blocks: &[Block]) -> Vec<f64> {
    time(passes, blocks, |block| block.groups, |(_, pass), block| pass(&block.bytes))
}

/// Runs it so many frames deeper in the stack.
///
/// Where a store of 16 bytes into a version's frame straddles two pages, its passes take twice to ten times as long. The stack begins elsewhere in
/// each run, and in about one of a hundred a version's frame lies so. It doesn't at another depth, and the quickest pass counts.
#[inline(never)]
fn deeper(frames: usize, run: &mut dyn FnMut()) {
    let frame = black_box([0u8; 256]);
    if frames == 0 {
        run();
    } else {
        deeper(frames - 1, run);
    }
    black_box(frame);
}

// ---- tables

/// An empty line and the head of a table.
pub fn head(columns: &[&str]) -> io::Result<()> {
    writeln!(io::stdout())?;
    row(columns)?;
    writeln!(io::stdout(), "|{}", "---|".repeat(columns.len()))
}

pub fn row<S: Borrow<str>>(cells: &[S]) -> io::Result<()> {
    writeln!(io::stdout(), "| {} |", cells.join(" | "))
}

pub fn figure(time: f64) -> String {
    format!("{time:.2}")
}

/// Two cells: the times of ordinary versions, and ours as a ratio to the quickest of them.
pub fn beside(ours: f64, names: &[&str], times: &[f64]) -> [String; 2] {
    let all: Vec<String> = names.iter().zip(times).map(|(name, time)| format!("{name} {}", figure(*time))).collect();
    let (quickest, time) = names.iter().zip(times).min_by(|a, b| a.1.total_cmp(b.1)).unwrap();
    [all.join(", "), format!("{:.2} of {quickest}", ours / time)]
}

/// A row of versions of which ours is the first.
pub fn row_beside(what: &str, mix: &str, names: &[&str], times: &[f64]) -> io::Result<()> {
    let [all, ratio] = beside(times[0], &names[1..], &times[1..]);
    row(&[what, mix, &figure(times[0]), &all, &ratio])
}

/// A row of ours, then each ordinary version called, then each inlined.
pub fn row_beside_both(what: &str, mix: &str, names: &[&str], times: &[f64]) -> io::Result<()> {
    let (called, inlined) = times[1..].split_at(names.len());
    let [called, to_called] = beside(times[0], names, called);
    let [inlined, to_inlined] = beside(times[0], names, inlined);
    row(&[what, mix, &figure(times[0]), &called, &to_called, &inlined, &to_inlined])
}
