//! What is read: random blocks, of numbers of one mix or damaged.
use crate::common::{Mix, Random, MIXES, SAMPLES};
use crate::ordinary::writing::{form, signed_form};

/// Numbers of one width, each given as its bits.
pub struct Kind {
    /// The most bytes of one.
    pub most: u64,
    /// A random one that takes so many bytes.
    pub number: fn(&mut Random, u64) -> u64,
    pub form: fn(u64) -> Vec<u8>,
}

pub const U64: Kind = Kind { most: 10, number: |random, n| random.of_bytes(n, u64::MAX), form };
pub const U32: Kind = Kind { most: 5, number: |random, n| random.of_bytes(n, u32::MAX.into()), form };
pub const I64: Kind = Kind { most: 10, number: signed_of_bytes, form: |v| signed_form(v as i64) };

/// A number of n bytes, or else its complement, is below 2^(7n-1), and not below what that is for a byte less.
fn signed_of_bytes(random: &mut Random, n: u64) -> u64 {
    let limit = |n: u64| if n == 0 { 0 } else { 1 << (7 * n - 1).min(63) };
    let v = limit(n - 1) + random.below(limit(n) - limit(n - 1));
    if random.below(2) == 0 { v } else { !v }
}

impl Kind {
    /// The form of a random one that takes so many bytes.
    pub fn group(&self, random: &mut Random, n: u64) -> Vec<u8> {
        (self.form)((self.number)(random, n))
    }
}

/// A group of n bytes that is no number by either rule: its last byte is one too many, or it has more than ten.
pub fn gap(random: &mut Random, n: u64) -> Vec<u8> {
    let mut group: Vec<u8> = (1..n).map(|_| 128 + random.below(64) as u8).collect();
    group.push(if n > 10 { random.below(128) as u8 } else { 0 });
    group
}

// ---- to be timed

pub struct Block {
    pub bytes: Vec<u8>,
    pub groups: usize,
}

/// Group after group, as long as they fit so many bytes.
pub fn block(random: &mut Random, size: usize, mut group: impl FnMut(&mut Random) -> Vec<u8>) -> Block {
    let mut block = Block { bytes: vec![], groups: 0 };
    loop {
        let group = group(random);
        if block.bytes.len() + group.len() > size {
            return block;
        }
        block.bytes.extend(group);
        block.groups += 1;
    }
}

/// A mix's name, and blocks of it.
pub type Blocks = (String, Vec<Block>);

fn of_mix_once(random: &mut Random, kind: &Kind, mix: &Mix, size: usize) -> Block {
    block(random, size, |random| {
        let n = (mix.bytes)(random, kind.most);
        kind.group(random, n)
    })
}

pub fn of_mix(random: &mut Random, kind: &Kind, mix: &Mix, size: usize) -> Blocks {
    (mix.name(kind.most), (0..SAMPLES).map(|_| of_mix_once(random, kind, mix, size)).collect())
}

pub fn of_all_mixes(random: &mut Random, kind: &Kind, size: usize) -> Vec<Blocks> {
    MIXES.iter().map(|mix| of_mix(random, kind, mix, size)).collect()
}

/// Half of the gaps have two bytes, and half of them 11 to 20.
pub fn with_gaps(random: &mut Random, kind: &Kind, size: usize) -> Blocks {
    let group = |random: &mut Random| match random.below(20) {
        0 => gap(random, 2),
        1 => {
            let n = 11 + random.below(10);
            gap(random, n)
        }
        _ => kind.group(random, 1),
    };
    ("one in ten a gap".into(), (0..SAMPLES).map(|_| block(random, size, group)).collect())
}

/// The one behind the other.
pub fn joined(front: &[Block], back: &[Block]) -> Vec<Block> {
    front.iter().zip(back).map(|(a, b)| Block { bytes: [&a.bytes[..], &b.bytes].concat(), groups: a.groups + b.groups }).collect()
}

/// With a gap behind it, told from a number by the last byte.
pub fn with_a_gap(mut block: Block) -> Block {
    block.bytes.extend([128, 0]);
    block
}

// ---- to be checked

/// Group after group of one mix, as many as fit so many bytes.
pub fn some_block(random: &mut Random, kind: &Kind, mix: &Mix, size: usize) -> Vec<u8> {
    of_mix_once(random, kind, mix, size).bytes
}

/// The block with one byte replaced.
pub fn struck(random: &mut Random, block: &[u8], byte: u8) -> Vec<u8> {
    let mut struck = block.to_vec();
    if !block.is_empty() {
        struck[random.below(block.len() as u64) as usize] = byte;
    }
    struck
}

/// Up to 14 bytes, most of them such as decide something. How likely one of 128 or more is differs from string to string, so that long groups
/// come up as well as short ones.
pub fn edges(random: &mut Random) -> Vec<u8> {
    let high = random.below(17);
    (0..random.below(15))
        .map(|_| match (random.below(16) < high, random.below(4)) {
            (true, 0) => 128 + random.below(128) as u8,
            (true, _) => [128, 191, 192, 255][random.below(4) as usize],
            (false, 0) => random.below(128) as u8,
            (false, _) => [0, 1, 2, 15, 16, 63, 64, 127][random.below(8) as usize],
        })
        .collect()
}

/// Up to eleven groups: numbers of every length, and if asked for gaps between them.
pub fn some_groups(random: &mut Random, kind: &Kind, gaps: bool) -> Vec<u8> {
    let mut block = vec![];
    for _ in 0..random.below(12) {
        let is_gap = gaps && random.below(4) == 0;
        let n = if is_gap { 2 + random.below(29) } else { 1 + random.below(kind.most) };
        block.extend(if is_gap { gap(random, n) } else { kind.group(random, n) });
    }
    block
}

/// The block with a stretch replaced, and sometimes a tail.
pub fn damaged(random: &mut Random, block: &[u8]) -> Vec<u8> {
    let from = random.below(block.len() as u64 + 1) as usize;
    let to = from + random.below((block.len() - from) as u64 + 1) as usize;
    let mut damaged = block.to_vec();
    damaged.splice(from..to, edges(random));
    if random.below(3) == 0 {
        damaged.extend((0..random.below(15)).map(|_| 128 + random.below(128) as u8));
    }
    damaged
}
