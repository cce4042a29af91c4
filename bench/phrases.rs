//! Phrases. A pass goes over a list of 16,384 numbers, the longest that is taken.
use crate::common::{figure, head, row, row_beside, time, Check, Random, SAMPLES};
use crate::ordinary::phrases::{self as ordinary, Filled};
use crate::ordinary::LIST_LIMIT;
use crate::ours;
use std::io;

type ReadPhrase = fn(&[u64], &mut [u64]) -> Filled;

/// Ours stands first.
const READERS: [(&str, ReadPhrase); 3] = [("ours", ours::read_phrase), ("recursion", ordinary::by_recursion), ("loop", ordinary::by_loop)];

// ---- lists

/// A shape of lists, each of just so many numbers.
struct Shape {
    name: &'static str,
    list: fn(&mut Random, usize) -> Vec<u64>,
}

fn leaf(random: &mut Random) -> u64 {
    2 * random.below(1 << 20)
}

fn branch(items: usize) -> u64 {
    2 * items as u64 + 1
}

/// A branch around the next, so many times, and in the innermost one leaves.
fn nested(random: &mut Random, branches: usize, size: usize) -> Vec<u64> {
    let mut list = vec![branch(1); branches - 1];
    list.push(branch(size - branches));
    list.extend((branches..size).map(|_| leaf(random)));
    list
}

/// Items that take just so many numbers together, with so many branches still allowed; how many they are.
fn items(random: &mut Random, depth: usize, size: usize, list: &mut Vec<u64>) -> usize {
    let (mut left, mut count) = (size, 0);
    while left > 0 {
        let taken = if depth == 0 || random.below(2) == 0 { 1 } else { 1 + random.below(left.min(40) as u64) as usize };
        if taken == 1 && (depth == 0 || random.below(4) > 0) {
            list.push(leaf(random));
        } else {
            let head = list.len();
            list.push(0);
            let inside = items(random, depth - 1, taken - 1, list);
            list[head] = branch(inside);
        }
        left -= taken;
        count += 1;
    }
    count
}

/// One branch whose items are leaves, empty branches and branches of all depths, as they come.
fn mixed(random: &mut Random, size: usize) -> Vec<u64> {
    let mut list = vec![0];
    list[0] = branch(items(random, 7, size - 1, &mut list));
    list
}

/// The first branch promises one item more than there is.
fn one_missing(random: &mut Random, size: usize) -> Vec<u64> {
    let mut list = mixed(random, size);
    list[0] += 2;
    list
}

/// A branch that promises 2^63 - 1 items, of which the list has few.
fn promised(random: &mut Random, size: usize) -> Vec<u64> {
    let mut list = vec![u64::MAX];
    list.extend((1..size).map(|_| leaf(random)));
    list
}

const SHAPES: [Shape; 6] = [
    Shape { name: "one branch of leaves", list: |random, size| nested(random, 1, size) },
    Shape { name: "leaves inside eight branches", list: |random, size| nested(random, 8, size) },
    Shape { name: "one branch of empty branches", list: |_, size| [vec![branch(size - 1)], vec![branch(0); size - 1]].concat() },
    Shape { name: "all shapes, as they come", list: mixed },
    Shape { name: "all shapes, refused at the end", list: one_missing },
    Shape { name: "a promise of 2^63 - 1 items", list: promised },
];

// ---- both sides answer alike

fn check_list(check: &mut Check, list: &[u64]) {
    let leaves = list.iter().filter(|&n| n % 2 == 0).count();
    check.agree_into(|| format!("a phrase of {} numbers, {:?}", list.len(), &list[..list.len().min(40)]), list, leaves, &READERS);
}

/// A list with one number changed by a little, taken out or put in, or promising more than there is.
fn damaged(random: &mut Random, list: &[u64]) -> Vec<u64> {
    let mut list = list.to_vec();
    let at = random.below(list.len() as u64) as usize;
    match random.below(4) {
        0 => list[at] = list[at].wrapping_add(random.below(7)).wrapping_sub(3),
        1 => drop(list.remove(at)),
        2 => list.insert(at, random.below(6)),
        _ => list[at] = u64::MAX - random.below(2),
    }
    list
}

pub fn check(check: &mut Check, random: &mut Random) {
    check_list(check, &[]);
    for shape in &SHAPES {
        for size in [9, 10, 17, 100, LIST_LIMIT - 1, LIST_LIMIT, LIST_LIMIT + 1] {
            check_list(check, &(shape.list)(random, size));
        }
        for _ in 0..2000 {
            let size = 9 + random.below(60) as usize;
            let list = (shape.list)(random, size);
            check_list(check, &list);
            check_list(check, &damaged(random, &list));
        }
    }
    for branches in 1..=11 {
        check_list(check, &nested(random, branches, 20));
    }
}

// ---- timing

fn lists(random: &mut Random, shape: &Shape, size: usize) -> Vec<Vec<u64>> {
    (0..SAMPLES).map(|_| (shape.list)(random, size)).collect()
}

/// The slice has room for more sentences than any list has.
fn times(readers: &[(&str, ReadPhrase)], lists: &[Vec<u64>]) -> Vec<f64> {
    let mut sentences = vec![0; LIST_LIMIT];
    time(readers, lists, Vec::len, |(_, read), list| read(list, &mut sentences))
}

pub fn tables(random: &mut Random) -> io::Result<()> {
    head(&["what", "lists", "ours", "ordinary", "ratio"])?;
    for shape in &SHAPES {
        let lists = lists(random, shape, LIST_LIMIT);
        row_beside("`read_phrase`", shape.name, &READERS.map(|reader| reader.0), &times(&READERS, &lists))?;
    }
    head(&["what", "lists", "16", "1,024", "2,048", "4,096", "8,192", "16,384"])?;
    for shape in &SHAPES {
        let mut cells = vec!["`read_phrase`".to_string(), shape.name.to_string()];
        for size in [16, 1024, 2048, 4096, 8192, 16384] {
            cells.push(figure(times(&READERS[..1], &lists(random, shape, size))[0]));
        }
        row(&cells)?;
    }
    Ok(())
}
