//! The cases for phrases inside phrases: op 22.
//!
//!   whole   those that the repository holds
//!   more    those of the large run

use crate::answers::MOST_OF_SLICE;
use crate::blocks::MOST_OF_LIST;
use crate::cases::{filler, FAR};
use crate::frames::{put, put_numbers, MOST_BYTES};
use crate::numbers::Rule::U64;
use crate::phrases::{copy_leaves, MOST_NESTED};
use crate::random::Random;
use crate::strict_cases::rooms_around;

const PHRASES: u8 = 22;

pub fn whole(input: &mut Vec<u8>) {
    let random = &mut Random(20);
    few_lists(input);
    nests(input, 0..=11, &[alone()]);
    nests(input, 7..=9, &siblings());
    nests_beside(input, &[0, 3, 4, 7, 8]);
    sentences(input);
    promises(
        input,
        &small_trees(),
        &PROMISES[..3],
        &[8, 9, 16, 17, 32, 33, 63],
    );
    sums(input, &[16, 32, 64], 3..=5);
    for list in shapes(random, 33) {
        one_room(input, random, &list);
    }
    // The last two have more leaves, and more branches around one, than a byte counts.
    for (list, room) in [
        (full(2, MOST_NESTED), ENOUGH),
        (wide(260), SHORT),
        (deep(259, 261), ENOUGH),
    ] {
        into_rooms(input, &list, [rooms(&list)[room]]);
    }
    odd_frames(input);
    random_cases(input, random, 120, 3);
}

pub fn more(input: &mut Vec<u8>) {
    let random = &mut Random(21);
    many_lists(input);
    nests(input, 0..=11, &siblings());
    nests_beside(input, &[0, 1, 2, 3, 4, 5, 6, 7, 8, 9, 10, 11]);
    let widths: Vec<u32> = (1..=63).collect();
    promises(input, &small_trees(), &PROMISES, &widths);
    sums(input, &(3..=64).collect::<Vec<u32>>(), 3..=9);
    let most = MOST_OF_LIST;
    for count in [17, 40, 100, 127, 128, 129, 255, 256, 257, 512, 1_000] {
        for list in shapes(random, count) {
            every_room(input, &list);
        }
    }
    for count in [4_096, 8_192, most - 1, most, most + 1] {
        for list in shapes(random, count) {
            long_rooms(input, &list);
        }
    }
    for list in [full(2, 8), full(2, 9), full(3, 8), full(3, 7), full(5, 5)] {
        every_room(input, &list);
    }
    promises_in_long(input, 2_000);
    long_frames(input);
    for _ in 0..4_000 {
        every_room(input, &random.hurt_item(3));
    }
    for (count, widest) in [(10_000, 1), (30_000, 3), (10_000, 6), (600, 20)] {
        random_cases(input, random, count, widest);
    }
}

// ---- lists

fn leaf(sentence: u64) -> Vec<u64> {
    vec![2 * sentence]
}

fn branch(items: &[Vec<u64>]) -> Vec<u64> {
    [vec![says(items.len())], items.concat()].concat()
}

/// The number of a branch that says so many items.
fn says(items: usize) -> u64 {
    2 * items as u64 + 1
}

/// 2^63 - 1 items, 2^63 - 2 and 2^31; then 2^62, 2^62 - 1, 2^32, 2^31 - 1 and 2^16; then one more
/// than the most numbers of a list, as many, and one less.
const PROMISES: [u64; 11] = [
    u64::MAX,
    u64::MAX - 2,
    (1 << 32) + 1,
    (1 << 63) + 1,
    (1 << 63) - 1,
    (1 << 33) + 1,
    (1 << 32) - 1,
    (1 << 17) + 1,
    32_771,
    32_769,
    32_767,
];

/// All lists of so many numbers out of those given.
fn all_lists(numbers: &[u64], counts: impl IntoIterator<Item = u32>) -> Vec<Vec<u64>> {
    let base = numbers.len();
    let mut all = Vec::new();
    for count in counts {
        for code in 0..base.pow(count) {
            let digits = (0..count).map(|i| code / base.pow(i) % base);
            all.push(digits.map(|digit| numbers[digit]).collect());
        }
    }
    all
}

/// An item inside so many branches, each with other items before it and behind.
fn nested(depth: usize, inner: &[u64], (before, behind): &Siblings) -> Vec<u64> {
    let mut item = inner.to_vec();
    for _ in 0..depth {
        item = branch(&[&before[..], &[item], behind].concat());
    }
    item
}

type Siblings = (Vec<Vec<u64>>, Vec<Vec<u64>>);

fn alone() -> Siblings {
    (vec![], vec![])
}

/// A leaf before, behind, and on both sides; the same with an empty branch, which is a level more in
/// the innermost branch; a leaf in a branch, and one of each.
fn siblings() -> Vec<Siblings> {
    let (leaf, empty) = (leaf(1), branch(&[]));
    let deeper = branch(&[leaf.clone()]);
    vec![
        (vec![leaf.clone()], vec![]),
        (vec![], vec![leaf.clone()]),
        (vec![leaf.clone()], vec![leaf.clone()]),
        (vec![empty.clone()], vec![]),
        (vec![], vec![empty.clone()]),
        (vec![deeper], vec![empty, leaf]),
    ]
}

/// What the innermost branch has: a leaf, an empty branch, or two leaves in a branch.
fn inners() -> [Vec<u64>; 3] {
    [leaf(5), branch(&[]), branch(&[leaf(5), leaf(7)])]
}

/// A branch of leaves that differ, with so many numbers in all.
fn wide(count: usize) -> Vec<u64> {
    let leaves = (0..count as u64 - 1).map(|i| 2 * (i % 1_000));
    [says(count - 1)].into_iter().chain(leaves).collect()
}

/// Branches of one item, so many, the last with all other numbers as leaves.
fn deep(depth: usize, count: usize) -> Vec<u64> {
    [vec![3; depth - 1], wide(count - depth + 1)].concat()
}

/// Each branch has so many items, down to leaves that are inside so many branches.
fn full(items: usize, depth: usize) -> Vec<u64> {
    let mut list = leaf(5);
    for _ in 0..depth {
        list = branch(&vec![list; items]);
    }
    list
}

/// A branch of these items, again and again, with so many numbers in all.
fn again(items: &[Vec<u64>], count: usize) -> Vec<u64> {
    let mut all = Vec::new();
    let mut left = count - 1;
    for item in items.iter().cycle() {
        if item.len() > left {
            break;
        }
        left -= item.len();
        all.push(item.clone());
    }
    all.extend(vec![leaf(9); left]);
    branch(&all)
}

fn replaced(old: &[u64], place: usize, n: u64) -> Vec<u64> {
    let mut list = old.to_vec();
    list[place] = n;
    list
}

fn with_last(old: &[u64], n: u64) -> Vec<u64> {
    replaced(old, old.len() - 1, n)
}

fn small_trees() -> Vec<Vec<u64>> {
    vec![
        leaf(5),
        branch(&[]),
        branch(&[leaf(5)]),
        branch(&[leaf(5), leaf(7)]),
        branch(&[branch(&[leaf(5)])]),
        branch(&[leaf(5), branch(&[leaf(1), leaf(2)]), branch(&[])]),
    ]
}

// ---- frames

/// How many leaves a list has, good or not.
fn leaves(list: &[u64]) -> usize {
    list.iter().filter(|n| *n % 2 == 0).count()
}

const ENOUGH: usize = 0;
const SHORT: usize = 1;

/// Just enough, one short, none, one more, twenty more.
fn rooms(list: &[u64]) -> [u64; 5] {
    rooms_around(leaves(list))
}

/// Each room once.
fn into_rooms(input: &mut Vec<u8>, list: &[u64], sizes: impl IntoIterator<Item = u64>) {
    let mut sizes: Vec<u64> = sizes.into_iter().collect();
    sizes.sort();
    sizes.dedup();
    for size in sizes {
        put_numbers(input, PHRASES, size, list, &[]);
    }
}

fn every_room(input: &mut Vec<u8>, list: &[u64]) {
    into_rooms(input, list, rooms(list));
}

fn one_room(input: &mut Vec<u8>, random: &mut Random, list: &[u64]) {
    let [enough, short, none, one_more, _] = rooms(list);
    let room = match random.below(8) {
        0 | 1 => short,
        2 => none,
        3 => one_more,
        4 => one_more + random.below(4) as u64,
        _ => enough,
    };
    into_rooms(input, list, [room]);
}

fn is_good(list: &[u64]) -> bool {
    copy_leaves(list, &mut vec![0; list.len()]).is_ok()
}

/// For lists of thousands. What is refused has little room, since the line has twenty characters for
/// each number that is not written.
fn long_rooms(input: &mut Vec<u8>, list: &[u64]) {
    let [enough, short, ..] = rooms(list);
    if is_good(list) {
        into_rooms(input, list, [enough, short]);
    } else {
        into_rooms(input, list, [3]);
    }
}

// ---- all lists of few numbers

/// Every list has one room, and a good one just enough as well.
fn few_lists(input: &mut Vec<u8>) {
    for (i, list) in all_lists(&[0, 1, 2, 3, 4, 5], 0..=5).iter().enumerate() {
        let [enough, short, none, one_more, _] = rooms(list);
        let room = [short, one_more, none, enough, short][i % 5];
        if is_good(list) {
            into_rooms(input, list, [enough, room]);
        } else {
            into_rooms(input, list, [room]);
        }
    }
}

fn many_lists(input: &mut Vec<u8>) {
    let up_to_9: Vec<u64> = (0..=9).collect();
    for list in all_lists(&up_to_9, 0..=5) {
        let [enough, short, _, one_more, _] = rooms(&list);
        into_rooms(input, &list, [enough, short, one_more]);
    }
    for list in all_lists(&[0, 1, 3, 5], 6..=7) {
        into_rooms(input, &list, [rooms(&list)[ENOUGH]]);
    }
}

// ---- depth

/// Branches inside each other, so many, with items beside them in each.
fn nests(input: &mut Vec<u8>, depths: impl Iterator<Item = usize>, beside: &[Siblings]) {
    for depth in depths {
        for inner in inners() {
            for siblings in beside {
                let list = nested(depth, &inner, siblings);
                let [enough, short, _, one_more, _] = rooms(&list);
                let room = [one_more, short, enough][depth % 3];
                into_rooms(input, &list, [room]);
            }
        }
    }
}

/// Two nests in one branch, also with a leaf between and the first again: what nests in one does not
/// count in the other.
fn nests_beside(input: &mut Vec<u8>, depths: &[usize]) {
    for first in depths {
        for second in depths {
            for inner in &inners()[..2] {
                let [one, other] = [first, second].map(|depth| nested(*depth, inner, &alone()));
                let list = branch(&[one.clone(), other.clone()]);
                into_rooms(input, &list, [rooms(&list)[ENOUGH]]);
                if first > second {
                    let list = branch(&[one.clone(), leaf(7), other, one]);
                    into_rooms(input, &list, [rooms(&list)[ENOUGH]]);
                }
            }
        }
    }
}

// ---- numbers that are large

/// Each bit of a sentence number alone, and all but one.
fn sentences(input: &mut Vec<u8>) {
    let bits = (0..63).map(|bit| leaf(1 << bit));
    let others = (0..63).map(|bit| leaf((u64::MAX >> 1) ^ (1 << bit)));
    let all: Vec<Vec<u64>> = bits.chain(others).collect();
    into_rooms(input, &branch(&all), [all.len() as u64]);
    into_rooms(input, &leaf(u64::MAX >> 1), 0..=2);
}

/// A promise in place of each number of a tree; and each number with 2 to some power added, so that
/// it is as before if it is cut, a sentence number or a branch.
fn promises(input: &mut Vec<u8>, trees: &[Vec<u64>], promises: &[u64], powers: &[u32]) {
    for tree in trees {
        for place in 0..tree.len() {
            let added = powers.iter().map(|power| tree[place] + (1u64 << power));
            for n in promises.iter().copied().chain(added) {
                let list = replaced(tree, place, n);
                into_rooms(input, &list, [rooms(&list)[ENOUGH]]);
            }
        }
    }
}

/// Promises that add up to what the list has, if the sum is cut to so many bits: twice the largest
/// number of so many bits, and then what is missing.
fn sums(input: &mut Vec<u8>, bits: &[u32], counts: impl Iterator<Item = usize> + Clone) {
    for bits in bits {
        let largest = u64::MAX >> (64 - bits);
        for count in counts.clone() {
            let mut list = vec![largest, largest, says(count + 1)];
            list.resize(count, 10);
            into_rooms(input, &list, [rooms(&list)[ENOUGH]]);
        }
    }
}

/// A promise at the ends of a long list and in its middle.
fn promises_in_long(input: &mut Vec<u8>, count: usize) {
    for old in [wide(count), deep(MOST_NESTED, count)] {
        for place in [0, 1, 7, 8, count / 2, count - 2, count - 1] {
            for n in PROMISES.into_iter().chain([says(count)]) {
                into_rooms(input, &replaced(&old, place, n), [2]);
            }
        }
    }
}

// ---- lists of many numbers

/// Lists of just so many numbers.
fn shapes(random: &mut Random, count: usize) -> Vec<Vec<u64>> {
    [good_shapes(random, count), bad_shapes(count)].concat()
}

/// The widest, the deepest, empty branches alone, leaves and empty branches by turns, the largest
/// leaves, nests of the most branches, and items of all kinds.
fn good_shapes(random: &mut Random, count: usize) -> Vec<Vec<u64>> {
    let items: Vec<Vec<u64>> = (0..20).map(|_| random.item(MOST_NESTED - 1, 3)).collect();
    vec![
        wide(count),
        deep(MOST_NESTED, count),
        again(&[branch(&[])], count),
        again(&[leaf(3), branch(&[])], count),
        again(&[leaf(u64::MAX >> 1)], count),
        again(&[nested(MOST_NESTED - 1, &leaf(3), &alone())], count),
        again(&items, count),
    ]
}

/// A ninth branch around all leaves, and as the last number; a last number that says one item more; a
/// number left behind; the deepest nest, around a leaf and around none; one number again and again;
/// and an item too few and one too many in the first branch and in the eighth.
fn bad_shapes(count: usize) -> Vec<Vec<u64>> {
    let deepest = deep(MOST_NESTED, count);
    let behind = |n: u64| [wide(count - 1), vec![n]].concat();
    let mut all = vec![
        deep(MOST_NESTED + 1, count),
        with_last(&deepest, says(0)),
        with_last(&wide(count), says(1)),
        with_last(&deepest, says(1)),
        vec![says(1); count],
        behind(10),
        behind(says(0)),
        behind(u64::MAX),
        with_last(&vec![says(1); count], 10),
        vec![10; count],
        vec![says(0); count],
    ];
    for place in [0, MOST_NESTED - 1] {
        for n in [deepest[place] + 2, deepest[place] - 2] {
            all.push(replaced(&deepest, place, n));
        }
    }
    all
}

/// The longest list that a frame holds and others above the limit, one item each or none; and a good
/// list of the most numbers, with bytes behind it.
fn long_frames(input: &mut Vec<u8>) {
    let longest = MOST_BYTES as usize / 8;
    for count in [
        MOST_OF_LIST + 17,
        2 * MOST_OF_LIST,
        2 * MOST_OF_LIST + 1,
        longest,
    ] {
        for list in [wide(count), vec![10; count], vec![3; count]] {
            into_rooms(input, &list, [2]);
        }
    }
    let good = wide(MOST_OF_LIST);
    for behind in [1, 8, MOST_BYTES as usize - 8 * MOST_OF_LIST] {
        put_numbers(input, PHRASES, leaves(&good) as u64, &good, &filler(behind));
    }
}

// ---- frames that are not right

/// Lists that the frame does not hold, also where 8 times their numbers is more than 64 bits hold;
/// slices above the cap, with lists of each kind; bytes behind a list, also such as would make it
/// good or bad.
fn odd_frames(input: &mut Vec<u8>) {
    let above = MOST_OF_SLICE + 1;
    for size in [1, above] {
        let wrapping = [1 << 61, (1 << 61) + 1, 1 << 63, FAR];
        for count in [1, 2, 1 << 32].into_iter().chain(wrapping) {
            for n in [0, 7, 8, 15, 16] {
                put(input, PHRASES, size, count, &vec![0; n]);
            }
        }
    }
    for size in [above, 1 << 32, (1 << 32) + 2, 1 << 63, FAR] {
        for list in [&[][..], &[5, 10, 14], &[5, 10]] {
            into_rooms(input, list, [size]);
        }
    }
    for list in [&[][..], &[10], &[1], &[3], &[5, 10], &[5, 10, 14]] {
        for behind in [1, 7, 8, 9] {
            put_numbers(input, PHRASES, 2, list, &vec![0; behind]);
        }
    }
}

// ---- random cases

impl Random {
    /// Small ones, and ones of each length up to the largest.
    fn sentence(&mut self) -> u64 {
        match self.below(3) {
            0 => self.number(U64) as u64 / 2,
            _ => self.below(20) as u64,
        }
    }

    /// An item whose branches nest just so deep, with no more than so many items in each. One item of
    /// a branch nests deep, and the others mostly are leaves.
    fn item(&mut self, depth: usize, widest: usize) -> Vec<u64> {
        if depth == 0 {
            return leaf(self.sentence());
        }
        if depth == 1 && self.below(4) == 0 {
            return branch(&[]);
        }
        let count = 1 + self.below(widest);
        let deepest = self.below(count);
        let mut items = Vec::new();
        for i in 0..count {
            let other = [0, 0, 0, 1, 2][self.below(5)].min(depth - 1);
            let inside = if i == deepest { depth - 1 } else { other };
            items.push(self.item(inside, widest));
        }
        branch(&items)
    }

    /// Mostly small, at times a promise or a large leaf.
    fn any_number(&mut self) -> u64 {
        match self.below(8) {
            0 => PROMISES[self.below(PROMISES.len())],
            1 => 2 * self.sentence(),
            _ => self.below(12) as u64,
        }
    }

    /// The place of a branch, or any place of a list that has none.
    fn branch_of(&mut self, list: &[u64]) -> usize {
        let all: Vec<usize> = (0..list.len()).filter(|i| list[*i] % 2 == 1).collect();
        match all.len() {
            0 => self.below(list.len()),
            count => all[self.below(count)],
        }
    }

    /// An item as it is, or with a number replaced, removed or put in, or with a branch that says one
    /// item more, one less, or one more where another says one less. It nests up to two deeper than it
    /// may.
    fn hurt_item(&mut self, widest: usize) -> Vec<u64> {
        let depth = self.below(MOST_NESTED + 3);
        let mut list = self.item(depth, widest);
        let at = self.below(list.len());
        let kind = self.below(12);
        match kind {
            0 => list[at] = self.any_number(),
            1 => {
                list.remove(at);
            }
            2 => list.insert(at, self.any_number()),
            3 => list.push(self.any_number()),
            _ => {}
        }
        if kind == 4 || kind == 6 {
            let more = self.branch_of(&list);
            list[more] = list[more].wrapping_add(2);
        }
        if kind == 5 || kind == 6 {
            let less = self.branch_of(&list);
            list[less] = list[less].wrapping_sub(2);
        }
        list
    }
}

/// Random lists, with no more than so many items in a branch.
fn random_cases(input: &mut Vec<u8>, random: &mut Random, count: usize, widest: usize) {
    for _ in 0..count {
        let list = random.hurt_item(widest);
        one_room(input, random, &list);
    }
}
