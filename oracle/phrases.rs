//! Document 02's rules for phrases inside phrases, #110.
//!
//!   MOST_NESTED   how deep branches nest at most
//!   Tree          an item: a leaf with its sentence number, or a branch with its items
//!   spelled       the numbers of an item
//!   depth         how deep branches nest in an item
//!   leaves        the sentence numbers of an item's leaves, in order
//!   tree_of       the one item that a list is, if it is good
//!   folds         whether a list is good, found out without a tree
//!   copy_leaves   the phrase desk
//!
//! A list is taken from its last number to its first, and a branch takes as many of the items behind
//! it as it says: it is held against a program that goes from the first number on and must not share
//! a slip with it. `copy_leaves` stops the run if the tree is not spelled as the list is, if folding
//! says otherwise of a list, good or not, if a good list is still good with its last number dropped
//! or one added, or if the leaves are not the halves of its even numbers.

use crate::blocks::MOST_OF_LIST;
use crate::numbers::{fill, Refusal, TOO_LONG, TREE};

/// "Branches nest at most 8 deep: the eighth is good, the ninth is not."
pub const MOST_NESTED: usize = 8;

/// "An even n is a leaf, sentence n/2, and an odd n is a branch of the next (n - 1)/2 items, each
/// again a leaf or a branch."
enum Tree {
    Leaf(u64),
    Branch(Vec<Tree>),
}
use Tree::*;

impl Tree {
    fn spelled(&self) -> Vec<u64> {
        match self {
            Leaf(sentence) => vec![2 * sentence],
            Branch(items) => {
                let mut list = vec![2 * items.len() as u64 + 1];
                list.extend(items.iter().flat_map(Tree::spelled));
                list
            }
        }
    }

    /// A leaf is no level of its own; "an empty branch" is one.
    fn depth(&self) -> usize {
        match self {
            Leaf(_) => 0,
            Branch(items) => 1 + items.iter().map(Tree::depth).max().unwrap_or(0),
        }
    }

    fn leaves(&self) -> Vec<u64> {
        match self {
            Leaf(sentence) => vec![*sentence],
            Branch(items) => items.iter().flat_map(Tree::leaves).collect(),
        }
    }
}

/// "A good list is exactly one item." From the last number on, what is behind a number is a row of
/// whole items, and a branch takes the first of them. If there are fewer than it says, its item ends
/// too early; if more than one is left in the end, numbers are left behind the first.
fn tree_of(list: &[u64]) -> Option<Tree> {
    // The nearest is the last.
    let mut behind = Vec::new();
    for n in list.iter().rev() {
        let item = if n % 2 == 0 {
            Leaf(n / 2)
        } else {
            let count = usize::try_from((n - 1) / 2).ok()?;
            let others = behind.len().checked_sub(count)?;
            Branch(behind.drain(others..).rev().collect())
        };
        // What nests too deep here does so in the whole list too.
        if item.depth() > MOST_NESTED {
            return None;
        }
        behind.push(item);
    }
    let only = behind.pop();
    if behind.is_empty() {
        only
    } else {
        None
    }
}

/// Folded as often as branches may nest, a list is one leaf exactly if it is good: each time all
/// branches that nest one deep become leaves, and so all others nest one less.
fn folds(list: &[u64]) -> bool {
    let mut left = list.to_vec();
    for _ in 0..MOST_NESTED {
        left = folded(&left);
    }
    left.len() == 1 && left[0] % 2 == 0
}

/// A list with one leaf in place of each branch whose items all are leaves. Such a branch is no
/// larger than 2 r + 1, with r leaves one after another behind it.
fn folded(list: &[u64]) -> Vec<u64> {
    let mut run = vec![0; list.len() + 1];
    for (place, n) in list.iter().enumerate().rev() {
        if n % 2 == 0 {
            run[place] = run[place + 1] + 1;
        }
    }
    let mut left = Vec::new();
    let mut place = 0;
    while let Some(n) = list.get(place) {
        place += 1;
        if n % 2 == 1 && *n as u128 <= 2 * run[place] + 1 {
            left.push(0);
            place += (n / 2) as usize;
        } else {
            left.push(*n);
        }
    }
    left
}

/// "Copy the leaves' sentence numbers in order to the front of an answer slice, leave the rest, and
/// give the count. Test 7 (above 16,384 numbers), then 13, Tree, for all faults of shape or depth, an
/// empty list included, then 5; a refusal copies nothing."
pub fn copy_leaves(list: &[u64], slice: &mut [u64]) -> Result<usize, Refusal> {
    if list.len() > MOST_OF_LIST {
        return Err(TOO_LONG);
    }
    let said = tree_of(list);
    assert!(said.is_some() == folds(list));
    let tree = said.ok_or(TREE)?;
    check_good(list, &tree);
    fill(&tree.leaves(), slice)
}

/// Stops the run if the tree is not that of the list, or if it is not that of the whole list alone.
fn check_good(list: &[u64], tree: &Tree) {
    assert!(tree.spelled() == list && tree.depth() <= MOST_NESTED);
    let even = list.iter().filter(|n| *n % 2 == 0);
    assert!(tree.leaves() == even.map(|n| n / 2).collect::<Vec<u64>>());
    // "Exactly one item": one number fewer is none, and one more is another.
    assert!(!folds(&list[..list.len() - 1]));
    assert!(!folds(&[list, &[0]].concat()));
}
