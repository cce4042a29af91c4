//! Ordinary readers of phrases. Each is called as ours is, and not inlined.
use super::{LIST_LIMIT, NO_ROOM, TOO_LONG, TREE};

/// The count of sentences, or a refusal.
pub type Filled = Result<usize, u8>;

/// How deep branches nest.
const NESTING: usize = 8;

/// The sentences, once all of them are known, to the front of the slice.
#[inline(always)]
fn copied(found: &[u64], sentences: &mut [u64]) -> Filled {
    sentences.get_mut(..found.len()).ok_or(NO_ROOM)?.copy_from_slice(found);
    Ok(found.len())
}

// ---- by recursion

/// The sentences of the item at the front of the list, and what is left behind it.
fn item<'a>(list: &'a [u64], depth: usize, found: &mut Vec<u64>) -> Option<&'a [u64]> {
    let (&n, mut rest) = list.split_first()?;
    if n % 2 == 0 {
        found.push(n / 2);
        return Some(rest);
    }
    let inside = depth.checked_sub(1)?;
    for _ in 0..n / 2 {
        rest = item(rest, inside, found)?;
    }
    Some(rest)
}

/// An item reads itself, and its sentences go into a `Vec` on the way.
#[inline(never)]
pub fn by_recursion(list: &[u64], sentences: &mut [u64]) -> Filled {
    if list.len() > LIST_LIMIT {
        return Err(TOO_LONG);
    }
    let mut found = Vec::with_capacity(list.len());
    match item(list, NESTING, &mut found) {
        Some([]) => copied(&found, sentences),
        _ => Err(TREE),
    }
}

// ---- by a loop

/// How many items are still owed to each branch that is open, the whole list's one item first.
#[inline(never)]
pub fn by_loop(list: &[u64], sentences: &mut [u64]) -> Filled {
    if list.len() > LIST_LIMIT {
        return Err(TOO_LONG);
    }
    let mut found = Vec::with_capacity(list.len());
    let mut owed = [0; NESTING + 1];
    owed[0] = 1;
    let mut depth = 0;
    for &n in list {
        while owed[depth] == 0 {
            if depth == 0 {
                return Err(TREE);
            }
            depth -= 1;
        }
        owed[depth] -= 1;
        if n % 2 == 0 {
            found.push(n / 2);
        } else if depth == NESTING {
            return Err(TREE);
        } else {
            depth += 1;
            owed[depth] = n / 2;
        }
    }
    if owed.iter().take(depth + 1).any(|&left| left > 0) {
        return Err(TREE);
    }
    copied(&found, sentences)
}
