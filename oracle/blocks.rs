//! Document 01's rules for blocks and lists.
//!
//!   MOST_OF_BLOCK, MOST_OF_LIST   the most bytes and the most numbers
//!   Part, parts   a group or the tail of a block; all that a block has, in order
//!   starts        the starts of a block, in order
//!   Step          what a step says
//!   meaning       what is said of a group or a tail by a rule
//!   StrictRefusal   a refusal of strict reading, with a place or without
//!   test_7_and_4    what readers of a block at a place begin with
//!   step, set_down, strict, write_list   the block desk
//!
//! A block is taken apart whole, and the part that begins at the place is looked up: it is held
//! against a program that walks the bytes from the place. `step` stops the run if the parts and the
//! starts disagree, `meaning` if a group alone is read otherwise than in its block, `strict` if its
//! fault is not the first or has another place than a reader gives it, and `write_list` if strict
//! reading does not give the list back.

use crate::numbers::{
    at, fill, form, read, store, Refusal, RefusalAt, Rule, END, NOT_A_START, NOT_SHORTEST,
    NO_START, OVERFLOW, PLACE, TOO_LONG,
};

/// Document 02, #105: "Refusal 7 starts above 65,536 bytes for blocks and above 16,384 numbers for
/// lists."
pub const MOST_OF_BLOCK: usize = 65_536;

/// "A list here is one handed in": strict reading may give more numbers.
pub const MOST_OF_LIST: usize = 16_384;

pub struct Part<'a> {
    pub place: usize,
    pub bytes: &'a [u8],
}

/// "A group runs from a start through the next byte below 128. Bytes after the last such byte are
/// the tail."
pub fn parts(block: &[u8]) -> Vec<Part<'_>> {
    let mut all = Vec::new();
    let mut place = 0;
    for bytes in block.split_inclusive(|byte| *byte < 128) {
        all.push(Part { place, bytes });
        place += bytes.len();
    }
    all
}

/// "Place 0, or a place just past a byte below 128, up to and including the length of the block."
pub fn starts(block: &[u8]) -> Vec<usize> {
    (0..=block.len())
        .filter(|place| *place == 0 || block[*place - 1] < 128)
        .collect()
}

/// Each with its length: of the tail, or of the whole group, also where that is more than ten. A
/// gap's reason has its place in the block.
pub enum Step {
    Number(i128, usize),
    Gap(RefusalAt, usize),
    Tail(usize),
    Finished,
}

/// Without a byte below 128 it is a tail, whatever its length. Else "the group's bytes are read by
/// the rule", and a gap's reason is what that refuses with. Its place "moves with the group".
pub fn meaning(rule: Rule, block: &[u8], part: &Part) -> Step {
    let count = part.bytes.len();
    if part.bytes.iter().all(|byte| *byte >= 128) {
        return Step::Tail(count);
    }
    let start = part.place as u64;
    let said = read(rule, block, start);
    // The group alone says the same, with the place in the group.
    let in_group = |reason: RefusalAt| at(reason.refusal, reason.place - start);
    assert!(read(rule, part.bytes, 0) == said.map_err(in_group));
    match said {
        Ok((v, taken)) => {
            assert!(taken == count);
            Step::Number(v, count)
        }
        Err(reason) => {
            assert!(reason.refusal == OVERFLOW || reason.refusal == NOT_SHORTEST);
            assert!(in_group(reason).place < count as u64);
            Step::Gap(reason, count)
        }
    }
}

/// The tests that a step, set-down and the reader of entries begin with.
pub fn test_7_and_4(block: &[u8], place: u64) -> Result<(), Refusal> {
    if block.len() > MOST_OF_BLOCK {
        return Err(TOO_LONG);
    }
    if place as u128 > block.len() as u128 {
        return Err(PLACE);
    }
    Ok(())
}

/// What begins at a place, and the next place. 6 is "a step asked for where no group, tail or end
/// begins".
pub fn step(rule: Rule, block: &[u8], place: u64) -> Result<(Step, usize), Refusal> {
    test_7_and_4(block, place)?;
    let place = place as usize;
    if place == block.len() {
        return Ok((Step::Finished, place));
    }
    let all = parts(block);
    let found = all.iter().find(|part| part.place == place);
    assert!(found.is_some() == starts(block).contains(&place));
    let Some(part) = found else {
        return Err(NOT_A_START);
    };
    let said = meaning(rule, block, part);
    let next = match said {
        Step::Number(..) | Step::Gap(..) => place + part.bytes.len(),
        Step::Tail(_) | Step::Finished => place,
    };
    Ok((said, next))
}

/// "The least start at or after its place, or 8."
pub fn set_down(block: &[u8], place: u64) -> Result<usize, Refusal> {
    test_7_and_4(block, place)?;
    let at_or_after = |start: &usize| *start as u128 >= place as u128;
    starts(block).into_iter().find(at_or_after).ok_or(NO_START)
}

/// Strict reading's refusals are of two sorts: the faults, 1, 2 and 3, to which document 02, #108
/// gives a place, and 7 and 5, which "stay".
#[derive(PartialEq)]
pub enum StrictRefusal {
    Fault(RefusalAt),
    Other(Refusal),
}

/// "Tests 7, then the first fault by place (2 or 3 in a group, 1 for a tail, even of ten bytes or
/// more), then 5. It fills the front of the answer slice, leaves the rest, and gives the count."
pub fn strict(block: &[u8], slice: &mut [u64]) -> Result<usize, StrictRefusal> {
    if block.len() > MOST_OF_BLOCK {
        return Err(StrictRefusal::Other(TOO_LONG));
    }
    let said = numbers_or_fault(block);
    if let Err(fault) = said {
        check_first(block, fault);
    }
    let numbers = said.map_err(StrictRefusal::Fault)?;
    fill(&numbers, slice).map_err(StrictRefusal::Other)
}

/// All numbers of a block, or its first fault. "Strict reading passes it on for 2 and 3; for a tail
/// it gives the block's end."
fn numbers_or_fault(block: &[u8]) -> Result<Vec<u64>, RefusalAt> {
    let mut numbers = Vec::new();
    for part in parts(block) {
        match meaning(Rule::U64, block, &part) {
            Step::Number(v, _) => numbers.push(v as u64),
            Step::Gap(reason, _) => return Err(reason),
            Step::Tail(_) => return Err(at(END, block.len() as u64)),
            Step::Finished => unreachable!(),
        }
    }
    Ok(numbers)
}

/// Stops the run if it is not "the first fault by place", or if another byte decided it.
fn check_first(block: &[u8], fault: RefusalAt) {
    let place = fault.place as usize;
    let before = starts(block).into_iter().filter(|start| *start < place);
    let start = before.last().unwrap();
    // Up to the last start before that byte all are numbers, and a tail runs from there to the byte.
    assert!(numbers_or_fault(&block[..start]).is_ok());
    assert!(numbers_or_fault(&block[..place]) == Err(at(END, fault.place)));
    let is_group = block[start..].iter().any(|byte| *byte < 128);
    let passed_on = read(Rule::U64, block, start as u64) == Err(fault);
    if fault.refusal == END {
        // A reader says the same of a tail with fewer bytes than the most.
        assert!(!is_group && place == block.len());
        assert!(passed_on == (place - start < Rule::U64.most()));
    } else {
        assert!(is_group && passed_on);
    }
}

/// "Tests 7, then 5", and "puts the forms one after another". Gives the count of bytes.
pub fn write_list(list: &[u64], buffer: &mut [u8], place: u64) -> Result<usize, Refusal> {
    if list.len() > MOST_OF_LIST {
        return Err(TOO_LONG);
    }
    let bytes: Vec<u8> = list
        .iter()
        .flat_map(|v| form(Rule::U64, *v as i128))
        .collect();
    if bytes.len() <= MOST_OF_BLOCK {
        let mut back = vec![0; list.len()];
        assert!(strict(&bytes, &mut back) == Ok(list.len()) && back == list);
    }
    store(&bytes, buffer, place)
}
