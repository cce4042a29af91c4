//! The answer line of a frame.
//!
//!   answer         the line for a frame, op by op
//!   turn_meaning   what a turn means under a thread code

use crate::blocks::{set_down, step, strict, write_list, Step, StrictRefusal};
use crate::entries::{read_entry, write_entry, Entry, EntryRefusal};
use crate::frames::{hex, Frame, Item};
use crate::listing::listing;
use crate::numbers::{at, length, power, read, write, Refusal, RefusalAt, Rule, ENTRY, THREAD};
use crate::phrases::copy_leaves;
use crate::slips::{bits_of, body_length, lies_in_range, read_slip, write_slip, Setting};
use std::cmp::Ordering;
use Rule::*;

/// The line for an item: the table of ops, a row to an arm.
pub fn answer(item: &Item) -> String {
    let frame = match item {
        Item::Frame(frame) => frame,
        Item::Cut => return "cut".to_string(),
    };
    match frame.op {
        1 | 2 => read_line(U64, frame),
        3 => read_line(U32, frame),
        4 => read_line(I64, frame),
        5 | 6 => write_line(U64, frame),
        7 => write_line(U32, frame),
        8 => write_line(I64, frame),
        9 => length_line(U64, frame),
        10 => length_line(U32, frame),
        11 => length_line(I64, frame),
        12 => step_line(U64, frame),
        13 => step_line(I64, frame),
        14 => set_down_line(frame),
        15 => strict_line(frame),
        16 => list_line(frame),
        17 => turn_line(frame),
        18 => listing_line(frame),
        19 => slip_line(frame),
        20 => slip_write_line(frame),
        21 => question_line(frame),
        22 => leaves_line(frame),
        23 => entry_line(frame),
        24 => entry_write_line(frame),
        _ => UNKNOWN.to_string(),
    }
}

const UNKNOWN: &str = "unknown";

fn read_line(rule: Rule, frame: &Frame) -> String {
    match read(rule, frame.bytes, frame.a) {
        Ok((v, count)) => format!("number {v} {count}"),
        Err(refused) => refused_at(refused),
    }
}

fn refused_at(RefusalAt { refusal, place }: RefusalAt) -> String {
    format!("refused {refusal} {place}")
}

fn write_line(rule: Rule, frame: &Frame) -> String {
    let Some(v) = number_of(rule, frame.a) else {
        return UNKNOWN.to_string();
    };
    let mut buffer = frame.bytes.to_vec();
    let written = write(rule, v, &mut buffer, frame.b);
    format!("{} {}", count_or_refused(written), hex(&buffer))
}

fn count_or_refused(answer: Result<usize, Refusal>) -> String {
    match answer {
        Ok(count) => format!("count {count}"),
        Err(refusal) => format!("refused {refusal}"),
    }
}

fn length_line(rule: Rule, frame: &Frame) -> String {
    match number_of(rule, frame.a) {
        Some(v) => format!("count {}", length(rule, v)),
        None => UNKNOWN.to_string(),
    }
}

fn step_line(rule: Rule, frame: &Frame) -> String {
    match step(rule, frame.bytes, frame.a) {
        Ok((Step::Number(v, count), next)) => format!("number {v} {count} {next}"),
        Ok((Step::Gap(RefusalAt { refusal, place }, count), next)) => {
            format!("gap {refusal} {count} {next} {place}")
        }
        Ok((Step::Tail(count), next)) => format!("tail {count} {next}"),
        Ok((Step::Finished, next)) => format!("finished {next}"),
        Err(refusal) => format!("refused {refusal}"),
    }
}

fn set_down_line(frame: &Frame) -> String {
    match set_down(frame.bytes, frame.a) {
        Ok(start) => format!("start {start}"),
        Err(refusal) => format!("refused {refusal}"),
    }
}

/// The most numbers of an answer slice, and what each is before.
pub const MOST_OF_SLICE: u64 = 65_536;
const BEFORE: u64 = 7777777777777777777;

/// What is said with an answer slice of a numbers, then the whole slice.
fn slice_line(frame: &Frame, said: impl Fn(&mut [u64]) -> String) -> String {
    if frame.a > MOST_OF_SLICE {
        return UNKNOWN.to_string();
    }
    let mut slice = vec![BEFORE; frame.a as usize];
    let mut line = said(&mut slice);
    for number in slice {
        line += &format!(" {number}");
    }
    line
}

fn strict_line(frame: &Frame) -> String {
    slice_line(frame, |slice| match strict(frame.bytes, slice) {
        Ok(count) => format!("count {count}"),
        Err(StrictRefusal::Fault(fault)) => refused_at(fault),
        Err(StrictRefusal::Other(refusal)) => format!("refused {refusal}"),
    })
}

/// The frame's b numbers, 8 bytes to each, and the bytes behind them, if there are so many.
fn list_of<'a>(frame: &Frame<'a>) -> Option<(Vec<u64>, &'a [u8])> {
    if 8 * frame.b as u128 > frame.bytes.len() as u128 {
        return None;
    }
    let (numbers, behind) = frame.bytes.split_at(8 * frame.b as usize);
    Some((numbers_of(numbers), behind))
}

/// Eight bytes to each, the low byte first.
fn numbers_of(bytes: &[u8]) -> Vec<u64> {
    let each = bytes.chunks(8);
    each.map(|eight| u64::from_le_bytes(eight.try_into().unwrap()))
        .collect()
}

fn list_line(frame: &Frame) -> String {
    let Some((list, rest)) = list_of(frame) else {
        return UNKNOWN.to_string();
    };
    let mut buffer = rest.to_vec();
    let written = write_list(&list, &mut buffer, frame.a);
    format!("{} {}", count_or_refused(written), hex(&buffer))
}

/// A thread code is a byte.
fn turn_line(frame: &Frame) -> String {
    let Ok(code) = u8::try_from(frame.b) else {
        return UNKNOWN.to_string();
    };
    match turn_meaning(number_of(I64, frame.a).unwrap(), code) {
        Ok(name) => name.to_string(),
        Err(refusal) => format!("refused {refusal}"),
    }
}

/// "Above zero is Tighten, below zero is Loosen, zero is Hold", mended by document 02, #101: "The
/// meaning of a turn now takes a thread code: 0 right, 1 left, where the two names change places.
/// Zero is Hold for both. Any other code is refused as 9, Thread, tested first."
fn turn_meaning(turn: i128, code: u8) -> Result<&'static str, Refusal> {
    let (above, below) = match code {
        0 => ("tighten", "loosen"),
        1 => ("loosen", "tighten"),
        _ => return Err(THREAD),
    };
    Ok(match turn.cmp(&0) {
        Ordering::Greater => above,
        Ordering::Less => below,
        Ordering::Equal => "hold",
    })
}

/// The refusal of a block too long is a text too, the one that the listing program writes.
fn listing_line(frame: &Frame) -> String {
    format!("text {}", hex(listing(frame.bytes).as_bytes()))
}

/// "A setting is nothing, a torque, an angle or a torque range", by its kind.
const SETTINGS: [&str; 4] = ["nothing", "torque", "angle", "range"];

fn slip_line(frame: &Frame) -> String {
    match read_slip(frame.bytes, frame.a) {
        Ok((setting, count)) => {
            let mut line = SETTINGS[setting.kind as usize].to_string();
            for bits in setting.bits {
                line += &format!(" {bits}");
            }
            line + &format!(" {count}")
        }
        Err(refusal) => format!("refused {refusal}"),
    }
}

fn slip_write_line(frame: &Frame) -> String {
    let length = body_length(frame.a);
    let Some((body, rest)) = length.and_then(|length| frame.bytes.split_at_checked(length)) else {
        return UNKNOWN.to_string();
    };
    let setting = Setting {
        kind: frame.a as u8,
        bits: bits_of(body),
    };
    let mut buffer = rest.to_vec();
    let written = write_slip(&setting, &mut buffer, frame.b);
    format!("{} {}", count_or_refused(written), hex(&buffer))
}

fn question_line(frame: &Frame) -> String {
    if frame.bytes.len() != 12 {
        return UNKNOWN.to_string();
    }
    let bits = bits_of(frame.bytes);
    let lies = lies_in_range(bits[0], bits[1], bits[2]);
    (if lies { "yes" } else { "no" }).to_string()
}

/// Bytes behind the list are not looked at.
fn leaves_line(frame: &Frame) -> String {
    let Some((list, _)) = list_of(frame) else {
        return UNKNOWN.to_string();
    };
    slice_line(frame, |slice| count_or_refused(copy_leaves(&list, slice)))
}

fn entry_line(frame: &Frame) -> String {
    match read_entry(frame.bytes, frame.a) {
        Ok((said, end)) => {
            let (segment, sentence, turn) = (said.segment, said.sentence, said.turn);
            format!("entry {segment} {sentence} {turn} {end}")
        }
        Err(EntryRefusal::Entry(end)) => refused_at(at(ENTRY, end as u64)),
        Err(EntryRefusal::Other(refusal)) => format!("refused {refusal}"),
    }
}

/// The language is not looked at. The writer's 10 is said as its 5 is, without a place.
fn entry_write_line(frame: &Frame) -> String {
    let Some((numbers, rest)) = frame.bytes.split_at_checked(32) else {
        return UNKNOWN.to_string();
    };
    let numbers = numbers_of(numbers);
    let entry = Entry {
        segment: numbers[0],
        sentence: numbers[1],
        turn: number_of(I64, numbers[3]).unwrap() as i64,
    };
    let mut buffer = rest.to_vec();
    let written = write_entry(&entry, &mut buffer, frame.a);
    format!("{} {}", count_or_refused(written), hex(&buffer))
}

/// The number that eight bytes of a frame stand for, if the width has it: signed in two's complement.
fn number_of(rule: Rule, a: u64) -> Option<i128> {
    let a = a as i128;
    let v = if rule == I64 && a >= power(63) {
        a - power(64)
    } else {
        a
    };
    (v <= rule.largest()).then_some(v)
}
