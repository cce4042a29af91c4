//! Document 01's listing, and the inputs that the repository holds for it.
//!
//!   listing         the text for an input
//!   INPUTS, input   the names of inputs, and an input by its name

use crate::blocks::{meaning, parts, Step, MOST_OF_BLOCK};
use crate::numbers::{Refusal, Rule, NOT_SHORTEST, OVERFLOW, TOO_LONG};
use crate::random::Random;

/// "The last column is the number, or else the length. Rule: unsigned." Document 02, #108: "The
/// listing prints as before", without the byte that decided a gap.
pub fn listing(input: &[u8]) -> String {
    if input.len() > MOST_OF_BLOCK {
        return format!("refused {TOO_LONG}\n");
    }
    let mut text = "place what value\n".to_string();
    for part in parts(input) {
        let (what, value) = match meaning(Rule::U64, input, &part) {
            Step::Number(v, _) => ("number", v),
            Step::Gap(reason, count) => (gap_name(reason.refusal), count as i128),
            Step::Tail(count) => ("tail", count as i128),
            Step::Finished => unreachable!(),
        };
        text += &format!("{} {what} {value}\n", part.place);
    }
    text
}

fn gap_name(reason: Refusal) -> &'static str {
    match reason {
        NOT_SHORTEST => "not-shortest",
        OVERFLOW => "overflow",
        _ => unreachable!(),
    }
}

pub const INPUTS: [&str; 7] = [
    "document", "mended", "empty", "tail", "limit", "above", "long",
];

pub fn input(name: &str) -> Option<Vec<u8>> {
    let at_3 =
        |bytes: &[u8]| [&[0x00, 0x80, 0x01], bytes, &[0xff; 9], &[0x02, 0x05, 0x83]].concat();
    Some(match name {
        "document" => at_3(&[0x80, 0x00]),
        "mended" => at_3(&[0x07]),
        "empty" => Vec::new(),
        "tail" => vec![0x80; 12],
        "limit" => mix(MOST_OF_BLOCK),
        "above" => mix(MOST_OF_BLOCK + 1),
        // More than the limit and a full pipe together: who reads no further leaves some unwritten.
        "long" => mix(150_000),
        _ => return None,
    })
}

/// Groups and gaps of every kind, from a fixed seed.
fn mix(count: usize) -> Vec<u8> {
    Random(3).block(count)
}
