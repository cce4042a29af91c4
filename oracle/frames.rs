//! Frames: what a case is, read and written.
//!
//!   Frame         one case: op, a, b and its bytes
//!   Item          what the input has next: a frame, or one cut short
//!   frames        the items of an input
//!   put           the bytes of a frame, added to an input
//!   put_numbers   the same where they begin with a list
//!   put_list      the same for list writing: the numbers, then the buffer
//!   list          a frame as a line to read

/// The most bytes that a frame may have behind its header.
pub const MOST_BYTES: u32 = 300_000;

/// op (1 byte), a (8), b (8), n (4), the low byte first in each.
const HEADER: usize = 21;

pub struct Frame<'a> {
    pub op: u8,
    pub a: u64,
    pub b: u64,
    pub bytes: &'a [u8],
}

pub enum Item<'a> {
    Frame(Frame<'a>),
    Cut,
}

/// The items of an input, in order. `Cut` ends the run, so it is the last item if it is there at all.
pub fn frames(input: &[u8]) -> Vec<Item<'_>> {
    let mut items = Vec::new();
    let mut rest = input;
    while !rest.is_empty() {
        if rest.len() < HEADER {
            items.push(Item::Cut);
            break;
        }
        let (header, behind) = rest.split_at(HEADER);
        let n = u32::from_le_bytes(header[17..21].try_into().unwrap());
        if n > MOST_BYTES || behind.len() < n as usize {
            items.push(Item::Cut);
            break;
        }
        let (bytes, next) = behind.split_at(n as usize);
        items.push(Item::Frame(Frame {
            op: header[0],
            a: u64::from_le_bytes(header[1..9].try_into().unwrap()),
            b: u64::from_le_bytes(header[9..17].try_into().unwrap()),
            bytes,
        }));
        rest = next;
    }
    items
}

/// Adds a frame to an input. It keeps to no limit, since a case may be one that is too large.
pub fn put(input: &mut Vec<u8>, op: u8, a: u64, b: u64, bytes: &[u8]) {
    input.push(op);
    input.extend(a.to_le_bytes());
    input.extend(b.to_le_bytes());
    input.extend((bytes.len() as u32).to_le_bytes());
    input.extend(bytes);
}

/// Adds a frame with a list of b numbers, 8 bytes to each, the low byte first, and bytes behind it.
pub fn put_numbers(input: &mut Vec<u8>, op: u8, a: u64, list: &[u64], behind: &[u8]) {
    let mut bytes: Vec<u8> = list.iter().flat_map(|v| v.to_le_bytes()).collect();
    bytes.extend(behind);
    put(input, op, a, list.len() as u64, &bytes);
}

/// Adds a frame that asks to write a list at a place.
pub fn put_list(input: &mut Vec<u8>, place: u64, list: &[u64], buffer: &[u8]) {
    put_numbers(input, 16, place, list, buffer);
}

/// Bytes in lower-case hex, `-` if there are none.
pub fn hex(bytes: &[u8]) -> String {
    if bytes.is_empty() {
        return "-".to_string();
    }
    let mut text = String::with_capacity(2 * bytes.len());
    for byte in bytes {
        for digit in [byte / 16, byte % 16] {
            text.push(char::from_digit(digit as u32, 16).unwrap());
        }
    }
    text
}

/// An item as a line for people, who look for the case behind a differing answer.
pub fn list(item: &Item) -> String {
    match item {
        Item::Frame(f) => format!("op {} a {} b {} bytes {}", f.op, f.a, f.b, hex(f.bytes)),
        Item::Cut => "cut".to_string(),
    }
}
