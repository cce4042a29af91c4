//! The program `list` held to the oracle: what it writes on standard output and on standard error.
//!
//!   Feed, Try   how an input comes, whole or in pieces; an input with its name and its feed
//!   few, many   what is tried
//!   hold        runs a command on each and says where it parts from the listing

use crate::blocks::MOST_OF_BLOCK;
use crate::listing::{input, listing, INPUTS};
use crate::random::Random;
use std::ffi::{c_int, c_ulong};
use std::io::Write;
use std::os::fd::AsRawFd;
use std::process::{ChildStdin, Command, Output, Stdio};
use std::sync::atomic::{AtomicUsize, Ordering};
use std::thread;
use std::time::Duration;

#[derive(Clone, Copy)]
enum Feed {
    Whole,
    Pieces(usize),
}

pub struct Try {
    name: String,
    input: Vec<u8>,
    feed: Feed,
}

/// So often the writer waits until all that it has written is read: the program then reads less
/// than it asks for.
const PAUSES: usize = 3;

/// Above the limit the program may leave bytes unread. So many milliseconds are waited for it.
const PATIENCE: usize = 200;

extern "C" {
    fn ioctl(fd: c_int, request: c_ulong, ...) -> c_int;
}

/// Linux's request for how many bytes of a pipe are unread.
const FIONREAD: c_ulong = 0x541b;

/// The named inputs, and every length up to 40.
pub fn few() -> Vec<Try> {
    let mut tries = Vec::new();
    for name in INPUTS {
        whole(&mut tries, name.to_string(), input(name).unwrap());
    }
    lengths(&mut tries, 0..=40);
    for (name, sizes) in [
        ("document", [1, 7]),
        ("limit", [61, MOST_OF_BLOCK - 1]),
        ("above", [1_021, MOST_OF_BLOCK]),
        ("long", [1_021, MOST_OF_BLOCK]),
    ] {
        pieces(&mut tries, name.to_string(), &input(name).unwrap(), &sizes);
    }
    tries
}

pub fn many() -> Vec<Try> {
    let mut tries = few();
    lengths(&mut tries, 41..=70);
    for count in 0..=70 {
        let block = Random(70 + count as u64).block(count);
        pieces(&mut tries, format!("{count} bytes"), &block, &[1, 7]);
    }
    around_powers(&mut tries);
    around_limit(&mut tries);
    for byte in 0..=255 {
        whole(&mut tries, format!("the byte {byte:02x}"), vec![byte]);
    }
    pairs(&mut tries);
    injuries(&mut tries);
    tries
}

fn whole(tries: &mut Vec<Try>, name: String, input: Vec<u8>) {
    let feed = Feed::Whole;
    tries.push(Try { name, input, feed });
}

fn pieces(tries: &mut Vec<Try>, name: String, input: &[u8], sizes: &[usize]) {
    for size in sizes {
        tries.push(Try {
            name: name.clone(),
            input: input.to_vec(),
            feed: Feed::Pieces(*size),
        });
    }
}

fn lengths(tries: &mut Vec<Try>, counts: impl IntoIterator<Item = usize>) {
    for count in counts {
        let block = Random(count as u64).block(count);
        whole(tries, format!("{count} bytes"), block);
    }
}

/// Where a buffer of some size in between would be full.
fn around_powers(tries: &mut Vec<Try>) {
    let powers = (6..)
        .map(|k| 1 << k)
        .take_while(|power| *power <= MOST_OF_BLOCK);
    for power in powers {
        for count in power - 1..=power + 1 {
            let block = Random(count as u64).block(count);
            pieces(tries, format!("{count} bytes"), &block, &[61, power / 2]);
            whole(tries, format!("{count} bytes"), block);
        }
    }
}

/// Also with the last one or two bytes alone; and far above it, where the count would be 0 if it were
/// cut to 16 bits, and where it is more than a pipe holds.
fn around_limit(tries: &mut Vec<Try>) {
    let most = MOST_OF_BLOCK;
    for count in [most - 1, most, most + 1, most + 2, 2 * most, 1_000_000] {
        for byte in [0x00, 0x7f, 0x80, 0xff] {
            let name = format!("{count} bytes {byte:02x}");
            let block = vec![byte; count];
            pieces(tries, name.clone(), &block, &[1_021, most - 1, most]);
            whole(tries, name, block);
        }
    }
}

fn pairs(tries: &mut Vec<Try>) {
    let bytes = [0, 1, 2, 63, 64, 126, 127, 128, 129, 191, 192, 255];
    for first in bytes {
        for second in bytes {
            let name = format!("the bytes {first:02x} {second:02x}");
            whole(tries, name, vec![first, second]);
        }
    }
}

/// A block with one stretch replaced by another, which may be longer or shorter.
fn injuries(tries: &mut Vec<Try>) {
    let mut random = Random(4);
    let old = random.list_block(200);
    for number in 0..60 {
        let from = random.below(old.len());
        let behind = (from + random.below(12)).min(old.len());
        let count = random.below(12);
        let new = [&old[..from], &random.bytes(count), &old[behind..]].concat();
        whole(tries, format!("injury {number}"), new);
    }
}

/// Runs the command on each input, as many at a time as there are processors, and answers where it
/// wrote something else.
pub fn hold(command: &[&str], tries: &[Try]) -> Result<Vec<String>, String> {
    let next = AtomicUsize::new(0);
    let work = || -> Result<Vec<String>, String> {
        let mut faults = Vec::new();
        while let Some(one) = tries.get(next.fetch_add(1, Ordering::Relaxed)) {
            faults.extend(fault(one, &run(command, one)?));
        }
        Ok(faults)
    };
    let processors = thread::available_parallelism().map_or(1, |count| count.get());
    thread::scope(|scope| {
        let workers: Vec<_> = (0..processors).map(|_| scope.spawn(work)).collect();
        let mut faults = Vec::new();
        for worker in workers {
            faults.extend(worker.join().unwrap()?);
        }
        Ok(faults)
    })
}

fn run(command: &[&str], one: &Try) -> Result<Output, String> {
    let mut child = Command::new(command[0])
        .args(&command[1..])
        .stdin(Stdio::piped())
        .stdout(Stdio::piped())
        .stderr(Stdio::piped())
        .spawn()
        .map_err(|e| format!("{}: {e}", command[0]))?;
    let mut pipe = child.stdin.take().unwrap();
    thread::scope(|scope| {
        scope.spawn(move || {
            let size = match one.feed {
                Feed::Whole => one.input.len().max(1),
                Feed::Pieces(size) => size,
            };
            let count = one.input.len().div_ceil(size);
            for (number, piece) in one.input.chunks(size).enumerate() {
                // Above the limit the program needn't read on.
                if pipe.write_all(piece).is_err() {
                    return;
                }
                if number % count.div_ceil(PAUSES) == 0 && number + 1 < count {
                    wait_until_read(&pipe);
                }
            }
        });
        child.wait_with_output().map_err(|e| e.to_string())
    })
}

fn wait_until_read(pipe: &ChildStdin) {
    for _ in 0..PATIENCE {
        let mut unread: c_int = 0;
        // Sound: the pipe is open, and the request stores one int.
        if unsafe { ioctl(pipe.as_raw_fd(), FIONREAD, &mut unread) } != 0 || unread == 0 {
            return;
        }
        thread::sleep(Duration::from_millis(1));
    }
}

/// What the program says on standard error. It is settled between the program and its callers, and
/// no document has it.
fn said(input: &[u8]) -> String {
    if input.len() > MOST_OF_BLOCK {
        return format!(
            "list: a block has at most {MOST_OF_BLOCK} bytes, and the input has more\n"
        );
    }
    String::new()
}

fn fault(one: &Try, output: &Output) -> Option<String> {
    let how = match one.feed {
        Feed::Whole => "whole".to_string(),
        Feed::Pieces(size) => format!("in pieces of {size}"),
    };
    let what = if !output.status.success() {
        format!("ended with {}", output.status)
    } else if let Some(parted) = parted(&listing(&one.input), &output.stdout) {
        format!("standard output: {parted}")
    } else {
        format!(
            "standard error: {}",
            parted(&said(&one.input), &output.stderr)?
        )
    };
    Some(format!("{}, {how}: {what}", one.name))
}

/// The first line in which two texts differ.
fn parted(wanted: &str, got: &[u8]) -> Option<String> {
    if wanted.as_bytes() == got {
        return None;
    }
    let got = String::from_utf8_lossy(got);
    let (mut wanted, mut got) = (wanted.split('\n'), got.split('\n'));
    let mut line = 1;
    loop {
        match (wanted.next(), got.next()) {
            (a, b) if a == b && a.is_some() => line += 1,
            (a, b) => return Some(format!("line {line} is {b:?}, and the oracle's is {a:?}")),
        }
    }
}
