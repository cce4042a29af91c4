//! oracle: the second, independent program that `answers` is compared with.
//!
//!   oracle cases                writes the committed cases, as frames
//!   oracle cases large          writes the cases of the large run
//!   oracle answers              reads frames, writes the answer line of each
//!   oracle list                 reads frames, writes each as a line to read
//!   oracle listing              reads bytes, writes their listing
//!   oracle listing-input NAME   writes the bytes of an input for the listing
//!   oracle try-list few COMMAND [WORD...]    runs a command on inputs for the listing, and says
//!   oracle try-list many COMMAND [WORD...]   where it writes something else
//!
//! frames.rs has the layout of a frame; numbers.rs, blocks.rs, slips.rs, phrases.rs and entries.rs the
//! rules; answers.rs the line for each op and listing.rs the listing; known.rs the answers written down
//! by hand; cases.rs, block_cases.rs, slip_cases.rs, phrase_cases.rs and entry_cases.rs the cases,
//! strict_cases.rs more of them for strict reading, random.rs what they draw from a seed; trying.rs the
//! inputs that `list` is run on.
//! Built by: rustc -O --edition 2021 -o target/oracle/oracle oracle/main.rs

mod answers;
mod block_cases;
mod blocks;
mod cases;
mod entries;
mod entry_cases;
mod frames;
mod known;
mod listing;
mod numbers;
mod phrase_cases;
mod phrases;
mod random;
mod slip_cases;
mod slips;
mod strict_cases;
mod trying;

use frames::Item;
use std::io::{self, BufWriter, Read, Write};
use std::process::ExitCode;
use trying::Try;

const USAGE: &str = "usage: oracle cases | cases large | answers | list | listing \
    | listing-input NAME | try-list few COMMAND | try-list many COMMAND";

fn main() -> ExitCode {
    let words: Vec<String> = std::env::args().skip(1).collect();
    let words: Vec<&str> = words.iter().map(String::as_str).collect();
    let done = match words[..] {
        ["cases"] => write_cases(cases::committed),
        ["cases", "large"] => write_cases(cases::large),
        ["answers"] => write_lines(answers::answer),
        ["list"] => write_lines(frames::list),
        ["listing"] => write_listing(),
        ["listing-input", name] => write_listing_input(name),
        ["try-list", "few", _, ..] => try_list(&words[2..], trying::few()),
        ["try-list", "many", _, ..] => try_list(&words[2..], trying::many()),
        _ => Err(USAGE.to_string()),
    };
    match done {
        Ok(()) => ExitCode::SUCCESS,
        Err(why) => {
            eprintln!("oracle: {why}");
            ExitCode::FAILURE
        }
    }
}

fn write_cases(made: fn() -> Vec<u8>) -> Result<(), String> {
    known::check()?;
    write_bytes(&made())
}

/// One line for each item of standard input.
fn write_lines(line: fn(&Item) -> String) -> Result<(), String> {
    let input = read_all()?;
    let mut out = BufWriter::new(io::stdout());
    for item in frames::frames(&input) {
        writeln!(out, "{}", line(&item)).map_err(|e| e.to_string())?;
    }
    out.flush().map_err(|e| e.to_string())
}

fn write_listing() -> Result<(), String> {
    known::check()?;
    write_bytes(listing::listing(&read_all()?).as_bytes())
}

fn write_listing_input(name: &str) -> Result<(), String> {
    known::check()?;
    let input = listing::input(name).ok_or(format!("no input for the listing is named {name}"))?;
    write_bytes(&input)
}

fn try_list(command: &[&str], tries: Vec<Try>) -> Result<(), String> {
    known::check()?;
    let faults = trying::hold(command, &tries)?;
    for fault in faults.iter().take(5) {
        println!("list on {fault}");
    }
    println!("list: {} inputs, {} differ", tries.len(), faults.len());
    if faults.is_empty() {
        return Ok(());
    }
    Err("list doesn't write what the oracle does".to_string())
}

fn read_all() -> Result<Vec<u8>, String> {
    let mut input = Vec::new();
    io::stdin()
        .read_to_end(&mut input)
        .map_err(|e| e.to_string())?;
    Ok(input)
}

fn write_bytes(bytes: &[u8]) -> Result<(), String> {
    io::stdout().write_all(bytes).map_err(|e| e.to_string())
}
