//! bench: holds our functions to ordinary ones, then times them side by side and prints tables.
//!
//!   ours, ordinary                       the two sides
//!   writing, reading, phrases, entries   what is checked, timed and printed of each
//!   blocks                               what is read
//!   common                               what is shared
mod blocks;
mod common;
mod entries;
mod ordinary;
mod ours;
mod phrases;
mod reading;
mod writing;

use common::{Check, Random};
use std::io::{self, Write as _};

fn main() -> io::Result<()> {
    let mut random = Random(2026);
    let mut check = Check { cases: 0 };
    writing::check(&mut check, &mut random);
    reading::check(&mut check, &mut random);
    phrases::check(&mut check, &mut random);
    entries::check(&mut check, &mut random);
    writeln!(io::stdout(), "checked: {} cases, and the answers agree", check.cases)?;
    writing::table(&mut random)?;
    reading::tables(&mut random)?;
    phrases::tables(&mut random)?;
    entries::tables(&mut random)
}
