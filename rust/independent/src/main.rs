//! Reads a card from standard input and prints what document 01 says under "The printed result".
#![forbid(unsafe_code)]

use independent::printed::{INPUT_LIMIT, printed};
use std::io::{self, Read, Write};

fn main() -> io::Result<()> {
    // One byte above the limit is enough to know that the input is too long.
    let mut input = Vec::new();
    io::stdin().take(INPUT_LIMIT as u64 + 1).read_to_end(&mut input)?;
    io::stdout().write_all(printed(&input).as_bytes())
}
