//! Reads a turn sheet from standard input and prints the replies: a second, unproved `turns`.
//! It is the yardstick for speed, and its replies are compared with those of the proved program.

mod kinds;
mod make;
mod orders;
mod party;
mod refusal;
mod replies;
mod session;
mod sheet;
mod store;
mod walk;
mod words;

use std::io::{self, Read, Write};

fn main() -> io::Result<()> {
    let mut input = Vec::new();
    // One byte more than a sheet may have is enough to see that it is too long.
    let most = sheet::MOST_BYTES as u64 + 1;
    io::stdin().lock().take(most).read_to_end(&mut input)?;
    io::stdout().lock().write_all(&replies::replies(&input))
}
