//! The plain listing as a program, as the judge is one: reads one byte more than the limit at most, lists, writes.

use plain::{listing, LONGEST_BUNDLE};
use std::io::{Read, Write};

fn main() -> std::io::Result<()> {
    let mut bundle = Vec::with_capacity(LONGEST_BUNDLE + 1);
    std::io::stdin()
        .lock()
        .take(LONGEST_BUNDLE as u64 + 1)
        .read_to_end(&mut bundle)?;
    std::io::stdout().write_all(&listing(&bundle))
}
