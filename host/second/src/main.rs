//! "It reads records from standard input on a fresh ledger".

use std::io::{self, Read, Write};

fn main() -> io::Result<()> {
    let mut input = Vec::new();
    io::stdin().lock().read_to_end(&mut input)?;
    io::stdout()
        .lock()
        .write_all(second::run(&input).as_bytes())
}
