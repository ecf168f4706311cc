//! Plays the tape on standard input, as the program `exchange` does.

use std::io::{self, Read, Write};

use peer::tape::{transcribe, TAPE};

fn main() -> io::Result<()> {
    let mut tape = Vec::new();
    io::stdin().lock().take(TAPE as u64).read_to_end(&mut tape)?;
    io::stdout().lock().write_all(&transcribe(&tape))
}
