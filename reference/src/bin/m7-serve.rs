//! Serves the line protocol on standard input and output.

use m7_reference::protocol::Server;
use std::io::{self, BufRead, Write};

fn main() -> io::Result<()> {
    let mut server = Server::default();
    let mut output = io::stdout().lock();
    for command in io::stdin().lock().lines() {
        writeln!(output, "{}", server.obey(&command?))?;
        output.flush()?;
    }
    Ok(())
}
