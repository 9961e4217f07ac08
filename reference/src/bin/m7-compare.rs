//! `m7-compare PROGRAM [ARGUMENT...]` reads protocol commands from standard
//! input, gives each to PROGRAM and to this engine, and prints where the
//! answers differ. The exit code is 1 if any differ.

use m7_reference::protocol::Server;
use std::io::{self, BufRead, BufReader, Write};
use std::process::{Command, ExitCode, Stdio};

/// Differences shown; further ones are only counted.
const SHOWN: usize = 20;

fn main() -> io::Result<ExitCode> {
    let mut words = std::env::args().skip(1);
    let Some(program) = words.next() else {
        eprintln!("usage: m7-compare PROGRAM [ARGUMENT...]");
        return Ok(ExitCode::from(2));
    };
    let mut other =
        Command::new(program).args(words).stdin(Stdio::piped()).stdout(Stdio::piped()).spawn()?;
    let mut to = other.stdin.take().expect("the input is piped");
    let mut from = BufReader::new(other.stdout.take().expect("the output is piped"));
    let mut server = Server::default();
    let (mut commands, mut differing) = (0, 0);
    for command in io::stdin().lock().lines() {
        let command = command?;
        writeln!(to, "{command}")?;
        to.flush()?;
        let mut answer = String::new();
        from.read_line(&mut answer)?;
        let (ours, theirs) = (server.obey(&command), answer.trim_end());
        commands += 1;
        if ours != theirs {
            differing += 1;
            if differing <= SHOWN {
                println!("command {commands}: {command}\n  here:  {ours}\n  there: {theirs}");
            }
        }
    }
    drop(to);
    other.wait()?;
    println!("{commands} commands, {differing} answers differ");
    Ok(ExitCode::from((differing > 0) as u8))
}
