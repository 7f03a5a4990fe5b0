//! The lines of `capcopy list`. `list FILE`: a line a packet. `list -f FILE..`: of every front of each file, its lines and then
//! its status.

use pcapfile::{Capture, Error};
use std::process::ExitCode;

fn list(bytes: &[u8]) -> Result<(), Error> {
    for (index, packet) in Capture::parse(bytes)?.enumerate() {
        let packet = packet?;
        let (index, stored) = (index + 1, packet.data.len());
        println!("{index} {}.{:09} {stored}/{}", packet.seconds, packet.nanoseconds, packet.original_len);
    }
    Ok(())
}

fn status_of(bytes: &[u8]) -> u8 {
    match list(bytes) {
        Ok(()) => 0,
        Err(Error::Incomplete(_)) => 3,
        Err(_) => 1,
    }
}

fn list_fronts(paths: &[String]) -> ExitCode {
    for path in paths {
        let Ok(bytes) = std::fs::read(path) else {
            return ExitCode::from(4);
        };
        for end in 0..=bytes.len() {
            println!("status {}", status_of(&bytes[..end]));
        }
    }
    ExitCode::SUCCESS
}

fn main() -> ExitCode {
    let words: Vec<_> = std::env::args().skip(1).collect();
    if words.first().is_some_and(|word| word == "-f") {
        return list_fronts(&words[1..]);
    }
    match words.last().map(std::fs::read) {
        Some(Ok(bytes)) => ExitCode::from(status_of(&bytes)),
        _ => ExitCode::from(4),
    }
}
