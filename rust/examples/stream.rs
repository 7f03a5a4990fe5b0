//! The packets of a capture of either format that comes out of a stream, as `tests/c/open.c` prints them. `stream FILE`: by reads
//! of any length, and a line `refused` for a packet that is refused, behind which it goes on where it can. `stream -r BYTES FILE`: by
//! reads of at most so many bytes. `stream -b FILE`: by as many packets at once as were read.

use pcapfile::{AnyPacket, Error, Reader};
use std::fs::File;
use std::io::{self, Read};
use std::process::ExitCode;

/// A stream that gives few bytes a read, and each other read is interrupted.
struct Few<R> {
    stream: R,
    most: usize,
    is_interrupted: bool,
}

impl<R: Read> Read for Few<R> {
    fn read(&mut self, room: &mut [u8]) -> io::Result<usize> {
        self.is_interrupted = !self.is_interrupted;
        if self.is_interrupted {
            return Err(io::ErrorKind::Interrupted.into());
        }
        let most = self.most.min(room.len());
        self.stream.read(&mut room[..most])
    }
}

fn print(packet: &AnyPacket<'_>) {
    let time = packet.time.map_or("none".into(), |time| format!("{}.{:09}", time.seconds, time.nanoseconds));
    let link = packet.link.map_or("none".into(), |link| link.to_string());
    let data: String = packet.data.iter().map(|byte| format!("{byte:02x}")).collect();
    println!("{} {time} {link} {}/{} {data}", packet.interface_id, packet.data.len(), packet.original_len);
}

fn status_of(error: &io::Error) -> u8 {
    match error.get_ref().and_then(|it| it.downcast_ref()) {
        Some(Error::NoMemory) => 4,
        Some(Error::Incomplete(_) | Error::BadValue) | None => 3,
        Some(_) => 1,
    }
}

/// Prints the next packet, or those that were read, and tells how many.
fn print_next(reader: &mut Reader<impl Read>, in_batches: bool) -> io::Result<usize> {
    if !in_batches {
        return Ok(reader.next_packet()?.map(|packet| print(&packet)).into_iter().count());
    }
    let packets = reader.next_packets()?;
    let count = packets.len();
    packets.for_each(|packet| print(&packet));
    Ok(count)
}

fn list(stream: impl Read, in_batches: bool) -> u8 {
    let mut reader = Reader::new(stream);
    let mut refused = None;
    loop {
        match print_next(&mut reader, in_batches) {
            Ok(0) => return 0,
            Ok(_) => {}
            Err(error) if refused == Some(reader.offset()) => return status_of(&error),
            Err(_) => {
                refused = Some(reader.offset());
                println!("refused");
            }
        }
    }
}

fn main() -> ExitCode {
    let words: Vec<_> = std::env::args().skip(1).collect();
    let most = if words.len() == 3 { words[1].parse().unwrap_or(1) } else { usize::MAX };
    let in_batches = words.first().is_some_and(|word| word == "-b");
    match words.last().map(File::open) {
        Some(Ok(stream)) => ExitCode::from(list(Few { stream, most, is_interrupted: false }, in_batches)),
        _ => ExitCode::from(4),
    }
}
