//! The packets and gaps of a damaged capture of either format, as `open -l` of `tests/c/open.c` prints them. `lenient FILE`: from memory.
//! `lenient -r BYTES FILE`: from a stream, by reads of at most so many bytes.

use pcapfile::{AnyPacket, Error, Found, Lenient, Reader};
use std::fs::File;
use std::io::{self, Read};
use std::process::ExitCode;

/// A stream that gives few bytes a read.
struct Few<R> {
    stream: R,
    most: usize,
}

impl<R: Read> Read for Few<R> {
    fn read(&mut self, room: &mut [u8]) -> io::Result<usize> {
        let most = self.most.min(room.len());
        self.stream.read(&mut room[..most])
    }
}

/// The status of the library, the rule, and the number of missing bytes.
fn numbers_of(error: Option<Error>) -> (i32, u32, usize) {
    match error {
        None => (0, 0, 0),
        Some(Error::Incomplete(missing)) => (1, 0, missing),
        Some(Error::BadValue) => (2, 0, 0),
        Some(Error::NotUtf8) => (4, 0, 0),
        Some(Error::WrongLength) => (25, 0, 0),
        Some(error) => (3, error.rule().map_or(0, |rule| rule.number()), 0),
    }
}

fn print(found: &Found<AnyPacket<'_>>) {
    match found {
        Found::Packet { packet, flaw } => {
            let (status, rule, _) = numbers_of(*flaw);
            let time = packet.time.map_or("none".into(), |time| format!("{}.{:09}", time.seconds, time.nanoseconds));
            let link = packet.link.map_or("none".into(), |link| link.to_string());
            let data: String = packet.data.iter().map(|byte| format!("{byte:02x}")).collect();
            let (stored, original) = (packet.data.len(), packet.original_len);
            println!("packet {status} {rule} {} {time} {link} {stored}/{original} {data}", packet.interface_id);
        }
        Found::Gap(gap) => {
            let (status, rule, missing) = numbers_of(gap.error);
            println!("gap {} {} {status} {rule} {missing}", gap.offset, gap.len);
        }
        _ => println!("another kind"),
    }
}

fn status_of(error: Option<Error>) -> u8 {
    match error {
        Some(Error::NoMemory) => 4,
        Some(Error::Incomplete(_)) | None => 3,
        Some(_) => 1,
    }
}

fn list_stream(stream: impl Read) -> u8 {
    let mut reader = Reader::new(stream).lenient();
    loop {
        match reader.next_found() {
            Ok(Some(found)) => print(&found),
            Ok(None) => return 0,
            Err(error) => return status_of(Error::of_io(&error)),
        }
    }
}

fn list(bytes: &[u8]) -> u8 {
    for found in Lenient::parse(bytes) {
        match found {
            Ok(found) => print(&found),
            Err(error) => return status_of(Some(error)),
        }
    }
    0
}

fn main() -> ExitCode {
    let words: Vec<_> = std::env::args().skip(1).collect();
    let status = match (&words[..], words.last().map(File::open)) {
        ([_, most, _], Some(Ok(stream))) => list_stream(Few { stream, most: most.parse().unwrap_or(1) }),
        ([path], _) => std::fs::read(path).map_or(4, |bytes| list(&bytes)),
        _ => 4,
    };
    ExitCode::from(status)
}
