//! Reads and writes packet captures, pcap and PcapNg, in slices and streams, with the C library `pcapfile`. The library is
//! proved, or C that is generated from the proved code.
//!
//! ```
//! # let bytes: &[u8] = b"\xd4\xc3\xb2\xa1\x02\0\x04\0\0\0\0\0\0\0\0\0\xff\xff\0\0\x01\0\0\0";
//! for packet in pcapfile::Capture::parse(bytes)? {
//!     let packet = packet?;
//!     println!("{}.{:09} {}", packet.seconds, packet.nanoseconds, packet.data.len());
//! }
//! # Ok::<(), pcapfile::Error>(())
//! ```

#![no_std]
#![warn(missing_docs)]

#[cfg(feature = "std")]
extern crate std;

mod as_is;
mod blocks;
mod blocks_as_is;
mod calls;
#[cfg(feature = "std")]
mod lenient;
#[cfg(feature = "std")]
mod packet;
#[cfg(feature = "std")]
mod reader;
mod rules;
mod time;
#[cfg(feature = "std")]
mod writer;

pub use as_is::{Flaws, PacketAsIs, PacketsAsIs};
pub use blocks::{Block, BlockOption, BlockPacket, Blocks, Interface, NameRecord, Names, Options, Records, Section};
pub use blocks_as_is::{BlockAsIs, BlockFlaw, BlocksAsIs};
#[cfg(feature = "std")]
pub use lenient::{Found, Gap, Lenient, LenientReader};
#[cfg(feature = "std")]
pub use packet::{AnyPacket, OwnedBlock, OwnedOption, OwnedPacket, PacketOptions};
#[cfg(feature = "std")]
pub use reader::{OwnedBlocks, Packets, Reader};
pub use rules::Rule;
pub use time::{OutOfRange, Time};
#[cfg(feature = "std")]
pub use writer::{BlockWriter, WriteError, Writer};

use core::fmt;

/// The header of a capture.
#[repr(C)]
#[derive(Clone, Copy, Debug, Default, PartialEq, Eq)]
pub struct Header {
    /// The magic number, read with the high byte first: a1b2c3d4, d4c3b2a1, a1b23c4d or 4d3cb2a1.
    pub magic_number: u32,
    /// The major version, in practice 2.
    pub version_major: u16,
    /// The minor version, in practice 4.
    pub version_minor: u16,
    /// Seconds to add to each time for UTC; 0 in practice.
    pub ts_correction: i32,
    /// How exact the times are; 0 in practice.
    pub ts_accuracy: u32,
    /// The snapshot length: the most bytes that are stored for each packet.
    pub snaplen: u32,
    /// The number of the link type of the packets' first layer.
    pub link: u32,
}

impl Header {
    /// Returns the link type in the low 16 bits of `link`.
    pub fn link_type(&self) -> u32 {
        link_type(self.link)
    }

    /// Returns the length in bytes of the frame check sequence with which each packet ends. None if `link` declares no length.
    pub fn fcs_len(&self) -> Option<u8> {
        fcs_len(self.link)
    }
}

/// Returns the link type in the number of a classic header: its low 16 bits. Above them the header may declare a length of the frame check
/// sequence. The number of a PcapNg interface is the link type itself.
///
/// ```
/// assert_eq!(pcapfile::link_type(0x2400_0001), 1);
/// ```
pub fn link_type(number: u32) -> u32 {
    // SAFETY: the call takes a number and returns a number.
    unsafe { calls::pcapfile_link_type(number) }
}

/// Returns the length in bytes of the frame check sequence with which each packet ends, as the number of a link type in a classic
/// header declares it: twice its bits 28 to 31 if bit 26 is set. None if it declares no length. The data of a packet include the sequence.
///
/// ```
/// assert_eq!((pcapfile::fcs_len(0x2400_0001), pcapfile::fcs_len(1)), (Some(4), None));
/// ```
pub fn fcs_len(number: u32) -> Option<u8> {
    // SAFETY: the call takes a number and returns a number.
    u8::try_from(unsafe { calls::pcapfile_fcs_len(number) }).ok()
}

/// A packet of a capture. Its bytes are a part of the capture.
#[derive(Clone, Copy, Debug, PartialEq, Eq)]
pub struct Packet<'a> {
    /// The time of the packet, in seconds since 1970.
    pub seconds: u32,
    /// Nanoseconds, whatever the capture's resolution is. They may be a second or more.
    pub nanoseconds: u32,
    /// How many bytes the packet had on the wire.
    pub original_len: u32,
    /// The stored bytes.
    pub data: &'a [u8],
}

impl Packet<'_> {
    /// Returns the time of the packet, with less than a second of nanoseconds.
    pub fn time(&self) -> Time {
        Time { seconds: i64::from(self.seconds) + i64::from(self.nanoseconds / 1_000_000_000), nanoseconds: self.nanoseconds % 1_000_000_000 }
    }
}

/// The reason why a capture is refused.
#[derive(Clone, Copy, Debug, PartialEq, Eq, Hash)]
#[non_exhaustive]
pub enum Error {
    /// The bytes end inside a header, a packet or a block. At least this many more are needed.
    Incomplete(usize),
    /// The bytes break this rule, and more bytes would not change that.
    Invalid(Rule),
    /// A value in a block is too short.
    BadValue,
    /// A string in a block is not UTF-8.
    NotUtf8,
    /// An allocation failed.
    NoMemory,
    /// The stored length of a packet is wrong, though it may break no rule. Lenient reading gives the packet its original length, or the
    /// snapshot length if that is less.
    WrongLength,
}

impl Error {
    /// Returns the broken rule.
    pub fn rule(self) -> Option<Rule> {
        match self {
            Error::Invalid(rule) => Some(rule),
            _ => None,
        }
    }

    /// Returns the reason inside an error of a reader or writer. None if the stream failed.
    ///
    /// ```
    /// use pcapfile::{Error, Reader};
    ///
    /// let failed = Reader::new(&b"\xd4\xc3"[..]).next_packet().unwrap_err();
    /// assert_eq!(Error::of_io(&failed), Some(Error::Incomplete(22)));
    /// ```
    #[cfg(feature = "std")]
    pub fn of_io(error: &std::io::Error) -> Option<Error> {
        error.get_ref()?.downcast_ref().copied()
    }

    fn of(status: i32, error: calls::Error) -> Error {
        match status {
            1 => Error::Incomplete(error.missing),
            2 => Error::BadValue,
            4 => Error::NotUtf8,
            6 => Error::NoMemory,
            _ => Error::Invalid(Rule::from_number(error.rule).expect("the library names one of its rules")),
        }
    }
}

impl fmt::Display for Error {
    fn fmt(&self, f: &mut fmt::Formatter<'_>) -> fmt::Result {
        match *self {
            Error::Incomplete(1) => f.write_str("the capture is truncated: at least 1 byte is missing"),
            Error::Incomplete(missing) => write!(f, "the capture is truncated: at least {missing} bytes are missing"),
            Error::Invalid(rule) => rule.fmt(f),
            Error::BadValue => f.write_str("a value in a block is too short"),
            Error::NotUtf8 => f.write_str("a string in a block is not UTF-8"),
            Error::NoMemory => f.write_str("memory was refused"),
            Error::WrongLength => f.write_str("the stored length of the packet is wrong"),
        }
    }
}

impl core::error::Error for Error {}

#[cfg(feature = "std")]
impl From<Error> for std::io::Error {
    /// Makes an error of a stream: `UnexpectedEof` if bytes are missing, otherwise `InvalidData`.
    fn from(error: Error) -> std::io::Error {
        let kind = match error {
            Error::Incomplete(_) => std::io::ErrorKind::UnexpectedEof,
            _ => std::io::ErrorKind::InvalidData,
        };
        std::io::Error::new(kind, error)
    }
}

/// A capture: its header, and an iterator over its packets. If the capture is truncated or malformed, the error is the last
/// item.
#[derive(Clone, Debug)]
pub struct Capture<'a> {
    header: Header,
    left: &'a [u8],
    is_done: bool,
}

impl<'a> Capture<'a> {
    /// Reads the header of the capture at the front of these bytes.
    pub fn parse(bytes: &'a [u8]) -> Result<Capture<'a>, Error> {
        let mut left = calls::Bytes::of(bytes);
        let mut header = Header::default();
        let mut error = calls::Error::default();
        // SAFETY: each pointer points to a value of its own, and `left` is a slice's.
        let status = unsafe { calls::pcapfile_take_header(&mut left, &mut header, &mut error) };
        if status != 0 {
            return Err(Error::of(status, error));
        }
        Ok(Capture::at(header, &bytes[bytes.len() - left.len..]))
    }

    /// Reads the packets at the front of these bytes, under a header that came before them.
    fn at(header: Header, left: &'a [u8]) -> Capture<'a> {
        Capture { header, left, is_done: false }
    }

    /// Returns the header of the capture.
    pub fn header(&self) -> &Header {
        &self.header
    }

    /// Returns the bytes after the packets that the iterator has returned.
    pub fn rest(&self) -> &'a [u8] {
        self.left
    }

    pub(crate) fn take_one(&mut self) -> Result<Packet<'a>, Error> {
        let mut left = calls::Bytes::of(self.left);
        let mut packet = calls::Packet { ts_sec: 0, ts_nsec: 0, orig_len: 0, bytes: calls::Bytes::of(b"") };
        let mut error = calls::Error::default();
        // SAFETY: each pointer points to a value of its own, and `left` is a slice's.
        let status = unsafe { calls::pcapfile_take_packet(&self.header, &mut left, &mut packet, &mut error) };
        if status != 0 {
            return Err(Error::of(status, error));
        }
        let text = self.left.len() - left.len;
        let data = &self.left[text - packet.bytes.len..text];
        debug_assert_eq!(data.as_ptr(), packet.bytes.ptr);
        self.left = &self.left[text..];
        Ok(Packet { seconds: packet.ts_sec, nanoseconds: packet.ts_nsec, original_len: packet.orig_len, data })
    }
}

impl<'a> Iterator for Capture<'a> {
    type Item = Result<Packet<'a>, Error>;

    fn next(&mut self) -> Option<Self::Item> {
        if self.is_done || self.left.is_empty() {
            return None;
        }
        let taken = self.take_one();
        self.is_done = taken.is_err();
        Some(taken)
    }
}
