//! Lenient reading of damaged captures of either format, from slices and streams: packets, and gaps where bytes are corrupt.

use crate::blocks::{Block, Interface, Section};
use crate::calls;
use crate::packet::Source;
use crate::{AnyPacket, BlockAsIs, Blocks, Capture, Error, Header, OwnedPacket, PacketAsIs, Reader, Time};
use core::ops::Range;
use std::io::{self, Read};
use std::vec::Vec;

const MAGIC_OF_SECTION: [u8; 4] = [0x0a, 0x0d, 0x0d, 0x0a];
/// The length of a packet's header, and of a capture's.
const PACKET_HEADER: usize = 16;
const CAPTURE_HEADER: usize = 24;
/// The most bytes that a packet of a classic capture may store, unless another limit is set, and that a block may have, unless the limit is
/// larger.
const LIMIT: u32 = 1 << 24;
/// The most bytes that a sound packet stores, and the least limit.
const PACKET_LIMIT: u32 = 1 << 18;
/// The most bytes from a packet on that can show its right length.
const MOST_JUDGED: usize = 5 * (PACKET_HEADER + PACKET_LIMIT as usize);

/// A part of a capture that has no packets: it is corrupt or truncated, or it is a packet's block whose body has no room for a packet.
#[derive(Clone, Copy, Debug, PartialEq, Eq)]
#[non_exhaustive]
pub struct Gap {
    /// How many bytes of the capture are before it.
    pub offset: u64,
    /// How many bytes it has.
    pub len: u64,
    /// Why its first item is refused. None if it breaks no rule: bytes that are all zero, a packet of a wrong length, one without data that
    /// none follows, the frame of a block above the limit, or the header of another classic capture.
    pub error: Option<Error>,
}

/// What lenient reading finds: a packet or a gap. More kinds may come.
#[derive(Clone, Copy, Debug, PartialEq, Eq)]
#[non_exhaustive]
pub enum Found<P> {
    /// A packet, and its first flaw. None if it has no flaw.
    Packet {
        /// The packet.
        packet: P,
        /// Why strict reading refuses it, or `Error::WrongLength` if its stored length is wrong and `packet` has the right one.
        flaw: Option<Error>,
    },
    /// A gap.
    Gap(Gap),
}

impl<P> Found<P> {
    /// Returns the packet. None for a gap.
    pub fn packet(self) -> Option<P> {
        match self {
            Found::Packet { packet, .. } => Some(packet),
            Found::Gap(_) => None,
        }
    }

    /// Returns the gap. None for a packet.
    pub fn gap(&self) -> Option<Gap> {
        match *self {
            Found::Gap(gap) => Some(gap),
            Found::Packet { .. } => None,
        }
    }
}

impl Found<AnyPacket<'_>> {
    /// Copies the packet with its bytes and options.
    pub fn into_owned(self) -> Found<OwnedPacket> {
        match self {
            Found::Packet { packet, flaw } => Found::Packet { packet: packet.into_owned(), flaw },
            Found::Gap(gap) => Found::Gap(gap),
        }
    }
}

/// A packet at the front of some bytes, and where its bytes are.
#[derive(Clone, Debug)]
struct Taken {
    used: usize,
    flaw: Option<Error>,
    link: Option<u32>,
    interface_id: u32,
    time: Option<Time>,
    original_len: u32,
    data: Range<usize>,
    /// The type of its block, and what applies to it. The body is the block without its first 8 bytes and its last 4.
    block: Option<(u32, Section)>,
}

impl Taken {
    fn packet<'b>(&self, bytes: &'b [u8]) -> AnyPacket<'b> {
        let block = |(type_, section)| Source::Block(Block::of(type_, &bytes[8..self.used - 4], section));
        AnyPacket {
            link: self.link,
            interface_id: self.interface_id,
            time: self.time,
            original_len: self.original_len,
            data: &bytes[self.data.clone()],
            source: self.block.map_or(Source::None, block),
        }
    }
}

/// What is at the front of some bytes.
enum Step {
    /// A packet.
    Packet(Taken),
    /// So many bytes without a packet, which are as they should be.
    Skip(usize),
    /// So many corrupt bytes, and whether reading goes on after them.
    Corrupt(usize, Option<Error>, bool),
    /// At least so many more bytes are needed.
    More(usize),
    End,
    Fail(Error),
}

/// What is known of a capture between two steps.
#[derive(Clone, Debug)]
struct Walk {
    /// The header of a classic capture. Its magic number is 0 before it was read.
    header: Header,
    section: Section,
    is_ng: bool,
    /// The interfaces by number. None for one whose body has no room for its numbers.
    interfaces: Vec<Option<Interface>>,
    limit: u32,
    /// The time of the last packet of a classic capture, in seconds.
    time: Option<u32>,
    /// A gap whose end is not known yet.
    gap: Option<Gap>,
    is_done: bool,
}

impl Default for Walk {
    fn default() -> Walk {
        Walk {
            header: Header::default(),
            section: Section::default(),
            is_ng: false,
            interfaces: Vec::new(),
            limit: LIMIT,
            time: None,
            gap: None,
            is_done: false,
        }
    }
}

impl Walk {
    /// Takes what is at the front of these bytes, which end the capture if `is_end`.
    fn step(&mut self, bytes: &[u8], is_end: bool) -> Step {
        if !self.is_ng && self.header.magic_number == 0 {
            return self.begin(bytes, is_end);
        }
        match (bytes.is_empty(), is_end) {
            (true, true) => Step::End,
            _ if self.gap.is_some() => self.skip(bytes, is_end),
            _ if self.is_ng => self.step_ng(bytes, is_end),
            _ => self.step_after_header(bytes, is_end),
        }
    }

    /// Takes the header of another classic capture, which then applies, or what else is at the front.
    fn step_after_header(&mut self, bytes: &[u8], is_end: bool) -> Step {
        match capture_at(bytes) {
            Err(missing) if !is_end => Step::More(missing),
            Ok(Some(header)) => {
                self.header = header;
                self.time = None;
                Step::Corrupt(CAPTURE_HEADER, None, true)
            }
            _ => self.step_classic(bytes, is_end),
        }
    }

    /// Reads the header of a classic capture, or finds that the capture is PcapNg.
    fn begin(&mut self, bytes: &[u8], is_end: bool) -> Step {
        if bytes.len() >= 4 && bytes.starts_with(&MAGIC_OF_SECTION) {
            self.is_ng = true;
            return Step::Skip(0);
        }
        match Capture::parse(bytes) {
            Ok(capture) => {
                self.header = *capture.header();
                Step::Skip(bytes.len() - capture.rest().len())
            }
            Err(Error::Incomplete(missing)) if !is_end => Step::More(missing),
            Err(error) => Step::Fail(error),
        }
    }

    fn step_classic(&mut self, bytes: &[u8], is_end: bool) -> Step {
        let mut packets = Capture::at(self.header, bytes).as_is(self.limit);
        match packets.take_one() {
            Ok((found, seconds)) => {
                let used = bytes.len() - packets.rest().len();
                let flaw = found.flaws.first().map(Error::Invalid);
                match judge(&self.header, self.time.unwrap_or(seconds), bytes, is_end) {
                    Judged::Packet => self.packet(&found, seconds, used, flaw),
                    Judged::Length(len) => self.packet(&found, seconds, PACKET_HEADER + len, Some(Error::WrongLength)),
                    Judged::Gap(len) => Step::Corrupt(len, flaw, true),
                    Judged::Corrupt => Step::Corrupt(1, flaw, false),
                    Judged::Missing(missing) => Step::More(missing),
                }
            }
            Err(Error::Incomplete(missing)) if !is_end => Step::More(missing),
            Err(error) => self.step_refused(bytes, is_end, error),
        }
    }

    /// Takes a packet whose stored length was refused, if its original length or the snapshot length is right.
    fn step_refused(&mut self, bytes: &[u8], is_end: bool, error: Error) -> Step {
        let Some(mut head) = bytes.first_chunk::<PACKET_HEADER>().copied() else {
            return Step::Corrupt(1, Some(error), false);
        };
        head[8..12].fill(0); // the stored length
        let mut packets = Capture::at(self.header, &head).as_is(0);
        let Ok((found, seconds)) = packets.take_one() else {
            return Step::Corrupt(1, Some(error), false);
        };
        // The stored bytes are not all among these, so that the result does not depend on how many bytes have come.
        let most = MOST_JUDGED.min(PACKET_HEADER + self.limit.max(PACKET_LIMIT) as usize);
        let front = &bytes[..bytes.len().min(most)];
        match judge(&self.header, self.time.unwrap_or(seconds), front, is_end && bytes.len() <= most) {
            Judged::Length(len) => self.packet(&found, seconds, PACKET_HEADER + len, Some(Error::WrongLength)),
            Judged::Missing(missing) if front.len() < most => Step::More(missing.min(most - front.len())),
            _ => Step::Corrupt(1, Some(error), false),
        }
    }

    /// Returns the packet with these numbers, which has `used` bytes with its header.
    fn packet(&mut self, found: &PacketAsIs<'_>, seconds: u32, used: usize, flaw: Option<Error>) -> Step {
        self.time = Some(seconds);
        Step::Packet(Taken {
            used,
            flaw,
            link: Some(self.header.link),
            interface_id: 0,
            time: Some(found.time),
            original_len: found.original_len,
            data: PACKET_HEADER..used,
            block: None,
        })
    }

    /// Skips corrupt bytes, up to where packets or blocks go on.
    fn skip(&self, bytes: &[u8], is_end: bool) -> Step {
        let (seen, is_all, time) = (calls::Bytes::of(bytes), is_end.into(), self.time.unwrap_or(0));
        let (mut skipped, mut is_over, mut error) = (0, 0, calls::Error::default());
        // SAFETY: each pointer points to a value of its own, and `seen` is a slice's.
        let status = unsafe {
            match self.is_ng {
                true => calls::pcapfile_skip_to_blocks(&self.section, &seen, is_all, &mut skipped, &mut is_over, &mut error),
                false => calls::pcapfile_skip_to_packets(&self.header, time, &seen, is_all, &mut skipped, &mut is_over, &mut error),
            }
        };
        match status {
            0 => Step::Corrupt(skipped, None, is_over != 0),
            _ => Step::More(error.missing),
        }
    }

    fn step_ng(&mut self, bytes: &[u8], is_end: bool) -> Step {
        let limit = LIMIT.max(self.limit) as usize;
        let seen = &bytes[..bytes.len().min(limit)];
        let mut blocks = Blocks::at(self.section, seen).as_is();
        let found = match blocks.take_one() {
            Ok(found) => found,
            Err(Error::NoMemory) => return Step::Fail(Error::NoMemory),
            Err(Error::Incomplete(missing)) if missing > limit - seen.len() => return Step::Corrupt(1, None, false),
            Err(Error::Incomplete(missing)) if !is_end => return Step::More(missing),
            Err(error) => return Step::Corrupt(1, Some(error), false),
        };
        let used = seen.len() - blocks.rest().len();
        self.section = *blocks.section();
        match found.block.type_ {
            0x0a0d_0d0a => self.interfaces.clear(),
            1 => self.interfaces.push(found.interface),
            2 | 3 | 6 => return self.packet_of(&found, bytes, used),
            _ => {}
        }
        Step::Skip(used)
    }

    /// Returns the packet of a block. A block without room for it is a gap.
    fn packet_of(&self, found: &BlockAsIs<'_>, bytes: &[u8], used: usize) -> Step {
        let block = found.block;
        let packet = match found.packet.map_or_else(|| block.packet(), |packet| Ok(Some(packet))) {
            Ok(Some(packet)) => packet,
            Ok(None) => return Step::Skip(used),
            Err(Error::NoMemory) => return Step::Fail(Error::NoMemory),
            Err(error) => return Step::Corrupt(used, Some(error), true),
        };
        let interface = self.interfaces.get(packet.interface_id as usize).copied().flatten();
        let is_simple = block.type_ == 3;
        let mut len = packet.data.len();
        if is_simple {
            let snaplen = interface.map_or(0, |it| it.snaplen as usize);
            len = len.min(packet.original_len as usize).min(if snaplen == 0 { usize::MAX } else { snaplen });
        }
        let begin = if len == 0 { 0 } else { packet.data.as_ptr() as usize - bytes.as_ptr() as usize };
        Step::Packet(Taken {
            used,
            flaw: found.first_flaw().and_then(|flaw| flaw.error()),
            link: interface.map(|it| it.link),
            interface_id: packet.interface_id,
            time: interface.filter(|_| !is_simple).and_then(|it| it.time(packet.timestamp)),
            original_len: packet.original_len,
            data: begin..begin + len,
            block: Some((block.type_, block.section())),
        })
    }

    /// Adds corrupt bytes to the gap. Returns the gap if it has ended.
    fn add_to_gap(&mut self, offset: u64, len: usize, error: Option<Error>, has_ended: bool) -> Option<Gap> {
        let mut gap = self.gap.take().unwrap_or(Gap { offset, len: 0, error });
        gap.len += len as u64;
        if has_ended {
            return Some(gap);
        }
        self.gap = Some(gap);
        None
    }
}

/// Returns the header of version 2.4 of a classic capture at the front of these bytes. Fails with the number of missing bytes.
fn capture_at(bytes: &[u8]) -> Result<Option<Header>, usize> {
    match Capture::parse(bytes) {
        Ok(capture) => Ok(Some(*capture.header()).filter(|it| (it.version_major, it.version_minor) == (2, 4))),
        Err(Error::Incomplete(missing)) => Err(missing),
        Err(_) => Ok(None),
    }
}

/// What the library finds at the front of the bytes of a classic capture.
enum Judged {
    Packet,
    /// A packet with so many bytes of data. Its stored length is wrong.
    Length(usize),
    /// So many corrupt bytes. Behind them packets go on.
    Gap(usize),
    Corrupt,
    Missing(usize),
}

/// Finds out whether the packet at the front of these bytes can be trusted. `time` is that of the packet before.
fn judge(header: &Header, time: u32, bytes: &[u8], is_all: bool) -> Judged {
    let (mut gap, mut length, mut error) = (0, 0, calls::Error::default());
    // SAFETY: each pointer points to a value of its own, and the bytes are a slice's.
    let status = unsafe {
        calls::pcapfile_judge_packet(header, time, &calls::Bytes::of(bytes), is_all.into(), &mut gap, &mut length, &mut error)
    };
    match (status, gap, length) {
        (0, 0, 0) => Judged::Packet,
        (0, 0, _) => Judged::Length(length as usize),
        (0, _, _) => Judged::Gap(gap),
        (1, _, _) => Judged::Missing(error.missing),
        _ => Judged::Corrupt,
    }
}

/// Reads a damaged capture of either format in memory: an iterator over packets that borrow from it, and gaps. Every byte after the
/// capture's header is in a packet or a gap, or in a block of another kind.
///
/// ```
/// use pcapfile::{Found, Lenient};
///
/// # let bytes: &[u8] = b"\xd4\xc3\xb2\xa1\x02\0\x04\0\0\0\0\0\0\0\0\0\xff\xff\0\0\x01\0\0\0\xff\xff\xff";
/// for found in Lenient::parse(bytes) {
///     match found? {
///         Found::Packet { packet, flaw } => println!("{} bytes, flaw {flaw:?}", packet.data.len()),
///         Found::Gap(gap) => println!("{} bytes from {} on are no packets", gap.len, gap.offset),
///         _ => {}
///     }
/// }
/// # assert_eq!(Lenient::parse(bytes).next().unwrap()?.gap().map(|gap| (gap.offset, gap.len)), Some((24, 3)));
/// # Ok::<(), pcapfile::Error>(())
/// ```
///
/// Packets that break a rule are returned with it. A packet of a classic capture has its stored length if a packet within a day follows it,
/// or four near each other do. Otherwise the reader tries its original length, or the snapshot length if that is less. If packets go on
/// there, the packet has that length and the flaw `Error::WrongLength`. If they go on inside its data, the bytes before them are a gap.
/// So are a packet without data that none follows, and the header of another capture, by which the packets after it are read.
///
/// Where reading goes on after corrupt bytes is a guess, since corrupt bytes may look like packets: two packets with data and without a flaw
/// follow each other there within a day of the last packet, or four within a day of each other, or two blocks, or fewer to the end. A block
/// of a known type wins inside one of an unknown type.
///
/// An error is the last item: the bytes do not begin a capture, or an allocation failed.
#[derive(Clone, Debug)]
pub struct Lenient<'a> {
    walk: Walk,
    bytes: &'a [u8],
    at: usize,
}

impl<'a> Lenient<'a> {
    /// Reads these bytes as a capture.
    pub fn parse(bytes: &'a [u8]) -> Lenient<'a> {
        Lenient { walk: Walk::default(), bytes, at: 0 }
    }

    /// Sets the most bytes that a packet of a classic capture may store, 16 MiB if it is not set. Below 262144 it means 262144. A block of
    /// PcapNg may have 16 MiB, or the limit if that is more.
    pub fn limit(mut self, limit: u32) -> Lenient<'a> {
        self.walk.limit = limit;
        self
    }

    /// Returns how many bytes of the capture come before what the iterator returns next.
    pub fn offset(&self) -> u64 {
        self.at as u64
    }
}

impl<'a> Iterator for Lenient<'a> {
    type Item = Result<Found<AnyPacket<'a>>, Error>;

    fn next(&mut self) -> Option<Self::Item> {
        while !self.walk.is_done {
            let left = &self.bytes[self.at..];
            let offset = self.at as u64;
            match self.walk.step(left, true) {
                Step::Packet(taken) => {
                    self.at += taken.used;
                    return Some(Ok(Found::Packet { packet: taken.packet(left), flaw: taken.flaw }));
                }
                Step::Corrupt(len, error, has_ended) => {
                    self.at += len;
                    if let Some(gap) = self.walk.add_to_gap(offset, len, error, has_ended) {
                        return Some(Ok(Found::Gap(gap)));
                    }
                }
                Step::Skip(len) => self.at += len,
                Step::Fail(error) => {
                    self.walk.is_done = true;
                    return Some(Err(error));
                }
                Step::End | Step::More(_) => {
                    self.walk.is_done = true;
                    return self.walk.gap.take().map(|gap| Ok(Found::Gap(gap)));
                }
            }
        }
        None
    }
}

/// Reads a damaged capture of either format from a stream, as `Lenient` reads one in memory. `Reader::lenient` makes it.
///
/// It needs at most some megabytes, or twice the longest packet or block. It returns a packet after the next one has arrived, by which
/// it judges the first.
///
/// ```
/// use pcapfile::{Found, Reader};
///
/// # let file: &[u8] = b"\xd4\xc3\xb2\xa1\x02\0\x04\0\0\0\0\0\0\0\0\0\xff\xff\0\0\x01\0\0\0\xff\xff\xff";
/// for found in Reader::new(file).lenient() {
///     if let Found::Gap(gap) = found? {
///         println!("{} bytes from {} on are no packets", gap.len, gap.offset);
///     }
/// }
/// # Ok::<(), std::io::Error>(())
/// ```
///
/// An error of the stream, such as `WouldBlock`, is an item, and reading goes on after it: nothing is lost. Another error is the last item:
/// the stream does not begin with a capture, or an allocation failed.
#[derive(Debug)]
pub struct LenientReader<R> {
    reader: Reader<R>,
    walk: Walk,
}

impl<R: Read> LenientReader<R> {
    pub(crate) fn of(reader: Reader<R>) -> LenientReader<R> {
        let walk = Walk {
            header: reader.push.header,
            section: reader.section,
            is_ng: reader.section().is_some(),
            interfaces: reader.interfaces().iter().copied().map(Some).collect(),
            ..Walk::default()
        };
        LenientReader { reader, walk }
    }

    /// Sets the limit, as `Lenient::limit` does.
    pub fn limit(mut self, limit: u32) -> LenientReader<R> {
        self.walk.limit = limit;
        self
    }

    /// Returns how many bytes of the capture come before what the next call returns.
    pub fn offset(&self) -> u64 {
        self.reader.offset()
    }

    /// Returns the stream, without the bytes that were read from it.
    pub fn into_inner(self) -> R {
        self.reader.into_inner()
    }

    /// Returns the next packet, lent from the buffer, or the next gap. None after the last one.
    pub fn next_found(&mut self) -> io::Result<Option<Found<AnyPacket<'_>>>> {
        let mut is_end = false;
        let (taken, begin) = loop {
            if self.walk.is_done {
                return Ok(None);
            }
            let (offset, begin) = (self.reader.offset(), self.reader.push.begin);
            match self.walk.step(&self.reader.room[begin..self.reader.push.end], is_end) {
                Step::Packet(taken) => break (taken, begin),
                Step::Corrupt(len, error, has_ended) => {
                    self.reader.push.begin += len;
                    if let Some(gap) = self.walk.add_to_gap(offset, len, error, has_ended) {
                        return Ok(Some(Found::Gap(gap)));
                    }
                }
                Step::Skip(len) => self.reader.push.begin += len,
                Step::More(missing) => is_end = self.reader.read_more(missing)? == 0,
                Step::End => return Ok(self.walk.gap.take().map(Found::Gap)),
                Step::Fail(error) => {
                    self.walk.is_done = true;
                    return Err(error.into());
                }
            }
        };
        self.reader.push.begin += taken.used;
        Ok(Some(Found::Packet { packet: taken.packet(&self.reader.room[begin..]), flaw: taken.flaw }))
    }
}

impl<R: Read> Iterator for LenientReader<R> {
    type Item = io::Result<Found<OwnedPacket>>;

    fn next(&mut self) -> Option<Self::Item> {
        self.next_found().map(|found| found.map(Found::into_owned)).transpose()
    }
}
