//! Captures that come from streams.

use crate::calls;
use crate::packet::{Frames, Source};
use crate::{AnyPacket, Block, Error, Header, Interface, LenientReader, Options, OwnedBlock, OwnedPacket, Rule, Section, Time};
use core::fmt;
use std::fs::File;
use std::io::{self, Read};
use std::path::Path;
use std::vec::Vec;

/// How many bytes to read from a stream at once, unless a packet needs more.
const CHUNK: usize = 1 << 18;
/// How many packets one call of the library takes at most.
const BATCH: usize = 64;
const SECTION: [u8; 4] = [0x0a, 0x0d, 0x0d, 0x0a];
const OK: i32 = 0;
const INCOMPLETE: i32 = 1;
const NO_MEMORY: i32 = 6;
const NO_PLACE: i32 = 11;

/// Reads packets of a capture of either format from a stream, with a buffer that grows to what one packet or block needs. It
/// reads more than a packet at once, so the stream needs no buffer of its own. It also keeps the options of the section in force
/// and of its interfaces. Its memory does not grow with the number of packets.
///
/// It is an iterator over owned packets:
///
/// ```
/// use pcapfile::Reader;
///
/// # let file: &[u8] = b"\xd4\xc3\xb2\xa1\x02\0\x04\0\0\0\0\0\0\0\0\0\xff\xff\0\0\x01\0\0\0\x07\0\0\0\x08\0\0\0\x02\0\0\0\x02\0\0\0ab";
/// for packet in Reader::new(file) {
///     let packet = packet?;
///     println!("{:?} {:?} {} bytes", packet.link_type(), packet.system_time(), packet.data.len());
///     for comment in packet.comments() {
///         println!("    {comment}");
///     }
/// }
/// # Ok::<(), std::io::Error>(())
/// ```
///
/// An error of the stream, such as `WouldBlock`, is an item, and the next item is the packet that follows: nothing is lost. So is a
/// PcapNg packet with a malformed body. Any other error is the last item. After `UnexpectedEof` the iterator goes on if the
/// stream has grown.
pub struct Reader<R> {
    stream: R,
    pub(crate) room: Vec<u8>,
    /// Which bytes of the buffer are held. For a classic capture it also has the header, whose magic number is 0 until the
    /// reader has read it.
    pub(crate) push: calls::Push,
    /// For a PcapNg capture the section in force, whose magic number is likewise 0 at first.
    pub(crate) section: Section,
    pub(crate) interfaces: Vec<Interface>,
    /// The options of the section in force, and of its interfaces.
    section_options: Vec<u8>,
    interface_options: Vec<Vec<u8>>,
    /// How many bytes of the capture came before the first byte of the buffer.
    gone: u64,
    /// Whether the library refused the item at the front of the held bytes.
    has_refused: bool,
    /// Where the iterator reported a refusal.
    reported: Option<u64>,
    /// What the last call took from a classic capture, and from a PcapNg one.
    packets: Vec<calls::Packet>,
    ng_packets: Vec<calls::AnyPacket>,
}

// SAFETY: its pointers point into its own buffer, and are read only while that is lent.
unsafe impl<R: Send> Send for Reader<R> {}
// SAFETY: nothing reads them behind a shared reference.
unsafe impl<R: Sync> Sync for Reader<R> {}

impl<R: fmt::Debug> fmt::Debug for Reader<R> {
    fn fmt(&self, f: &mut fmt::Formatter<'_>) -> fmt::Result {
        let mut shown = f.debug_struct("Reader");
        shown.field("stream", &self.stream).field("offset", &(self.gone + self.push.begin as u64));
        shown.field("header", &self.push.header).field("section", &self.section).finish_non_exhaustive()
    }
}

impl Reader<File> {
    /// Opens the capture in this file.
    pub fn open(path: impl AsRef<Path>) -> io::Result<Reader<File>> {
        Ok(Reader::new(File::open(path)?))
    }
}

impl<R: Read> Reader<R> {
    /// Makes a reader of the capture that begins with the stream's first byte. It reads nothing yet.
    pub fn new(stream: R) -> Reader<R> {
        let bytes = calls::Bytes::of(b"");
        let none = calls::Packet { ts_sec: 0, ts_nsec: 0, orig_len: 0, bytes };
        let time = Time::default();
        let none_of_any =
            calls::AnyPacket { link: 0, interface_id: 0, has_interface: 0, has_time: 0, orig_len: 0, time, bytes };
        Reader {
            stream,
            room: Vec::new(),
            push: calls::Push::default(),
            section: Section::default(),
            interfaces: Vec::new(),
            section_options: Vec::new(),
            interface_options: Vec::new(),
            gone: 0,
            has_refused: false,
            reported: None,
            packets: std::vec![none; BATCH],
            ng_packets: std::vec![none_of_any; BATCH],
        }
    }

    /// Returns the next packet, and skips blocks of other kinds. None after the last packet.
    ///
    /// It fails with `UnexpectedEof` over `Error::Incomplete` if the stream ends inside a header, a packet or a block. It fails
    /// with `InvalidData` over another `Error` if the capture is refused. Other errors are those of the stream, except
    /// `Interrupted`, after which it reads again. A call after an error goes on if the stream does, and after a PcapNg packet
    /// whose body was refused. Otherwise it returns the same error again.
    pub fn next_packet(&mut self) -> io::Result<Option<AnyPacket<'_>>> {
        Ok(self.take_some(1)?.next())
    }

    /// Returns as many packets as are whole in the bytes read so far, at least one and at most 64. All are lent together. None
    /// after the last packet. If a refused item follows some of them, the next call reports it. Errors are those of
    /// `next_packet`.
    pub fn next_packets(&mut self) -> io::Result<Packets<'_>> {
        self.take_some(BATCH)
    }

    /// Returns the next block of a PcapNg capture, of any kind. None after the last block. The calls of the block read its packet,
    /// its interface and its options. The reader's `interfaces`, `section_options` and `interface_options` then include the block.
    ///
    /// Errors are those of `next_packet`, but only for the block's frame, and for the bodies of section headers and interfaces. A
    /// classic capture is refused with `Rule::SectionMissing`.
    pub fn next_block(&mut self) -> io::Result<Option<Block<'_>>> {
        if self.header().is_some() {
            return Err(Error::Invalid(Rule::SectionMissing).into());
        }
        let before = loop {
            let (begin, section) = (self.push.begin, self.section);
            let mut error = calls::Error::default();
            match self.push_block(&mut error) {
                OK => break Frames::new(section, &self.room[begin..self.push.begin]),
                INCOMPLETE => {
                    if self.read_more(error.missing)? > 0 {
                        continue;
                    }
                    if self.push.begin == self.push.end && self.has_begun() {
                        return Ok(None);
                    }
                    return Err(Error::of(INCOMPLETE, error).into());
                }
                status => return Err(Error::of(status, error).into()),
            }
        };
        self.has_refused = false;
        let Some(block) = before.clone().next() else { return Ok(None) };
        let interface = if block.type_ == 1 { block.interface().ok().flatten() } else { None };
        if let (Some(interface), Some(number)) = (interface, block.section().interfaces.checked_sub(1)) {
            let number = number as usize;
            self.interfaces.resize(self.interfaces.len().max(number + 1), Interface::default());
            self.interfaces[number] = interface;
        }
        keep_options(before, &mut self.section_options, &mut self.interface_options);
        Ok(Some(block))
    }

    /// Returns an iterator over owned blocks of a PcapNg capture, from the next one on. Errors of the stream are items between them.
    /// Any other error is the last item.
    pub fn blocks(&mut self) -> OwnedBlocks<'_, R> {
        OwnedBlocks { reader: self }
    }

    /// Reads leniently, from the next packet or block on: it continues after corrupt bytes and reports each as a gap.
    pub fn lenient(self) -> LenientReader<R> {
        LenientReader::of(self)
    }

    /// Returns how many bytes of the capture come before what the next call reads. After a refusal the refused item begins
    /// there.
    pub fn offset(&self) -> u64 {
        self.gone + self.push.begin as u64
    }

    /// Returns the header of a classic capture, after the first call for a packet.
    pub fn header(&self) -> Option<&Header> {
        (self.push.header.magic_number != 0).then_some(&self.push.header)
    }

    /// Returns the section in force in a PcapNg capture after the returned packets, once the first call was made.
    pub fn section(&self) -> Option<&Section> {
        (self.section.magic_number != 0).then_some(&self.section)
    }

    /// Returns the interfaces of the section in force, by their numbers; none for a classic capture.
    pub fn interfaces(&self) -> &[Interface] {
        &self.interfaces[..self.section.interfaces as usize]
    }

    /// Returns an iterator over the options of the section in force in a PcapNg capture, as 2 for the hardware, 3 for the operating
    /// system, and 4 for the application.
    pub fn section_options(&self) -> Options<'_> {
        Options::of(self.section, &self.section_options)
    }

    /// Returns an iterator over the options of an interface of the section in force, by its number. It is empty if there is no such
    /// interface.
    pub fn interface_options(&self, interface_id: u32) -> Options<'_> {
        let options = self.interface_options.get(interface_id as usize);
        Options::of(self.section, options.map_or(&[], Vec::as_slice))
    }

    /// Returns the stream, without the bytes that the reader has read from it.
    pub fn into_inner(self) -> R {
        self.stream
    }

    /// Returns the stream. The reader may have read bytes after the returned packets from it.
    pub fn get_ref(&self) -> &R {
        &self.stream
    }

    pub(crate) fn has_begun(&self) -> bool {
        self.header().is_some() || self.section().is_some()
    }

    /// Returns whether the capture is PcapNg: the header or section in force decides, or before that the first bytes.
    pub(crate) fn is_ng(&self) -> bool {
        if self.has_begun() {
            return self.section().is_some();
        }
        self.room[self.push.begin..self.push.end].starts_with(&SECTION)
    }

    /// Takes at most this many packets, and reads until there is one.
    fn take_some(&mut self, most: usize) -> io::Result<Packets<'_>> {
        self.pass_refused()?;
        let (taken, begin, section) = loop {
            let (mut error, begin, section) = (calls::Error::default(), self.push.begin, self.section);
            let (status, taken) = self.take(most, &mut error);
            if self.is_ng() {
                let frames = Frames::new(section, &self.room[begin..self.push.begin]);
                keep_options(frames, &mut self.section_options, &mut self.interface_options);
            }
            match status {
                _ if taken > 0 => break (taken, begin, section),
                INCOMPLETE => {
                    if self.read_more(error.missing)? > 0 {
                        continue;
                    }
                    if self.push.begin == self.push.end && self.has_begun() {
                        break (0, self.push.begin, self.section);
                    }
                    return Err(Error::of(status, error).into());
                }
                NO_PLACE => self.interfaces.resize(self.interfaces.len() * 2 + 1, Interface::default()),
                _ => {
                    self.has_refused = status != NO_MEMORY;
                    return Err(Error::of(status, error).into());
                }
            }
        };
        let is_ng = self.is_ng();
        Ok(Packets {
            room: &self.room,
            frames: Frames::new(section, if is_ng { &self.room[begin..self.push.begin] } else { &[] }),
            link: self.push.header.link,
            packets: if is_ng { [].iter() } else { self.packets[..taken].iter() },
            ng_packets: if is_ng { self.ng_packets[..taken].iter() } else { [].iter() },
        })
    }

    /// Skips a packet whose body the last call refused. Any other refused item is refused again.
    fn pass_refused(&mut self) -> io::Result<()> {
        if !self.has_refused || !self.is_ng() {
            return Ok(());
        }
        let mut error = calls::Error::default();
        let status = self.push_block(&mut error);
        self.has_refused = status != OK;
        match status {
            OK => Ok(()),
            _ => Err(Error::of(status, error).into()),
        }
    }

    /// Takes a block from the held bytes, and returns the status of that.
    fn push_block(&mut self, error: &mut calls::Error) -> i32 {
        let mut block = calls::Block { type_: 0, body: calls::Bytes::of(b"") };
        let room = &self.room;
        // SAFETY: each pointer points to a value of its own, and the buffer is a slice's.
        unsafe {
            calls::pcapfile_push_block(&mut self.push, &mut self.section, room.as_ptr(), room.len(), &mut block, error)
        }
    }

    /// Takes at most this many packets from the held bytes. Returns why there are no more, and how many it took.
    fn take(&mut self, most: usize, error: &mut calls::Error) -> (i32, usize) {
        let (mut taken, is_ng, room) = (0, self.is_ng(), &self.room);
        // SAFETY: each pointer points to a value of its own, and the buffer and the arrays are slices', `most` places of them.
        let status = unsafe {
            if is_ng {
                calls::pcapfile_push_ng_packets(
                    &mut self.push,
                    &mut self.section,
                    room.as_ptr(),
                    room.len(),
                    self.interfaces.as_mut_ptr(),
                    self.interfaces.len(),
                    self.ng_packets[..most].as_mut_ptr(),
                    most,
                    &mut taken,
                    error,
                )
            } else {
                calls::pcapfile_push_packets(
                    &mut self.push,
                    room.as_ptr(),
                    room.len(),
                    self.packets[..most].as_mut_ptr(),
                    most,
                    &mut taken,
                    error,
                )
            }
        };
        (status, taken)
    }

    /// Moves the held bytes to the front of the buffer, and reads once after them. Returns how many bytes came.
    pub(crate) fn read_more(&mut self, missing: usize) -> io::Result<usize> {
        let len = self.push.end - self.push.begin;
        self.gone += self.push.begin as u64;
        self.room.copy_within(self.push.begin..self.push.end, 0);
        (self.push.begin, self.push.end) = (0, len);
        // At most twice the held bytes, so that a corrupt length allocates nothing for bytes that never arrive.
        let wanted = len + missing.min(len).max(CHUNK);
        if self.room.len() < wanted {
            self.room.try_reserve(wanted - self.room.len())?;
            self.room.resize(wanted, 0);
        }
        let count = loop {
            match self.stream.read(&mut self.room[len..]) {
                Err(error) if error.kind() == io::ErrorKind::Interrupted => {}
                read => break read?,
            }
        };
        self.push.end += count;
        Ok(count)
    }
}

impl<R: Read> Iterator for Reader<R> {
    type Item = io::Result<OwnedPacket>;

    fn next(&mut self) -> Option<io::Result<OwnedPacket>> {
        let error = match self.next_packet() {
            Ok(packet) => return packet.map(|packet| Ok(packet.into_owned())),
            Err(error) => error,
        };
        self.is_news(&error).then_some(Err(error))
    }
}

impl<R: Read> Reader<R> {
    /// Returns whether an iterator has not returned this error already. An error of the stream is always news.
    fn is_news(&mut self, error: &io::Error) -> bool {
        if Error::of_io(error).is_none() {
            return true;
        }
        let place = Some(self.offset());
        core::mem::replace(&mut self.reported, place) != place
    }
}

/// An iterator over owned blocks of a PcapNg capture that comes from a stream.
#[derive(Debug)]
pub struct OwnedBlocks<'r, R> {
    reader: &'r mut Reader<R>,
}

impl<R: Read> Iterator for OwnedBlocks<'_, R> {
    type Item = io::Result<OwnedBlock>;

    fn next(&mut self) -> Option<io::Result<OwnedBlock>> {
        let error = match self.reader.next_block() {
            Ok(block) => return block.map(|block| Ok(block.into())),
            Err(error) => error,
        };
        self.reader.is_news(&error).then_some(Err(error))
    }
}

/// Keeps the options of section headers and interfaces among these blocks.
fn keep_options(blocks: Frames<'_>, of_section: &mut Vec<u8>, of_interfaces: &mut Vec<Vec<u8>>) {
    for block in blocks {
        if !Block::changes_section(block.type_) {
            continue;
        }
        let options = block.options().map_or(&[][..], |options| options.rest());
        if block.section().interfaces == 0 {
            of_interfaces.clear();
            of_section.clear();
            of_section.extend_from_slice(options);
        } else {
            of_interfaces.push(options.to_vec());
        }
    }
}

/// Packets of a capture, which are lent together.
#[derive(Clone)]
pub struct Packets<'a> {
    room: &'a [u8],
    /// The blocks of the packets, with others between them.
    frames: Frames<'a>,
    link: u32,
    packets: core::slice::Iter<'a, calls::Packet>,
    ng_packets: core::slice::Iter<'a, calls::AnyPacket>,
}

// SAFETY: its pointers are compared with the buffer that it borrows, and never read.
unsafe impl Send for Packets<'_> {}
// SAFETY: likewise.
unsafe impl Sync for Packets<'_> {}

impl fmt::Debug for Packets<'_> {
    fn fmt(&self, f: &mut fmt::Formatter<'_>) -> fmt::Result {
        f.debug_list().entries(self.clone()).finish()
    }
}

impl<'a> Packets<'a> {
    /// Returns these bytes, which the library lends, as a part of the buffer.
    fn lent(&self, bytes: calls::Bytes) -> &'a [u8] {
        if bytes.len == 0 {
            return &[];
        }
        let at = bytes.ptr as usize - self.room.as_ptr() as usize;
        &self.room[at..at + bytes.len]
    }

    fn next_ng(&mut self) -> Option<AnyPacket<'a>> {
        let packet = self.ng_packets.next()?;
        let block = self.frames.by_ref().find(|block| matches!(block.type_, 2 | 3 | 6));
        Some(AnyPacket {
            link: (packet.has_interface != 0).then_some(packet.link),
            interface_id: packet.interface_id,
            time: (packet.has_time != 0).then_some(packet.time),
            original_len: packet.orig_len,
            data: self.lent(packet.bytes),
            source: block.map_or(Source::None, Source::Block),
        })
    }

    fn next_classic(&mut self) -> Option<AnyPacket<'a>> {
        let packet = self.packets.next()?;
        Some(AnyPacket {
            link: Some(self.link),
            interface_id: 0,
            time: Some(Time { seconds: packet.ts_sec.into(), nanoseconds: packet.ts_nsec }),
            original_len: packet.orig_len,
            data: self.lent(packet.bytes),
            source: Source::None,
        })
    }
}

impl<'a> Iterator for Packets<'a> {
    type Item = AnyPacket<'a>;

    fn next(&mut self) -> Option<AnyPacket<'a>> {
        self.next_ng().or_else(|| self.next_classic())
    }

    fn size_hint(&self) -> (usize, Option<usize>) {
        let len = self.ng_packets.len() + self.packets.len();
        (len, Some(len))
    }
}

impl ExactSizeIterator for Packets<'_> {}
