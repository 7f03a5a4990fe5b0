//! Writers of captures.

use crate::{calls, AnyPacket, Block, BlockOption, BlockPacket, Error, Header, Interface, Packet, Rule, Section, Time};
use core::fmt;
use std::borrow::Cow;
use std::io::{self, Write};
use std::vec::Vec;

const INCOMPLETE: i32 = 1;
const NO_ROOM: i32 = 9;
/// The status for an option that the library doesn't write.
const BAD_CALL: i32 = 10;

/// Why something cannot be written, besides the rules that `Error` names. It is inside an `io::Error` of the kind `InvalidInput`.
#[derive(Clone, Copy, Debug, PartialEq, Eq, Hash)]
#[non_exhaustive]
pub enum WriteError {
    /// The packet has no time.
    NoTime,
    /// The format, or the unit of the interface, cannot hold the exact time.
    TimeOutOfRange,
    /// The packet has no link type, or another one than the capture or the interface.
    OtherLink,
    /// A value has 65536 bytes or more, or the code of an option is 0, which ends a list, or is one that the writer writes itself.
    BadOption,
    /// The block has the other byte order than the section, and numbers that the writer does not know.
    OtherByteOrder,
    /// The block has a length that is no multiple of 4, or that exceeds 32 bits.
    BadLength,
}

impl WriteError {
    /// Returns the reason inside an error of a writer. None if the reason is another one, or if the stream failed.
    pub fn of_io(error: &io::Error) -> Option<WriteError> {
        error.get_ref()?.downcast_ref().copied()
    }
}

impl fmt::Display for WriteError {
    fn fmt(&self, f: &mut fmt::Formatter<'_>) -> fmt::Result {
        f.write_str(match self {
            WriteError::NoTime => "the packet has no time",
            WriteError::TimeOutOfRange => "the capture cannot hold the exact time of the packet",
            WriteError::OtherLink => "the packet has another link type than the capture or the interface, or none",
            WriteError::BadOption => "an option is too long, or its code is not for callers",
            WriteError::OtherByteOrder => "numbers in the block have the other byte order than the section",
            WriteError::BadLength => "the block's length is no multiple of 4, or exceeds 32 bits",
        })
    }
}

impl std::error::Error for WriteError {}

impl From<WriteError> for io::Error {
    fn from(error: WriteError) -> io::Error {
        io::Error::new(io::ErrorKind::InvalidInput, error)
    }
}

/// Writes a classic capture to a stream, with one call of its `write_all` for the header and for each packet.
#[derive(Debug)]
pub struct Writer<W> {
    out: Out<W>,
    header: Header,
}

impl<W: Write> Writer<W> {
    /// Makes a writer of a capture with this header, and writes the header. Its magic number gives the byte order and the
    /// timestamp resolution.
    ///
    /// It fails with `InvalidInput` over `Error::Invalid` if the magic number is none of the four. Other errors are those of
    /// the stream.
    pub fn new(stream: W, header: Header) -> io::Result<Writer<W>> {
        let mut out = Out::new(stream);
        out.write(|room, room_len, written, error| {
            // SAFETY: the pointers point to values of their own, and into the buffer.
            unsafe { calls::pcapfile_write_header(&header, room, room_len, written, error) }
        })?;
        Ok(Writer { out, header })
    }

    /// Writes a packet. In a capture of microseconds the rest of its nanoseconds is lost. It also writes what a reader refuses:
    /// lengths above 262144, or a stored length above the original one.
    ///
    /// Errors are those of the stream. After one of them every call fails with `Other`, since a part of a packet may have been
    /// written.
    pub fn write_packet(&mut self, packet: &Packet<'_>) -> io::Result<()> {
        let raw = calls::Packet {
            ts_sec: packet.seconds,
            ts_nsec: packet.nanoseconds,
            orig_len: packet.original_len,
            bytes: calls::Bytes::of(packet.data),
        };
        let header = self.header;
        self.out.write(|room, room_len, written, error| {
            // SAFETY: the pointers point to values of their own, and into the buffer; `raw` shows the packet's slice.
            unsafe { calls::pcapfile_write_packet(&header, &raw, room, room_len, written, error) }
        })
    }

    /// Writes a packet of a reader, of either format. A packet without a link type, as one of a `Capture`, counts as one of the header's.
    /// In a capture of microseconds the rest of its nanoseconds is lost. Classic captures have no options: those of the packet are
    /// not written.
    ///
    /// It fails with `InvalidInput` over a `WriteError`: `NoTime`, `OtherLink`, or `TimeOutOfRange` before 1970 and from 2106 on.
    /// Other errors are those of `write_packet`.
    ///
    /// ```
    /// use pcapfile::{Reader, Writer};
    ///
    /// # let file: &[u8] = b"\xd4\xc3\xb2\xa1\x02\0\x04\0\0\0\0\0\0\0\0\0\xff\xff\0\0\x01\0\0\0\x07\0\0\0\x08\0\0\0\x02\0\0\0\x02\0\0\0ab";
    /// # let header = *pcapfile::Capture::parse(file)?.header();
    /// let mut writer = Writer::new(Vec::new(), header)?;
    /// for packet in Reader::new(file) {
    ///     writer.write(&packet?)?;
    /// }
    /// # assert_eq!(writer.into_inner(), file);
    /// # Ok::<(), Box<dyn std::error::Error>>(())
    /// ```
    pub fn write<'p>(&mut self, packet: impl Into<AnyPacket<'p>>) -> io::Result<()> {
        let packet = packet.into();
        if packet.link_type().is_some_and(|link| link != self.header.link_type()) {
            return Err(WriteError::OtherLink.into());
        }
        let time = packet.time.ok_or(WriteError::NoTime)?;
        let seconds = u32::try_from(time.seconds).map_err(|_| WriteError::TimeOutOfRange)?;
        self.write_packet(&Packet { seconds, nanoseconds: time.nanoseconds, original_len: packet.original_len, data: packet.data })
    }

    /// Flushes the stream.
    pub fn flush(&mut self) -> io::Result<()> {
        self.out.flush()
    }

    /// Returns the stream.
    pub fn get_ref(&self) -> &W {
        &self.out.stream
    }

    /// Returns the stream, after what was written so far.
    pub fn into_inner(self) -> W {
        self.out.stream
    }
}

/// Writes a PcapNg capture to a stream, with one call of its `write_all` for each block: a section, its interfaces, and their
/// packets.
///
/// ```
/// use pcapfile::{BlockPacket, BlockWriter, Interface, Section};
///
/// let mut writer = BlockWriter::new(Vec::new(), Section::LITTLE_ENDIAN)?;
/// let interface_id = writer.add_interface(&Interface::nanoseconds(1, 262144))?;
/// writer.write_packet(&BlockPacket { interface_id, timestamp: 1_335_958_313_152_630_000, original_len: 98, data: b"abc" })?;
/// # assert_eq!(writer.into_inner().len(), 28 + 32 + 36);
/// # Ok::<(), std::io::Error>(())
/// ```
///
/// After a failed write every later call fails with `Other`, since a part of a block may have been written.
#[derive(Debug)]
pub struct BlockWriter<W> {
    out: Out<W>,
    section: Section,
    /// The interfaces of the section.
    interfaces: Vec<Interface>,
    /// The interfaces that `write` made: the number of the packets' interface, the number of their link type, and the number here.
    made: Vec<(u32, u32, u32)>,
}

/// The option of an interface that declares the length of frame check sequences, in bits.
const FCS_LEN: u16 = 13;
const INTERFACE: u32 = 1;
const NANOSECOND: i128 = 1_000_000_000;

impl<W: Write> BlockWriter<W> {
    /// Makes a writer of a capture that begins with this section, and writes the section's header.
    ///
    /// It fails as `begin_section` does.
    pub fn new(stream: W, section: Section) -> io::Result<BlockWriter<W>> {
        BlockWriter::with_options(stream, section, [])
    }

    /// Makes a writer as `new` does, of a section with options.
    ///
    /// It fails as `begin_section_with` does.
    pub fn with_options<'o>(stream: W, section: Section, options: impl IntoIterator<Item = BlockOption<'o>>) -> io::Result<BlockWriter<W>> {
        let mut writer = BlockWriter { out: Out::new(stream), section, interfaces: Vec::new(), made: Vec::new() };
        writer.begin_section_with(section, options)?;
        Ok(writer)
    }

    /// Writes a section header without options. Its magic number gives the byte order from here on, and the section has no
    /// interface yet.
    ///
    /// It fails with `InvalidInput` over `Error::Invalid` with `Rule::SectionMagic` if the magic number is that of neither byte order.
    /// Other errors are those of the stream.
    pub fn begin_section(&mut self, section: Section) -> io::Result<()> {
        self.begin_section_with(section, [])
    }

    /// Writes a section header with options, whose numbers have the byte order of the section.
    ///
    /// It fails as `begin_section` does, with `WriteError::BadOption`, and over `Error::Invalid` with `Rule::BlockTooLong`.
    pub fn begin_section_with<'o>(&mut self, section: Section, options: impl IntoIterator<Item = BlockOption<'o>>) -> io::Result<()> {
        let options = lent(options);
        self.put(section, |section, room, room_len, written, error| {
            // SAFETY: the pointers point to values of their own, and into the buffer; `options` shows slices that outlive the call.
            unsafe { calls::pcapfile_put_section_with(section, options.as_ptr(), options.len(), room, room_len, written, error) }
        })?;
        self.interfaces.clear();
        self.made.clear();
        Ok(())
    }

    /// Writes the description of an interface with its resolution, and with its offset if it is not 0. Returns its number,
    /// for `interface_id` of its packets. Any `ts_base` except 2 means 10.
    ///
    /// It fails with `InvalidInput` over `Error::Invalid` with `Rule::LinkTooLarge`, with `Rule::InterfacesFull`, or with
    /// `Rule::InterfaceResolutionLength` if `ts_exponent` is 128 or more. Other errors are those of the stream.
    pub fn add_interface(&mut self, interface: &Interface) -> io::Result<u32> {
        self.add_interface_with(interface, [])
    }

    /// Writes the description of an interface with options, as 2 for its name. Numbers in them have the byte order of the section. Its
    /// unit of time (9) and offset (14) are those of `interface`, so leave them out.
    ///
    /// It fails as `add_interface` does, with `WriteError::BadOption`, and over `Error::Invalid` with `Rule::BlockTooLong`.
    ///
    /// ```
    /// use pcapfile::{BlockOption, BlockWriter, Interface, Section};
    ///
    /// let mut writer = BlockWriter::new(Vec::new(), Section::LITTLE_ENDIAN)?;
    /// let name = BlockOption { code: 2, value: b"eth0" };
    /// let interface_id = writer.add_interface_with(&Interface::nanoseconds(1, 0), [name])?;
    /// # assert_eq!(interface_id, 0);
    /// # Ok::<(), std::io::Error>(())
    /// ```
    pub fn add_interface_with<'o>(
        &mut self,
        interface: &Interface,
        options: impl IntoIterator<Item = BlockOption<'o>>,
    ) -> io::Result<u32> {
        let options = lent(options);
        let (options, options_len) = (options.as_ptr(), options.len());
        self.put(self.section, |section, room, room_len, written, error| {
            // SAFETY: the pointers point to values of their own, and into the buffer; `options` shows slices that outlive the call.
            unsafe { calls::pcapfile_put_interface_with(section, interface, options, options_len, room, room_len, written, error) }
        })?;
        self.interfaces.push(*interface);
        Ok(self.section.interfaces - 1)
    }

    /// Writes a packet as an enhanced one without options. Its timestamp is in units of its interface.
    ///
    /// It fails with `InvalidInput` over `Error::Invalid` with `Rule::InterfaceMissing` if the section has no interface of its
    /// number, or with `Rule::BlockTooLong`. Other errors are those of the stream.
    pub fn write_packet(&mut self, packet: &BlockPacket<'_>) -> io::Result<()> {
        self.write_packet_with(packet, [])
    }

    /// Writes a packet with options, whose numbers have the byte order of the section.
    ///
    /// It fails as `write_packet` does, and with `WriteError::BadOption`.
    pub fn write_packet_with<'o>(
        &mut self,
        packet: &BlockPacket<'_>,
        options: impl IntoIterator<Item = BlockOption<'o>>,
    ) -> io::Result<()> {
        let options = lent(options);
        let raw = calls::NgPacket {
            type_: 6,
            interface_id: packet.interface_id,
            orig_len: packet.original_len,
            timestamp: packet.timestamp,
            bytes: calls::Bytes::of(packet.data),
        };
        self.put(self.section, |section, room, room_len, written, error| {
            // SAFETY: the pointers point to values of their own, and into the buffer; `raw` and `options` show slices that outlive the call.
            unsafe { calls::pcapfile_put_ng_packet_with(section, &raw, options.as_ptr(), options.len(), room, room_len, written, error) }
        })
    }

    /// Writes a packet of a reader, of either format, with its options and exact time. Packets of one interface get one interface here,
    /// whose times are nanoseconds since 1970. The first of them adds it, with the length of frame check sequences if the header of
    /// their capture declares one.
    ///
    /// It fails with `InvalidInput` over a `WriteError`: `NoTime`, `OtherLink` without a link type, `TimeOutOfRange` before 1970 and from
    /// 2554 on, or `OtherByteOrder` for a hash, a verdict or an unknown option that comes from a section of the other byte order. Other errors are those
    /// of `write_packet` and of the stream.
    ///
    /// ```
    /// use pcapfile::{BlockWriter, Reader, Section};
    ///
    /// # let file: &[u8] = b"\xd4\xc3\xb2\xa1\x02\0\x04\0\0\0\0\0\0\0\0\0\xff\xff\0\0\x01\0\0\0\x07\0\0\0\x08\0\0\0\x02\0\0\0\x02\0\0\0ab";
    /// let mut writer = BlockWriter::new(Vec::new(), Section::LITTLE_ENDIAN)?;
    /// for packet in Reader::new(file) {
    ///     writer.write(&packet?)?;
    /// }
    /// # assert_eq!(writer.into_inner().len(), 28 + 32 + 36);
    /// # Ok::<(), std::io::Error>(())
    /// ```
    pub fn write<'p>(&mut self, packet: impl Into<AnyPacket<'p>>) -> io::Result<()> {
        let packet = packet.into();
        let number = packet.link.ok_or(WriteError::OtherLink)?;
        let options = self.options_of(&packet)?;
        timestamp(&Interface::nanoseconds(0, 0), packet.time)?;
        let known = self.made.iter().find(|made| (made.0, made.1) == (packet.interface_id, number));
        let interface_id = match known {
            Some(made) => made.2,
            None => {
                self.check_options(&options)?;
                let fcs_len = crate::fcs_len(number).map(|len| [8 * len]);
                let option = fcs_len.as_ref().map(|value| BlockOption { code: FCS_LEN, value });
                let interface_id = self.add_interface_with(&Interface::nanoseconds(crate::link_type(number), 0), option)?;
                self.made.push((packet.interface_id, number, interface_id));
                interface_id
            }
        };
        self.write_as(interface_id, &packet, &options)
    }

    /// Writes a packet of a reader, as `write` does, as one of an interface that `add_interface` has added. Its time is exact.
    ///
    /// It fails as `write` does: with `OtherLink` if the packet has another link type than the interface, and with `TimeOutOfRange` if its
    /// time is no whole number of the interface's units.
    pub fn write_on<'p>(&mut self, interface_id: u32, packet: impl Into<AnyPacket<'p>>) -> io::Result<()> {
        let packet = packet.into();
        let interface = self.interfaces.get(interface_id as usize);
        if interface.is_some_and(|it| packet.link_type().is_some_and(|link| link != it.link)) {
            return Err(WriteError::OtherLink.into());
        }
        let options = self.options_of(&packet)?;
        self.write_as(interface_id, &packet, &options)
    }

    fn write_as(&mut self, interface_id: u32, packet: &AnyPacket<'_>, options: &[PacketOption<'_>]) -> io::Result<()> {
        let none = Interface::nanoseconds(0, 0);
        let timestamp = timestamp(self.interfaces.get(interface_id as usize).unwrap_or(&none), packet.time)?;
        let packet = BlockPacket { interface_id, timestamp, original_len: packet.original_len, data: packet.data };
        self.write_packet_with(&packet, options.iter().map(PacketOption::as_option))
    }

    /// Returns the options of a packet, with the numbers in them in the byte order of the section.
    fn options_of<'p>(&self, packet: &AnyPacket<'p>) -> io::Result<Vec<PacketOption<'p>>> {
        let is_same = packet.is_big_endian() == self.section.is_big_endian();
        let option_of = |option: BlockOption<'p>| {
            let value = if is_same { Some(Cow::Borrowed(option.value)) } else { turned_value(&option).map(Cow::Owned) };
            Ok(PacketOption { code: option.code, value: value.ok_or(WriteError::OtherByteOrder)? })
        };
        packet.options().map(option_of).collect()
    }

    /// Returns why the library doesn't write these options, so that a caller can write a block before theirs.
    fn check_options(&mut self, options: &[PacketOption<'_>]) -> io::Result<()> {
        let section = self.section;
        let options = lent(options.iter().map(PacketOption::as_option));
        self.out.make(|room, room_len, written, error| {
            // SAFETY: the pointers point to values of their own, and into the buffer; `options` shows slices that outlive the call.
            unsafe { calls::pcapfile_put_options(&section, options.as_ptr(), options.len(), room, room_len, written, error) }
        })?;
        Ok(())
    }

    /// Writes a block of a reader byte for byte, of any kind. A section header begins a section, and an interface is added to it, so
    /// that a capture can be copied block by block.
    ///
    /// It fails with `InvalidInput` over a `WriteError`: `OtherByteOrder` if the block's section has the other byte order than the section
    /// here, or `BadLength`. It also fails over an `Error` if a section header or an interface is malformed. Other errors are those of
    /// the stream.
    ///
    /// ```
    /// use pcapfile::{BlockWriter, Reader, Section};
    ///
    /// # let file: &[u8] = b"\x0a\x0d\x0d\x0a\x1c\0\0\0\x4d\x3c\x2b\x1a\x01\0\0\0\xff\xff\xff\xff\xff\xff\xff\xff\x1c\0\0\0";
    /// let mut reader = Reader::new(file);
    /// let mut writer = BlockWriter::copying(Vec::new());
    /// while let Some(block) = reader.next_block()? {
    ///     writer.write_block(&block)?;
    /// }
    /// # assert_eq!(writer.into_inner(), file);
    /// # Ok::<(), std::io::Error>(())
    /// ```
    pub fn write_block(&mut self, block: &Block<'_>) -> io::Result<()> {
        let section = block.section();
        let is_header = block.type_ == u32::from_be_bytes([0x0a, 0x0d, 0x0d, 0x0a]);
        if !is_header && self.section == Section::default() {
            return Err(io::Error::new(io::ErrorKind::InvalidInput, Error::Invalid(Rule::SectionMissing)));
        }
        if !is_header && section.is_big_endian() != self.section.is_big_endian() {
            return Err(WriteError::OtherByteOrder.into());
        }
        let len = block.body.len().checked_add(12).and_then(|len| u32::try_from(len).ok()).filter(|len| len % 4 == 0);
        let len = bytes_of(&section, len.ok_or(WriteError::BadLength)?);
        let bytes = [&bytes_of(&section, block.type_), &len, block.body, &len].concat();
        // The library judges the block, and what is then in force.
        let mut blocks = crate::Blocks::at(self.section, &bytes);
        blocks.take_one().map_err(|error| io::Error::new(io::ErrorKind::InvalidInput, error))?;
        let interface = if block.type_ == INTERFACE { block.interface().ok().flatten() } else { None };
        self.out.send(&bytes)?;
        self.section = *blocks.section();
        if is_header {
            self.interfaces.clear();
            self.made.clear();
        }
        self.interfaces.extend(interface);
        Ok(())
    }

    /// Makes a writer of a capture whose first block `write_block` or `begin_section` writes.
    pub fn copying(stream: W) -> BlockWriter<W> {
        BlockWriter { out: Out::new(stream), section: Section::default(), interfaces: Vec::new(), made: Vec::new() }
    }

    /// Flushes the stream.
    pub fn flush(&mut self) -> io::Result<()> {
        self.out.flush()
    }

    /// Returns the section that the writer is writing, with its interfaces so far.
    pub fn section(&self) -> &Section {
        &self.section
    }

    /// Returns the stream.
    pub fn get_ref(&self) -> &W {
        &self.out.stream
    }

    /// Returns the stream, after what was written so far.
    pub fn into_inner(self) -> W {
        self.out.stream
    }

    /// Writes a block of this section to the stream, and then keeps the section as the call left it, if that succeeded.
    fn put(
        &mut self,
        mut section: Section,
        put: impl Fn(&mut Section, *mut u8, usize, &mut usize, &mut calls::Error) -> i32,
    ) -> io::Result<()> {
        self.out.write(|room, room_len, written, error| put(&mut section, room, room_len, written, error))?;
        self.section = section;
        Ok(())
    }
}

/// A stream, and the buffer in which the writer makes what it writes.
#[derive(Debug)]
struct Out<W> {
    stream: W,
    room: Vec<u8>,
    has_failed: bool,
}

impl<W: Write> Out<W> {
    fn new(stream: W) -> Out<W> {
        Out { stream, room: Vec::new(), has_failed: false }
    }

    /// Puts what this call writes into the buffer, which grows until it fits, and then writes it to the stream.
    fn write(&mut self, put: impl FnMut(*mut u8, usize, &mut usize, &mut calls::Error) -> i32) -> io::Result<()> {
        let written = self.make(put)?;
        self.send_made(written)
    }

    /// Puts what this call writes into the buffer, which grows until it fits. Returns how many bytes it is.
    fn make(&mut self, mut put: impl FnMut(*mut u8, usize, &mut usize, &mut calls::Error) -> i32) -> io::Result<usize> {
        self.check()?;
        let (mut written, mut error) = (0, calls::Error::default());
        loop {
            match put(self.room.as_mut_ptr(), self.room.len(), &mut written, &mut error) {
                0 => return Ok(written),
                INCOMPLETE | NO_ROOM => {
                    self.room.try_reserve(error.missing)?;
                    self.room.resize(self.room.len() + error.missing, 0);
                }
                BAD_CALL => return Err(WriteError::BadOption.into()),
                status => return Err(io::Error::new(io::ErrorKind::InvalidInput, Error::of(status, error))),
            }
        }
    }

    fn send_made(&mut self, written: usize) -> io::Result<()> {
        let gone = self.stream.write_all(&self.room[..written]);
        self.has_failed = gone.is_err();
        gone
    }

    /// Writes these bytes to the stream.
    fn send(&mut self, bytes: &[u8]) -> io::Result<()> {
        self.check()?;
        let gone = self.stream.write_all(bytes);
        self.has_failed = gone.is_err();
        gone
    }

    fn flush(&mut self) -> io::Result<()> {
        self.check()?;
        self.stream.flush()
    }

    fn check(&self) -> io::Result<()> {
        if self.has_failed { Err(io::Error::other("an earlier write failed")) } else { Ok(()) }
    }
}

/// An option of a packet, whose value is that of the packet or the same in the other byte order.
struct PacketOption<'p> {
    code: u16,
    value: Cow<'p, [u8]>,
}

impl PacketOption<'_> {
    fn as_option(&self) -> BlockOption<'_> {
        BlockOption { code: self.code, value: &self.value }
    }
}

/// Returns options as C sees them. Their values must outlive the calls that get them.
fn lent<'o>(options: impl IntoIterator<Item = BlockOption<'o>>) -> Vec<calls::BlockOption> {
    options.into_iter().map(|option| calls::BlockOption { code: option.code, value: calls::Bytes::of(option.value) }).collect()
}

/// Returns a number as bytes, in the byte order of a section.
fn bytes_of(section: &Section, number: u32) -> [u8; 4] {
    if section.is_big_endian() { number.to_be_bytes() } else { number.to_le_bytes() }
}

/// Returns the value of a packet's option in the other byte order. None if numbers in it are unknown, or its length is another one.
fn turned_value(option: &BlockOption<'_>) -> Option<Vec<u8>> {
    // Which bytes are a number: none of a comment. A custom option begins with the number of its enterprise.
    let (number, len) = match option.code {
        1 => (0, option.value.len()),
        2 | 6 => (4, 4),
        4 | 5 => (8, 8),
        2988 | 2989 | 19372 | 19373 => (4, option.value.len()),
        _ => return None,
    };
    let mut value = option.value.to_vec();
    value.get_mut(..number)?.reverse();
    (value.len() == len).then_some(value)
}

/// Returns a time in units of an interface. It must be a whole number of them.
fn timestamp(interface: &Interface, time: Option<Time>) -> io::Result<u64> {
    let time = time.ok_or(WriteError::NoTime)?;
    let nanoseconds = time.as_nanos() - i128::from(interface.ts_offset) * NANOSECOND;
    let base: i128 = if interface.ts_base == 2 { 2 } else { 10 };
    // The seconds have below 2^65, so that the units are below 2^64 only if their number in a second is.
    let units = base.checked_pow(interface.ts_exponent.into()).filter(|units| nanoseconds == 0 || *units <= i128::from(u64::MAX) * NANOSECOND);
    let product = match (nanoseconds, units) {
        (0, _) => Some(0),
        (_, Some(units)) => nanoseconds.checked_mul(units),
        _ => None,
    };
    let exact = product.filter(|product| product % NANOSECOND == 0).map(|product| product / NANOSECOND);
    exact.and_then(|units| u64::try_from(units).ok()).ok_or_else(|| WriteError::TimeOutOfRange.into())
}
