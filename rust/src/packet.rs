//! Packets, options and blocks of streams: lent from a reader's buffer, or owned.

use crate::blocks::{Block, BlockOption, Options, Section, Time};
use crate::{Error, Packet};
use core::time::Duration;
use std::string::String;
use std::time::SystemTime;
use std::vec::Vec;

/// The code of a comment, in the options of any block.
const COMMENT: u16 = 1;

/// An option of a block, with its value.
#[derive(Clone, Debug, PartialEq, Eq, Hash)]
pub struct OwnedOption {
    /// Its code, above 0. The type of the block gives it a meaning; 1 is a comment in each.
    pub code: u16,
    /// Its value, without padding. Numbers in it have the byte order of its section.
    pub value: Vec<u8>,
}

impl OwnedOption {
    /// Makes an option of a code and a value.
    pub fn new(code: u16, value: impl Into<Vec<u8>>) -> OwnedOption {
        OwnedOption { code, value: value.into() }
    }

    /// Makes a comment.
    pub fn comment(text: impl Into<String>) -> OwnedOption {
        OwnedOption::new(COMMENT, text.into())
    }

    /// Lends the option.
    pub fn as_option(&self) -> BlockOption<'_> {
        BlockOption { code: self.code, value: &self.value }
    }
}

impl From<BlockOption<'_>> for OwnedOption {
    fn from(option: BlockOption<'_>) -> OwnedOption {
        OwnedOption { code: option.code, value: option.value.to_vec() }
    }
}

/// A block of a PcapNg capture, with its body.
#[derive(Clone, Debug, PartialEq, Eq)]
#[non_exhaustive]
pub struct OwnedBlock {
    /// The number of its type.
    pub type_: u32,
    /// The bytes between its lengths. The block is 12 bytes longer.
    pub body: Vec<u8>,
    /// What applies after the block.
    pub section: Section,
}

impl OwnedBlock {
    /// Lends the block, for the calls that read its body.
    pub fn as_block(&self) -> Block<'_> {
        Block::of(self.type_, &self.body, self.section)
    }
}

impl From<Block<'_>> for OwnedBlock {
    fn from(block: Block<'_>) -> OwnedBlock {
        OwnedBlock { type_: block.type_, body: block.body.to_vec(), section: block.section() }
    }
}

/// Where the options of a packet are.
#[derive(Clone, Copy, Debug)]
pub(crate) enum Source<'a> {
    None,
    Block(Block<'a>),
    Owned(&'a [OwnedOption], bool),
}

/// A packet of a capture of either format.
#[derive(Clone, Copy, Debug)]
#[non_exhaustive]
pub struct AnyPacket<'a> {
    /// The number of the link type of its first layer, which for a classic capture may declare more: see `link_type`. None if it
    /// names an interface that its section doesn't have.
    pub link: Option<u32>,
    /// The number of its interface in its section; 0 in a classic capture.
    pub interface_id: u32,
    /// The time of the packet. None for a simple packet, which has no time, for a packet without an interface, and if the
    /// seconds pass 64 bits. The nanoseconds of a classic packet may pass one second.
    pub time: Option<Time>,
    /// How many bytes the packet had on the wire.
    pub original_len: u32,
    /// The stored bytes, without padding.
    pub data: &'a [u8],
    pub(crate) source: Source<'a>,
}

impl<'a> AnyPacket<'a> {
    /// Makes a packet of a link type, without options, of which all bytes are stored.
    ///
    /// ```
    /// use pcapfile::{AnyPacket, Time};
    ///
    /// let packet = AnyPacket::new(1, Time::try_from(std::time::Duration::from_secs(7))?, b"abc");
    /// assert_eq!((packet.original_len, packet.options().count()), (3, 0));
    /// # Ok::<(), pcapfile::OutOfRange>(())
    /// ```
    pub fn new(link: u32, time: Time, data: &'a [u8]) -> AnyPacket<'a> {
        let original_len = u32::try_from(data.len()).unwrap_or(u32::MAX);
        AnyPacket { link: Some(link), interface_id: 0, time: Some(time), original_len, data, source: Source::None }
    }

    /// Returns the link type, without what the number of a classic header declares above it.
    pub fn link_type(&self) -> Option<u32> {
        self.link.map(crate::link_type)
    }

    /// Returns the length in bytes of the frame check sequence with which the packet ends, as the header of a classic capture
    /// declares it. None if it declares none, and for PcapNg, where option 13 of an interface has the length.
    pub fn fcs_len(&self) -> Option<u8> {
        self.link.and_then(crate::fcs_len)
    }

    /// Returns the time since the beginning of 1970. None without a time, and before 1970.
    pub fn since_epoch(&self) -> Option<Duration> {
        self.time.and_then(Time::since_epoch)
    }

    /// Returns the time as the system's type, also before 1970. None without a time.
    pub fn system_time(&self) -> Option<SystemTime> {
        self.time.and_then(Time::system_time)
    }

    /// Returns an iterator over the options of the packet. A classic packet and a simple one have none.
    pub fn options(&self) -> PacketOptions<'a> {
        match self.source {
            Source::Block(block) => PacketOptions { left: block.options().ok(), owned: [].iter() },
            Source::Owned(options, _) => PacketOptions { left: None, owned: options.iter() },
            Source::None => PacketOptions { left: None, owned: [].iter() },
        }
    }

    /// Returns an iterator over the comments of the packet.
    pub fn comments(&self) -> impl Iterator<Item = &'a str> + 'a {
        self.options().filter(|option| option.code == COMMENT).filter_map(|option| core::str::from_utf8(option.value).ok())
    }

    /// Returns whether numbers in the options have the high byte first.
    pub fn is_big_endian(&self) -> bool {
        match self.source {
            Source::Block(block) => block.section().is_big_endian(),
            Source::Owned(_, is_big_endian) => is_big_endian,
            Source::None => false,
        }
    }

    /// Copies the packet with its bytes and options.
    pub fn into_owned(self) -> OwnedPacket {
        let options: Vec<OwnedOption> = self.options().map(OwnedOption::from).collect();
        OwnedPacket {
            link: self.link,
            interface_id: self.interface_id,
            time: self.time,
            original_len: self.original_len,
            data: self.data.to_vec(),
            is_big_endian: self.is_big_endian() && !options.is_empty(),
            options,
        }
    }
}

impl PartialEq for AnyPacket<'_> {
    fn eq(&self, other: &AnyPacket<'_>) -> bool {
        (self.link, self.interface_id, self.time, self.original_len, self.data)
            == (other.link, other.interface_id, other.time, other.original_len, other.data)
            && self.options().eq(other.options())
            && (self.is_big_endian() == other.is_big_endian() || self.options().next().is_none())
    }
}

impl Eq for AnyPacket<'_> {}

impl<'a> From<Packet<'a>> for AnyPacket<'a> {
    /// Makes a packet without a link type, which the header of its capture has.
    fn from(packet: Packet<'a>) -> AnyPacket<'a> {
        AnyPacket { link: None, original_len: packet.original_len, ..AnyPacket::new(0, packet.time(), packet.data) }
    }
}

impl<'a> From<&'a OwnedPacket> for AnyPacket<'a> {
    fn from(packet: &'a OwnedPacket) -> AnyPacket<'a> {
        packet.as_packet()
    }
}

impl<'a> From<&AnyPacket<'a>> for AnyPacket<'a> {
    fn from(packet: &AnyPacket<'a>) -> AnyPacket<'a> {
        *packet
    }
}

/// An iterator over the options of a packet.
#[derive(Clone, Debug)]
pub struct PacketOptions<'a> {
    left: Option<Options<'a>>,
    owned: core::slice::Iter<'a, OwnedOption>,
}

impl<'a> Iterator for PacketOptions<'a> {
    type Item = BlockOption<'a>;

    fn next(&mut self) -> Option<BlockOption<'a>> {
        match &mut self.left {
            // Strict reading refuses a packet with a malformed list, and lenient reading reports the flaw.
            Some(left) => left.next().and_then(Result::ok),
            None => self.owned.next().map(OwnedOption::as_option),
        }
    }
}

/// A packet of a capture of either format, with its bytes and options.
#[derive(Clone, Debug, PartialEq, Eq, Hash)]
#[non_exhaustive]
pub struct OwnedPacket {
    /// The number of the link type of its first layer, as in `AnyPacket`.
    pub link: Option<u32>,
    /// The number of its interface in its section; 0 in a classic capture.
    pub interface_id: u32,
    /// The time of the packet, as in `AnyPacket`.
    pub time: Option<Time>,
    /// How many bytes the packet had on the wire.
    pub original_len: u32,
    /// The stored bytes, without padding.
    pub data: Vec<u8>,
    /// The options of the packet. A classic packet and a simple one have none.
    pub options: Vec<OwnedOption>,
    /// Whether numbers in the options have the high byte first. False without options.
    pub is_big_endian: bool,
}

impl OwnedPacket {
    /// Makes a packet of a link type, without options, of which all bytes are stored.
    pub fn new(link: u32, time: Time, data: impl Into<Vec<u8>>) -> OwnedPacket {
        let data = data.into();
        OwnedPacket { data: Vec::new(), ..AnyPacket::new(link, time, &data).into_owned() }.with_data(data)
    }

    fn with_data(self, data: Vec<u8>) -> OwnedPacket {
        OwnedPacket { data, ..self }
    }

    /// Lends the packet.
    pub fn as_packet(&self) -> AnyPacket<'_> {
        AnyPacket {
            link: self.link,
            interface_id: self.interface_id,
            time: self.time,
            original_len: self.original_len,
            data: &self.data,
            source: Source::Owned(&self.options, self.is_big_endian),
        }
    }

    /// Returns the link type, without what the number of a classic header declares above it.
    pub fn link_type(&self) -> Option<u32> {
        self.as_packet().link_type()
    }

    /// Returns the length of the frame check sequence, as `AnyPacket::fcs_len` does.
    pub fn fcs_len(&self) -> Option<u8> {
        self.as_packet().fcs_len()
    }

    /// Returns the time since the beginning of 1970. None without a time, and before 1970.
    pub fn since_epoch(&self) -> Option<Duration> {
        self.as_packet().since_epoch()
    }

    /// Returns the time as the system's type, also before 1970. None without a time.
    pub fn system_time(&self) -> Option<SystemTime> {
        self.as_packet().system_time()
    }

    /// Returns an iterator over the comments of the packet.
    pub fn comments(&self) -> impl Iterator<Item = &str> + '_ {
        self.as_packet().comments()
    }
}

impl From<AnyPacket<'_>> for OwnedPacket {
    fn from(packet: AnyPacket<'_>) -> OwnedPacket {
        packet.into_owned()
    }
}

/// The blocks at the front of a slice that the library has accepted.
#[derive(Clone, Debug)]
pub(crate) struct Frames<'a> {
    pub section: Section,
    pub left: &'a [u8],
}

impl<'a> Frames<'a> {
    pub fn new(section: Section, left: &'a [u8]) -> Frames<'a> {
        Frames { section, left }
    }

    /// Takes a section header or an interface, which change what applies.
    fn take_change(&mut self) -> Result<Block<'a>, Error> {
        let mut blocks = crate::Blocks::at(self.section, self.left);
        let block = blocks.take_one()?;
        (self.section, self.left) = (*blocks.section(), blocks.rest());
        Ok(block)
    }
}

impl<'a> Iterator for Frames<'a> {
    type Item = Block<'a>;

    fn next(&mut self) -> Option<Block<'a>> {
        let type_ = self.section.number_at(self.left, 0)?;
        if Block::changes_section(type_) {
            return self.take_change().ok();
        }
        let len = self.section.number_at(self.left, 4)? as usize;
        let body = self.left.get(8..len.checked_sub(4)?)?;
        self.left = self.left.get(len..)?;
        Some(Block::of(type_, body, self.section))
    }
}
