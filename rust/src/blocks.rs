//! Captures in the PcapNg format.

use crate::calls;
use crate::Error;
pub use crate::time::Time;

/// What applies to the blocks of a section.
#[repr(C)]
#[derive(Clone, Copy, Debug, Default, PartialEq, Eq)]
pub struct Section {
    /// The magic number, read with the high byte first: 1a2b3c4d in a big-endian section, 4d3c2b1a in a little-endian one.
    pub magic_number: u32,
    /// The major version, in practice 1.
    pub version_major: u16,
    /// The minor version, in practice 0.
    pub version_minor: u16,
    /// How many interfaces the section has so far.
    pub interfaces: u32,
}

impl Section {
    /// A section of version 1.0 without interfaces, whose numbers have the low byte first.
    pub const LITTLE_ENDIAN: Section = Section { magic_number: 0x4d3c_2b1a, version_major: 1, version_minor: 0, interfaces: 0 };
    /// The same with the high byte first.
    pub const BIG_ENDIAN: Section = Section { magic_number: 0x1a2b_3c4d, ..Section::LITTLE_ENDIAN };

    /// Returns whether its numbers have the high byte first.
    pub fn is_big_endian(&self) -> bool {
        self.magic_number == Section::BIG_ENDIAN.magic_number
    }

    /// Returns the number of four bytes at this place. None if the bytes end before.
    #[cfg(feature = "std")]
    pub(crate) fn number_at(&self, bytes: &[u8], at: usize) -> Option<u32> {
        let bytes = bytes.get(at..)?.first_chunk()?;
        Some(if self.is_big_endian() { u32::from_be_bytes(*bytes) } else { u32::from_le_bytes(*bytes) })
    }
}

/// A block. Its body is a part of the capture.
#[derive(Clone, Copy, Debug, PartialEq, Eq)]
pub struct Block<'a> {
    /// The number of its type.
    pub type_: u32,
    /// The bytes between its lengths. The block is 12 bytes longer.
    pub body: &'a [u8],
    section: Section,
}

/// The description of an interface.
#[repr(C)]
#[derive(Clone, Copy, Debug, Default, PartialEq, Eq)]
pub struct Interface {
    /// The number of the link type of its packets' first layer.
    pub link: u32,
    /// The snapshot length: the most bytes that are stored for each packet. 0 is no limit.
    pub snaplen: u32,
    /// 10 or 2. The timestamp resolution in seconds is this number to the power of minus `ts_exponent`.
    pub ts_base: u8,
    /// The exponent of the timestamp resolution. 6 if the capture declares no resolution.
    pub ts_exponent: u8,
    /// Seconds to add to each time.
    pub ts_offset: i64,
}

/// A packet of an interface. Its bytes are a part of the capture.
#[derive(Clone, Copy, Debug, PartialEq, Eq)]
pub struct BlockPacket<'a> {
    /// The number of its interface, from 0 on.
    pub interface_id: u32,
    /// The time in units of the interface. 0 for a simple packet, which has no time.
    pub timestamp: u64,
    /// How many bytes the packet had on the wire.
    pub original_len: u32,
    /// The stored bytes. Those of a simple packet include the padding.
    pub data: &'a [u8],
}

/// An option of a block. Its value is a part of the capture, and is not checked.
#[derive(Clone, Copy, Debug, PartialEq, Eq)]
pub struct BlockOption<'a> {
    /// Its code, above 0. The type of the block gives it a meaning.
    pub code: u16,
    /// Its value, without padding.
    pub value: &'a [u8],
}

/// An address of a name resolution block, and its names.
#[derive(Clone, Copy, Debug, PartialEq, Eq)]
pub struct NameRecord<'a> {
    /// The type of the address: 1 for IPv4, 2 for IPv6, or another number.
    pub type_: u16,
    /// The address, of 4 or 16 bytes. For another type it is the whole value.
    pub address: &'a [u8],
    names: &'a [u8],
}

const NOTHING: i32 = 8;

/// Returns these bytes, which the library lends, as a part of `of`.
pub(crate) fn lent(of: &[u8], bytes: calls::Bytes) -> &[u8] {
    if bytes.len == 0 {
        return &[];
    }
    let at = bytes.ptr as usize - of.as_ptr() as usize;
    &of[at..at + bytes.len]
}

impl Interface {
    /// Returns an interface whose times are nanoseconds since 1970.
    pub const fn nanoseconds(link: u32, snaplen: u32) -> Interface {
        Interface { link, snaplen, ts_base: 10, ts_exponent: 9, ts_offset: 0 }
    }

    /// Returns the time of a timestamp in units of the interface. None if its seconds exceed 64 bits.
    pub fn time(&self, timestamp: u64) -> Option<Time> {
        let mut time = Time::default();
        // SAFETY: each pointer points to a value of its own.
        let status = unsafe { calls::pcapfile_time_of(self, timestamp, &mut time) };
        (status == 0).then_some(time)
    }
}

impl<'a> Block<'a> {
    pub(crate) fn of(type_: u32, body: &'a [u8], section: Section) -> Block<'a> {
        Block { type_, body, section }
    }

    /// Returns whether blocks of this type change what applies: section headers and interfaces.
    #[cfg(feature = "std")]
    pub(crate) fn changes_section(type_: u32) -> bool {
        type_ == 0x0a0d_0d0a || type_ == 1
    }

    /// Returns what applies after this block.
    pub fn section(&self) -> Section {
        self.section
    }

    fn raw(&self) -> calls::Block {
        calls::Block { type_: self.type_, body: calls::Bytes::of(self.body) }
    }

    /// Returns the interface that the block describes. None if its body is good and of another type.
    pub fn interface(&self) -> Result<Option<Interface>, Error> {
        let (mut interface, mut error) = (Interface::default(), calls::Error::default());
        // SAFETY: each pointer points to a value of its own, and the body is a slice's.
        match unsafe { calls::pcapfile_read_interface(&self.section, &self.raw(), &mut interface, &mut error) } {
            0 => Ok(Some(interface)),
            NOTHING => Ok(None),
            status => Err(Error::of(status, error)),
        }
    }

    /// Returns the packet of the block. None if its body is good and of another type.
    pub fn packet(&self) -> Result<Option<BlockPacket<'a>>, Error> {
        let none = calls::Bytes::of(b"");
        let mut packet = calls::NgPacket { type_: 0, interface_id: 0, orig_len: 0, timestamp: 0, bytes: none };
        let mut error = calls::Error::default();
        // SAFETY: each pointer points to a value of its own, and the body is a slice's.
        match unsafe { calls::pcapfile_read_packet(&self.section, &self.raw(), &mut packet, &mut error) } {
            0 => Ok(Some(self.lent(&packet))),
            NOTHING => Ok(None),
            status => Err(Error::of(status, error)),
        }
    }

    /// Returns an iterator over the options of the block. If the list is malformed, the error is its last item. It is empty if
    /// the block's type has no options.
    pub fn options(&self) -> Result<Options<'a>, Error> {
        let (mut left, mut error) = (calls::Bytes::of(b""), calls::Error::default());
        // SAFETY: each pointer points to a value of its own, and the body is a slice's.
        match unsafe { calls::pcapfile_options(&self.section, &self.raw(), &mut left, &mut error) } {
            0 => Ok(Options { section: self.section, left: lent(self.body, left) }),
            NOTHING => Ok(Options { section: self.section, left: &[] }),
            status => Err(Error::of(status, error)),
        }
    }

    /// Returns an iterator over the comments of the block. A comment that is no UTF-8, or that follows a malformed option, is left
    /// out; `options` reports it.
    pub fn comments(&self) -> impl Iterator<Item = &'a str> + 'a {
        let options = self.options().ok().into_iter().flatten().filter_map(Result::ok);
        options.filter(|option| option.code == 1).filter_map(|option| core::str::from_utf8(option.value).ok())
    }

    /// Returns an iterator over the addresses of a name resolution block. If a record is malformed, the error is its last item.
    /// It is empty for another block.
    pub fn records(&self) -> Records<'a> {
        const NAMES: u32 = 4;
        Records { section: self.section, left: self.body, is_done: self.type_ != NAMES }
    }

    pub(crate) fn lent(&self, packet: &calls::NgPacket) -> BlockPacket<'a> {
        BlockPacket {
            interface_id: packet.interface_id,
            timestamp: packet.timestamp,
            original_len: packet.orig_len,
            data: lent(self.body, packet.bytes),
        }
    }
}

/// An iterator over the options of a block.
#[derive(Clone, Debug)]
pub struct Options<'a> {
    section: Section,
    left: &'a [u8],
}

#[cfg(feature = "std")]
impl<'a> Options<'a> {
    /// Reads these bytes as options, in this section.
    pub(crate) fn of(section: Section, left: &'a [u8]) -> Options<'a> {
        Options { section, left }
    }

    /// Returns the bytes of the options that the iterator has not returned.
    pub(crate) fn rest(&self) -> &'a [u8] {
        self.left
    }
}

impl<'a> Iterator for Options<'a> {
    type Item = Result<BlockOption<'a>, Error>;

    fn next(&mut self) -> Option<Self::Item> {
        let (mut left, mut error) = (calls::Bytes::of(self.left), calls::Error::default());
        let mut option = calls::BlockOption { code: 0, value: calls::Bytes::of(b"") };
        // SAFETY: each pointer points to a value of its own, and `left` is a slice's.
        let status = unsafe { calls::pcapfile_take_option(&self.section, &mut left, &mut option, &mut error) };
        let bytes = core::mem::take(&mut self.left);
        match status {
            0 => {
                self.left = lent(bytes, left);
                Some(Ok(BlockOption { code: option.code, value: lent(bytes, option.value) }))
            }
            NOTHING => None,
            status => Some(Err(Error::of(status, error))),
        }
    }
}

/// An iterator over the addresses of a name resolution block.
#[derive(Clone, Debug)]
pub struct Records<'a> {
    section: Section,
    left: &'a [u8],
    is_done: bool,
}

impl<'a> Iterator for Records<'a> {
    type Item = Result<NameRecord<'a>, Error>;

    fn next(&mut self) -> Option<Self::Item> {
        if self.is_done {
            return None;
        }
        let (bytes, none) = (self.left, calls::Bytes::of(b""));
        let (mut left, mut error) = (calls::Bytes::of(bytes), calls::Error::default());
        let mut record = calls::Record { type_: 0, address: none, names: none };
        // SAFETY: each pointer points to a value of its own, and `left` is a slice's.
        let status = unsafe { calls::pcapfile_take_record(&self.section, &mut left, &mut record, &mut error) };
        self.is_done = status != 0;
        match status {
            0 => {
                self.left = lent(bytes, left);
                let (address, names) = (lent(bytes, record.address), lent(bytes, record.names));
                Some(Ok(NameRecord { type_: record.type_, address, names }))
            }
            NOTHING => None,
            status => Some(Err(Error::of(status, error))),
        }
    }
}

impl<'a> NameRecord<'a> {
    /// Returns an iterator over the names of the address.
    pub fn names(&self) -> Names<'a> {
        Names { left: self.names }
    }
}

/// An iterator over the names of an address.
#[derive(Clone, Debug)]
pub struct Names<'a> {
    left: &'a [u8],
}

impl<'a> Iterator for Names<'a> {
    type Item = &'a str;

    fn next(&mut self) -> Option<&'a str> {
        let (bytes, mut left) = (self.left, calls::Bytes::of(self.left));
        let (mut name, mut error) = (calls::Bytes::of(b""), calls::Error::default());
        // SAFETY: each pointer points to a value of its own, and `left` is a slice's.
        match unsafe { calls::pcapfile_take_name(&mut left, &mut name, &mut error) } {
            0 => {
                self.left = lent(bytes, left);
                core::str::from_utf8(lent(bytes, name)).ok()
            }
            _ => None,
        }
    }
}

/// An iterator over the blocks of a PcapNg capture. If the capture is truncated or malformed, the error is the last item.
#[derive(Clone, Debug)]
pub struct Blocks<'a> {
    section: Section,
    left: &'a [u8],
    is_done: bool,
}

impl<'a> Blocks<'a> {
    /// Reads these bytes as blocks, and returns the first section header too.
    pub fn parse(bytes: &'a [u8]) -> Blocks<'a> {
        Blocks::at(Section::default(), bytes)
    }

    /// Reads the blocks at the front of these bytes, in this section.
    pub(crate) fn at(section: Section, left: &'a [u8]) -> Blocks<'a> {
        Blocks { section, left, is_done: false }
    }

    /// Returns what applies after the blocks that the iterator has returned.
    pub fn section(&self) -> &Section {
        &self.section
    }

    /// Returns the bytes after the blocks that the iterator has returned.
    pub fn rest(&self) -> &'a [u8] {
        self.left
    }

    pub(crate) fn take_one(&mut self) -> Result<Block<'a>, Error> {
        let mut left = calls::Bytes::of(self.left);
        let mut block = calls::Block { type_: 0, body: calls::Bytes::of(b"") };
        let mut error = calls::Error::default();
        // SAFETY: each pointer points to a value of its own, and `left` is a slice's.
        let status = unsafe { calls::pcapfile_take_block(&mut self.section, &mut left, &mut block, &mut error) };
        if status != 0 {
            return Err(Error::of(status, error));
        }
        let end = self.left.len() - left.len;
        let body = &self.left[end - 4 - block.body.len..end - 4];
        debug_assert_eq!(body.as_ptr(), block.body.ptr);
        self.left = &self.left[end..];
        Ok(Block { type_: block.type_, body, section: self.section })
    }
}

impl<'a> Iterator for Blocks<'a> {
    type Item = Result<Block<'a>, Error>;

    fn next(&mut self) -> Option<Self::Item> {
        // If there are no bytes at all, the library returns how many are missing of the first block.
        if self.is_done || (self.left.is_empty() && self.section != Section::default()) {
            return None;
        }
        let taken = self.take_one();
        self.is_done = taken.is_err();
        Some(taken)
    }
}
