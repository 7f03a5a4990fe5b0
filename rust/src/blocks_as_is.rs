//! Lenient reading of PcapNg captures, which returns malformed blocks with their flaws.

use crate::blocks::lent;
use crate::calls;
use crate::{Block, BlockPacket, Blocks, Error, Interface, Rule, Section};

/// A flaw of a block's body.
#[repr(C)]
#[derive(Clone, Copy, Debug, Default, PartialEq, Eq)]
pub struct BlockFlaw {
    status: i32,
    rule: u32,
    code: u32,
}

impl BlockFlaw {
    /// Returns the error by which strict reading refuses such a body. None for a place that no call has filled.
    pub fn error(self) -> Option<Error> {
        (self.status != 0).then(|| Error::of(self.status, calls::Error { rule: self.rule, missing: 0 }))
    }

    /// Returns the broken rule. None if a custom option's value is too short, or if a string is not UTF-8.
    pub fn rule(self) -> Option<Rule> {
        self.error().and_then(Error::rule)
    }

    /// Returns the code of the option whose value has the flaw. None if the whole body or the list of options has it.
    pub fn code(self) -> Option<u16> {
        u16::try_from(self.code).ok().filter(|&code| code != 0)
    }
}

/// A block of a PcapNg capture, whose body may break rules.
#[derive(Clone, Copy, Debug, PartialEq, Eq)]
pub struct BlockAsIs<'a> {
    /// The block. Its body may have flaws.
    pub block: Block<'a>,
    /// The interface that the block describes, with the first resolution and the first offset that break no rule. None for
    /// another block, and if the body has no room for the fixed fields. The interface keeps its number then.
    pub interface: Option<Interface>,
    /// The packet of the block, if it is an enhanced one. None for another block, and if the body has no room for the packet.
    pub packet: Option<BlockPacket<'a>>,
    /// How many flaws the body has.
    pub flaw_count: usize,
    first: BlockFlaw,
    text: &'a [u8],
}

impl<'a> BlockAsIs<'a> {
    /// Returns the first flaw of the body, by which strict reading refuses it. None if it has none.
    pub fn first_flaw(&self) -> Option<BlockFlaw> {
        (self.flaw_count > 0).then_some(self.first)
    }

    /// Returns the flaws of the body in their order: as many of the first ones as there are places.
    pub fn flaws<'p>(&self, places: &'p mut [BlockFlaw]) -> &'p [BlockFlaw] {
        // A section header is read in its own order, whatever section it follows.
        let section = Section { interfaces: 0, ..self.block.section() };
        let count = match take(section, self.text, places) {
            Ok((_, taken, _)) => taken.flaws.min(places.len()),
            Err(_) => 0,
        };
        &places[..count]
    }
}

/// An iterator over the blocks of a PcapNg capture, whose bodies may break rules. If it cannot go on, the error is the last item.
#[derive(Clone, Debug)]
pub struct BlocksAsIs<'a> {
    section: Section,
    left: &'a [u8],
    is_done: bool,
}

impl<'a> Blocks<'a> {
    /// Reads the blocks leniently, from the next one on. It leaves out no block whose body has flaws. It refuses a block with a
    /// malformed frame, a first block that is no section header, and a section header without a byte order.
    pub fn as_is(self) -> BlocksAsIs<'a> {
        BlocksAsIs { section: *self.section(), left: self.rest(), is_done: false }
    }
}

/// Takes the block at the front of these bytes. Returns the bytes after it, the block, and the section that then applies.
fn take<'a>(
    mut section: Section,
    bytes: &'a [u8],
    places: &mut [BlockFlaw],
) -> Result<(&'a [u8], calls::BlockAsIs, Section), Error> {
    let (mut left, mut error) = (calls::Bytes::of(bytes), calls::Error::default());
    let mut block = calls::BlockAsIs::none();
    // SAFETY: each pointer points to a value of its own, `left` is a slice's, and so are the places.
    let status = unsafe {
        calls::pcapfile_take_block_as_is(
            &mut section,
            &mut left,
            &mut block,
            places.as_mut_ptr(),
            places.len(),
            &mut error,
        )
    };
    match status {
        0 => Ok((lent(bytes, left), block, section)),
        status => Err(Error::of(status, error)),
    }
}

impl<'a> BlocksAsIs<'a> {
    /// Returns what applies after the blocks that the iterator has returned.
    pub fn section(&self) -> &Section {
        &self.section
    }

    /// Returns the bytes after the blocks that the iterator has returned.
    pub fn rest(&self) -> &'a [u8] {
        self.left
    }

    pub(crate) fn take_one(&mut self) -> Result<BlockAsIs<'a>, Error> {
        let (bytes, mut first) = (self.left, [BlockFlaw::default()]);
        let (rest, taken, section) = take(self.section, bytes, &mut first)?;
        let text = &bytes[..bytes.len() - rest.len()];
        (self.left, self.section) = (rest, section);
        let block = Block::of(taken.type_, &text[8..text.len() - 4], section);
        let packet = (taken.has_packet == 1).then(|| block.lent(&taken.packet));
        let interface = (taken.has_interface == 1).then_some(taken.interface);
        Ok(BlockAsIs { block, interface, packet, flaw_count: taken.flaws, first: first[0], text })
    }
}

impl<'a> Iterator for BlocksAsIs<'a> {
    type Item = Result<BlockAsIs<'a>, Error>;

    fn next(&mut self) -> Option<Self::Item> {
        // If there are no bytes at all, the library returns how many are missing of the first block.
        if self.is_done || (self.left.is_empty() && self.section != Section::default()) {
            return None;
        }
        let taken = self.take_one();
        self.is_done = taken.is_err();
        Some(taken)
    }
}
