//! Lenient reading of classic captures, which returns malformed packets with their flaws.

use crate::blocks::lent;
use crate::calls;
use crate::{Capture, Error, Rule, Time};

/// The rules that a packet breaks.
#[derive(Clone, Copy, Debug, Default, PartialEq, Eq)]
pub struct Flaws {
    bits: u32,
    first: u32,
}

impl Flaws {
    /// Returns whether the packet breaks no rule.
    pub fn is_empty(&self) -> bool {
        self.bits == 0
    }

    /// Returns the first rule, by which strict reading refuses the packet. None if it breaks no rule.
    pub fn first(&self) -> Option<Rule> {
        Rule::from_number(self.first)
    }

    /// Returns whether the packet breaks this rule.
    pub fn contains(&self, rule: Rule) -> bool {
        self.bits.checked_shr(rule.number()).unwrap_or(0) & 1 == 1
    }

    /// Returns the rules, in the order of their numbers.
    pub fn iter(&self) -> impl Iterator<Item = Rule> {
        let bits = self.bits;
        (0..32).filter(move |number| bits >> number & 1 == 1).filter_map(Rule::from_number)
    }
}

/// A packet of a classic capture, which may break rules.
#[derive(Clone, Copy, Debug, PartialEq, Eq)]
pub struct PacketAsIs<'a> {
    /// The time of the packet. It is exact even if the fraction is a second or more.
    pub time: Time,
    /// How many bytes the packet had on the wire, as its header declares. It may be less than the number of stored bytes.
    pub original_len: u32,
    /// The stored bytes.
    pub data: &'a [u8],
    /// The rules that the packet breaks, from `FractionTooLarge` to `IncludedPastOriginal`.
    pub flaws: Flaws,
}

/// An iterator over the packets of a classic capture, which may break rules. If it cannot go on, the error is the last item.
#[derive(Clone, Debug)]
pub struct PacketsAsIs<'a> {
    capture: Capture<'a>,
    limit: u32,
    is_done: bool,
}

impl<'a> Capture<'a> {
    /// Reads the packets leniently, from the next one on. It leaves out no packet that breaks a rule from 2 to 5. It refuses a
    /// packet if bytes are missing, or if the packet stores more bytes than the limit. A limit below 262144 means 262144.
    pub fn as_is(self, limit: u32) -> PacketsAsIs<'a> {
        PacketsAsIs { capture: self, limit, is_done: false }
    }
}

impl<'a> PacketsAsIs<'a> {
    /// Returns the bytes after the packets that the iterator has returned.
    pub fn rest(&self) -> &'a [u8] {
        self.capture.rest()
    }

    /// Returns the next packet, and its seconds as written.
    pub(crate) fn take_one(&mut self) -> Result<(PacketAsIs<'a>, u32), Error> {
        let bytes = self.capture.rest();
        let (mut left, mut error) = (calls::Bytes::of(bytes), calls::Error::default());
        let mut packet = calls::PacketAsIs {
            ts_sec: 0,
            ts_fraction: 0,
            orig_len: 0,
            flaws: 0,
            first_flaw: 0,
            time: Time::default(),
            bytes: calls::Bytes::of(b""),
        };
        // SAFETY: each pointer points to a value of its own, and `left` is a slice's.
        let status = unsafe {
            calls::pcapfile_take_packet_as_is(self.capture.header(), &mut left, self.limit, &mut packet, &mut error)
        };
        if status != 0 {
            return Err(Error::of(status, error));
        }
        self.capture.left = lent(bytes, left);
        let flaws = Flaws { bits: packet.flaws, first: packet.first_flaw };
        let data = lent(bytes, packet.bytes);
        Ok((PacketAsIs { time: packet.time, original_len: packet.orig_len, data, flaws }, packet.ts_sec))
    }
}

impl<'a> Iterator for PacketsAsIs<'a> {
    type Item = Result<PacketAsIs<'a>, Error>;

    fn next(&mut self) -> Option<Self::Item> {
        if self.is_done || self.rest().is_empty() {
            return None;
        }
        let taken = self.take_one();
        self.is_done = taken.is_err();
        Some(taken.map(|(packet, _)| packet))
    }
}
