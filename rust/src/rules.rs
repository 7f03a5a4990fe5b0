//! The rules of the formats.

use crate::calls;
use core::fmt;

macro_rules! rules {
    ($($(#[$doc:meta])* $name:ident = $number:literal,)*) => {
        /// A rule of a format that bytes can break. New rules may come.
        #[derive(Clone, Copy, Debug, PartialEq, Eq, Hash)]
        #[non_exhaustive]
        pub enum Rule {
            $($(#[$doc])* $name = $number,)*
        }

        impl Rule {
            /// All rules, in the order of their numbers.
            pub const ALL: &'static [Rule] = &[$(Rule::$name,)*];

            /// Returns the rule of this number. None if no rule has it.
            pub fn from_number(number: u32) -> Option<Rule> {
                match number {
                    $($number => Some(Rule::$name),)*
                    _ => None,
                }
            }
        }
    };
}

rules! {
    // the rules of docs/REFUSALS.md
    /// A capture's magic number is none of the four known ones.
    CaptureMagic = 1,
    /// A packet record's microseconds, in nanoseconds, do not fit in 32 bits.
    FractionTooLarge = 2,
    /// A packet record's stored length is above 262144 bytes.
    IncludedTooLong = 3,
    /// A packet record's original length is above 262144 bytes.
    OriginalTooLong = 4,
    /// A packet record's stored length is above its original length.
    IncludedPastOriginal = 5,
    /// A section header's magic number is that of neither byte order.
    SectionMagic = 6,
    /// A block's length is not a multiple of 4.
    BlockUnaligned = 7,
    /// A block's length is below 12 bytes.
    BlockTooShort = 8,
    /// The length after a block's body differs from the length before it.
    BlockLengthsDiffer = 9,
    /// The first block is not a section header.
    SectionMissing = 10,
    /// A section header's body is shorter than 16 bytes.
    SectionTooShort = 11,
    /// An interface description's body is shorter than 8 bytes.
    InterfaceTooShort = 12,
    /// The body of an enhanced packet or packet is shorter than 20 bytes.
    EnhancedTooShort = 13,
    /// The data and padding of an enhanced packet or packet extend past the body.
    EnhancedCut = 14,
    /// A simple packet's body is shorter than 4 bytes.
    SimpleTooShort = 15,
    /// The body of an interface statistics block is shorter than 12 bytes.
    StatisticsTooShort = 16,
    /// Fewer than 4 bytes are left where an option or the mark that ends a list must begin.
    OptionTooShort = 17,
    /// An option's value and padding extend past the body.
    OptionCut = 18,
    /// An interface's IPv4 address and mask are not 8 bytes.
    InterfaceIpv4Length = 1901,
    /// An interface's IPv6 address and prefix are not 17 bytes.
    InterfaceIpv6Length = 1902,
    /// An interface's MAC address is not 6 bytes.
    InterfaceMacLength = 1903,
    /// An interface's EUI address is not 8 bytes.
    InterfaceEuiLength = 1904,
    /// An interface's speed is not 8 bytes.
    InterfaceSpeedLength = 1905,
    /// An interface's timestamp resolution is not 1 byte.
    InterfaceResolutionLength = 1906,
    /// An interface's time zone is not 4 bytes.
    InterfaceZoneLength = 1907,
    /// An interface's filter is empty.
    InterfaceFilterEmpty = 1908,
    /// An interface's length of frame check sequences is not 1 byte.
    InterfaceFcsLength = 1909,
    /// An interface's time offset is not 8 bytes.
    InterfaceOffsetLength = 1910,
    /// An enhanced packet's flags are not 4 bytes.
    EnhancedFlagsLength = 1911,
    /// An enhanced packet's drop count is not 8 bytes.
    EnhancedDropCountLength = 1912,
    /// A packet's flags are not 4 bytes.
    PacketFlagsLength = 1913,
    /// A name server's IPv4 address is not 4 bytes.
    NameIpv4Length = 1914,
    /// A name server's IPv6 address is not 16 bytes.
    NameIpv6Length = 1915,
    /// A name record's value extends past the body.
    RecordCut = 20,
    /// The record that ends the list of name records has a value.
    EndNotEmpty = 21,
    /// An IPv4 record is shorter than 6 bytes.
    Ipv4RecordTooShort = 22,
    /// An IPv6 record is shorter than 18 bytes.
    Ipv6RecordTooShort = 23,
    /// A name is not followed by a zero byte.
    NameUnended = 24,
    /// A name record's padding extends past the body.
    RecordUnpadded = 25,
    /// An unknown block's value is 2^32 bytes or more.
    UnknownTooLong = 26,
    /// The number of an interface's link type is 65536 or more.
    LinkTooLarge = 2001,
    /// A packet refers to an interface that its section does not have.
    InterfaceMissing = 2002,
    /// A section has 2^32 - 1 interfaces.
    InterfacesFull = 2003,
    /// A packet's block would have 2^32 bytes or more.
    BlockTooLong = 2004,
    // end of the rules
}

impl Rule {
    /// Returns its number, which no other rule has.
    pub fn number(self) -> u32 {
        self as u32
    }

    /// Returns its name, such as `CaptureMagic`.
    pub fn name(self) -> &'static str {
        calls::text_of(calls::pcapfile_rule_name, self.number())
    }

    /// Returns the message of the error if bytes break it.
    pub fn text(self) -> &'static str {
        calls::text_of(calls::pcapfile_rule_text, self.number())
    }
}

impl fmt::Display for Rule {
    fn fmt(&self, f: &mut fmt::Formatter<'_>) -> fmt::Result {
        f.write_str(self.text())
    }
}
