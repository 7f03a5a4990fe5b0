//! Makes calls on little-endian block bodies in memory, each after its length in four bytes, as `measured_calls` does.

use byteorder::{ByteOrder, LittleEndian};
use pcap_file::pcapng::{
    EnhancedPacketBlock, EnhancedPacketOption, InterfaceDescriptionBlock, InterfaceStatisticsBlock,
    NameResolutionBlock, Record, SectionHeaderBlock, SimplePacketBlock,
};
use pcap_file::PcapError;

type Number = fn(&[u8]) -> Result<usize, PcapError>;

/// Returns a function that parses a body, and gives a number of the parsed value.
pub fn number_of(call: &str) -> Option<Number> {
    let number: Number = match call {
        "enhanced" => |body| {
            let (_, block) = EnhancedPacketBlock::from_slice::<LittleEndian>(body)?;
            Ok(block.data.len().wrapping_add(block.options.len()))
        },
        "simple" => |body| {
            let (_, block) = SimplePacketBlock::from_slice::<LittleEndian>(body)?;
            Ok(block.data.len())
        },
        "section" => |body| {
            let (_, block) = SectionHeaderBlock::from_slice(body)?;
            Ok(block.options.len())
        },
        "interface" => |body| {
            let (_, block) = InterfaceDescriptionBlock::from_slice::<LittleEndian>(body)?;
            Ok(block.options.len())
        },
        "statistics" => |body| {
            let (_, block) = InterfaceStatisticsBlock::from_slice::<LittleEndian>(body)?;
            Ok(block.options.len())
        },
        "options" => |body| {
            let (_, options) = EnhancedPacketOption::from_slice::<LittleEndian>(body)?;
            Ok(options.len())
        },
        "record" => |body| Ok(names_in(&Record::from_slice::<LittleEndian>(body)?.1)),
        "names" => |body| {
            let (_, block) = NameResolutionBlock::from_slice::<LittleEndian>(body)?;
            Ok(block.records.len())
        },
        _ => return None,
    };
    Some(number)
}

fn names_in(record: &Record) -> usize {
    match record {
        Record::Ipv4(record) => record.names.len(),
        Record::Ipv6(record) => record.names.len(),
        _ => 0,
    }
}

fn body_at(left: &[u8]) -> Option<(&[u8], &[u8])> {
    if left.len() < 4 {
        return None;
    }
    let (length, rest) = left.split_at(4);
    let length = LittleEndian::read_u32(length) as usize;
    if rest.len() < length {
        return None;
    }
    Some(rest.split_at(length))
}

pub fn parse(number: Number, passes: u64, bytes: &[u8]) -> Result<u64, PcapError> {
    let mut sum = 0u64;
    for _ in 0..passes {
        let mut left = bytes;
        while let Some((body, rest)) = body_at(left) {
            sum = sum.wrapping_add(number(body)? as u64);
            left = rest;
        }
    }
    Ok(sum)
}
