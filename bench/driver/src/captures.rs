//! Makes calls on a classic capture in memory, as `measured_calls` does.

use pcap_file::pcap::{PcapParser, PcapReader, PcapWriter};
use pcap_file::PcapError;

type Sum = Result<u64, PcapError>;

pub fn passes_of(call: &str, passes: u64, bytes: &[u8]) -> Sum {
    match call {
        "next_packet" => next_packet(passes, bytes),
        "next" | "next_header" => next(passes, bytes),
        "write_packet" => write_packet(passes, bytes),
        "copy" | "copy_buffered" => copy(passes, bytes),
        "memcpy" => memcpy(passes, bytes),
        _ => Err(PcapError::InvalidField("no call has this name")),
    }
}

fn next_packet(passes: u64, bytes: &[u8]) -> Sum {
    let mut sum = 0u64;
    for _ in 0..passes {
        let (mut left, parser) = PcapParser::new(bytes)?;
        while !left.is_empty() {
            let (rest, packet) = parser.next_packet(left)?;
            sum = sum
                .wrapping_add(u64::from(packet.header.ts_nsec))
                .wrapping_add(packet.data.len() as u64);
            left = rest;
        }
    }
    Ok(sum)
}

fn next(passes: u64, bytes: &[u8]) -> Sum {
    let mut sum = 0u64;
    for _ in 0..passes {
        for packet in PcapReader::new(bytes)? {
            sum = sum.wrapping_add(packet?.data.len() as u64);
        }
    }
    Ok(sum)
}

fn write_packet(passes: u64, bytes: &[u8]) -> Sum {
    let (mut left, parser) = PcapParser::new(bytes)?;
    let header = PcapReader::new(bytes)?.header;
    let mut packets = vec![];
    while !left.is_empty() {
        let (rest, packet) = parser.next_packet(left)?;
        packets.push(packet);
        left = rest;
    }
    let mut out = Vec::with_capacity(bytes.len());
    let mut sum = 0u64;
    for _ in 0..passes {
        out.clear();
        let mut writer = PcapWriter::with_header(header, &mut out)?;
        for packet in &packets {
            writer.write_packet(packet)?;
        }
        sum = sum.wrapping_add(out.len() as u64);
    }
    Ok(sum)
}

fn copy(passes: u64, bytes: &[u8]) -> Sum {
    let mut out = Vec::with_capacity(bytes.len());
    let mut sum = 0u64;
    for _ in 0..passes {
        out.clear();
        let reader = PcapReader::new(bytes)?;
        let mut writer = PcapWriter::with_header(reader.header, &mut out)?;
        for packet in reader {
            writer.write_packet(&packet?)?;
        }
        sum = sum.wrapping_add(out.len() as u64);
    }
    Ok(sum)
}

fn memcpy(passes: u64, bytes: &[u8]) -> Sum {
    let mut out = Vec::with_capacity(bytes.len());
    let mut sum = 0u64;
    for _ in 0..passes {
        out.clear();
        out.extend_from_slice(std::hint::black_box(bytes));
        sum = sum.wrapping_add(out.len() as u64);
    }
    Ok(sum)
}
