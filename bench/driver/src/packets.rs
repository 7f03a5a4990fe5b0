//! Prints the packets of a capture of either format, as the example `stream` of the crate in `rust/` does.

use pcap_file::pcap::PcapReader;
use pcap_file::pcapng::{
    BlockType, InterfaceDescriptionBlock, InterfaceDescriptionOption, PacketBlock, ParsedBlock, PcapNgReader,
};
use std::error::Error;
use std::io::{BufRead, Read, Write};

type Done = Result<(), Box<dyn Error>>;

/// Prints each packet, `refused` for one whose body is refused, and then `end`, or `refused` if the capture goes on in another way.
pub fn print(mut input: impl BufRead, output: &mut impl Write) -> Done {
    let is_ng = input.fill_buf()?.starts_with(&[0x0a, 0x0d, 0x0d, 0x0a]);
    let is_whole = if is_ng { print_blocks(input, output)? } else { print_classic(input, output)? };
    Ok(writeln!(output, "{}", if is_whole { "end" } else { "refused" })?)
}

fn hex(bytes: &[u8]) -> String {
    bytes.iter().map(|byte| format!("{byte:02x}")).collect()
}

/// Returns whether the capture ends after a packet, or after its header.
fn print_classic(input: impl Read, output: &mut impl Write) -> Result<bool, Box<dyn Error>> {
    let Ok(reader) = PcapReader::new(input) else { return Ok(false) };
    let link = u32::from(reader.header.datalink);
    for packet in reader {
        let Ok(packet) = packet else { return Ok(false) };
        let head = packet.header;
        let (stored, original, data) = (head.incl_len, head.orig_len, hex(&packet.data));
        writeln!(output, "0 {}.{:09} {link} {stored}/{original} {data}", head.ts_sec, head.ts_nsec)?;
    }
    Ok(true)
}

/// Does the same for blocks.
fn print_blocks(input: impl Read, output: &mut impl Write) -> Result<bool, Box<dyn Error>> {
    let Ok(mut reader) = PcapNgReader::new(input) else { return Ok(false) };
    while let Some(block) = reader.next() {
        let Ok(block) = block else { return Ok(false) };
        if !matches!(block.type_, BlockType::EnhancedPacket | BlockType::SimplePacket | BlockType::Packet) {
            continue;
        }
        let is_little = reader.section().endianness().is_little();
        match block.parsed() {
            Ok(parsed) => writeln!(output, "{}", told(parsed, reader.interfaces(), is_little))?,
            Err(_) => writeln!(output, "refused")?,
        }
    }
    Ok(true)
}

/// A packet, from any block.
fn told(parsed: ParsedBlock, interfaces: &[InterfaceDescriptionBlock], is_little: bool) -> String {
    match parsed {
        ParsedBlock::EnhancedPacket(it) => line(it.interface_id, Some(it.timestamp), it.original_len, &it.data, interfaces, is_little),
        ParsedBlock::Packet(PacketBlock { interface_id, timestamp, original_len, data, .. }) => {
            line(interface_id.into(), Some(timestamp), original_len, &data, interfaces, is_little)
        }
        ParsedBlock::SimplePacket(it) => {
            let snaplen = interfaces.first().map_or(0, |interface| interface.snaplen);
            let most = if snaplen == 0 { it.original_len } else { it.original_len.min(snaplen) };
            let stored = &it.data[..it.data.len().min(most as usize)];
            line(0, None, it.original_len, stored, interfaces, is_little)
        }
        _ => unreachable!("a packet's body is a packet"),
    }
}

fn line(
    id: u32,
    units: Option<u64>,
    original: u32,
    data: &[u8],
    interfaces: &[InterfaceDescriptionBlock],
    is_little: bool,
) -> String {
    let interface = interfaces.get(id as usize);
    // The crate reads the low half of a little-endian timestamp first (docs/DIFFERENCES.md).
    let units = units.map(|units| if is_little { units.rotate_left(32) } else { units });
    let time = interface.zip(units).map_or("none".into(), |(interface, units)| time_of(interface, units));
    let link = interface.map_or("none".into(), |interface| u32::from(interface.linktype).to_string());
    format!("{id} {time} {link} {}/{original} {}", data.len(), hex(data))
}

/// Returns seconds and nanoseconds by the interface's clock, or `none` if the seconds pass 64 bits.
fn time_of(interface: &InterfaceDescriptionBlock, units: u64) -> String {
    let (mut resolution, mut offset) = (6, 0);
    for option in interface.options.iter().rev() {
        match option {
            InterfaceDescriptionOption::IfTsResol(it) => resolution = *it,
            InterfaceDescriptionOption::IfTsOffset(it) => offset = *it as i64,
            _ => {}
        }
    }
    let (units, exponent) = (u128::from(units), u32::from(resolution & 0x7f));
    let Some(per_second) = (if resolution & 0x80 == 0 { 10u128.checked_pow(exponent) } else { 1u128.checked_shl(exponent) }) else {
        return format!("{}.000000000", offset);
    };
    let Ok(seconds) = i64::try_from((units / per_second) as i128 + i128::from(offset)) else { return "none".into() };
    let nanoseconds = (units % per_second) * 1_000_000_000 / per_second;
    format!("{seconds}.{nanoseconds:09}")
}
