//! Runs the Rust crate, for measurements beside it. `driver list|copy|blocks` writes what `capcopy` writes. `driver CALL PASSES` makes the
//! calls of `measured_calls`. `driver packets` writes what the example `stream` in `rust/` prints.

mod bodies;
mod captures;
mod packets;

use pcap_file::pcap::{PcapReader, PcapWriter};
use pcap_file::pcapng::{BlockType, PcapNgReader};
use std::error::Error;
use std::io::{stdin, stdout, BufReader, BufWriter, Read, Write};

const ROOM: usize = 64 * 1024;

type Done = Result<(), Box<dyn Error>>;

fn list(input: impl Read, mut output: impl Write) -> Done {
    for (index, packet) in PcapReader::new(input)?.enumerate() {
        let header = packet?.header;
        writeln!(
            output,
            "{} {}.{:09} {}/{}",
            index + 1,
            header.ts_sec,
            header.ts_nsec,
            header.incl_len,
            header.orig_len
        )?;
    }
    Ok(())
}

fn copy(input: impl Read, mut output: impl Write) -> Done {
    let reader = PcapReader::new(input)?;
    let mut writer = PcapWriter::with_header(reader.header, &mut output)?;
    for packet in reader {
        writer.write_packet(&packet?)?;
    }
    Ok(())
}

fn blocks(input: impl Read, mut output: impl Write) -> Done {
    let mut reader = PcapNgReader::new(input)?;
    let section = reader.section();
    let order = if section.endianness().is_little() {
        "little"
    } else {
        "big"
    };
    let (major, minor) = (section.major_version, section.minor_version);
    writeln!(output, "section {order} {major}.{minor}")?;
    let mut index = 0u64;
    while let Some(block) = reader.next() {
        let block = block?;
        index += 1;
        let length = block.initial_len;
        let parsed = if block.parsed().is_ok() {
            "ok"
        } else {
            "refused"
        };
        let kind = match block.type_ {
            BlockType::SectionHeader => "section",
            BlockType::InterfaceDescription => "interface",
            BlockType::Packet => "packet",
            BlockType::SimplePacket => "simple",
            BlockType::NameResolution => "names",
            BlockType::InterfaceStatistics => "statistics",
            BlockType::EnhancedPacket => "enhanced",
            BlockType::SystemdJournalExport => "journal",
            BlockType::Unknown(code) => {
                writeln!(output, "{index} unknown:{code} {length} {parsed}")?;
                continue;
            }
        };
        writeln!(output, "{index} {kind} {length} {parsed}")?;
    }
    Ok(())
}

fn pass(call: &str, passes: u64) -> Done {
    let mut bytes = vec![];
    stdin().read_to_end(&mut bytes)?;
    let sum = match bodies::number_of(call) {
        Some(number) => bodies::parse(number, passes, &bytes)?,
        None => captures::passes_of(call, passes, &bytes)?,
    };
    println!("{sum}");
    Ok(())
}

fn main() -> Done {
    let words: Vec<String> = std::env::args().skip(1).collect();
    let words: Vec<&str> = words.iter().map(String::as_str).collect();
    if let [call, passes] = words[..] {
        return pass(call, passes.parse()?);
    }
    let input = BufReader::with_capacity(ROOM, stdin().lock());
    let mut output = BufWriter::with_capacity(ROOM, stdout().lock());
    match words[..] {
        ["list"] => list(input, &mut output)?,
        ["copy"] => copy(input, &mut output)?,
        ["blocks"] => blocks(input, &mut output)?,
        ["packets"] => packets::print(input, &mut output)?,
        _ => return Err("driver list | copy | blocks | packets | CALL PASSES".into()),
    }
    Ok(output.flush()?)
}
