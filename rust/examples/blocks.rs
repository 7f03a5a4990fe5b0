//! The lines of `capcopy blocks`, and packets. `blocks FILE`: a line a block. `blocks -p FILE`: a line a packet. `blocks -f
//! FILE..`: of every front of each file, its blocks and then the status.

use pcapfile::{Block, BlockPacket, Blocks, Error, Interface, Section};
use std::process::ExitCode;

const SIMPLE_PACKET: u32 = 3;

fn kind_of(type_: u32) -> String {
    match type_ {
        0x0a0d_0d0a => "section".into(),
        1 => "interface".into(),
        2 => "packet".into(),
        3 => "simple".into(),
        4 => "names".into(),
        5 => "statistics".into(),
        6 => "enhanced".into(),
        9 => "journal".into(),
        other => format!("unknown:{other}"),
    }
}

fn print_section(section: &Section) {
    let order = if section.magic_number == 0x1a2b_3c4d { "big" } else { "little" };
    println!("section {order} {}.{}", section.version_major, section.version_minor);
}

fn list(bytes: &[u8]) -> Result<(), Error> {
    let mut blocks = Blocks::parse(bytes);
    if let Some(first) = blocks.next() {
        first?;
        print_section(blocks.section());
    }
    for (index, block) in blocks.enumerate() {
        let block = block?;
        let word = if block.packet().is_ok() { "ok" } else { "refused" };
        println!("{} {} {} {word}", index + 1, kind_of(block.type_), block.body.len() + 12);
    }
    Ok(())
}

/// The bytes that are stored of a packet: padding follows those of a simple one.
fn stored_of<'a>(block: &Block, packet: &BlockPacket<'a>, interfaces: &[Interface]) -> &'a [u8] {
    if block.type_ != SIMPLE_PACKET {
        return packet.data;
    }
    let snaplen = interfaces.first().map_or(0, |interface| interface.snaplen);
    let most = if snaplen == 0 { packet.original_len } else { packet.original_len.min(snaplen) };
    &packet.data[..packet.data.len().min(most as usize)]
}

fn print_packet(index: usize, block: &Block, interfaces: &[Interface]) {
    let Ok(Some(packet)) = block.packet() else { return };
    print!("{index} {} {} ", packet.interface_id, packet.timestamp);
    match interfaces.get(packet.interface_id as usize) {
        None => print!("none none "),
        Some(interface) => match interface.time(packet.timestamp).filter(|_| block.type_ != SIMPLE_PACKET) {
            None => print!("none {} ", interface.link),
            Some(time) => print!("{}.{:09} {} ", time.seconds, time.nanoseconds, interface.link),
        },
    }
    let stored = stored_of(block, &packet, interfaces);
    let bytes: String = stored.iter().map(|byte| format!("{byte:02x}")).collect();
    println!("{}/{} {bytes}", stored.len(), packet.original_len);
}

fn list_packets(bytes: &[u8]) -> Result<(), Error> {
    let (mut blocks, mut interfaces, mut index) = (Blocks::parse(bytes), Vec::new(), 0);
    while let Some(block) = blocks.next() {
        let block = block?;
        if blocks.section().interfaces == 0 {
            interfaces.clear();
        }
        interfaces.extend(block.interface().ok().flatten());
        print_packet(index, &block, &interfaces);
        index += 1;
    }
    Ok(())
}

fn status_of(listed: Result<(), Error>) -> u8 {
    match listed {
        Ok(()) => 0,
        Err(Error::Incomplete(_) | Error::BadValue) => 3,
        Err(Error::NoMemory) => 4,
        Err(_) => 1,
    }
}

fn list_fronts(paths: &[String]) -> ExitCode {
    for path in paths {
        let Ok(bytes) = std::fs::read(path) else {
            return ExitCode::from(4);
        };
        for end in 0..=bytes.len() {
            println!("status {}", status_of(list(&bytes[..end])));
        }
    }
    ExitCode::SUCCESS
}

fn main() -> ExitCode {
    let words: Vec<_> = std::env::args().skip(1).collect();
    if words.first().is_some_and(|word| word == "-f") {
        return list_fronts(&words[1..]);
    }
    let Some(bytes) = words.last().and_then(|path| std::fs::read(path).ok()) else {
        return ExitCode::from(4);
    };
    match words[0].as_str() {
        "-p" => ExitCode::from(status_of(list_packets(&bytes))),
        _ => ExitCode::from(status_of(list(&bytes))),
    }
}
