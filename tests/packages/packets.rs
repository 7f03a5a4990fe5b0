//! packets CAPTURE: prints a line for each packet.

use pcapfile::{Blocks, Capture, Error};

const SECTION: u32 = 0x0a0d_0d0a;

fn classic(bytes: &[u8]) -> Result<(), Error> {
    for packet in Capture::parse(bytes)? {
        let packet = packet?;
        println!("{}.{:09} {}", packet.seconds, packet.nanoseconds, packet.data.len());
    }
    Ok(())
}

fn of_blocks(bytes: &[u8]) -> Result<(), Error> {
    let mut interfaces = Vec::new();
    for block in Blocks::parse(bytes) {
        let block = block?;
        if block.type_ == SECTION {
            interfaces.clear();
        }
        if let Some(packet) = block.packet()? {
            let interface: &pcapfile::Interface = &interfaces[packet.interface_id as usize];
            let time = interface.time(packet.timestamp).expect("times of 64 bits");
            println!("{}.{:09} {}", time.seconds, time.nanoseconds, packet.data.len());
        }
        interfaces.extend(block.interface()?);
    }
    Ok(())
}

fn main() -> Result<(), Box<dyn std::error::Error>> {
    let bytes = std::fs::read(std::env::args().nth(1).ok_or("usage: packets CAPTURE")?)?;
    let list = if bytes.starts_with(&[0x0a, 0x0d, 0x0d, 0x0a]) { of_blocks } else { classic };
    Ok(list(&bytes)?)
}
