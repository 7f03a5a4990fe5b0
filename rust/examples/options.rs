//! The options and names of each block of a PcapNg capture, as `tests/c/options.c` prints them. `options FILE`.

use pcapfile::{Block, Blocks, Error, NameRecord};
use std::process::ExitCode;

const NAMES: u32 = 4;

fn hex(bytes: &[u8]) -> String {
    bytes.iter().map(|byte| format!("{byte:02x}")).collect()
}

fn print_record(record: &NameRecord<'_>) {
    let head = format!("name {} {}", record.type_, hex(record.address));
    for name in record.names() {
        println!("{head} {}", hex(name.as_bytes()));
    }
    if record.names().next().is_none() {
        println!("{head}");
    }
}

fn print_block(block: &Block<'_>) -> Result<(), Error> {
    if block.type_ == NAMES {
        for record in block.records() {
            print_record(&record?);
        }
    }
    for option in block.options()? {
        let option = option?;
        println!("option {} {}", option.code, hex(option.value));
    }
    Ok(())
}

fn main() -> ExitCode {
    let Some(bytes) = std::env::args().nth(1).and_then(|path| std::fs::read(path).ok()) else {
        return ExitCode::from(4);
    };
    for (index, block) in Blocks::parse(&bytes).enumerate() {
        let Ok(block) = block else { return ExitCode::from(1) };
        println!("{} {}", index + 1, block.type_);
        match print_block(&block) {
            Ok(()) => {}
            Err(Error::BadValue) => println!("refused io"),
            Err(Error::NotUtf8) => println!("refused utf8"),
            Err(Error::Invalid(rule)) => println!("refused invalid {}", rule.text()),
            Err(error) => panic!("{error}"),
        }
    }
    ExitCode::SUCCESS
}
