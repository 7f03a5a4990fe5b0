use pcapfile::{
    AnyPacket, BlockOption, BlockPacket, BlockWriter, Error, Header, Interface, OwnedOption, OwnedPacket, Reader, Rule, Section, Time, WriteError,
    Writer,
};
use std::io::{self, Write};

const NANOSECONDS: Header =
    Header { magic_number: 0x4d3c_b2a1, version_major: 2, version_minor: 4, ts_correction: 0, ts_accuracy: 0, snaplen: 65535, link: 1 };
/// A little-endian classic capture in microseconds, Ethernet with 4 bytes of check sequence, and a packet of 7 seconds and 8 microseconds.
const CLASSIC: &[u8] = b"\xd4\xc3\xb2\xa1\x02\0\x04\0\0\0\0\0\0\0\0\0\xff\xff\0\0\x01\0\0\x24\
    \x07\0\0\0\x08\0\0\0\x03\0\0\0\x05\0\0\0abc";
/// The same as a section, an interface of nanoseconds with if_fcslen (13) of 32 bits, and an enhanced packet of 7000008000 nanoseconds.
const SECTION: &[u8] = b"\x0a\x0d\x0d\x0a\x1c\0\0\0\x4d\x3c\x2b\x1a\x01\0\0\0\xff\xff\xff\xff\xff\xff\xff\xff\x1c\0\0\0";
const INTERFACE: &[u8] = b"\x01\0\0\0\x28\0\0\0\x01\0\0\0\0\0\0\0\x09\0\x01\0\x09\0\0\0\x0d\0\x01\0\x20\0\0\0\0\0\0\0\x28\0\0\0";

fn enhanced(interface_id: u32, timestamp: u64, options: &[u8]) -> Vec<u8> {
    let len = (36 + options.len() as u32).to_le_bytes();
    let (high, low) = (((timestamp >> 32) as u32).to_le_bytes(), (timestamp as u32).to_le_bytes());
    [&6_u32.to_le_bytes(), &len, &interface_id.to_le_bytes(), &high, &low, &[3, 0, 0, 0], &[5, 0, 0, 0], b"abc\0", options, &len].concat()
}

fn reason(result: io::Result<()>) -> Option<WriteError> {
    let error = result.unwrap_err();
    assert_eq!(error.kind(), io::ErrorKind::InvalidInput);
    WriteError::of_io(&error)
}

#[test]
fn a_classic_capture_is_copied_and_converted() {
    let header = Header { magic_number: 0xd4c3_b2a1, link: 0x2400_0001, ..NANOSECONDS };
    let mut copy = Writer::new(Vec::new(), header).unwrap();
    let mut blocks = BlockWriter::new(Vec::new(), Section::LITTLE_ENDIAN).unwrap();
    for packet in Reader::new(CLASSIC) {
        let packet = packet.unwrap();
        copy.write(&packet).unwrap();
        copy.write(packet.as_packet()).unwrap();
        blocks.write(&packet).unwrap();
        blocks.write(&packet.as_packet()).unwrap();
    }
    assert_eq!(copy.into_inner(), [CLASSIC, &CLASSIC[24..]].concat());
    let wanted = enhanced(0, 7_000_008_000, b"");
    assert_eq!(blocks.into_inner(), [SECTION, INTERFACE, &wanted, &wanted].concat());
}

/// The options of a section, of an interface and of a packet, byte for byte.
#[test]
fn options_are_written() {
    let comment = OwnedOption::comment("hello");
    let mut writer = BlockWriter::with_options(Vec::new(), Section::LITTLE_ENDIAN, [comment.as_option()]).unwrap();
    let interface = Interface { link: 1, snaplen: 0, ts_base: 10, ts_exponent: 9, ts_offset: 0 };
    writer.add_interface_with(&interface, [BlockOption { code: 13, value: &[32] }]).unwrap();
    let packet = BlockPacket { interface_id: 0, timestamp: 5, original_len: 5, data: b"abc" };
    writer.write_packet_with(&packet, [BlockOption { code: 2, value: &[1, 0, 0, 0] }, BlockOption { code: 1, value: b"" }]).unwrap();
    writer.write_packet(&packet).unwrap();
    let section: &[u8] = b"\x0a\x0d\x0d\x0a\x2c\0\0\0\x4d\x3c\x2b\x1a\x01\0\0\0\xff\xff\xff\xff\xff\xff\xff\xff\
        \x01\0\x05\0hello\0\0\0\0\0\0\0\x2c\0\0\0";
    let options = b"\x02\0\x04\0\x01\0\0\0\x01\0\0\0\0\0\0\0";
    assert_eq!(writer.into_inner(), [section, INTERFACE, &enhanced(0, 5, options), &enhanced(0, 5, b"")].concat());
}

#[test]
fn packets_keep_their_options_and_their_interfaces() {
    let options = b"\x01\0\x03\0one\0\x02\0\x04\0\x01\0\0\0\0\0\0\0";
    let plain: &[u8] = b"\x01\0\0\0\x20\0\0\0\x71\0\0\0\0\0\0\0\x09\0\x01\0\x09\0\0\0\0\0\0\0\x20\0\0\0";
    let bytes = [SECTION, plain, plain, &enhanced(1, 9, options), &enhanced(0, 9, b"")].concat();
    let mut writer = BlockWriter::new(Vec::new(), Section::LITTLE_ENDIAN).unwrap();
    for packet in Reader::new(&bytes[..]) {
        writer.write(&packet.unwrap()).unwrap();
    }
    // The first packet's interface is the first one here.
    assert_eq!(writer.into_inner(), [SECTION, plain, &enhanced(0, 9, options), plain, &enhanced(1, 9, b"")].concat());
}

/// Numbers in the options of packets get the byte order of the section.
#[test]
fn options_change_their_byte_order() {
    let big = |code: u16, value: &[u8]| OwnedOption::new(code, value);
    let mut packet = OwnedPacket::new(1, Time { seconds: 0, nanoseconds: 5 }, *b"abc");
    packet.original_len = 5;
    packet.is_big_endian = true;
    packet.options = vec![big(1, b"hi"), big(2, &[0, 0, 0, 1]), big(4, &[0, 0, 0, 0, 0, 0, 0, 2]), big(2988, &[0, 0, 0, 7, b'x', b'y'])];
    let mut writer = BlockWriter::new(Vec::new(), Section::LITTLE_ENDIAN).unwrap();
    writer.write(&packet).unwrap();
    let options = b"\x01\0\x02\0hi\0\0\x02\0\x04\0\x01\0\0\0\x04\0\x08\0\x02\0\0\0\0\0\0\0\xac\x0b\x06\0\x07\0\0\0xy\0\0\0\0\0\0";
    assert!(writer.get_ref().ends_with(&enhanced(0, 5, options)));
    packet.options = vec![big(99, b"?")];
    assert_eq!(reason(writer.write(&packet)), Some(WriteError::OtherByteOrder));
    let mut writer = BlockWriter::new(Vec::new(), Section::BIG_ENDIAN).unwrap();
    writer.write(&packet).unwrap();
    assert_eq!(Reader::new(&writer.into_inner()[..]).next().unwrap().unwrap().options, packet.options);
}

/// Every block of a capture is copied byte for byte, with two sections in two byte orders and an unknown block.
#[test]
fn a_capture_is_copied_block_by_block() {
    let second: &[u8] = b"\x0a\x0d\x0d\x0a\0\0\0\x28\x1a\x2b\x3c\x4d\0\x01\0\0\xff\xff\xff\xff\xff\xff\xff\xff\
        \0\x04\0\x01x\0\0\0\0\0\0\0\0\0\0\x28\0\0\x0b\xad\0\0\0\x10\0\0\0\x01\0\0\0\x10";
    let bytes = [SECTION, INTERFACE, &enhanced(0, 5, b"\x01\0\0\0\0\0\0\0"), second].concat();
    let mut reader = Reader::new(&bytes[..]);
    let mut writer = BlockWriter::copying(Vec::new());
    while let Some(block) = reader.next_block().unwrap() {
        writer.write_block(&block).unwrap();
    }
    assert_eq!((writer.section().is_big_endian(), writer.section().interfaces), (true, 0));
    assert_eq!(writer.get_ref(), &bytes);
    let mut blocks = Reader::new(&bytes[..]);
    let owned: Vec<_> = blocks.blocks().map(Result::unwrap).collect();
    assert_eq!(reason(writer.write_block(&owned[2].as_block())), Some(WriteError::OtherByteOrder));
    let mut odd = owned[4].clone();
    odd.body.push(0);
    assert_eq!(reason(writer.write_block(&odd.as_block())), Some(WriteError::BadLength));
    let mut empty = BlockWriter::copying(Vec::new());
    let error = empty.write_block(&owned[1].as_block()).unwrap_err();
    assert_eq!((Error::of_io(&error), WriteError::of_io(&error)), (Some(Error::Invalid(Rule::SectionMissing)), None));
    // A packet can follow blocks that were copied.
    empty.write_block(&owned[0].as_block()).unwrap();
    empty.write_block(&owned[1].as_block()).unwrap();
    empty.write_on(0, &AnyPacket::new(1, Time { seconds: 0, nanoseconds: 5 }, b"abc")).unwrap();
    assert_eq!(Reader::new(&empty.into_inner()[..]).next().unwrap().unwrap().data, b"abc");
}

/// A block in one byte order, whose numbers are `to_bytes` of theirs.
fn block(to_bytes: fn(u32) -> [u8; 4], number: u32, body: &[u8]) -> Vec<u8> {
    let padding = &[0; 3][..body.len().next_multiple_of(4) - body.len()];
    let len = to_bytes((12 + body.len() + padding.len()) as u32);
    [&to_bytes(number), &len, body, padding, &len].concat()
}

/// A section with a block of every kind of the draft, and of an unknown one.
fn every_kind(to_bytes: fn(u32) -> [u8; 4]) -> Vec<u8> {
    let head = |numbers: &[u32]| numbers.iter().flat_map(|it| to_bytes(*it)).collect::<Vec<u8>>();
    // Two numbers of 16 bits: the version 1.0, or Ethernet and a reserved number.
    let one_and_zero = if to_bytes(1)[0] == 1 { vec![1, 0, 0, 0] } else { vec![0, 1, 0, 0] };
    let bodies = [
        (0x0a0d_0d0a, [head(&[0x1a2b_3c4d]), one_and_zero.clone(), vec![0xff; 8]].concat()),
        (1, [one_and_zero, head(&[65535])].concat()),
        (2, [head(&[0, 0, 5, 3, 3]), b"abc".to_vec()].concat()),
        (3, [head(&[3]), b"abc".to_vec()].concat()),
        (4, head(&[0])),
        (5, head(&[0, 0, 5])),
        (6, [head(&[0, 0, 5, 3, 3]), b"abc".to_vec()].concat()),
        (9, b"MESSAGE=an entry of a journal\n".to_vec()),
        (10, [head(&[0x544c_534b, 7]), b"secrets".to_vec()].concat()),
        (0xbad, [head(&[32473]), b"custom".to_vec()].concat()),
        (0x4000_0bad, [head(&[32473]), b"not to be copied".to_vec()].concat()),
        (0x1234, b"of an unknown kind".to_vec()),
    ];
    bodies.iter().flat_map(|(number, body)| block(to_bytes, *number, body)).collect()
}

#[test]
fn every_kind_of_block_is_copied() {
    let bytes = [every_kind(u32::to_le_bytes), every_kind(u32::to_be_bytes), every_kind(u32::to_le_bytes)].concat();
    let mut reader = Reader::new(&bytes[..]);
    let mut writer = BlockWriter::copying(Vec::new());
    let mut count = 0;
    while let Some(block) = reader.next_block().unwrap() {
        writer.write_block(&block).unwrap();
        count += 1;
    }
    assert_eq!((count, writer.into_inner()), (36, bytes));
}

#[test]
fn times_are_exact_or_refused() {
    let packet = |seconds, nanoseconds| OwnedPacket::new(1, Time { seconds, nanoseconds }, *b"abc");
    let mut writer = BlockWriter::new(Vec::new(), Section::LITTLE_ENDIAN).unwrap();
    writer.add_interface(&Interface { link: 1, snaplen: 0, ts_base: 10, ts_exponent: 6, ts_offset: -10 }).unwrap();
    writer.add_interface(&Interface { link: 1, snaplen: 0, ts_base: 2, ts_exponent: 10, ts_offset: 0 }).unwrap();
    writer.write_on(0, &packet(-3, 5000)).unwrap();
    writer.write_on(0, &packet(-10, 0)).unwrap();
    writer.write_on(1, &packet(1, 500_000_000)).unwrap();
    for (interface_id, seconds, nanoseconds) in [(0, 0, 1), (0, -11, 0), (0, i64::MAX, 0), (1, 0, 1_000_000), (1, -1, 0)] {
        assert_eq!(reason(writer.write_on(interface_id, &packet(seconds, nanoseconds))), Some(WriteError::TimeOutOfRange));
    }
    assert_eq!(reason(writer.write(&packet(-1, 0))), Some(WriteError::TimeOutOfRange));
    // 2^64 nanoseconds.
    assert_eq!(reason(writer.write(&packet(18_446_744_073, 709_551_616))), Some(WriteError::TimeOutOfRange));
    writer.write(&packet(18_446_744_073, 709_551_615)).unwrap();
    let bytes = writer.into_inner();
    let times: Vec<_> = Reader::new(&bytes[..]).map(|it| it.unwrap().time.unwrap()).map(|it| (it.seconds, it.nanoseconds)).collect();
    assert_eq!(times, [(-3, 5000), (-10, 0), (1, 500_000_000), (18_446_744_073, 709_551_615)]);
    let mut classic = Writer::new(Vec::new(), NANOSECONDS).unwrap();
    classic.write(&packet(u32::MAX.into(), 7)).unwrap();
    assert_eq!(classic.get_ref()[24..32], [0xff, 0xff, 0xff, 0xff, 7, 0, 0, 0]);
    assert_eq!(reason(classic.write(&packet(-1, 0))), Some(WriteError::TimeOutOfRange));
    assert_eq!(reason(classic.write(&packet(1 << 32, 0))), Some(WriteError::TimeOutOfRange));
}

#[test]
fn what_cannot_be_written_is_refused_and_changes_nothing() {
    let mut packet = OwnedPacket::new(113, Time::EPOCH, *b"abc");
    let mut classic = Writer::new(Vec::new(), NANOSECONDS).unwrap();
    assert_eq!(reason(classic.write(&packet)), Some(WriteError::OtherLink));
    let mut writer = BlockWriter::new(Vec::new(), Section::LITTLE_ENDIAN).unwrap();
    for option in [OwnedOption::new(0, *b""), OwnedOption::new(1, vec![b'x'; 65536])] {
        packet.options = vec![option];
        assert_eq!(reason(writer.write(&packet)), Some(WriteError::BadOption));
    }
    let unit = BlockOption { code: 9, value: &[6] };
    assert_eq!(reason(writer.add_interface_with(&Interface::nanoseconds(1, 0), [unit]).map(drop)), Some(WriteError::BadOption));
    packet.options.clear();
    packet.time = None;
    assert_eq!(reason(writer.write(&packet)), Some(WriteError::NoTime));
    (packet.time, packet.link) = (Some(Time::EPOCH), None);
    assert_eq!(reason(writer.write(&packet)), Some(WriteError::OtherLink));
    packet.link = Some(113);
    assert_eq!(Error::of_io(&writer.write_on(0, &packet).unwrap_err()), Some(Error::Invalid(Rule::InterfaceMissing)));
    writer.add_interface(&Interface::nanoseconds(1, 0)).unwrap();
    assert_eq!(reason(writer.write_on(0, &packet)), Some(WriteError::OtherLink));
    assert_eq!(writer.into_inner().len(), 28 + 32);
    assert_eq!(classic.into_inner().len(), 24);
}

/// A stream that has room for so many bytes, and counts how often it is flushed.
struct Full(usize, usize);

impl Write for Full {
    fn write(&mut self, bytes: &[u8]) -> io::Result<usize> {
        let taken = bytes.len().min(self.0);
        self.0 -= taken;
        if taken == 0 { Err(io::Error::other("full")) } else { Ok(taken) }
    }

    fn flush(&mut self) -> io::Result<()> {
        self.1 += 1;
        Ok(())
    }
}

#[test]
fn nothing_is_written_after_a_failed_write() {
    let packet = OwnedPacket::new(1, Time::EPOCH, *b"abc");
    let mut writer = BlockWriter::new(Full(70, 0), Section::LITTLE_ENDIAN).unwrap();
    writer.flush().unwrap();
    assert_eq!(writer.get_ref().1, 1);
    assert_eq!(writer.write(&packet).unwrap_err().to_string(), "full");
    assert_eq!(writer.section().interfaces, 1);
    let again = |error: io::Error| assert_eq!(error.to_string(), "an earlier write failed");
    again(writer.write(&packet).unwrap_err());
    again(writer.flush().unwrap_err());
    let bytes = [SECTION, INTERFACE].concat();
    let mut reader = Reader::new(&bytes[..]);
    again(writer.write_block(&reader.next_block().unwrap().unwrap()).unwrap_err());
    assert_eq!(writer.get_ref().1, 1);
    let mut classic = Writer::new(Full(30, 0), NANOSECONDS).unwrap();
    classic.flush().unwrap();
    assert_eq!(classic.write(&packet).unwrap_err().to_string(), "full");
    again(classic.write(&packet).unwrap_err());
    again(classic.flush().unwrap_err());
}
