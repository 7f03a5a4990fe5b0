use pcapfile::{BlockPacket, BlockWriter, Blocks, Capture, Error, Header, Interface, Packet, Rule, Section, Writer};
use std::io;

const MICROSECONDS: Header =
    Header { magic_number: 0xd4c3b2a1, version_major: 2, version_minor: 4, ts_correction: 0, ts_accuracy: 0, snaplen: 65535, link: 1 };

/// Little-endian, microseconds, Ethernet; one packet of three bytes, five on the wire.
const CAPTURE: &[u8] = b"\xd4\xc3\xb2\xa1\x02\0\x04\0\0\0\0\0\0\0\0\0\xff\xff\0\0\x01\0\0\0\
    \x07\0\0\0\x08\0\0\0\x03\0\0\0\x05\0\0\0abc";

#[test]
fn writes_the_bytes_of_a_capture() {
    let mut writer = Writer::new(Vec::new(), MICROSECONDS).unwrap();
    writer.write_packet(&Packet { seconds: 7, nanoseconds: 8999, original_len: 5, data: b"abc" }).unwrap();
    assert_eq!(writer.into_inner(), CAPTURE);
}

#[test]
fn writes_big_endian_nanoseconds() {
    let mut writer = Writer::new(Vec::new(), Header { magic_number: 0xa1b23c4d, ..MICROSECONDS }).unwrap();
    writer.write_packet(&Packet { seconds: 1, nanoseconds: 2, original_len: 0, data: b"" }).unwrap();
    let wanted = b"\xa1\xb2\x3c\x4d\0\x02\0\x04\0\0\0\0\0\0\0\0\0\0\xff\xff\0\0\0\x01\0\0\0\x01\0\0\0\x02\0\0\0\0\0\0\0\0";
    assert_eq!(writer.get_ref().as_slice(), wanted.as_slice());
}

#[test]
fn a_copy_is_the_capture() {
    let capture = Capture::parse(CAPTURE).unwrap();
    let mut writer = Writer::new(Vec::new(), *capture.header()).unwrap();
    for packet in capture {
        writer.write_packet(&packet.unwrap()).unwrap();
    }
    assert_eq!(writer.into_inner(), CAPTURE);
}

#[test]
fn another_magic_number_is_refused() {
    let error = Writer::new(Vec::new(), Header { magic_number: 7, ..MICROSECONDS }).unwrap_err();
    assert_eq!(error.kind(), io::ErrorKind::InvalidInput);
    let refusal = error.get_ref().unwrap().downcast_ref::<Error>();
    assert_eq!(refusal, Some(&Error::Invalid(Rule::CaptureMagic)));
}

/// A stream that has room for so many bytes.
struct Full(usize);

impl io::Write for Full {
    fn write(&mut self, bytes: &[u8]) -> io::Result<usize> {
        let taken = bytes.len().min(self.0);
        self.0 -= taken;
        if taken == 0 { Err(io::Error::from(io::ErrorKind::StorageFull)) } else { Ok(taken) }
    }

    fn flush(&mut self) -> io::Result<()> {
        Ok(())
    }
}

#[test]
fn nothing_is_written_after_a_failed_write() {
    let mut writer = Writer::new(Full(30), MICROSECONDS).unwrap();
    let packet = Packet { seconds: 1, nanoseconds: 2, original_len: 3, data: b"abc" };
    assert_eq!(writer.write_packet(&packet).unwrap_err().kind(), io::ErrorKind::StorageFull);
    assert_eq!(writer.write_packet(&packet).unwrap_err().kind(), io::ErrorKind::Other);
}

/// A little-endian section, an interface of link type 113 with nanoseconds, and an enhanced packet of three bytes, five on
/// the wire.
const BLOCKS: &[u8] = b"\x0a\x0d\x0d\x0a\x1c\0\0\0\x4d\x3c\x2b\x1a\x01\0\0\0\xff\xff\xff\xff\xff\xff\xff\xff\x1c\0\0\0\
    \x01\0\0\0\x20\0\0\0\x71\0\0\0\0\x01\0\0\x09\0\x01\0\x09\0\0\0\0\0\0\0\x20\0\0\0\
    \x06\0\0\0\x24\0\0\0\0\0\0\0\0\0\0\0\x08\0\0\0\x03\0\0\0\x05\0\0\0abc\0\x24\0\0\0";

const PACKET: BlockPacket = BlockPacket { interface_id: 0, timestamp: 8, original_len: 5, data: b"abc" };

#[test]
fn writes_the_bytes_of_blocks() {
    let mut writer = BlockWriter::new(Vec::new(), Section::LITTLE_ENDIAN).unwrap();
    assert_eq!(writer.add_interface(&Interface::nanoseconds(113, 256)).unwrap(), 0);
    writer.write_packet(&PACKET).unwrap();
    assert_eq!(writer.section().interfaces, 1);
    assert_eq!(writer.into_inner(), BLOCKS);
}

#[test]
fn what_was_written_is_read() {
    let interface = Interface { link: 1, snaplen: 60, ts_base: 2, ts_exponent: 10, ts_offset: -3600 };
    let mut writer = BlockWriter::new(Vec::new(), Section::BIG_ENDIAN).unwrap();
    writer.add_interface(&Interface::nanoseconds(113, 256)).unwrap();
    assert_eq!(writer.add_interface(&interface).unwrap(), 1);
    writer.write_packet(&BlockPacket { interface_id: 1, ..PACKET }).unwrap();
    writer.begin_section(Section::LITTLE_ENDIAN).unwrap();
    writer.add_interface(&interface).unwrap();
    writer.write_packet(&PACKET).unwrap();
    let bytes = writer.into_inner();
    let blocks: Vec<_> = Blocks::parse(&bytes).map(Result::unwrap).collect();
    assert_eq!(blocks[2].interface(), Ok(Some(interface)));
    assert_eq!(blocks[3].packet(), Ok(Some(BlockPacket { interface_id: 1, ..PACKET })));
    assert_eq!((blocks[5].interface(), blocks[6].packet()), (Ok(Some(interface)), Ok(Some(PACKET))));
}

#[test]
fn blocks_without_a_text_are_refused_and_change_nothing() {
    let told = |result: io::Result<()>| match result.unwrap_err().get_ref().unwrap().downcast_ref::<Error>() {
        Some(Error::Invalid(rule)) => *rule,
        other => panic!("{other:?}"),
    };
    assert_eq!(told(BlockWriter::new(Vec::new(), Section::default()).map(drop)), Rule::SectionMagic);
    let mut writer = BlockWriter::new(Vec::new(), Section::LITTLE_ENDIAN).unwrap();
    assert_eq!(told(writer.write_packet(&PACKET)), Rule::InterfaceMissing);
    assert_eq!(told(writer.add_interface(&Interface::nanoseconds(65536, 0)).map(drop)), Rule::LinkTooLarge);
    let fine = Interface { ts_exponent: 128, ..Interface::nanoseconds(113, 256) };
    assert_eq!(told(writer.add_interface(&fine).map(drop)), Rule::InterfaceResolutionLength);
    assert_eq!(told(writer.begin_section(Section::default())), Rule::SectionMagic);
    writer.add_interface(&Interface::nanoseconds(113, 256)).unwrap();
    writer.write_packet(&PACKET).unwrap();
    assert_eq!(writer.into_inner(), BLOCKS);
}

#[test]
fn no_block_is_written_after_a_failed_write() {
    let mut writer = BlockWriter::new(Full(40), Section::LITTLE_ENDIAN).unwrap();
    let interface = Interface::nanoseconds(113, 256);
    assert_eq!(writer.add_interface(&interface).unwrap_err().kind(), io::ErrorKind::StorageFull);
    assert_eq!(writer.section().interfaces, 0);
    assert_eq!(writer.add_interface(&interface).unwrap_err().kind(), io::ErrorKind::Other);
    assert_eq!(writer.write_packet(&PACKET).unwrap_err().kind(), io::ErrorKind::Other);
}
