use pcapfile::{
    Blocks, Capture, Error, Found, Gap, Interface, Lenient, LenientReader, OwnedBlock, OwnedBlocks, OwnedOption, OwnedPacket, Packets, Reader,
    Rule, Section, Time, WriteError, Writer, BlockWriter, AnyPacket,
};
use std::io::{self, Read};

/// A classic capture, little-endian, microseconds, Ethernet with 4 bytes of check sequence; packets of three bytes and of one.
const CLASSIC: &[u8] = b"\xd4\xc3\xb2\xa1\x02\0\x04\0\0\0\0\0\0\0\0\0\xff\xff\0\0\x01\0\0\x24\
    \x07\0\0\0\x08\0\0\0\x03\0\0\0\x05\0\0\0abc\x09\0\0\0\0\0\0\0\x01\0\0\0\x01\0\0\0d";

/// A big-endian section of the application "x" (option 4) and a comment.
const SECTION: &[u8] = b"\x0a\x0d\x0d\x0a\0\0\0\x30\x1a\x2b\x3c\x4d\0\x01\0\0\xff\xff\xff\xff\xff\xff\xff\xff\
    \0\x04\0\x01x\0\0\0\0\x01\0\x02hi\0\0\0\0\0\0\0\0\0\x30";
/// An interface of link type 113, snapshot length 4, with the name "lo" (option 2) and units of 2^-1 seconds.
const INTERFACE: &[u8] = b"\0\0\0\x01\0\0\0\x28\0\x71\0\0\0\0\0\x04\0\x02\0\x02lo\0\0\0\x09\0\x01\x81\0\0\0\0\0\0\0\0\0\0\x28";
/// A packet of 3 half seconds, with two comments and the flags 1 (option 2).
const PACKET: &[u8] = b"\0\0\0\x06\0\0\0\x3c\0\0\0\0\0\0\0\0\0\0\0\x03\0\0\0\x03\0\0\0\x05abc\0\
    \0\x01\0\x03one\0\0\x02\0\x04\0\0\0\x01\0\x01\0\0\0\0\0\0\0\0\0\x3c";
/// A custom block of type 2989, and a simple packet of 6 bytes on the wire, of which 4 are stored.
const CUSTOM: &[u8] = b"\0\0\x0b\xad\0\0\0\x10\0\0\0\x01\0\0\0\x10";
const SIMPLE: &[u8] = b"\0\0\0\x03\0\0\0\x14\0\0\0\x06wxyz\0\0\0\x14";
/// A packet whose flags have two bytes, which is malformed.
const MALFORMED: &[u8] = b"\0\0\0\x06\0\0\0\x28\0\0\0\0\0\0\0\0\0\0\0\x03\0\0\0\0\0\0\0\0\0\x02\0\x02\0\x01\0\0\0\0\0\x28";
/// A little-endian section without options, an interface of Ethernet, and a packet of "q" with a comment.
const SECOND: &[u8] = b"\x0a\x0d\x0d\x0a\x1c\0\0\0\x4d\x3c\x2b\x1a\x01\0\0\0\xff\xff\xff\xff\xff\xff\xff\xff\x1c\0\0\0\
    \x01\0\0\0\x14\0\0\0\x01\0\0\0\0\0\0\0\x14\0\0\0\
    \x06\0\0\0\x2c\0\0\0\0\0\0\0\0\0\0\0\x01\0\0\0\x01\0\0\0\x01\0\0\0q\0\0\0\x01\0\x01\0z\0\0\0\x2c\0\0\0";

fn blocks() -> Vec<u8> {
    [SECTION, INTERFACE, PACKET, CUSTOM, SIMPLE, SECOND].concat()
}

fn options(found: pcapfile::Options<'_>) -> Vec<OwnedOption> {
    found.map(|option| option.unwrap().into()).collect()
}

/// Gives at most so many bytes a read, and fails before each read with one of two kinds of error.
struct Fails<'a> {
    bytes: &'a [u8],
    most: usize,
    calls: usize,
}

impl Read for Fails<'_> {
    fn read(&mut self, room: &mut [u8]) -> io::Result<usize> {
        self.calls += 1;
        match self.calls % 3 {
            1 => Err(io::ErrorKind::Interrupted.into()),
            2 => Err(io::ErrorKind::WouldBlock.into()),
            _ => {
                let most = room.len().min(self.most);
                self.bytes.read(&mut room[..most])
            }
        }
    }
}

#[test]
fn a_reader_is_an_iterator_over_owned_packets() {
    let packets: Vec<OwnedPacket> = Reader::new(CLASSIC).collect::<io::Result<_>>().unwrap();
    assert_eq!(packets.iter().map(|it| it.data.as_slice()).collect::<Vec<_>>(), [&b"abc"[..], b"d"]);
    assert_eq!((packets[0].link, packets[0].link_type(), packets[0].fcs_len()), (Some(0x2400_0001), Some(1), Some(4)));
    assert_eq!((packets[0].time, packets[0].original_len), (Some(Time { seconds: 7, nanoseconds: 8000 }), 5));
    assert!(packets[0].options.is_empty() && !packets[0].is_big_endian);
}

#[test]
fn packets_have_their_options_and_comments() {
    let bytes = blocks();
    let mut reader = Reader::new(&bytes[..]);
    let packet = reader.next().unwrap().unwrap();
    let wanted = [OwnedOption::comment("one"), OwnedOption::new(2, [0, 0, 0, 1]), OwnedOption::comment("")];
    assert_eq!((packet.options.as_slice(), packet.is_big_endian), (&wanted[..], true));
    assert_eq!(packet.comments().collect::<Vec<_>>(), ["one", ""]);
    assert_eq!((packet.time, packet.link), (Some(Time { seconds: 1, nanoseconds: 500_000_000 }), Some(113)));
    assert_eq!(options(reader.section_options()), [OwnedOption::new(4, *b"x"), OwnedOption::comment("hi")]);
    assert_eq!(options(reader.interface_options(0)), [OwnedOption::new(2, *b"lo"), OwnedOption::new(9, [0x81])]);
    assert!(options(reader.interface_options(1)).is_empty());
    let simple = reader.next().unwrap().unwrap();
    assert_eq!((simple.data.as_slice(), simple.time, simple.original_len), (&b"wxyz"[..], None, 6));
    assert_eq!(simple.options, []);
    let last = reader.next().unwrap().unwrap();
    assert_eq!((last.comments().collect::<Vec<_>>(), last.is_big_endian, last.link), (vec!["z"], false, Some(1)));
    assert_eq!((options(reader.section_options()), options(reader.interface_options(0))), (vec![], vec![]));
    assert!(reader.next().is_none() && reader.next().is_none());
}

/// Packets that are lent together have the options of their own blocks.
#[test]
fn lent_packets_are_the_owned_ones() {
    for bytes in [blocks(), CLASSIC.to_vec()] {
        let owned: Vec<_> = Reader::new(&bytes[..]).map(Result::unwrap).collect();
        let mut reader = Reader::new(&bytes[..]);
        let packets = reader.next_packets().unwrap();
        assert!(packets.clone().eq(owned.iter().map(OwnedPacket::as_packet)));
        assert_eq!(packets.map(AnyPacket::into_owned).collect::<Vec<_>>(), owned);
        let mut reader = Reader::new(&bytes[..]);
        for packet in &owned {
            assert_eq!(reader.next_packet().unwrap(), Some(packet.into()));
        }
    }
}

#[test]
fn blocks_come_out_of_a_stream() {
    let bytes = blocks();
    for most in [1, 7, 1000] {
        let mut reader = Reader::new(Fails { bytes: &bytes, most, calls: 0 });
        let mut found: Vec<OwnedBlock> = Vec::new();
        for block in reader.blocks() {
            match block {
                Ok(block) => found.push(block),
                Err(error) => assert_eq!(error.kind(), io::ErrorKind::WouldBlock),
            }
        }
        let kinds: Vec<_> = found.iter().map(|block| block.type_).collect();
        assert_eq!(kinds, [0x0a0d_0d0a, 1, 6, 2989, 3, 0x0a0d_0d0a, 1, 6]);
        assert_eq!(found.iter().map(|block| block.body.len() + 12).sum::<usize>(), bytes.len());
        assert_eq!(found[3].body, b"\0\0\0\x01");
        let interface = Interface { link: 113, snaplen: 4, ts_base: 2, ts_exponent: 1, ts_offset: 0 };
        assert_eq!(found[1].as_block().interface(), Ok(Some(interface)));
        assert_eq!(found[2].as_block().comments().collect::<Vec<_>>(), ["one", ""]);
        assert_eq!(found[2].as_block().packet().unwrap().unwrap().data, b"abc");
        assert_eq!((found[1].section.interfaces, found[5].section.interfaces), (1, 0));
        assert_eq!(reader.interfaces().len(), 1);
        assert!(found.iter().map(OwnedBlock::as_block).eq(Blocks::parse(&bytes).map(Result::unwrap)));
    }
}

#[test]
fn blocks_and_packets_can_be_mixed() {
    let bytes = blocks();
    let mut reader = Reader::new(&bytes[..]);
    assert_eq!(reader.next_block().unwrap().unwrap().type_, 0x0a0d_0d0a);
    assert_eq!(reader.next_block().unwrap().unwrap().interface().unwrap().unwrap().link, 113);
    assert_eq!((reader.interfaces()[0].snaplen, options(reader.interface_options(0)).len()), (4, 2));
    assert_eq!(reader.next_packet().unwrap().unwrap().link, Some(113));
    assert_eq!(reader.next_block().unwrap().unwrap().type_, 2989);
    assert_eq!(reader.next_packet().unwrap().unwrap().data, b"wxyz");
    assert_eq!(reader.next_packet().unwrap().unwrap().data, b"q");
    assert!(reader.next_block().unwrap().is_none());
}

#[test]
fn a_classic_capture_has_no_blocks() {
    let mut reader = Reader::new(CLASSIC);
    assert_eq!(reader.next_packet().unwrap().unwrap().data, b"abc");
    assert_eq!(Error::of_io(&reader.next_block().unwrap_err()), Some(Error::Invalid(Rule::SectionMissing)));
    assert_eq!(reader.next_packet().unwrap().unwrap().data, b"d");
    assert!(Error::of_io(&Reader::new(CLASSIC).next_block().unwrap_err()).is_some());
    assert_eq!(Reader::new(CLASSIC).blocks().count(), 1);
}

#[test]
fn interrupted_and_blocked_reads_lose_nothing() {
    for bytes in [blocks(), CLASSIC.to_vec()] {
        let wanted: Vec<_> = Reader::new(&bytes[..]).map(Result::unwrap).collect();
        for most in [1, 3, 50, 1000] {
            let (mut found, mut blocked) = (Vec::new(), 0);
            for packet in Reader::new(Fails { bytes: &bytes, most, calls: 0 }) {
                match packet {
                    Ok(packet) => found.push(packet),
                    Err(error) => {
                        assert_eq!((error.kind(), Error::of_io(&error)), (io::ErrorKind::WouldBlock, None));
                        blocked += 1;
                    }
                }
            }
            assert_eq!((found, blocked), (wanted.clone(), bytes.len().div_ceil(most) + 1));
        }
    }
}

#[test]
fn a_refusal_that_cannot_be_passed_is_the_last_item() {
    for end in 25..CLASSIC.len() {
        let found: Vec<_> = Reader::new(&CLASSIC[..end]).map(|it| it.map_err(|error| Error::of_io(&error))).collect();
        let missing = if end < 40 { 40 - end } else if end <= 43 { 43 - end } else if end < 59 { 59 - end } else { 60 - end };
        let whole = usize::from(end >= 43);
        assert_eq!(found.len(), whole + usize::from(missing > 0));
        if missing > 0 {
            assert_eq!(found[whole], Err(Some(Error::Incomplete(missing))));
        }
    }
    let found: Vec<_> = Reader::new(&[0xff; 24][..]).map(|it| it.map_err(|error| Error::of_io(&error))).collect();
    assert_eq!(found, [Err(Some(Error::Invalid(Rule::CaptureMagic)))]);
}

/// A malformed packet is an item, and the packets after it are returned.
#[test]
fn a_malformed_packet_is_passed() {
    let bytes = [SECTION, INTERFACE, MALFORMED, MALFORMED, PACKET].concat();
    let found: Vec<_> = Reader::new(&bytes[..]).map(|it| it.map(|it| it.data).map_err(|error| Error::of_io(&error))).collect();
    let refused = Err(Some(Error::Invalid(Rule::EnhancedFlagsLength)));
    assert_eq!(found, [refused.clone(), refused, Ok(b"abc".to_vec())]);
}

/// A stream that grows: its end is no end for ever.
#[test]
fn a_stream_that_grows_is_read_on() {
    struct Grows(Vec<&'static [u8]>);
    impl Read for Grows {
        fn read(&mut self, room: &mut [u8]) -> io::Result<usize> {
            let Some(part) = self.0.pop() else { return Ok(0) };
            room[..part.len()].copy_from_slice(part);
            Ok(part.len())
        }
    }
    let mut reader = Reader::new(Grows(vec![&CLASSIC[50..], b"", &CLASSIC[..50]]));
    assert_eq!(reader.next().unwrap().unwrap().data, b"abc");
    assert_eq!(reader.next().unwrap().unwrap_err().kind(), io::ErrorKind::UnexpectedEof);
    assert_eq!(reader.next().unwrap().unwrap().data, b"d");
    assert!(reader.next().is_none());
}

#[test]
fn a_file_is_opened_by_its_name() {
    let path = std::env::temp_dir().join(format!("pcapfile-owned-{}.pcap", std::process::id()));
    std::fs::write(&path, CLASSIC).unwrap();
    let found = Reader::open(&path).unwrap().map(|packet| packet.unwrap().data).collect::<Vec<_>>();
    std::fs::remove_file(&path).unwrap();
    assert_eq!(found, [b"abc".to_vec(), b"d".to_vec()]);
    assert_eq!(Reader::open(&path).unwrap_err().kind(), io::ErrorKind::NotFound);
}

/// The buffer of a reader and the packets that it lends together do not grow with the capture: the reads have the same room at its end.
#[test]
fn memory_does_not_grow_with_the_capture() {
    struct Endless(usize, usize);
    impl Read for Endless {
        fn read(&mut self, room: &mut [u8]) -> io::Result<usize> {
            self.1 = self.1.max(room.len());
            let bytes = if self.0 == 0 { SECOND } else { &SECOND[48..] };
            self.0 += 1;
            room[..bytes.len()].copy_from_slice(bytes);
            Ok(bytes.len())
        }
    }
    let mut reader = Reader::new(Endless(0, 0));
    for packet in reader.by_ref().take(20_000) {
        assert_eq!(packet.unwrap().data, b"q");
    }
    assert!(reader.get_ref().1 <= 1 << 19);
}

#[test]
fn errors_are_plain_and_convert() {
    let error: io::Error = Error::Incomplete(3).into();
    assert_eq!(error.kind(), io::ErrorKind::UnexpectedEof);
    assert_eq!(error.to_string(), "the capture is truncated: at least 3 bytes are missing");
    assert_eq!(Error::Incomplete(1).to_string(), "the capture is truncated: at least 1 byte is missing");
    assert_eq!(io::Error::from(Error::NotUtf8).kind(), io::ErrorKind::InvalidData);
    assert_eq!(Error::of_io(&io::ErrorKind::NotFound.into()), None);
    let boxed: Box<dyn std::error::Error + Send + Sync> = Box::new(WriteError::NoTime);
    assert_eq!(boxed.to_string(), "the packet has no time");
}

#[test]
fn types_are_sent_shared_and_shown() {
    fn is_sent<T: Send + Sync + std::fmt::Debug>() {}
    is_sent::<Reader<&[u8]>>();
    is_sent::<OwnedBlocks<'_, &[u8]>>();
    is_sent::<LenientReader<std::fs::File>>();
    is_sent::<Lenient<'_>>();
    is_sent::<Found<OwnedPacket>>();
    is_sent::<Gap>();
    is_sent::<Packets<'_>>();
    is_sent::<AnyPacket<'_>>();
    is_sent::<OwnedPacket>();
    is_sent::<OwnedBlock>();
    is_sent::<Capture<'_>>();
    is_sent::<Blocks<'_>>();
    is_sent::<Writer<Vec<u8>>>();
    is_sent::<BlockWriter<Vec<u8>>>();
    is_sent::<Section>();
    assert!(format!("{:?}", Reader::new(CLASSIC)).starts_with("Reader { stream: "));
}
