use pcapfile::{Error, Found, Lenient, OwnedPacket, Reader, Rule};
use std::io::{self, Read};

/// A classic capture, little-endian, microseconds, Ethernet.
const HEADER: &[u8] = b"\xd4\xc3\xb2\xa1\x02\0\x04\0\0\0\0\0\0\0\0\0\xff\xff\0\0\x01\0\0\0";
/// A little-endian section and an interface of nanoseconds.
const SECTION: &[u8] = b"\x0a\x0d\x0d\x0a\x1c\0\0\0\x4d\x3c\x2b\x1a\x01\0\0\0\xff\xff\xff\xff\xff\xff\xff\xff\x1c\0\0\0";
const INTERFACE: &[u8] = b"\x01\0\0\0\x20\0\0\0\x01\0\0\0\0\0\0\0\x09\0\x01\0\x09\0\0\0\0\0\0\0\x20\0\0\0";

/// A classic packet of 1600000000 seconds, whose stored bytes are these.
fn packet(data: &[u8]) -> Vec<u8> {
    let len = (data.len() as u32).to_le_bytes();
    [b"\0\x10\x5e\x5f\x05\0\0\0", &len[..], &len, data].concat()
}

/// An enhanced packet of interface 0, whose stored bytes are these four.
fn block(data: &[u8; 4]) -> Vec<u8> {
    [b"\x06\0\0\0\x24\0\0\0\0\0\0\0\0\0\0\0\x05\0\0\0\x04\0\0\0\x04\0\0\0", &data[..], b"\x24\0\0\0"].concat()
}

/// A packet by its bytes and its flaw, or a gap by its offset, its length and why its first item is refused.
#[derive(Clone, Debug, PartialEq)]
enum Seen {
    Data(Vec<u8>, Option<Error>),
    Gap(u64, u64, Option<Error>),
}

fn seen(found: Found<OwnedPacket>) -> Seen {
    match found {
        Found::Packet { packet, flaw } => Seen::Data(packet.data, flaw),
        Found::Gap(gap) => Seen::Gap(gap.offset, gap.len, gap.error),
        _ => unreachable!("another kind"),
    }
}

fn data(bytes: &[u8]) -> Seen {
    Seen::Data(bytes.to_vec(), None)
}

/// Gives at most so many bytes a read, and fails before each read with one of two kinds of error.
struct Fails<'a> {
    bytes: &'a [u8],
    most: usize,
    calls: usize,
}

impl Read for Fails<'_> {
    fn read(&mut self, room: &mut [u8]) -> io::Result<usize> {
        self.calls += 1;
        match self.calls % 3 {
            1 => Err(io::ErrorKind::Interrupted.into()),
            2 => Err(io::ErrorKind::WouldBlock.into()),
            _ => {
                let most = room.len().min(self.most);
                self.bytes.read(&mut room[..most])
            }
        }
    }
}

/// Reads a capture from memory and from streams of several lengths of reads; all must give this.
fn assert_found(bytes: &[u8], wanted: &[Seen]) {
    let whole: Vec<_> = Lenient::parse(bytes).map(|found| seen(found.unwrap().into_owned())).collect();
    assert_eq!(whole, wanted);
    for most in [5, 1000, usize::MAX] {
        let mut found = Vec::new();
        for item in Reader::new(Fails { bytes, most, calls: 0 }).lenient() {
            match item {
                Ok(item) => found.push(seen(item)),
                Err(error) => assert_eq!(error.kind(), io::ErrorKind::WouldBlock),
            }
        }
        assert_eq!(found, wanted, "reads of {most} bytes");
    }
}

#[test]
fn a_capture_without_damage_has_no_gap() {
    let bytes = [HEADER, &packet(b"abc"), &packet(b"d")].concat();
    assert_found(&bytes, &[data(b"abc"), data(b"d")]);
    let bytes = [SECTION, INTERFACE, &block(b"abcd"), &block(b"efgh")].concat();
    assert_found(&bytes, &[data(b"abcd"), data(b"efgh")]);
    assert_found(HEADER, &[]);
    assert_found(SECTION, &[]);
}

#[test]
fn corrupt_bytes_between_packets_are_a_gap() {
    let corrupt = [0xee; 41];
    let bytes = [HEADER, &packet(b"abc"), &corrupt, &packet(b"d"), &packet(b"ef"), &packet(b"g")].concat();
    // Also its fraction is too large, but lenient reading refuses only a stored length above the limit.
    let gap = Seen::Gap(43, 41, Some(Error::Invalid(Rule::IncludedTooLong)));
    assert_found(&bytes, &[data(b"abc"), gap, data(b"d"), data(b"ef"), data(b"g")]);
}

#[test]
fn zero_bytes_are_no_packets() {
    let bytes = [HEADER, &packet(b"abc"), &[0; 64], &packet(b"d")].concat();
    assert_found(&bytes, &[data(b"abc"), Seen::Gap(43, 64, None), data(b"d")]);
    for len in [17, 31, 32, 64] {
        let bytes = [HEADER, &packet(b"abc"), &vec![0; len]].concat();
        assert_found(&bytes, &[data(b"abc"), Seen::Gap(43, len as u64, None)]);
    }
    // One all-zero header is a packet without data.
    let bytes = [HEADER, &packet(b"abc"), &[0; 16], &packet(b"d")].concat();
    assert_found(&bytes, &[data(b"abc"), data(b""), data(b"d")]);
    assert_found(&bytes[..59], &[data(b"abc"), data(b"")]);
}

#[test]
fn a_truncated_capture_ends_with_a_gap() {
    let bytes = [HEADER, &packet(b"abc"), &packet(b"defgh")].concat();
    for end in 44..64 {
        let missing = if end < 59 { 59 - end } else { 64 - end };
        let gap = Seen::Gap(43, end as u64 - 43, Some(Error::Incomplete(missing)));
        assert_found(&bytes[..end], &[data(b"abc"), gap]);
    }
    let bytes = [SECTION, INTERFACE, &block(b"abcd"), &block(b"efgh")[..20]].concat();
    assert_found(&bytes, &[data(b"abcd"), Seen::Gap(96, 20, Some(Error::Incomplete(16)))]);
}

#[test]
fn a_packet_that_breaks_a_rule_is_returned_with_it() {
    let mut flawed = packet(b"ab");
    flawed[12] = 1;
    let rule = Some(Error::Invalid(Rule::IncludedPastOriginal));
    let bytes = [HEADER, &flawed, &flawed, &packet(b"c")].concat();
    assert_found(&bytes, &[Seen::Data(b"ab".to_vec(), rule), Seen::Data(b"ab".to_vec(), rule), data(b"c")]);
}

/// A length that is wrong by 5 bytes would hide the next packets: the packet is a gap, and those after it are found.
#[test]
fn a_wrong_length_hides_no_packets() {
    let mut wrong = packet(b"abcdef");
    (wrong[8], wrong[12]) = (11, 11);
    let bytes = [HEADER, &wrong, &packet(b"gh"), &packet(b"i"), &packet(b"j"), &packet(b"k")].concat();
    assert_found(&bytes, &[Seen::Gap(24, 22, None), data(b"gh"), data(b"i"), data(b"j"), data(b"k")]);
}

/// A byte or more beside their places, packets of one length may seem to follow each other too.
#[test]
fn a_wrong_length_hides_no_packets_of_one_length() {
    let packets: Vec<_> = (0..600u32).map(|number| packet(&[&number.to_le_bytes()[..], &[0; 56]].concat())).collect();
    let mut bytes = [HEADER, &packets.concat()].concat();
    bytes[24 + 3 * 76 + 8..][..4].copy_from_slice(&4000u32.to_le_bytes());
    let mut wanted: Vec<_> = packets.iter().map(|it| data(&it[16..])).collect();
    wanted[3] = Seen::Data(packets[3][16..].to_vec(), Some(Error::WrongLength));
    assert_found(&bytes, &wanted);
}

/// A packet whose stored length is wrong gets its original length, if the next packet is there, or the capture ends there.
#[test]
fn a_packet_gets_its_original_length() {
    for stored in [2u32, 9, 300_000, 1 << 24, u32::MAX] {
        let mut wrong = packet(b"abcdef");
        wrong[8..12].copy_from_slice(&stored.to_le_bytes());
        let seen = Seen::Data(b"abcdef".to_vec(), Some(Error::WrongLength));
        let bytes = [HEADER, &packet(b"abc"), &wrong, &packet(b"g"), &packet(b"h")].concat();
        assert_found(&bytes, &[data(b"abc"), seen.clone(), data(b"g"), data(b"h")]);
        assert_found(&[HEADER, &wrong, &packet(b"g"), &packet(b"h")].concat(), &[seen.clone(), data(b"g"), data(b"h")]);
        assert_found(&[HEADER, &packet(b"abc"), &wrong].concat(), &[data(b"abc"), seen]);
    }
}

/// If the original length is wrong too, the packet is a gap.
#[test]
fn a_packet_without_a_right_length_is_a_gap() {
    for original in [8u32, 0, 262_145] {
        let mut wrong = packet(b"abcdef");
        wrong[8..12].fill(0xff);
        wrong[12..16].copy_from_slice(&original.to_le_bytes());
        let bytes = [HEADER, &packet(b"abc"), &wrong, &packet(b"g"), &packet(b"h"), &packet(b"i")].concat();
        let gap = Seen::Gap(43, 22, Some(Error::Invalid(Rule::IncludedTooLong)));
        assert_found(&bytes, &[data(b"abc"), gap, data(b"g"), data(b"h"), data(b"i")]);
        let bytes = [HEADER, &wrong, &packet(b"g"), &packet(b"h"), &packet(b"i")].concat();
        let gap = Seen::Gap(24, 22, Some(Error::Invalid(Rule::IncludedTooLong)));
        assert_found(&bytes, &[gap, data(b"g"), data(b"h"), data(b"i")]);
    }
}

/// A packet of more than 262144 bytes keeps its stored length, also if packets seem to go on where the snapshot length ends.
#[test]
fn a_long_packet_keeps_its_length() {
    let mut long = packet(&vec![0; 300_000]);
    let inside = packet(b"xyz").repeat(5);
    long[16 + 65535..][..inside.len()].copy_from_slice(&inside);
    let seen = Seen::Data(long[16..].to_vec(), Some(Error::Invalid(Rule::IncludedTooLong)));
    assert_found(&[HEADER, &long, &packet(b"g"), &packet(b"h")].concat(), &[seen, data(b"g"), data(b"h")]);
}

#[test]
fn a_packet_without_data_that_none_follows_is_corrupt() {
    let none = &packet(b"")[..];
    assert_found(&[HEADER, &packet(b"abc"), none, &packet(b"d")].concat(), &[data(b"abc"), data(b""), data(b"d")]);
    let bytes = [HEADER, &packet(b"abc"), none, &[0xee; 41], &packet(b"d")].concat();
    assert_found(&bytes, &[data(b"abc"), Seen::Gap(43, 57, None), data(b"d")]);
}

/// A gap may be longer than everything that is read at once.
#[test]
fn a_long_gap_is_one_gap() {
    let corrupt = vec![0xee; 5_000_000];
    let bytes = [HEADER, &packet(b"abc"), &corrupt, &packet(b"d"), &packet(b"e"), &packet(b"f")].concat();
    let gap = Seen::Gap(43, 5_000_000, Some(Error::Invalid(Rule::IncludedTooLong)));
    let found: Vec<_> = Reader::new(&bytes[..]).lenient().map(|found| seen(found.unwrap())).collect();
    assert_eq!(found, [data(b"abc"), gap, data(b"d"), data(b"e"), data(b"f")]);
    let bytes = [SECTION, INTERFACE, &corrupt, &block(b"abcd")].concat();
    let gap = Seen::Gap(60, 5_000_000, Some(Error::Invalid(Rule::BlockUnaligned)));
    let found: Vec<_> = Reader::new(&bytes[..]).lenient().map(|found| seen(found.unwrap())).collect();
    assert_eq!(found, [gap, data(b"abcd")]);
}

#[test]
fn a_damaged_block_is_a_gap() {
    for (place, value, error) in [
        (4, 0x26, Some(Error::Invalid(Rule::BlockUnaligned))),
        (4, 8, Some(Error::Invalid(Rule::BlockTooShort))),
        (4, 0x20, Some(Error::Invalid(Rule::BlockLengthsDiffer))),
        (4, 0x28, Some(Error::Invalid(Rule::BlockLengthsDiffer))),
        (33, 1, Some(Error::Invalid(Rule::BlockLengthsDiffer))),
        // More than 16 MiB.
        (7, 1, None),
    ] {
        let mut damaged = block(b"abcd");
        damaged[place] = value;
        let bytes = [SECTION, INTERFACE, &damaged, &block(b"efgh"), &block(b"ijkl")].concat();
        assert_found(&bytes, &[Seen::Gap(60, 36, error), data(b"efgh"), data(b"ijkl")]);
    }
}

/// Three bytes are lost, so that the next blocks are no longer at multiples of four. A section header is found by itself.
#[test]
fn blocks_go_on_at_any_place() {
    let bytes = [SECTION, INTERFACE, &block(b"abcd")[..33], &block(b"efgh"), &block(b"ijkl")].concat();
    let gap = Seen::Gap(60, 33, Some(Error::Invalid(Rule::BlockLengthsDiffer)));
    assert_found(&bytes, &[gap.clone(), data(b"efgh"), data(b"ijkl")]);
    let bytes = [SECTION, INTERFACE, &block(b"abcd")[..33], SECTION, INTERFACE, &block(b"ijkl")].concat();
    assert_found(&bytes, &[gap, data(b"ijkl")]);
}

/// A byte before a block its length seems 256 times as large, and 256 of these blocks seem to be one.
#[test]
fn many_blocks_of_one_length_are_not_one() {
    let bytes = [SECTION, INTERFACE, &block(b"efgh")[..33], &block(b"abc\0").repeat(520)].concat();
    let mut wanted = vec![Seen::Gap(60, 33, Some(Error::Invalid(Rule::BlockLengthsDiffer)))];
    wanted.resize(521, data(b"abc\0"));
    let found: Vec<_> = Lenient::parse(&bytes).map(|found| seen(found.unwrap().into_owned())).collect();
    assert_eq!(found, wanted);
}

/// An enhanced packet whose data pass its body, and one whose flags have two bytes.
#[test]
fn a_packet_without_room_is_a_gap_and_one_with_a_flaw_is_returned() {
    let mut cut = block(b"abcd");
    cut[20] = 200;
    let flawed: &[u8] = b"\x06\0\0\0\x2c\0\0\0\0\0\0\0\0\0\0\0\x05\0\0\0\x03\0\0\0\x03\0\0\0abc\0\x02\0\x02\0\x01\x02\0\0\x2c\0\0\0";
    let bytes = [SECTION, INTERFACE, &cut, flawed, &block(b"efgh")].concat();
    let gap = Seen::Gap(60, 36, Some(Error::Invalid(Rule::EnhancedCut)));
    let flaw = Some(Error::Invalid(Rule::EnhancedFlagsLength));
    assert_found(&bytes, &[gap, Seen::Data(b"abc".to_vec(), flaw), data(b"efgh")]);
}

/// Packets have their link type, time and options as in strict reading.
#[test]
fn packets_are_those_of_strict_reading() {
    let simple: &[u8] = b"\x03\0\0\0\x14\0\0\0\x02\0\0\0wx\0\0\x14\0\0\0";
    let comment: &[u8] = b"\x06\0\0\0\x2c\0\0\0\0\0\0\0\0\0\0\0\x01\0\0\0\x01\0\0\0\x01\0\0\0q\0\0\0\x01\0\x01\0z\0\0\0\x2c\0\0\0";
    let nobody: &[u8] = b"\x06\0\0\0\x20\0\0\0\x07\0\0\0\0\0\0\0\x01\0\0\0\0\0\0\0\0\0\0\0\x20\0\0\0";
    for bytes in [[SECTION, INTERFACE, simple, comment, nobody].concat(), [HEADER, &packet(b"abc"), &packet(b"")].concat()] {
        let strict: Vec<_> = Reader::new(&bytes[..]).map(Result::unwrap).collect();
        let lenient: Vec<_> = Lenient::parse(&bytes).map(|found| found.unwrap().packet().unwrap().into_owned()).collect();
        assert_eq!(lenient, strict);
        let streamed: Vec<_> = Reader::new(&bytes[..]).lenient().map(|found| found.unwrap().packet().unwrap()).collect();
        assert_eq!(streamed, strict);
        // From the second packet on.
        let mut reader = Reader::new(&bytes[..]);
        reader.next().unwrap().unwrap();
        let rest: Vec<_> = reader.lenient().map(|found| found.unwrap().packet().unwrap()).collect();
        assert_eq!(rest, strict[1..]);
    }
}

#[test]
fn bytes_that_begin_no_capture_are_an_error() {
    assert_eq!(Lenient::parse(&[7; 40]).collect::<Vec<_>>(), [Err(Error::Invalid(Rule::CaptureMagic))]);
    assert_eq!(Lenient::parse(b"").collect::<Vec<_>>(), [Err(Error::Incomplete(24))]);
    let mut items = Reader::new(&[7; 40][..]).lenient();
    assert_eq!(items.next().unwrap().map_err(|error| Error::of_io(&error)), Err(Some(Error::Invalid(Rule::CaptureMagic))));
    assert!(items.next().is_none());
}

#[test]
fn a_limit_excludes_longer_packets() {
    let bytes = [HEADER, &packet(&[1; 300_000]), &packet(b"a")].concat();
    let flaw = Some(Error::Invalid(Rule::IncludedTooLong));
    let found: Vec<_> = Lenient::parse(&bytes).map(|found| seen(found.unwrap().into_owned())).collect();
    assert_eq!(found, [Seen::Data(vec![1; 300_000], flaw), data(b"a")]);
    let found: Vec<_> = Reader::new(&bytes[..]).lenient().limit(262_144).map(|found| seen(found.unwrap())).collect();
    assert_eq!(found, [Seen::Gap(24, 300_016, flaw), data(b"a")]);
}

/// The packets after the header of another capture are read by it. Here it is big-endian, with nanoseconds and another link type.
#[test]
fn another_capture_may_follow() {
    let other: &[u8] = b"\xa1\xb2\x3c\x4d\0\x02\0\x04\0\0\0\0\0\0\0\0\0\0\xff\xff\0\0\0\x65";
    let packets: &[u8] = b"\x5f\x5e\x10\0\0\0\0\x07\0\0\0\x01\0\0\0\x01x\x5f\x5e\x10\0\0\0\0\x07\0\0\0\x01\0\0\0\x01y";
    let bytes = [HEADER, &packet(b"abc"), other, packets].concat();
    assert_found(&bytes, &[data(b"abc"), Seen::Gap(43, 24, None), data(b"x"), data(b"y")]);
    let last = Lenient::parse(&bytes).last().unwrap().unwrap().packet().unwrap();
    assert_eq!((last.link, last.time.map(|time| time.nanoseconds)), (Some(101), Some(7)));
    // A truncated packet before it ends there.
    let bytes = [HEADER, &packet(b"abc"), &packet(b"defgh")[..18], other, packets].concat();
    let gap = Seen::Gap(43, 18, None);
    assert_found(&bytes, &[data(b"abc"), gap, Seen::Gap(61, 24, None), data(b"x"), data(b"y")]);
}

/// The window of a search is bounded however long the stream is.
#[test]
fn memory_does_not_grow_with_a_gap() {
    struct Corrupt(usize, usize);
    impl Read for Corrupt {
        fn read(&mut self, room: &mut [u8]) -> io::Result<usize> {
            self.1 = self.1.max(room.len());
            room.fill(0xee);
            let mut header = HEADER;
            let first = if self.0 == 0 { header.read(room)? } else { 0 };
            self.0 += 1;
            Ok(if self.0 > 30 { 0 } else if first > 0 { first } else { room.len() })
        }
    }
    let mut reader = Reader::new(Corrupt(0, 0)).lenient();
    let gap = reader.next_found().unwrap().unwrap().gap().unwrap();
    assert_eq!(gap.offset, 24);
    assert!(gap.len > 5_000_000);
    assert!(reader.into_inner().1 < 8_000_000);
}
