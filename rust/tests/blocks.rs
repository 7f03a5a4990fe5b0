use pcapfile::{Blocks, Error, Rule, Time};

/// A little-endian section, an interface of link type 113 with nanoseconds, and an enhanced packet of three bytes, five on
/// the wire.
const CAPTURE: &[u8] = b"\x0a\x0d\x0d\x0a\x1c\0\0\0\x4d\x3c\x2b\x1a\x01\0\0\0\xff\xff\xff\xff\xff\xff\xff\xff\x1c\0\0\0\
    \x01\0\0\0\x1c\0\0\0\x71\0\0\0\0\x01\0\0\x09\0\x01\0\x09\0\0\0\x1c\0\0\0\
    \x06\0\0\0\x24\0\0\0\0\0\0\0\0\0\0\0\x08\0\0\0\x03\0\0\0\x05\0\0\0abc\0\x24\0\0\0";

#[test]
fn packets_lie_in_the_capture() {
    let mut blocks = Blocks::parse(CAPTURE);
    let section = blocks.next().unwrap().unwrap();
    assert_eq!((section.type_, section.interface(), section.packet()), (0x0a0d_0d0a, Ok(None), Ok(None)));
    let interface = blocks.next().unwrap().unwrap().interface().unwrap().unwrap();
    assert_eq!((interface.link, interface.snaplen, interface.ts_base, interface.ts_exponent), (113, 256, 10, 9));
    assert_eq!((blocks.section().magic_number, blocks.section().interfaces), (0x4d3c_2b1a, 1));
    let packet = blocks.next().unwrap().unwrap().packet().unwrap().unwrap();
    assert_eq!((packet.interface_id, packet.original_len, packet.data), (0, 5, &b"abc"[..]));
    assert_eq!(packet.data.as_ptr(), CAPTURE[84..].as_ptr());
    assert_eq!(interface.time(packet.timestamp), Some(Time { seconds: 0, nanoseconds: 8 }));
    assert_eq!((blocks.next(), blocks.rest()), (None, &b""[..]));
}

#[test]
fn every_front_lacks_what_is_missing() {
    for (start, end) in [(0, 28), (28, 56), (56, 92)] {
        for len in start..end {
            let missing = if len < start + 12 { start + 12 - len } else { end - len };
            let told = Blocks::parse(&CAPTURE[..len]).find_map(Result::err);
            let wanted = (len > start || start == 0).then_some(Error::Incomplete(missing));
            assert_eq!(told, wanted);
        }
    }
}

#[test]
fn a_refusal_names_its_rule() {
    let error = Blocks::parse(&[0; 12]).find_map(Result::err).unwrap();
    assert_eq!(error.rule(), Some(Rule::BlockTooShort));
}
