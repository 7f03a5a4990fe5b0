use pcapfile::{Capture, Error, Rule, Time};

/// A little-endian capture in microseconds, and a packet of two bytes of 7.5 seconds and a million of them.
const HEADER: &[u8] = b"\xd4\xc3\xb2\xa1\x02\0\x04\0\0\0\0\0\0\0\0\0\xff\xff\0\0\x01\0\0\0";
const PACKET: &[u8] = b"\x07\0\0\0\x60\xe3\x16\0\x02\0\0\0\x01\0\0\0ab";

#[test]
fn a_packet_that_breaks_a_rule_is_given_with_it() {
    let bytes = [HEADER, PACKET, PACKET].concat();
    let packets: Vec<_> = Capture::parse(&bytes).unwrap().as_is(0).collect::<Result<_, _>>().unwrap();
    assert_eq!(packets.len(), 2);
    let rule = Rule::IncludedPastOriginal;
    for packet in packets {
        assert_eq!((packet.time, packet.original_len, packet.data), (Time { seconds: 8, nanoseconds: 500_000_000 }, 1, &b"ab"[..]));
        assert_eq!((packet.flaws.first(), packet.flaws.is_empty()), (Some(rule), false));
        assert!(packet.flaws.contains(rule) && !packet.flaws.contains(Rule::FractionTooLarge));
        assert_eq!(packet.flaws.iter().collect::<Vec<_>>(), [rule]);
    }
    let strict = Capture::parse(&bytes).unwrap().find_map(Result::err);
    assert_eq!(strict, Some(Error::Invalid(Rule::IncludedPastOriginal)));
}

#[test]
fn a_stored_length_above_the_limit_is_refused() {
    let bytes = [HEADER, b"\0\0\0\0\0\0\0\0\x01\0\x04\0\x01\0\x04\0"].concat();
    let told = |limit| Capture::parse(&bytes).unwrap().as_is(limit).next();
    assert_eq!(told(262_144), Some(Err(Error::Invalid(Rule::IncludedTooLong))));
    assert_eq!(told(262_145), Some(Err(Error::Incomplete(262_145))));
}
