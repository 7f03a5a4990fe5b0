use pcapfile::{fcs_len, link_type, Capture, Error, Rule};

/// Little-endian, microseconds, Ethernet; one packet of three bytes, five on the wire.
const CAPTURE: &[u8] = b"\xd4\xc3\xb2\xa1\x02\0\x04\0\0\0\0\0\0\0\0\0\xff\xff\0\0\x01\0\0\0\
    \x07\0\0\0\x08\0\0\0\x03\0\0\0\x05\0\0\0abc";

#[test]
fn packets_lie_in_the_capture() {
    let capture = Capture::parse(CAPTURE).unwrap();
    assert_eq!((capture.header().snaplen, capture.header().link), (65535, 1));
    let packets: Vec<_> = capture.map(Result::unwrap).collect();
    assert_eq!(packets.len(), 1);
    assert_eq!((packets[0].seconds, packets[0].nanoseconds, packets[0].original_len), (7, 8000, 5));
    assert_eq!(packets[0].data, b"abc");
    assert_eq!(packets[0].data.as_ptr(), CAPTURE[40..].as_ptr());
}

/// The low 16 bits are the link type. If bit 26 is set, the bits 28 to 31 count the frame check sequence in units of two bytes.
#[test]
fn the_number_of_a_link_type_may_declare_a_check_sequence() {
    for (number, kind, len) in [
        (1, 1, None),
        (0x2400_0001, 1, Some(4)),
        (0x0400_0001, 1, Some(0)),
        (0x1400_0069, 105, Some(2)),
        (0xf400_007f, 127, Some(30)),
        (0xf000_0000, 0, None),
        (0x0001_0000, 0, None),
        (0xfbff_ffff, 65535, None),
        (0xffff_ffff, 65535, Some(30)),
    ] {
        assert_eq!((link_type(number), fcs_len(number)), (kind, len), "{number:#x}");
        let bytes = [&CAPTURE[..20], &number.to_le_bytes()].concat();
        let header = *Capture::parse(&bytes).unwrap().header();
        assert_eq!((header.link, header.link_type(), header.fcs_len()), (number, kind, len));
    }
}

#[test]
fn every_front_lacks_what_is_missing() {
    for end in 0..24 {
        assert_eq!(Capture::parse(&CAPTURE[..end]).unwrap_err(), Error::Incomplete(24 - end));
    }
    for end in 25..CAPTURE.len() {
        let mut capture = Capture::parse(&CAPTURE[..end]).unwrap();
        let missing = if end < 40 { 40 - end } else { 43 - end };
        assert_eq!(capture.next(), Some(Err(Error::Incomplete(missing))));
        assert_eq!((capture.next(), capture.rest().len()), (None, end - 24));
    }
}

#[test]
fn a_refusal_names_its_rule() {
    let error = Capture::parse(&[0xff; 24]).unwrap_err();
    assert_eq!((error, error.rule().map(Rule::name)), (Error::Invalid(Rule::CaptureMagic), Some("CaptureMagic")));
    assert_eq!(error.rule().map(Rule::number), Some(1));
    assert_eq!(error.to_string(), "PcapHeader wrong magic number");
}

#[test]
fn the_library_knows_each_rule() {
    for &rule in Rule::ALL {
        assert_eq!((Rule::from_number(rule.number()), rule.name()), (Some(rule), format!("{rule:?}").as_str()));
        assert!(!rule.text().is_empty());
    }
    assert_eq!((Rule::ALL.len(), Rule::from_number(27)), (44, None));
}
