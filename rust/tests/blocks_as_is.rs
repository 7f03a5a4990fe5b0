use pcapfile::{BlockAsIs, BlockFlaw, Blocks, Error, Interface, Rule};

/// A little-endian section, an interface with a comment that is no string before a unit of nanoseconds, and one without room for
/// its head.
const SECTION: &[u8] = b"\x0a\x0d\x0d\x0a\x1c\0\0\0\x4d\x3c\x2b\x1a\x01\0\0\0\xff\xff\xff\xff\xff\xff\xff\xff\x1c\0\0\0";
const INTERFACE: &[u8] = b"\x01\0\0\0\x24\0\0\0\x01\0\0\0\x3c\0\0\0\x01\0\x01\0\xff\0\0\0\x09\0\x01\0\x09\0\0\0\x24\0\0\0";
const SHORT: &[u8] = b"\x01\0\0\0\x10\0\0\0\x01\0\0\0\x10\0\0\0";
/// A packet of a second and 5 nanoseconds, whose flags have two bytes.
const PACKET: &[u8] = b"\x06\0\0\0\x2c\0\0\0\0\0\0\0\0\0\0\0\x05\xca\x9a\x3b\x03\0\0\0\x62\0\0\0abc\0\x02\0\x02\0\x01\x02\0\0\x2c\0\0\0";

#[test]
fn blocks_are_given_with_what_is_wrong_with_them() {
    let bytes = [SECTION, INTERFACE, SHORT, PACKET].concat();
    let mut blocks = Blocks::parse(&bytes).as_is();
    let found: Vec<BlockAsIs> = blocks.by_ref().collect::<Result<_, _>>().unwrap();
    assert_eq!(found.iter().map(|it| it.flaw_count).collect::<Vec<_>>(), [0, 1, 1, 1]);
    assert_eq!((blocks.section().interfaces, blocks.rest().len()), (2, 0));
    let interface = Interface { link: 1, snaplen: 60, ts_base: 10, ts_exponent: 9, ts_offset: 0 };
    assert_eq!((found[1].interface, found[2].interface), (Some(interface), None));
    assert_eq!(found[0].first_flaw(), None);
    let told = |it: &BlockAsIs| it.first_flaw().map(|flaw| (flaw.error(), flaw.code()));
    assert_eq!(told(&found[1]), Some((Some(Error::NotUtf8), Some(1))));
    assert_eq!(told(&found[2]), Some((Some(Error::Invalid(Rule::InterfaceTooShort)), None)));
    assert_eq!(told(&found[3]), Some((Some(Error::Invalid(Rule::EnhancedFlagsLength)), Some(2))));
    let packet = found[3].packet.unwrap();
    assert_eq!((packet.interface_id, packet.original_len, packet.data), (0, 98, &b"abc"[..]));
    let time = interface.time(packet.timestamp).unwrap();
    assert_eq!((time.seconds, time.nanoseconds), (1, 5));
}

#[test]
fn all_flaws_fill_the_places_in_order() {
    let mut body = b"\0\0\0\0\0\0\0\0\0\0\0\0\0\0\0\0\0\0\0\0".to_vec();
    for code in [2, 1, 4] {
        body.extend([code, 0, 1, 0, 0xff, 0, 0, 0]);
    }
    let length = (body.len() as u32 + 12).to_le_bytes();
    let block = [&[6, 0, 0, 0], &length[..], &body, &length].concat();
    let bytes = [SECTION, &block].concat();
    let found = Blocks::parse(&bytes).as_is().nth(1).unwrap().unwrap();
    let mut places = [BlockFlaw::default(); 5];
    let codes: Vec<_> = found.flaws(&mut places).iter().map(|flaw| (flaw.rule(), flaw.code())).collect();
    let (flags, drops) = (Rule::EnhancedFlagsLength, Rule::EnhancedDropCountLength);
    assert_eq!(codes, [(Some(flags), Some(2)), (None, Some(1)), (Some(drops), Some(4))]);
    assert_eq!(found.flaws(&mut places[..2]).len(), 2);
    assert_eq!(BlockFlaw::default().error(), None);
}

#[test]
fn a_frame_that_breaks_a_rule_is_the_last_item() {
    let bytes = [SECTION, SHORT, b"\x06\0\0\0\x11\0\0\0\0\0\0\0"].concat();
    let found: Vec<_> = Blocks::parse(&bytes).as_is().map(|it| it.map(|it| it.flaw_count)).collect();
    assert_eq!(found, [Ok(0), Ok(1), Err(Error::Invalid(Rule::BlockUnaligned))]);
    assert_eq!(Blocks::parse(b"").as_is().next(), Some(Err(Error::Incomplete(12))));
}
