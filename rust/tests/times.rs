use pcapfile::{AnyPacket, OutOfRange, OwnedPacket, Packet, Reader, Time};
use std::time::{Duration, SystemTime};

const EPOCH: SystemTime = SystemTime::UNIX_EPOCH;

#[test]
fn a_time_is_a_duration_since_1970() {
    let time = Time { seconds: 7, nanoseconds: 8 };
    assert_eq!((time.since_epoch(), Duration::try_from(time)), (Some(Duration::new(7, 8)), Ok(Duration::new(7, 8))));
    assert_eq!(Time::try_from(Duration::new(7, 8)), Ok(time));
    assert_eq!(Time { seconds: -1, nanoseconds: 999_999_999 }.since_epoch(), None);
    assert_eq!(Duration::try_from(Time { seconds: i64::MIN, nanoseconds: 0 }), Err(OutOfRange));
    assert_eq!(Time::try_from(Duration::new(i64::MAX as u64, 999_999_999)), Ok(Time { seconds: i64::MAX, nanoseconds: 999_999_999 }));
    assert_eq!(Time::try_from(Duration::from_secs(1 << 63)), Err(OutOfRange));
}

/// The nanoseconds of a classic packet may be up to 4294967295.
#[test]
fn nanoseconds_past_a_second_are_carried() {
    let time = Time { seconds: 7, nanoseconds: 4_294_967_295 };
    let wanted = Time { seconds: 11, nanoseconds: 294_967_295 };
    assert_eq!((time.carried(), time.since_epoch()), (Some(wanted), Some(Duration::new(11, 294_967_295))));
    assert_eq!(time.system_time(), Some(EPOCH + Duration::new(11, 294_967_295)));
    assert_eq!(Time { seconds: i64::MAX, nanoseconds: 1_000_000_000 }.carried(), None);
    let packet = Packet { seconds: 7, nanoseconds: 4_294_967_295, original_len: 0, data: b"" };
    assert_eq!(packet.time(), wanted);
    let last = Packet { seconds: u32::MAX, nanoseconds: 1_000_000_000, original_len: 0, data: b"" };
    assert_eq!(last.time(), Time { seconds: 4_294_967_296, nanoseconds: 0 });
}

#[test]
fn a_time_is_a_system_time_also_before_1970() {
    for (seconds, nanoseconds, wanted) in [
        (0, 0, EPOCH),
        (7, 8, EPOCH + Duration::new(7, 8)),
        (-1, 999_999_999, EPOCH - Duration::from_nanos(1)),
        (-1, 0, EPOCH - Duration::from_secs(1)),
        (-3600, 1, EPOCH - Duration::from_secs(3600) + Duration::from_nanos(1)),
    ] {
        let time = Time { seconds, nanoseconds };
        assert_eq!((time.system_time(), SystemTime::try_from(time)), (Some(wanted), Ok(wanted)));
        assert_eq!(Time::try_from(wanted), Ok(time));
        assert_eq!(Time::from_nanos(time.as_nanos()), Some(time));
    }
    assert_eq!(Time { seconds: -2, nanoseconds: 5 }.as_nanos(), -1_999_999_995);
    assert_eq!(Time::from_nanos(i128::MAX), None);
    assert!(Time { seconds: -1, nanoseconds: 999_999_999 } < Time::EPOCH);
}

/// A little-endian section, an interface of nanoseconds whose offset (option 14) is minus two seconds, and a packet at 1 nanosecond.
#[test]
fn a_packet_before_1970_has_a_system_time() {
    let capture: &[u8] = b"\x0a\x0d\x0d\x0a\x1c\0\0\0\x4d\x3c\x2b\x1a\x01\0\0\0\xff\xff\xff\xff\xff\xff\xff\xff\x1c\0\0\0\
        \x01\0\0\0\x28\0\0\0\x01\0\0\0\0\0\0\0\x09\0\x01\0\x09\0\0\0\x0e\0\x08\0\xfe\xff\xff\xff\xff\xff\xff\xff\x28\0\0\0\
        \x06\0\0\0\x20\0\0\0\0\0\0\0\0\0\0\0\x01\0\0\0\0\0\0\0\0\0\0\0\x20\0\0\0";
    let packet = Reader::new(capture).next().unwrap().unwrap();
    assert_eq!(packet.time, Some(Time { seconds: -2, nanoseconds: 1 }));
    assert_eq!(packet.system_time(), Some(EPOCH - Duration::from_nanos(1_999_999_999)));
    assert_eq!(packet.since_epoch(), None);
}

#[test]
fn a_packet_made_by_hand_lends_itself() {
    let time = Time { seconds: 1, nanoseconds: 2 };
    let packet = OwnedPacket::new(0x2400_0001, time, *b"abc");
    assert_eq!((packet.link, packet.link_type(), packet.fcs_len()), (Some(0x2400_0001), Some(1), Some(4)));
    assert_eq!((packet.original_len, packet.since_epoch(), packet.comments().count()), (3, Some(Duration::new(1, 2)), 0));
    assert_eq!(packet.as_packet(), AnyPacket::new(0x2400_0001, time, b"abc"));
    assert_eq!(OwnedPacket::from(AnyPacket::new(0x2400_0001, time, b"abc")), packet);
    assert_eq!(OutOfRange.to_string(), "the time is outside the range of the type");
}
