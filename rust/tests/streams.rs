use pcapfile::{Error, Reader, Rule};
use std::io::{self, Read};

/// Little-endian, microseconds, Ethernet; two packets of three bytes and of one, five and one on the wire.
const CAPTURE: &[u8] = b"\xd4\xc3\xb2\xa1\x02\0\x04\0\0\0\0\0\0\0\0\0\xff\xff\0\0\x01\0\0\0\
    \x07\0\0\0\x08\0\0\0\x03\0\0\0\x05\0\0\0abc\x09\0\0\0\0\0\0\0\x01\0\0\0\x01\0\0\0d";

/// Fails once behind some bytes, and then goes on.
struct FailsOnce<'a> {
    bytes: &'a [u8],
    before: usize,
}

impl Read for FailsOnce<'_> {
    fn read(&mut self, room: &mut [u8]) -> io::Result<usize> {
        if self.before == 0 {
            self.before = usize::MAX;
            return Err(io::ErrorKind::TimedOut.into());
        }
        let most = room.len().min(self.before).min(4);
        let count = self.bytes.read(&mut room[..most])?;
        self.before -= if self.before == usize::MAX { 0 } else { count };
        Ok(count)
    }
}

#[test]
fn packets_come_out_of_a_stream() {
    let mut reader = Reader::new(CAPTURE);
    assert!(reader.header().is_none());
    let packet = reader.next_packet().unwrap().unwrap();
    let time = packet.time.unwrap();
    assert_eq!((packet.link, time.seconds, time.nanoseconds), (Some(1), 7, 8000));
    assert_eq!((packet.interface_id, packet.original_len, packet.data), (0, 5, &b"abc"[..]));
    assert_eq!(reader.header().map(|header| header.snaplen), Some(65535));
    assert_eq!(reader.next_packet().unwrap().unwrap().data, b"d");
    assert!(reader.next_packet().unwrap().is_none());
    assert!(reader.next_packet().unwrap().is_none());
}

#[test]
fn a_torn_stream_tells_what_is_missing() {
    for end in 0..24 {
        let error = Reader::new(&CAPTURE[..end]).next_packet().unwrap_err();
        assert_eq!(error.kind(), io::ErrorKind::UnexpectedEof);
        assert_eq!(error.downcast::<Error>().unwrap(), Error::Incomplete(24 - end));
    }
    let mut reader = Reader::new(&CAPTURE[..59]);
    assert_eq!(reader.next_packet().unwrap().unwrap().data, b"abc");
    for _ in 0..2 {
        let error = reader.next_packet().unwrap_err();
        assert_eq!(error.downcast::<Error>().unwrap(), Error::Incomplete(1));
    }
}

#[test]
fn a_refused_stream_names_its_rule() {
    let error = Reader::new(&[0xff; 24][..]).next_packet().unwrap_err();
    assert_eq!(error.kind(), io::ErrorKind::InvalidData);
    assert_eq!(error.downcast::<Error>().unwrap(), Error::Invalid(Rule::CaptureMagic));
}

#[test]
fn a_failed_read_loses_nothing() {
    for before in 0..CAPTURE.len() {
        let mut reader = Reader::new(FailsOnce { bytes: CAPTURE, before });
        let (mut failed, mut data) = (0, Vec::new());
        loop {
            match reader.next_packet() {
                Ok(Some(packet)) => data.push(packet.data.to_vec()),
                Ok(None) => break,
                Err(error) => {
                    assert_eq!(error.kind(), io::ErrorKind::TimedOut);
                    failed += 1;
                }
            }
        }
        assert_eq!((failed, data), (1, vec![b"abc".to_vec(), b"d".to_vec()]), "{before}");
    }
}
