//! `pcapfile.h`, as Rust sees it.

use core::slice;
use core::str;

#[repr(C)]
#[derive(Clone, Copy)]
pub struct Bytes {
    pub ptr: *const u8,
    pub len: usize,
}

impl Bytes {
    pub fn of(bytes: &[u8]) -> Bytes {
        Bytes { ptr: bytes.as_ptr(), len: bytes.len() }
    }
}

#[repr(C)]
#[derive(Clone, Copy)]
pub struct Packet {
    pub ts_sec: u32,
    pub ts_nsec: u32,
    pub orig_len: u32,
    pub bytes: Bytes,
}

#[repr(C)]
#[derive(Clone, Copy)]
pub struct Block {
    pub type_: u32,
    pub body: Bytes,
}

#[repr(C)]
#[derive(Clone, Copy)]
pub struct NgPacket {
    pub type_: u32,
    pub interface_id: u32,
    pub orig_len: u32,
    pub timestamp: u64,
    pub bytes: Bytes,
}

#[repr(C)]
#[derive(Clone, Copy)]
pub struct BlockAsIs {
    pub type_: u32,
    pub has_interface: u8,
    pub has_packet: u8,
    pub flaws: usize,
    pub body: Bytes,
    pub interface: crate::Interface,
    pub packet: NgPacket,
}

impl BlockAsIs {
    pub fn none() -> BlockAsIs {
        let none = Bytes::of(b"");
        let packet = NgPacket { type_: 0, interface_id: 0, orig_len: 0, timestamp: 0, bytes: none };
        let interface = crate::Interface::default();
        BlockAsIs { type_: 0, has_interface: 0, has_packet: 0, flaws: 0, body: none, interface, packet }
    }
}

#[repr(C)]
#[derive(Clone, Copy)]
pub struct BlockOption {
    pub code: u16,
    pub value: Bytes,
}

#[repr(C)]
#[derive(Clone, Copy)]
pub struct Record {
    pub type_: u16,
    pub address: Bytes,
    pub names: Bytes,
}

#[repr(C)]
#[derive(Clone, Copy)]
pub struct PacketAsIs {
    pub ts_sec: u32,
    pub ts_fraction: u32,
    pub orig_len: u32,
    pub flaws: u32,
    pub first_flaw: u32,
    pub time: crate::Time,
    pub bytes: Bytes,
}

#[cfg(feature = "std")]
#[repr(C)]
#[derive(Clone, Copy)]
pub struct AnyPacket {
    pub link: u32,
    pub interface_id: u32,
    pub has_interface: u8,
    pub has_time: u8,
    pub orig_len: u32,
    pub time: crate::Time,
    pub bytes: Bytes,
}

/// Which bytes of a buffer are held, and for a classic capture its header.
#[cfg(feature = "std")]
#[repr(C)]
#[derive(Clone, Copy, Default)]
pub struct Push {
    pub header: crate::Header,
    pub begin: usize,
    pub end: usize,
}

#[repr(C)]
#[derive(Clone, Copy, Default)]
pub struct Error {
    pub rule: u32,
    pub missing: usize,
}

// The library itself, if PCAPFILE_ASSEMBLY named it to build.rs.
#[cfg(all(pcapfile_assembly, target_arch = "x86_64"))]
core::arch::global_asm!(include_str!(env!("PCAPFILE_ASSEMBLY_FILE")), options(att_syntax, raw));
#[cfg(all(pcapfile_assembly, not(target_arch = "x86_64")))]
core::arch::global_asm!(include_str!(env!("PCAPFILE_ASSEMBLY_FILE")), options(raw));

extern "C" {
    pub fn pcapfile_take_header(left: *mut Bytes, header: *mut crate::Header, error: *mut Error) -> i32;
    pub fn pcapfile_link_type(link: u32) -> u32;
    pub fn pcapfile_fcs_len(link: u32) -> i32;
    pub fn pcapfile_take_packet(
        header: *const crate::Header,
        left: *mut Bytes,
        packet: *mut Packet,
        error: *mut Error,
    ) -> i32;
    pub fn pcapfile_take_packet_as_is(
        header: *const crate::Header,
        left: *mut Bytes,
        limit: u32,
        packet: *mut PacketAsIs,
        error: *mut Error,
    ) -> i32;
    #[cfg(feature = "std")]
    pub fn pcapfile_judge_packet(
        header: *const crate::Header,
        time: u32,
        bytes: *const Bytes,
        is_all: u8,
        gap: *mut usize,
        length: *mut u32,
        error: *mut Error,
    ) -> i32;
    #[cfg(feature = "std")]
    pub fn pcapfile_skip_to_packets(
        header: *const crate::Header,
        time: u32,
        bytes: *const Bytes,
        is_all: u8,
        skipped: *mut usize,
        is_over: *mut u8,
        error: *mut Error,
    ) -> i32;
    #[cfg(feature = "std")]
    pub fn pcapfile_write_header(
        header: *const crate::Header,
        room: *mut u8,
        room_len: usize,
        written: *mut usize,
        error: *mut Error,
    ) -> i32;
    #[cfg(feature = "std")]
    pub fn pcapfile_write_packet(
        header: *const crate::Header,
        packet: *const Packet,
        room: *mut u8,
        room_len: usize,
        written: *mut usize,
        error: *mut Error,
    ) -> i32;
    #[cfg(feature = "std")]
    pub fn pcapfile_put_section_with(
        section: *mut crate::Section,
        options: *const BlockOption,
        options_len: usize,
        room: *mut u8,
        room_len: usize,
        written: *mut usize,
        error: *mut Error,
    ) -> i32;
    #[cfg(feature = "std")]
    pub fn pcapfile_put_interface_with(
        section: *mut crate::Section,
        interface: *const crate::Interface,
        options: *const BlockOption,
        options_len: usize,
        room: *mut u8,
        room_len: usize,
        written: *mut usize,
        error: *mut Error,
    ) -> i32;
    #[cfg(feature = "std")]
    pub fn pcapfile_put_ng_packet_with(
        section: *const crate::Section,
        packet: *const NgPacket,
        options: *const BlockOption,
        options_len: usize,
        room: *mut u8,
        room_len: usize,
        written: *mut usize,
        error: *mut Error,
    ) -> i32;
    #[cfg(feature = "std")]
    pub fn pcapfile_put_options(
        section: *const crate::Section,
        options: *const BlockOption,
        options_len: usize,
        room: *mut u8,
        room_len: usize,
        written: *mut usize,
        error: *mut Error,
    ) -> i32;
    pub fn pcapfile_take_block(
        section: *mut crate::Section,
        left: *mut Bytes,
        block: *mut Block,
        error: *mut Error,
    ) -> i32;
    pub fn pcapfile_take_block_as_is(
        section: *mut crate::Section,
        left: *mut Bytes,
        block: *mut BlockAsIs,
        flaws: *mut crate::BlockFlaw,
        flaws_len: usize,
        error: *mut Error,
    ) -> i32;
    #[cfg(feature = "std")]
    pub fn pcapfile_skip_to_blocks(
        section: *const crate::Section,
        bytes: *const Bytes,
        is_all: u8,
        skipped: *mut usize,
        is_over: *mut u8,
        error: *mut Error,
    ) -> i32;
    pub fn pcapfile_read_interface(
        section: *const crate::Section,
        block: *const Block,
        interface: *mut crate::Interface,
        error: *mut Error,
    ) -> i32;
    pub fn pcapfile_read_packet(
        section: *const crate::Section,
        block: *const Block,
        packet: *mut NgPacket,
        error: *mut Error,
    ) -> i32;
    pub fn pcapfile_options(
        section: *const crate::Section,
        block: *const Block,
        options: *mut Bytes,
        error: *mut Error,
    ) -> i32;
    pub fn pcapfile_take_option(
        section: *const crate::Section,
        left: *mut Bytes,
        option: *mut BlockOption,
        error: *mut Error,
    ) -> i32;
    pub fn pcapfile_take_record(
        section: *const crate::Section,
        left: *mut Bytes,
        record: *mut Record,
        error: *mut Error,
    ) -> i32;
    pub fn pcapfile_take_name(left: *mut Bytes, name: *mut Bytes, error: *mut Error) -> i32;
    #[cfg(feature = "std")]
    pub fn pcapfile_push_packets(
        push: *mut Push,
        room: *const u8,
        room_len: usize,
        packets: *mut Packet,
        packets_len: usize,
        taken: *mut usize,
        error: *mut Error,
    ) -> i32;
    #[cfg(feature = "std")]
    pub fn pcapfile_push_ng_packets(
        push: *mut Push,
        section: *mut crate::Section,
        room: *const u8,
        room_len: usize,
        interfaces: *mut crate::Interface,
        interfaces_len: usize,
        packets: *mut AnyPacket,
        packets_len: usize,
        taken: *mut usize,
        error: *mut Error,
    ) -> i32;
    #[cfg(feature = "std")]
    pub fn pcapfile_push_block(
        push: *mut Push,
        section: *mut crate::Section,
        room: *const u8,
        room_len: usize,
        block: *mut Block,
        error: *mut Error,
    ) -> i32;
    pub fn pcapfile_time_of(interface: *const crate::Interface, timestamp: u64, time: *mut crate::Time) -> i32;
    pub fn pcapfile_rule_name(rule: u32, name: *mut Bytes);
    pub fn pcapfile_rule_text(rule: u32, text: *mut Bytes);
}

/// Returns the text from one of the two calls about a rule.
pub fn text_of(call: unsafe extern "C" fn(u32, *mut Bytes), rule: u32) -> &'static str {
    let mut text = Bytes::of(b"");
    // SAFETY: `text` is a valid struct, and the call fills it with ASCII that is valid forever.
    unsafe {
        call(rule, &mut text);
        str::from_utf8_unchecked(slice::from_raw_parts(text.ptr, text.len))
    }
}
