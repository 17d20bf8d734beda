//! The library's functions for Rust, as include/chudopolk.h declares them for C, and a safe function over each. A slice lends what the library
//! asks of an array: a pointer that is not null and is aligned, with so many elements; and a `&mut` overlaps nothing.
//! The header says what each function, number and constant means.

#![allow(dead_code)]

/// The verdicts.
pub mod verdict {
    pub const ACCEPTED: u32 = 0;
    pub const TABLE: u32 = 1;
    pub const ROOM: u32 = 2;
    pub const SHORT: u32 = 10;
    pub const LENGTH: u32 = 11;
    pub const PROTOCOL: u32 = 12;
    pub const SERVICE: u32 = 13;
    pub const INTERFACE: u32 = 14;
    pub const METHOD: u32 = 15;
    pub const MESSAGE_TYPE: u32 = 16;
    pub const LARGE: u32 = 17;
    pub const TAG_CUT: u32 = 20;
    pub const WIRE: u32 = 21;
    pub const TWICE: u32 = 22;
    pub const FIELD_CUT: u32 = 23;
    pub const OVERRUN: u32 = 24;
    pub const ARRAY: u32 = 25;
    pub const TEXT: u32 = 26;
    pub const MISSING: u32 = 27;
    pub const VALUE: u32 = 30;
    pub const OUTSIDE: u32 = 31;
    pub const WIDE: u32 = 32;
    pub const HEAVY: u32 = 33;
}

/// The five Message Types.
pub mod message_type {
    pub const REQUEST: u8 = 0x00;
    pub const REQUEST_NO_RETURN: u8 = 0x01;
    pub const NOTIFICATION: u8 = 0x02;
    pub const RESPONSE: u8 = 0x80;
    pub const ERROR: u8 = 0x81;
}

/// The fourteen kinds of a type row.
pub mod kind {
    pub const BOOLEAN: u64 = 1;
    pub const UINT8: u64 = 2;
    pub const UINT16: u64 = 3;
    pub const UINT32: u64 = 4;
    pub const UINT64: u64 = 5;
    pub const SINT8: u64 = 6;
    pub const SINT16: u64 = 7;
    pub const SINT32: u64 = 8;
    pub const SINT64: u64 = 9;
    pub const FLOAT32: u64 = 10;
    pub const FLOAT64: u64 = 11;
    pub const STRING: u64 = 12;
    pub const ARRAY: u64 = 13;
    pub const STRUCT: u64 = 14;
}

/// What a value row holds.
pub mod what {
    pub const IS_ABSENT: u64 = 0;
    pub const IS_UNSIGNED: u64 = 1;
    pub const IS_SIGNED: u64 = 2;
    pub const IS_FLOAT32: u64 = 3;
    pub const IS_FLOAT64: u64 = 4;
    pub const IS_BYTES: u64 = 5;
    pub const IS_MEMBERS: u64 = 6;
}

/// A row of a type table, as numbers.
#[repr(C)]
#[derive(Clone, Copy)]
pub struct TypeRow {
    pub level: u64,
    pub ident: u64,
    pub kind: u64,
    pub elem: u64,
    pub required: u64,
}

/// A value row, as numbers.
#[repr(C)]
#[derive(Clone, Copy, Default)]
pub struct ValueRow {
    pub what: u64,
    pub number: u64,
    pub place: u64,
    pub len: u64,
}

#[repr(C)]
#[derive(Clone, Copy)]
pub struct Form {
    pub count: usize,
    pub width: u32,
    pub fixed: u32,
}

#[repr(C)]
#[derive(Clone, Copy)]
pub struct Expectation {
    pub service: u16,
    pub method: u16,
    pub interface: u8,
    pub kind: u8,
}

#[repr(C)]
#[derive(Clone, Copy)]
pub struct Answer {
    pub verdict: u32,
    pub code: u32,
    pub place: usize,
    pub skipped: usize,
    pub client: u16,
    pub session: u16,
    pub found_code: u8,
    pub payload_at: usize,
    pub payload_len: usize,
    pub rest_at: usize,
    pub rest_len: usize,
}

#[repr(C)]
#[derive(Clone, Copy)]
pub struct Fields {
    pub service: u16,
    pub method: u16,
    pub client: u16,
    pub session: u16,
    pub interface: u8,
    pub kind: u8,
    pub code: u8,
}

#[repr(C)]
#[derive(Clone, Copy)]
pub struct Sent {
    pub verdict: u32,
    pub len: usize,
}

#[link(name = "chudopolk", kind = "static")]
extern "C" {
    fn chudopolk_check_table(form: Form, types: *const u64, types_len: usize) -> u32;
    fn chudopolk_read_message(
        datagram: *const u8, datagram_len: usize, expected: Expectation, form: Form, types: *const u64, types_len: usize, values: *mut u64,
        values_len: usize,
    ) -> Answer;
    fn chudopolk_write_message(
        header: Fields, form: Form, types: *const u64, types_len: usize, values: *const u64, values_len: usize, content: *const u8,
        content_len: usize, out: *mut u8, out_len: usize,
    ) -> Sent;
}

/// Whether a type table keeps its rules: 0, or verdict 1.
pub fn check_table(form: Form, types: &[TypeRow]) -> u32 {
    unsafe { chudopolk_check_table(form, types.as_ptr().cast(), 5 * types.len()) }
}

/// Reads the message at a datagram's start into value rows.
pub fn read_message(datagram: &[u8], expected: Expectation, form: Form, types: &[TypeRow], values: &mut [ValueRow]) -> Answer {
    let rows = 4 * values.len();
    unsafe {
        chudopolk_read_message(
            datagram.as_ptr(), datagram.len(), expected, form, types.as_ptr().cast(), 5 * types.len(), values.as_mut_ptr().cast(), rows,
        )
    }
}

/// Writes the message of a header and of value rows from the output's start.
pub fn write_message(header: Fields, form: Form, types: &[TypeRow], values: &[ValueRow], content: &[u8], out: &mut [u8]) -> Sent {
    let room = out.len();
    unsafe {
        chudopolk_write_message(
            header, form, types.as_ptr().cast(), 5 * types.len(), values.as_ptr().cast(), 4 * values.len(), content.as_ptr(), content.len(),
            out.as_mut_ptr(), room,
        )
    }
}
