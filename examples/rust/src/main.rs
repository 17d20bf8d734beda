//! A logger's table in Rust: a datagram is read and its values are printed, then a message is written.
//!   cargo run

mod chudopolk;

use chudopolk::{check_table, kind, message_type, read_message, what, write_message, Expectation, Fields, Form, TypeRow, ValueRow};

const fn row(level: u64, ident: u64, kind: u64, required: u64) -> TypeRow {
    TypeRow { level, ident, kind, elem: 0, required }
}

/// Time, temperature in tenths of a degree, and a spreader with its grams per square metre, behind which stands a remark.
const TYPES: [TypeRow; 5] =
    [row(1, 1, kind::UINT32, 0), row(1, 2, kind::SINT16, 1), row(1, 5, kind::STRUCT, 0), row(2, 1, kind::UINT16, 1), row(1, 7, kind::STRING, 0)];
const FORM: Form = Form { count: 5, width: 1, fixed: 0 };

const DATAGRAM: [u8; 30] = [
    0x4A, 0x01, 0x80, 0x01, // Service ID, Method ID
    0x00, 0x00, 0x00, 0x16, // Length
    0x00, 0x00, 0x00, 0x01, // Client ID, Session ID
    0x01, 0x01, 0x02, 0x00, // Protocol Version, Interface Version, Message Type, Return Code
    0x10, 0x02, 0xFF, 0x83, // member 2: -125
    0x50, 0x05, 0x04, // member 5: a struct of 4 bytes
    0x10, 0x01, 0x0B, 0x54, // its member 1: 2900
    0x00, 0x09, 0x2A, // member 9, which the table does not know
];

fn shown(row: &ValueRow) -> String {
    match row.what {
        what::IS_UNSIGNED => format!("unsigned {}", row.number),
        what::IS_SIGNED => format!("signed {}", row.number as i64),
        what::IS_BYTES => format!("bytes {} {}", row.place, row.len),
        what::IS_MEMBERS => "members".to_string(),
        _ => "absent".to_string(),
    }
}

fn main() {
    println!("table {}", check_table(FORM, &TYPES));

    let mut values = [ValueRow::default(); 5];
    let expected = Expectation { service: 0x4A01, method: 0x8001, interface: 1, kind: message_type::NOTIFICATION };
    let read = read_message(&DATAGRAM, expected, FORM, &TYPES, &mut values);
    println!("verdict {} code {} place {} skipped {}", read.verdict, read.code, read.place, read.skipped);
    let (payload, rest) = ((read.payload_at, read.payload_len), (read.rest_at, read.rest_len));
    println!("client {} session {} payload {} {} rest {} {}", read.client, read.session, payload.0, payload.1, rest.0, rest.1);
    for (i, value) in values.iter().enumerate() {
        println!("{} {} {}", i + 1, TYPES[i].ident, shown(value));
    }

    // The same values with a time and a remark, whose text stands in the content buffer.
    let remark = b"snow";
    values[0] = ValueRow { what: what::IS_UNSIGNED, number: 1_700_000_000, place: 0, len: 0 };
    values[4] = ValueRow { what: what::IS_BYTES, number: 0, place: 0, len: remark.len() as u64 };
    let kind = message_type::NOTIFICATION;
    let header = Fields { service: 0x4A01, method: 0x8001, client: read.client, session: read.session + 1, interface: 1, kind, code: 0 };
    let mut out = [0u8; 1416];
    let sent = write_message(header, FORM, &TYPES, &values, remark, &mut out);
    println!("verdict {} length {}", sent.verdict, sent.len);
    println!("{}", out[..sent.len].iter().map(|b| format!("{b:02X}")).collect::<Vec<_>>().join(" "));
}
