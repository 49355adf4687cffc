//! The form of a case in the data file, and the line expected of it.
//!
//! A record is fourteen words, low byte first: function, bytes of the body, six numbers of the setting, mark or full or place, counter
//! or length, length of what is lent, fill, runs of bytes, runs of lengths. The body has the runs of bytes, each a word n and a byte m:
//! n bytes follow (m is 0), or one byte that stands n times (m is 1). Behind them are the runs of lengths, each a word n and the length,
//! a word, that stands n times.
//!
//! A line has five numbers: 0 or the refusal's number; for rows the count, 1 or 0 for a state known or fresh, the counter expected;
//! for written bytes the count, the next counter, 0; for a part its length, 0, 0; for a kind the kind, 0, 0; for a refusal its place,
//! 0, 0; and the digest of all that was lent, or of the part. With the state lent, a refusal has the state as it is left in place of 0, 0.
//!
//! A text's record is two words, X and the number of bytes, and the bytes. Its lines are those that `xcpsettings` prints: `cmd_stim` and
//! `res_daq`, each with the six numbers of its setting, or `refused` with number and place.

use crate::call::*;
use crate::rule::*;

/// What stands in a table or output before the call.
pub const NUMBER: u32 = 0xA5C3_1E7F;
pub const BYTE: u8 = 0xB7;

const DIGEST: u32 = 2_166_136_261;

pub fn mix(h: u32, v: u32) -> u32 {
    h.wrapping_mul(16_777_619).wrapping_add(v)
}

fn word(out: &mut Vec<u8>, n: u32) {
    out.extend_from_slice(&n.to_le_bytes());
}

/// The runs of bytes; eight or more of one value are one run.
fn byte_runs(out: &mut Vec<u8>, t: &[u8]) -> u32 {
    let mut runs = 0;
    let mut from = 0;
    let mut i = 0;
    let literal = |out: &mut Vec<u8>, part: &[u8]| {
        if part.is_empty() {
            return 0;
        }
        word(out, part.len() as u32);
        out.push(0);
        out.extend_from_slice(part);
        1
    };
    while i < t.len() {
        let n = t[i..].iter().take_while(|&&b| b == t[i]).count();
        if n >= 8 {
            runs += 1 + literal(out, &t[from..i]);
            word(out, n as u32);
            out.push(1);
            out.push(t[i]);
            from = i + n;
        }
        i += n;
    }
    runs + literal(out, &t[from..])
}

fn length_runs(out: &mut Vec<u8>, lengths: &[u32]) -> u32 {
    let mut runs = 0;
    let mut i = 0;
    while i < lengths.len() {
        let n = lengths[i..].iter().take_while(|&&l| l == lengths[i]).count();
        word(out, n as u32);
        word(out, lengths[i]);
        runs += 1;
        i += n;
    }
    runs
}

fn usb(s: &Usb) -> [u32; 6] {
    [s.header, s.packing, s.align, s.size, s.longest, s.direction]
}

fn flexray(s: &FlexRay) -> [u32; 6] {
    [s.node, s.direction, s.ceiling, s.header, s.align, 0]
}

fn udp(s: &Udp) -> [u32; 6] {
    [s.longest, s.direction, 0, 0, 0, 0]
}

fn text_record(text: &[u8], longest: u32) -> Vec<u8> {
    let mut out = Vec::new();
    word(&mut out, longest);
    word(&mut out, text.len() as u32);
    out.extend_from_slice(text);
    out
}

pub fn record(call: &Call) -> Vec<u8> {
    let none: Vec<u32> = Vec::new();
    let by_value = if let Call::Lent(call) = call { call } else { call };
    let (setting, four, bytes, lengths) = match by_value {
        Call::UsbRead { s, t, c, table } => (usb(s), [c.known as u32, c.expected, *table as u32, 0], t, &none),
        Call::UsbWrite { s, packets, lengths, first, fill, full, room } => {
            (usb(s), [*full as u32, *first, *room as u32, *fill as u32], packets, lengths)
        }
        Call::FlexRayRead { s, t, c, table } => (flexray(s), [c.known as u32, c.expected, *table as u32, 0], t, &none),
        Call::FlexRayWrite { s, packets, lengths, first, fill, room } => {
            (flexray(s), [0, *first, *room as u32, *fill as u32], packets, lengths)
        }
        Call::UdpRead { s, t, c, table } => (udp(s), [c.known as u32, c.expected, *table as u32, 0], t, &none),
        Call::UdpWrite { s, packets, lengths, first, room } => (udp(s), [0, *first, *room as u32, 0], packets, lengths),
        Call::Part { t, place, length } => ([0; 6], [*place, *length, 0, 0], t, &none),
        Call::Kind { direction, packet } => ([*direction, 0, 0, 0, 0, 0], [0; 4], packet, &none),
        Call::Lent(_) => unreachable!("a state is lent once"),
        Call::Settings { text, longest } => return text_record(text, *longest),
    };
    let mut body = Vec::new();
    let byte_count = byte_runs(&mut body, bytes);
    let length_count = length_runs(&mut body, lengths);
    let mut out = Vec::new();
    word(&mut out, call.function() as u32);
    word(&mut out, body.len() as u32);
    for n in setting.into_iter().chain(four) {
        word(&mut out, n);
    }
    word(&mut out, byte_count);
    word(&mut out, length_count);
    out.extend_from_slice(&body);
    out
}

fn bytes_digest(out: &[u8], untouched: usize) -> u32 {
    let written = out.iter().fold(DIGEST, |h, &b| mix(h, b as u32));
    (0..untouched).fold(written, |h, _| mix(h, BYTE as u32))
}

fn rows_digest(rows: &[Row], untouched: usize) -> u32 {
    let written = rows.iter().flatten().fold(DIGEST, |h, &n| mix(h, n));
    (0..untouched).fold(written, |h, _| mix(h, NUMBER))
}

/// The length of the table or output that is lent.
fn lent(call: &Call) -> usize {
    match call {
        Call::UsbRead { table, .. } | Call::FlexRayRead { table, .. } | Call::UdpRead { table, .. } => *table,
        Call::UsbWrite { room, .. } | Call::FlexRayWrite { room, .. } | Call::UdpWrite { room, .. } => *room,
        Call::Lent(call) => lent(call),
        _ => 0,
    }
}

fn read_numbers(read: &Read, lent: usize) -> [u32; 5] {
    match read {
        Read::Rows(rows, c) => [0, rows.len() as u32, c.known as u32, c.expected, rows_digest(rows, lent - 5 * rows.len())],
        Read::Refused(n, place) => [*n, *place, 0, 0, rows_digest(&[], lent)],
    }
}

fn setting_line(name: &str, s: &Usb) -> String {
    let numbers = usb(s).map(|n| n.to_string()).join(" ");
    format!("{name} {numbers}\n")
}

fn text_lines(answer: &Result<[Usb; 2], (u32, u32)>) -> String {
    match answer {
        Ok([cmd, res]) => setting_line("cmd_stim", cmd) + &setting_line("res_daq", res),
        Err((number, place)) => format!("refused {number} {place}\n"),
    }
}

pub fn line(call: &Call, answer: &Answer) -> String {
    let lent = lent(call);
    let n = match answer {
        Answer::Read(read) => read_numbers(read, lent),
        Answer::Lent(read, c) => {
            let [number, first, _, _, digest] = read_numbers(read, lent);
            [number, first, c.known as u32, c.expected, digest]
        }
        Answer::Write(Write::Bytes(out, next)) => [0, out.len() as u32, *next, 0, bytes_digest(out, lent - out.len())],
        Answer::Write(Write::Refused(n, place)) => [*n, *place, 0, 0, bytes_digest(&[], lent)],
        Answer::Part(Some((n, place)), part) => [*n, *place as u32, 0, 0, bytes_digest(part, 0)],
        Answer::Part(None, part) => [0, part.len() as u32, 0, 0, bytes_digest(part, 0)],
        Answer::Kind(kind) => [0, *kind, 0, 0, DIGEST],
        Answer::Settings(answer) => return text_lines(answer),
    };
    format!("{} {} {} {} {}\n", n[0], n[1], n[2], n[3], n[4])
}
