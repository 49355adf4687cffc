//! Random cases and texts through the static library of crate plumagemud: `differential SEED COUNT`. What it answers, all that was lent to
//! it, and what stands on both sides of that are compared with the oracle's answer.

mod call;
mod cases;
mod description;
mod hits;
mod random;
mod reasons;
mod rule;
mod texts;
mod tree;

use call::{Answer, Call};
use cases::{Bounds, Counts};
use rule::{Counter, Read, Write};

#[repr(C)]
#[derive(Clone, Copy, Debug, PartialEq)]
struct UsbSetting {
    header: u32,
    packing: u32,
    align: u32,
    data_packet: u32,
    longest: u32,
    direction: u32,
}

#[repr(C)]
#[derive(Clone, Copy)]
struct FlexRaySetting {
    node: u32,
    direction: u32,
    ceiling: u32,
    header: u32,
    align: u32,
}

#[repr(C)]
#[derive(Clone, Copy)]
struct UdpSetting {
    longest: u32,
    direction: u32,
}

#[repr(C)]
#[derive(Clone, Copy, Debug, PartialEq)]
struct State {
    known: u32,
    expected: u32,
}

#[repr(C)]
#[derive(Clone, Copy, Debug, PartialEq)]
struct ReadResult {
    number: u32,
    value: u32,
    counter: State,
}

#[repr(C)]
#[derive(Clone, Copy, Debug, PartialEq)]
struct WriteResult {
    number: u32,
    value: u32,
    counter: u32,
}

#[repr(C)]
#[derive(Clone, Copy, Debug, PartialEq)]
struct CheckResult {
    number: u32,
    place: u32,
}

#[repr(C)]
#[derive(Clone, Copy, Debug, PartialEq)]
struct SettingsResult {
    number: u32,
    place: u32,
    cmd_stim: UsbSetting,
    res_daq: UsbSetting,
}

extern "C" {
    fn xcp_usb_read(s: UsbSetting, t: *const u8, n: usize, c: State, rows: *mut u32, numbers: usize) -> ReadResult;
    fn xcp_flexray_read(s: FlexRaySetting, t: *const u8, n: usize, c: State, rows: *mut u32, numbers: usize) -> ReadResult;
    fn xcp_usb_write(
        s: UsbSetting, packets: *const u8, n: usize, lengths: *const u32, count: usize, first: u32, fill: u8, full: u32,
        out: *mut u8, room: usize,
    ) -> WriteResult;
    fn xcp_flexray_write(
        s: FlexRaySetting, packets: *const u8, n: usize, lengths: *const u32, count: usize, first: u32, fill: u8,
        out: *mut u8, room: usize,
    ) -> WriteResult;
    fn xcp_udp_read(s: UdpSetting, t: *const u8, n: usize, c: State, rows: *mut u32, numbers: usize) -> ReadResult;
    fn xcp_udp_write(
        s: UdpSetting, packets: *const u8, n: usize, lengths: *const u32, count: usize, first: u32, out: *mut u8, room: usize,
    ) -> WriteResult;
    fn xcp_part_check(input: *const u8, n: usize, place: u32, length: u32) -> CheckResult;
    fn xcp_kind(direction: u32, packet: *const u8, n: usize) -> u32;
    fn xcp_usb_settings(text: *const u8, n: usize, longest: u32) -> SettingsResult;
}

const BOUNDS: Bounds = Bounds { numbers: 700_000, room: 300_000, packets: 300_000, lengths: 5_000 };

/// To so many cases a datagram is read at random, and a reader with its state lent is accepted, and refused for each reason.
const DATAGRAMS: usize = 4;
const LENT: usize = 1_000;

/// To so many cases there is a text. One in so many is at or past the longest, and has at most so many bytes.
const TEXTS: usize = 8;
const LONG: usize = 50;
const TEXT: usize = 70_000;

/// What stands in and around all that is lent, and how much of it around.
const NUMBER: u32 = 0xA5C3_1E7F;
const BYTE: u8 = 0xB7;
const AROUND: usize = 16;

/// What stands behind a text: one of these, which would go on with it.
const BEHIND: [&[u8]; 5] = [b"*/", b"\"", b"X", b"/", b" XCP_ON_USB "];

fn usb(s: &rule::Usb) -> UsbSetting {
    UsbSetting {
        header: s.header, packing: s.packing, align: s.align, data_packet: s.size, longest: s.longest, direction: s.direction,
    }
}

fn flexray(s: &rule::FlexRay) -> FlexRaySetting {
    FlexRaySetting { node: s.node, direction: s.direction, ceiling: s.ceiling, header: s.header, align: s.align }
}

fn udp(s: &rule::Udp) -> UdpSetting {
    UdpSetting { longest: s.longest, direction: s.direction }
}

fn settings(answer: &Result<[rule::Usb; 2], (u32, u32)>) -> SettingsResult {
    let none = UsbSetting { header: 0, packing: 0, align: 0, data_packet: 0, longest: 0, direction: 0 };
    match answer {
        Ok([cmd_stim, res_daq]) => SettingsResult { number: 0, place: 0, cmd_stim: usb(cmd_stim), res_daq: usb(res_daq) },
        Err((number, place)) => SettingsResult { number: *number, place: *place, cmd_stim: none, res_daq: none },
    }
}

/// A state for C: any mark but 0 is known.
fn state(c: Counter, mark: u32) -> State {
    State { known: if c.known { mark } else { 0 }, expected: c.expected }
}

/// A slice with the same elements around it.
fn lent<T: Copy>(n: usize, v: T) -> Vec<T> {
    vec![v; n + 2 * AROUND]
}

fn reading(want: &Read, given: State, got: ReadResult, table: &[u32]) -> bool {
    match want {
        Read::Refused(n, place) => {
            got == ReadResult { number: *n, value: *place, counter: given } && table.iter().all(|&v| v == NUMBER)
        }
        Read::Rows(rows, c) => {
            // A state that was not altered has its old mark.
            let marks = got.counter.known == c.known as u32 || got.counter == given;
            let numbers = rows.concat();
            let (before, rest) = table.split_at(AROUND);
            let (written, behind) = rest.split_at(numbers.len());
            (got.number, got.value, got.counter.expected) == (0, rows.len() as u32, c.expected)
                && marks
                && (got.counter.known != 0) == c.known
                && written == numbers
                && before.iter().chain(behind).all(|&v| v == NUMBER)
        }
    }
}

fn writing(want: &Write, first: u32, got: WriteResult, out: &[u8]) -> bool {
    match want {
        Write::Refused(n, place) => {
            got == WriteResult { number: *n, value: *place, counter: first } && out.iter().all(|&b| b == BYTE)
        }
        Write::Bytes(bytes, next) => {
            let (before, rest) = out.split_at(AROUND);
            let (written, behind) = rest.split_at(bytes.len());
            got == WriteResult { number: 0, value: bytes.len() as u32, counter: *next }
                && written == bytes
                && before.iter().chain(behind).all(|&b| b == BYTE)
        }
    }
}

/// Lends a table of so many numbers to a reader. Whether it agrees, and what it answered.
fn reads(want: &Read, c: Counter, mark: u32, table: usize, read: impl Fn(State, *mut u32) -> ReadResult) -> (bool, String) {
    let mut rows = lent(table, NUMBER);
    let c = state(c, mark);
    let got = read(c, rows[AROUND..].as_mut_ptr());
    (reading(want, c, got, &rows), format!("{got:?}"))
}

/// Lends an output of so many bytes to a writer.
fn writes(want: &Write, first: u32, room: usize, write: impl Fn(*mut u8) -> WriteResult) -> (bool, String) {
    let mut out = lent(room, BYTE);
    let got = write(out[AROUND..].as_mut_ptr());
    (writing(want, first, got, &out), format!("{got:?}"))
}

/// Whether the library agrees, and what it answered.
fn agrees(call: &Call, want: &Answer, mark: u32) -> (bool, String) {
    match (call, want) {
        (Call::UsbRead { s, t, c, table }, Answer::Read(want)) => {
            reads(want, *c, mark, *table, |c, rows| unsafe { xcp_usb_read(usb(s), t.as_ptr(), t.len(), c, rows, *table) })
        }
        (Call::FlexRayRead { s, t, c, table }, Answer::Read(want)) => {
            reads(want, *c, mark, *table, |c, rows| unsafe { xcp_flexray_read(flexray(s), t.as_ptr(), t.len(), c, rows, *table) })
        }
        (Call::UdpRead { s, t, c, table }, Answer::Read(want)) => {
            reads(want, *c, mark, *table, |c, rows| unsafe { xcp_udp_read(udp(s), t.as_ptr(), t.len(), c, rows, *table) })
        }
        (Call::UsbWrite { s, packets, lengths, first, fill, full, room }, Answer::Write(want)) => {
            let full = if *full { mark } else { 0 };
            writes(want, *first, *room, |out| unsafe {
                xcp_usb_write(
                    usb(s), packets.as_ptr(), packets.len(), lengths.as_ptr(), lengths.len(), *first, *fill, full, out, *room,
                )
            })
        }
        (Call::FlexRayWrite { s, packets, lengths, first, fill, room }, Answer::Write(want)) => {
            writes(want, *first, *room, |out| unsafe {
                xcp_flexray_write(
                    flexray(s), packets.as_ptr(), packets.len(), lengths.as_ptr(), lengths.len(), *first, *fill, out, *room,
                )
            })
        }
        (Call::UdpWrite { s, packets, lengths, first, room }, Answer::Write(want)) => {
            writes(want, *first, *room, |out| unsafe {
                xcp_udp_write(udp(s), packets.as_ptr(), packets.len(), lengths.as_ptr(), lengths.len(), *first, out, *room)
            })
        }
        (Call::Part { t, place, length }, Answer::Part(want, _)) => {
            let got = unsafe { xcp_part_check(t.as_ptr(), t.len(), *place, *length) };
            let (number, at) = want.unwrap_or((0, 0));
            (got == CheckResult { number, place: at as u32 }, format!("{got:?}"))
        }
        (Call::Kind { direction, packet }, Answer::Kind(want)) => {
            let got = unsafe { xcp_kind(*direction, packet.as_ptr(), packet.len()) };
            (got == *want, format!("{got}"))
        }
        // C has no function with the state lent: a refusal returns the state as it was given.
        (Call::Lent(call), Answer::Lent(want, _)) => agrees(call, &Answer::Read(want.clone()), mark),
        (Call::Settings { text, longest }, Answer::Settings(want)) => {
            let more = [text, BEHIND[text.len() % BEHIND.len()]].concat();
            let got = unsafe { xcp_usb_settings(more.as_ptr(), text.len(), *longest) };
            (got == settings(want), format!("{got:?}"))
        }
        _ => (false, String::new()),
    }
}

fn main() {
    let mut words = std::env::args().skip(1).map(|w| w.parse::<u64>().expect("SEED and COUNT are numbers"));
    let (Some(seed), Some(count)) = (words.next(), words.next()) else {
        eprintln!("differential SEED COUNT");
        std::process::exit(2);
    };
    let mut hits = hits::Hits::new();
    let mut marks = random::Random(!seed);
    let (mut made, mut mismatches) = (0, 0);
    let mut take = |call: &Call| {
        let want = call.answer();
        hits.count(call, &want);
        let (same, got) = agrees(call, &want, marks.pick(&[1, 1, 2, 256, u32::MAX]));
        mismatches += !same as usize;
        if !same && mismatches <= 5 {
            println!("case {made}: {}\noracle: {}\nlibrary: {got}", hits::brief(call), hits::brief(&want));
        }
        made += 1;
        true
    };
    let random = count as usize;
    let counts = Counts { random, datagrams: random / DATAGRAMS, lent: random / LENT };
    cases::each(&mut random::Random(seed), &BOUNDS, &counts, &mut take);
    let texts = texts::Bounds { random: random / TEXTS, most: TEXT, long: LONG };
    texts::each(&mut random::Random(seed), &texts, &mut |call| {
        tree::check(call);
        take(call);
    });
    print!("{}", hits.table());
    println!("{mismatches} mismatches");
    let lacking = hits.lacking(if count >= 1_000_000 { 1_000 } else { 0 });
    if lacking {
        println!("an answer came fewer than 1000 times, or a pair that can meet, or a way to be no block, never");
    }
    std::process::exit((mismatches > 0 || lacking) as i32);
}
