//! Cases from random numbers. Each aims at acceptance, at a reason for refusal, or at two; the rule decides what is answered.

use crate::call::{Call, NAMES, PAIRED, TRANSPORTS, UDP_READ, UDP_WRITE};
use crate::random::Random;
use crate::reasons::{self, Fault, Why, REASONS};
use crate::rule::*;
use Why::*;

mod datagrams;

/// How large inputs may get: what is lent and joined packets.
#[derive(Clone, Copy)]
pub struct Bounds {
    pub numbers: usize,
    pub room: usize,
    pub packets: usize,
    pub lengths: usize,
}

/// How often each pair of reasons is made on purpose.
const TIMES: usize = 4;

/// How many cases there are at random, and how many datagrams to read, to which half as many are written; and how often each reader with
/// its state lent is accepted, and refused for each reason.
pub struct Counts {
    pub random: usize,
    pub datagrams: usize,
    pub lent: usize,
}

/// The functions of a random case of USB, FlexRay, parts and kinds, as often as they are to come.
const OFTEN: [usize; 22] = [0, 0, 0, 0, 0, 0, 0, 1, 1, 1, 1, 1, 2, 2, 2, 2, 2, 3, 3, 3, 3, 4];

/// All cases: each pair of reasons on purpose, those at the bounds, random ones, and each reader with the state lent. Datagrams come last,
/// so that the others do not depend on them. `take` says whether it takes a case; one that it does not take is made again.
pub fn each(r: &mut Random, b: &Bounds, n: &Counts, take: &mut dyn FnMut(&Call) -> bool) {
    meeting(r, &TRANSPORTS, b, take);
    longest().iter().for_each(|call| assert!(take(call)));
    at_random(r, &OFTEN, b, n.random, take);
    lending(r, &[0, 2], b, n.lent, take);
    meeting(r, &[UDP_READ, UDP_WRITE], b, take);
    datagrams::edges().iter().for_each(|call| assert!(take(call)));
    at_random(r, &[UDP_READ], b, n.datagrams, take);
    at_random(r, &[UDP_WRITE], b, n.datagrams / 2, take);
    lending(r, &[UDP_READ], b, n.lent, take);
}

/// Each pair of reasons on purpose.
fn meeting(r: &mut Random, functions: &[usize], b: &Bounds, take: &mut dyn FnMut(&Call) -> bool) {
    for &function in functions {
        for pair in reasons::pairs(function) {
            for _ in 0..TIMES {
                while !take(&purposely(r, function, &pair, b)) {}
            }
        }
    }
}

fn at_random(r: &mut Random, functions: &[usize], b: &Bounds, n: usize, take: &mut dyn FnMut(&Call) -> bool) {
    for _ in 0..n {
        while !take(&case(r, functions, b)) {}
    }
}

/// Readers with the state lent, accepted and refused for each reason, so many times.
fn lending(r: &mut Random, functions: &[usize], b: &Bounds, n: usize, take: &mut dyn FnMut(&Call) -> bool) {
    for &function in functions {
        let alone = REASONS[function].iter().map(std::slice::from_ref);
        for aim in alone.chain([&[][..]]) {
            for _ in 0..n {
                while !take(&Call::Lent(Box::new(purposely(r, function, aim, b)))) {}
            }
        }
    }
}

/// A case in which the first of the reasons is answered, and the second holds too.
fn purposely(r: &mut Random, function: usize, aim: &[Why], b: &Bounds) -> Call {
    for _ in 0..100_000 {
        let call = make(r, function, aim, b);
        if within(&call, b) && hit(&call.faults(), aim) {
            return call;
        }
    }
    panic!("{} never has {aim:?}", NAMES[function])
}

fn hit(faults: &[Fault], aim: &[Why]) -> bool {
    match *aim {
        [a, b] => reasons::met(faults).contains(&[a, b]),
        [a] => reasons::answered(faults).iter().any(|fault| fault.0 == a),
        _ => faults.is_empty(),
    }
}

/// A random case of one of the functions. What it aims at holds in most; another reason may hide it.
fn case(r: &mut Random, functions: &[usize], b: &Bounds) -> Call {
    let function = r.pick(functions);
    let function = if function == 4 && r.one_in(2) { 5 } else { function };
    let aim = match r.below(7) {
        0..=2 if function != 5 => vec![r.pick(REASONS[function])],
        3 if PAIRED.contains(&function) => r.pick(&reasons::pairs(function)).to_vec(),
        _ => Vec::new(),
    };
    let holds = |call: &Call| {
        let faults = call.faults();
        faults.is_empty() == aim.is_empty() && aim.iter().all(|why| faults.iter().any(|fault| fault.0 == *why))
    };
    let mut call = make(r, function, &aim, b);
    for _ in 0..10 {
        if within(&call, b) && holds(&call) {
            break;
        }
        call = make(r, function, &aim, b);
    }
    if within(&call, b) { call } else { case(r, functions, b) }
}

fn within(call: &Call, b: &Bounds) -> bool {
    match call {
        Call::UsbRead { t, table, .. } | Call::FlexRayRead { t, table, .. } | Call::UdpRead { t, table, .. } => {
            t.len() <= b.room && *table <= b.numbers
        }
        Call::UsbWrite { packets, lengths, room, .. }
        | Call::FlexRayWrite { packets, lengths, room, .. }
        | Call::UdpWrite { packets, lengths, room, .. } => {
            packets.len() <= b.packets && lengths.len() <= b.lengths && *room <= b.room
        }
        Call::Part { t, .. } => t.len() <= b.room,
        _ => true,
    }
}

fn make(r: &mut Random, function: usize, aim: &[Why], b: &Bounds) -> Call {
    match function {
        0 => usb_reading(r, aim, b),
        1 => usb_writing(r, aim, b),
        2 => flexray_reading(r, aim, b),
        3 => flexray_writing(r, aim, b),
        4 => parting(r, aim),
        UDP_READ => datagrams::reading(r, aim, b),
        UDP_WRITE => datagrams::writing(r, aim, b),
        _ => Call::Kind { direction: r.below(2) as u32, packet: bytes(r, 3) },
    }
}

/// Transfers written at and just past 262,144 bytes, and with one byte of room too little.
fn longest() -> Vec<Call> {
    let s = Usb { header: 0, packing: SINGLE, align: 1, size: 1_000, longest: 255, direction: 0 };
    let write = |s: Usb, count: usize, last: usize, full: bool, room: usize| {
        let mut lengths = vec![1; count];
        lengths.push(last as u32);
        Call::UsbWrite { s, packets: vec![0xFC; count + last], lengths, first: 0, fill: 0xEE, full, room }
    };
    let most = LONGEST_TRANSFER;
    vec![
        write(s, 262, 143, false, most),
        write(s, 262, 143, false, most + 256),
        write(s, 262, 143, false, most - 1),
        write(s, 262, 144, false, most + 1),
        write(s, 262, 144, false, most + 256),
        write(Usb { size: 1_024, ..s }, 255, 7, true, most),
        write(Usb { size: 1_024, ..s }, 255, 7, true, most - 1),
        write(Usb { size: 1_024, ..s }, 256, 1, false, most + 256),
    ]
}

/// Free bytes: each at random, or one value throughout.
#[derive(Clone, Copy)]
enum Noise {
    Any,
    One(u8),
}

fn noise(r: &mut Random, long: bool) -> Noise {
    if long || r.one_in(3) { Noise::One(r.pick(&[0, 0, 1, 2, 8, 0x55, 0xEE, 0xFF])) } else { Noise::Any }
}

fn add(r: &mut Random, t: &mut Vec<u8>, n: usize, noise: Noise) {
    match noise {
        Noise::Any => t.extend((0..n).map(|_| r.byte())),
        Noise::One(b) => t.resize(t.len() + n, b),
    }
}

/// At least one byte; the first is often at the edge of a kind.
fn bytes(r: &mut Random, n: usize) -> Vec<u8> {
    let mut t = vec![edge(r)];
    add(r, &mut t, n - 1, Noise::Any);
    t
}

fn edge(r: &mut Random) -> u8 {
    if r.one_in(2) { r.byte() } else { r.pick(&[0xFF, 0xFE, 0xFD, 0xFC, 0xFB, 0xC0, 0xBF, 0x00]) }
}

fn packet(r: &mut Random, t: &mut Vec<u8>, n: usize, noise: Noise) {
    t.push(edge(r));
    add(r, t, n - 1, if n > 300 { Noise::One(0x33) } else { noise });
}

/// A packet's length, 1 to `most`: often short, often at the top.
fn length(r: &mut Random, most: usize) -> usize {
    match r.below(12) {
        0 => 1,
        1 | 2 => most.min(r.from(1, 80)),
        3 if r.one_in(3) => most,
        3 => most.min(64),
        4 if r.one_in(8) => r.from(1, most),
        _ => r.from(1, most.min(9)),
    }
}

fn large(r: &mut Random) -> u32 {
    r.pick(&[u32::MAX, u32::MAX - 1, 1 << 31, 65_537, 65_536, 1 << 24])
}

fn usb_setting(r: &mut Random) -> Usb {
    let header = r.below(6) as u32;
    let top = if header < 3 { 255 } else { 65_535 };
    let size = match r.below(8) {
        0 => 8,
        1 => 24,
        2 | 3 => 16,
        4 => 32,
        5 => 8 * r.from(1, 16),
        6 => r.pick(&[64, 512, 1_024]),
        _ => 8 * r.from(1, 128),
    } as u32;
    let longest = match r.below(6) {
        0 => 8,
        1 => r.from(8, 20),
        2 => r.from(8, 255),
        3 => r.from(8, top),
        _ => top,
    } as u32;
    Usb { header, packing: r.below(3) as u32, align: r.pick(&[1, 2, 4, 8]), size, longest, direction: r.below(2) as u32 }
}

/// A setting under which the reasons can hold.
fn usb_suited(r: &mut Random, aim: &[Why]) -> Usb {
    let mut s = usb_setting(r);
    if aim.contains(&Ctr) {
        s.header = r.pick(&[1, 4]);
        s.longest = s.longest.min(if s.header == 1 { 255 } else { 65_535 });
    }
    if aim.contains(&Bare) {
        s.packing = SINGLE;
    }
    if aim.contains(&Unfit) {
        s.packing = r.pick(&[SINGLE, MULTIPLE]);
    }
    s
}

fn no_direction(r: &mut Random) -> u32 {
    let far = large(r);
    r.pick(&[2, 3, 255, 256, far])
}

/// Breaks a part of the setting; beside another reason often the direction, since that leaves the layout as it was.
fn usb_broken(r: &mut Random, s: &mut Usb, aim: &[Why]) {
    let far = large(r);
    match r.below(if aim.len() > 1 { 10 } else { 6 }) {
        0 => s.header = r.pick(&[6, 7, 8, 255, 256, far]),
        1 => s.packing = r.pick(&[3, 4, 255, 256, far]),
        2 => s.align = r.pick(&[0, 3, 5, 6, 7, 9, 10, 12, 16, 32, 64, 256, far]),
        3 => {
            let odd = 8 * r.from(1, 127) + r.from(1, 7);
            s.size = r.pick(&[0, 1, 4, 7, 12, 1_025, 1_028, 1_032, 2_048, 4_096, odd as u32, odd as u32, far]);
        }
        4 => {
            let top = if s.header < 3 { 256 } else { 65_536 };
            s.longest = r.pick(&[0, 1, 7, 7, top, top, top + 1, far]);
        }
        _ => s.direction = no_direction(r),
    }
}

fn flexray_setting(r: &mut Random) -> FlexRay {
    let header = r.below(9) as u32;
    let ceiling = match r.below(4) {
        0 => 8,
        1 => 254,
        2 => 2 * r.from(4, 20),
        _ => 2 * r.from(4, 127),
    } as u32;
    let node = if r.one_in(4) { r.pick(&[0, 1, 254, 255]) } else { r.below(256) as u32 };
    FlexRay { node, direction: r.below(2) as u32, ceiling, header, align: r.pick(flexray_header(header).unwrap().3) }
}

/// A setting whose header suits the reasons.
fn flexray_suited(r: &mut Random, aim: &[Why]) -> FlexRay {
    let mut s = flexray_setting(r);
    let suits = |&n: &u32| {
        let (_, ctr, len, _) = flexray_header(n).unwrap();
        let with_len = aim.contains(&Past) || aim.contains(&Bare);
        (ctr.is_some() || !aim.contains(&Ctr)) && (len.is_some() || !with_len) && (len.is_none() || !aim.contains(&Several))
    };
    let headers: Vec<u32> = (0..9).filter(suits).collect();
    s.header = r.pick(&headers);
    s.align = r.pick(flexray_header(s.header).unwrap().3);
    s
}

fn flexray_broken(r: &mut Random, s: &mut FlexRay, aim: &[Why]) {
    let far = large(r);
    match r.below(if aim.len() > 1 { 10 } else { 6 }) {
        0 => s.node = r.pick(&[256, 257, 511, 512, far]),
        1 => {
            let odd = 2 * r.from(4, 126) + 1;
            s.ceiling = r.pick(&[0, 2, 4, 6, 7, 9, 253, 255, 256, 258, odd as u32, odd as u32, far]);
        }
        2 => s.header = r.pick(&[9, 10, 16, 255, 256, far]),
        3 | 4 => {
            let far = r.pick(&[0, 3, 8, 16, 256, far]);
            let aligns = flexray_header(s.header).unwrap().3;
            s.align = r.pick(&[1, 2, 4, far]);
            if aligns.contains(&s.align) {
                s.align = 8;
            }
        }
        _ => s.direction = no_direction(r),
    }
}

/// A counter below `n`, often near the wrap.
fn counter(r: &mut Random, n: u32) -> u32 {
    match r.below(4) {
        0 => r.pick(&[0, 1, n - 1, n - 2]),
        1 => n - 1 - r.below(8) as u32,
        _ => r.below(n as usize) as u32,
    }
}

/// The counter of the next message: mostly one more.
fn follow(r: &mut Random, c: u32, n: u32) -> u32 {
    if r.one_in(8) { counter(r, n) } else { (c + 1) % n }
}

fn too_high(r: &mut Random, n: u32) -> u32 {
    let far = large(r);
    r.pick(&[n, n, n + 1, n + 255, 65_536, far])
}

/// A state; `first` is the counter that the input starts with. A state that needs no bound may hold any number.
fn state(r: &mut Random, counters: Option<u32>, first: u32, aim: &[Why]) -> Counter {
    let n = counters.unwrap_or(256);
    if counters.is_some() && (aim.contains(&Ctr) || r.one_in(60)) {
        return Counter { known: true, expected: too_high(r, n) };
    }
    let known = !r.one_in(3);
    let expected = match r.below(5) {
        0 | 1 => first,
        2 => (first + n - r.below(4) as u32) % n,
        _ => counter(r, n),
    };
    let free = !known || counters.is_none();
    Counter { known, expected: if free && r.one_in(3) { too_high(r, n) } else { expected } }
}

/// The lent length for an answer that needs `need`: exact, more, or less if it is to be short; at most `most`.
fn lent(r: &mut Random, need: usize, aim: &[Why], most: usize) -> usize {
    let short = aim.contains(&Room) || (!aim.is_empty() && r.one_in(5));
    if short && need > 0 {
        let less = match r.below(3) {
            0 => need - 1,
            1 => need - 1 - r.below(need.min(5)),
            _ => r.below(need),
        };
        return less.min(most);
    }
    let more = match r.below(4) {
        0 => 0,
        1 => r.from(1, 4),
        _ => r.from(0, 40),
    };
    (need + more).min(most)
}

/// A sender's transfer and the places of its headers: random messages, rests and free bytes, all as the layout permits.
fn sender(r: &mut Random, s: &Usb, from: u32) -> (Vec<u8>, Vec<usize>) {
    let (h, width, ctr) = usb_header(s.header).unwrap();
    let counters = usb_counters(s).unwrap_or(256);
    let (m, a, x) = (s.size as usize, s.align as usize, s.longest as usize);
    let free = noise(r, m > 64);
    let content = noise(r, false);
    let mut next = from;
    let mut t = Vec::new();
    let mut headers = Vec::new();
    let most = r.pick(&[0, 1, 1, 2, 3, 4, 6, 10, 20]);
    let ends = if s.packing == SINGLE { most.min(if m > 64 { 4 } else { 8 }) } else { most };
    while headers.len() < ends {
        let left = m - t.len() % m;
        let bare = left < h || (s.packing != STREAMING && left < up(h + 1, a));
        let skip = if s.packing == SINGLE { t.len() % m != 0 } else { bare || r.one_in(7) };
        if skip {
            rest(r, &mut t, left, if s.packing == SINGLE { usize::MAX } else { h }, width, free);
            if s.packing != SINGLE && r.one_in(6) {
                break;
            }
            continue;
        }
        let l = length(r, if s.packing == STREAMING { x } else { x.min(left - h) });
        headers.push(t.len());
        let start = t.len();
        t.extend((0..width).map(|i| (l >> (8 * i)) as u8));
        if ctr.is_some() {
            t.extend((0..width).map(|i| (next >> (8 * i)) as u8));
            next = follow(r, next, counters);
        }
        let fill = start + h - t.len();
        add(r, &mut t, fill, free);
        packet(r, &mut t, l, content);
        let tail = start + up(h + l, a) - t.len();
        add(r, &mut t, tail, free);
    }
    if !r.one_in(3) && (s.packing != SINGLE || t.len() % m != 0) {
        let left = m - t.len() % m;
        let last = if r.one_in(2) { left } else { r.below(left + 1) };
        rest(r, &mut t, last, if s.packing == SINGLE { usize::MAX } else { h }, width, free);
    }
    (t, headers)
}

/// A rest of `n` bytes: with room for a header it starts with a zero LEN.
fn rest(r: &mut Random, t: &mut Vec<u8>, n: usize, h: usize, width: usize, free: Noise) {
    let zeros = if n >= h { width } else { 0 };
    t.resize(t.len() + zeros, 0);
    add(r, t, n - zeros, free);
}

fn set_len(t: &mut [u8], at: usize, width: usize, l: usize) {
    for i in 0..width {
        if at + i < t.len() {
            t[at + i] = (l >> (8 * i)) as u8;
        }
    }
}

/// Change, cut or extend a transfer or frame.
fn damage(r: &mut Random, t: &mut Vec<u8>) {
    match r.below(5) {
        0 | 1 => {
            for _ in 0..r.from(1, 3) {
                if !t.is_empty() {
                    let i = r.below(t.len());
                    t[i] = if r.one_in(2) { r.byte() } else { t[i] ^ 1 << r.below(8) };
                }
            }
        }
        2 => t.truncate(t.len() - r.below(t.len().min(8) + 1)),
        3 => {
            let n = r.below(t.len() + 1);
            t.truncate(n);
        }
        _ => {
            let n = r.from(1, 12);
            add(r, t, n, Noise::Any);
        }
    }
}

fn usb_reading(r: &mut Random, aim: &[Why], b: &Bounds) -> Call {
    let mut s = usb_suited(r, aim);
    if aim.contains(&Over) {
        s.longest = r.from(8, if s.header < 3 { 254 } else { 400 }) as u32;
    }
    let first = counter(r, usb_counters(&s).unwrap_or(256));
    let (mut t, headers) = sender(r, &s, first);
    for &why in aim {
        let at = if headers.is_empty() { 0 } else { r.pick(&headers) };
        usb_fault(r, &s, &mut t, at, why, b);
    }
    if aim.is_empty() && r.one_in(60) {
        t = same(r, b);
    }
    if r.one_in(5) {
        damage(r, &mut t);
    }
    if r.one_in(40) {
        t.clear();
        let n = r.below(60);
        add(r, &mut t, n, Noise::Any);
    }
    let c = state(r, usb_counters(&s), first, aim);
    let table = lent(r, 5 * reasons::usb_layout(&s, &t).1, aim, b.numbers);
    if aim.contains(&Setting) || r.one_in(80) {
        usb_broken(r, &mut s, aim);
    }
    Call::UsbRead { s, t, c, table }
}

/// Makes a reason hold of a transfer that has a header `at` a place.
fn usb_fault(r: &mut Random, s: &Usb, t: &mut Vec<u8>, at: usize, why: Why, b: &Bounds) {
    let (_, width, _) = usb_header(s.header).unwrap();
    let x = s.longest as usize;
    match why {
        Long => {
            let n = if r.one_in(3) { LONGEST_TRANSFER + 1 } else { r.from(LONGEST_TRANSFER + 1, b.room) };
            let any = r.byte();
            t.resize(n, r.pick(&[0, 0, 1, any]));
        }
        Over => {
            let over = if r.one_in(2) { x + 1 } else { r.from(x + 1, if width == 1 { 255 } else { 65_535 }) };
            set_len(t, at, width, over);
        }
        Past => usb_past(r, s, t, at),
        Bare => usb_bare(r, s, t, at),
        _ => {}
    }
}

/// Makes a message run past its end, by its LEN or by a cut.
fn usb_past(r: &mut Random, s: &Usb, t: &mut Vec<u8>, at: usize) {
    let (h, width, _) = usb_header(s.header).unwrap();
    let (m, a, x) = (s.size as usize, s.align as usize, s.longest as usize);
    match r.below(4) {
        0 => t.truncate(t.len() - r.below(t.len().min(2 * a) + 1)),
        1 => {
            let l = r.from(1, x);
            set_len(t, at, width, l);
        }
        _ => {
            let end = if s.packing == STREAMING { t.len() } else { t.len().min(at / m * m + m) };
            let l = x.min(end.saturating_sub(at + h) + 1 + r.below(4));
            set_len(t, at, width, l);
        }
    }
}

/// Leaves a single data packet without a message: one that is there, or one more.
fn usb_bare(r: &mut Random, s: &Usb, t: &mut Vec<u8>, at: usize) {
    let (h, width, _) = usb_header(s.header).unwrap();
    if r.one_in(3) {
        return set_len(t, at, width, 0);
    }
    let left = up(t.len(), s.size as usize) - t.len();
    add(r, t, left, Noise::Any);
    let zeros = r.pick(&[0, width]);
    t.resize(t.len() + zeros, 0);
    let n = r.from(0, h + 1);
    add(r, t, n, Noise::Any);
}

/// One byte throughout, short or as long as a transfer may get.
fn same(r: &mut Random, b: &Bounds) -> Vec<u8> {
    let n = r.pick(&[1, 7, 8, 1_024, 65_536, LONGEST_TRANSFER - 1, LONGEST_TRANSFER, LONGEST_TRANSFER]);
    vec![r.pick(&[0, 0, 1, 3, 6, 7, 14, 62, 126, 254, 255]); n.min(b.room)]
}

/// A list of packets: joined bytes and lengths.
fn list(r: &mut Random, n: usize, most: usize) -> (Vec<u8>, Vec<u32>) {
    let content = noise(r, n > 40);
    let mut packets = Vec::new();
    let mut lengths = Vec::new();
    for _ in 0..n {
        let l = if n > 40 { 1 + (n % 3).min(most - 1) } else { length(r, most) };
        if n > 40 { add(r, &mut packets, l, content) } else { packet(r, &mut packets, l, content) }
        lengths.push(l as u32);
    }
    (packets, lengths)
}

/// Make the sum of the lengths differ from the bytes.
fn unequal(r: &mut Random, packets: &mut Vec<u8>, lengths: &mut [u32]) {
    let i = if lengths.is_empty() { 0 } else { r.below(lengths.len()) };
    match r.below(5) {
        0 => packets.push(0),
        1 => {
            packets.pop();
        }
        2 if !lengths.is_empty() => lengths[i] = lengths[i].wrapping_add(1),
        3 if !lengths.is_empty() => lengths[i] = lengths[i].wrapping_sub(1),
        // The sum is right modulo 2^32.
        4 if lengths.len() > 1 => {
            lengths[0] = lengths[0].wrapping_add(1 << 31);
            lengths[1] = lengths[1].wrapping_add(1 << 31);
        }
        _ => {
            let n = r.from(1, 9);
            add(r, packets, n, Noise::Any);
        }
    }
}

/// Give one packet another length, with its bytes.
fn relength(packets: &mut Vec<u8>, lengths: &mut [u32], i: usize, l: usize) {
    let at: usize = lengths[..i].iter().map(|&l| l as usize).sum();
    let old = lengths[i] as usize;
    packets.splice(at..at + old, std::iter::repeat(0x44).take(l));
    lengths[i] = l as u32;
}

/// Too many lengths, by one or more.
fn too_many(r: &mut Random, b: &Bounds) -> usize {
    if r.one_in(2) { MOST_LENGTHS + 1 } else { r.from(MOST_LENGTHS + 1, b.lengths) }
}

fn fill_byte(r: &mut Random) -> u8 {
    let any = r.byte();
    r.pick(&[0, 0xFF, 0xEE, 0xB7, any, any])
}

/// Makes the reasons hold that a list by itself can have. `wrong` gives a length for a reason, from the lengths before it.
fn spoil(r: &mut Random, aim: &[Why], list: &mut (Vec<u8>, Vec<u32>), wrong: impl Fn(&mut Random, Why, &[u32]) -> Option<usize>) {
    let (packets, lengths) = list;
    let count = lengths.len();
    for &why in aim.iter().filter(|_| count > 0) {
        let i = if r.one_in(3) { count - 1 } else { r.below(count) };
        if let Some(l) = wrong(r, why, &lengths[..i]) {
            relength(packets, lengths, i, l);
        }
    }
    if aim.contains(&Sum) || r.one_in(60) {
        unequal(r, packets, lengths);
    }
}

fn usb_writing(r: &mut Random, aim: &[Why], b: &Bounds) -> Call {
    let mut s = usb_suited(r, aim);
    let far = aim.contains(&Far) || (aim.is_empty() && r.one_in(60));
    if far {
        far_setting(r, &mut s);
    }
    let (h, ..) = usb_header(s.header).unwrap();
    let x = s.longest as usize;
    let most = if s.packing == STREAMING { x } else { x.min(s.size as usize - h) };
    let mut all = usb_list(r, &s, aim, most, far, b);
    spoil(r, aim, &mut all, |r, why, _| match why {
        Zero => Some(0),
        Over => Some(x + r.from(1, 2)),
        Unfit => Some(most + r.pick(&[1, 1, 2, 5, 9])),
        _ => None,
    });
    let (packets, lengths) = all;
    let full = r.one_in(if far { 4 } else { 2 });
    let first = start(r, usb_counters(&s), aim);
    let fill = fill_byte(r);
    let room = lent(r, reasons::usb_size(&s, &lengths, full), aim, b.room);
    if aim.contains(&Setting) || r.one_in(80) {
        usb_broken(r, &mut s, aim);
    }
    Call::UsbWrite { s, packets, lengths, first, fill, full, room }
}

/// A list of packets of at most `most` bytes, unless its count is to be wrong; `far`, its transfer is long.
fn usb_list(r: &mut Random, s: &Usb, aim: &[Why], most: usize, far: bool, b: &Bounds) -> (Vec<u8>, Vec<u32>) {
    if aim.contains(&Count) {
        let n = too_many(r, b);
        return list(r, n, most);
    }
    if far {
        return far_list(r, s);
    }
    let n = r.pick(&[0, 1, 1, 2, 3, 5, 8]).max(aim.len());
    let n = if aim.is_empty() && r.one_in(60) { MOST_LENGTHS } else { n };
    list(r, n, most)
}

/// A first counter; without a counter it may be any number.
fn start(r: &mut Random, counters: Option<u32>, aim: &[Why]) -> u32 {
    match counters {
        Some(n) if aim.contains(&Ctr) || r.one_in(60) => too_high(r, n),
        Some(n) => counter(r, n),
        None if r.one_in(2) => too_high(r, 256),
        None => counter(r, 65_536),
    }
}

/// A setting under which short lists come near the longest transfer.
fn far_setting(r: &mut Random, s: &mut Usb) {
    s.size = r.pick(&[1_024, 1_024, 1_024, 1_000, 992]);
    s.packing = r.pick(&[SINGLE, SINGLE, MULTIPLE, STREAMING]);
    s.longest = if s.header < 3 { 255 } else { 65_535 };
}

/// Packets whose transfer ends near 262,144 bytes.
fn far_list(r: &mut Random, s: &Usb) -> (Vec<u8>, Vec<u32>) {
    let (h, ..) = usb_header(s.header).unwrap();
    let m = s.size as usize;
    let n = LONGEST_TRANSFER / m;
    let l = match s.packing {
        SINGLE => r.from(1, 4),
        MULTIPLE => (m - h).min(s.longest as usize),
        _ => s.longest as usize,
    };
    let each = match s.packing {
        SINGLE => m,
        _ => up(h + l, s.align as usize),
    };
    let count = match s.packing {
        SINGLE => n,
        MULTIPLE => n * (m / each),
        _ => LONGEST_TRANSFER / each,
    };
    let count = (count + r.pick(&[0, 1, 1, 2, 3])).saturating_sub(r.pick(&[0, 0, 1, 1, 2]));
    (vec![r.byte(); count * l], vec![l as u32; count])
}

/// A sender's frame and the places of its LEN.
fn frame(r: &mut Random, s: &FlexRay, ctr: u32) -> (Vec<u8>, Vec<usize>) {
    let (h, ctr_at, len_at, _) = flexray_header(s.header).unwrap();
    let (f, a) = (s.ceiling as usize, s.align as usize);
    let free = noise(r, false);
    let content = noise(r, false);
    let mut t = vec![s.node as u8];
    add(r, &mut t, h - 1, free);
    if let Some(at) = ctr_at {
        t[at] = ctr as u8;
    }
    let mut lens = Vec::new();
    let Some(at) = len_at else {
        let n = up(h + length(r, f - h), 2);
        packet(r, &mut t, n - h, content);
        return (t, lens);
    };
    let most = r.pick(&[1, 1, 2, 3, 4, 30]);
    let (mut len_at, mut from) = (at, h);
    loop {
        let l = length(r, f - from);
        lens.push(len_at);
        if len_at == t.len() {
            t.push(0);
        }
        t[len_at] = l as u8;
        packet(r, &mut t, l, content);
        from = up(t.len() + 1, a);
        len_at = from - 1;
        if lens.len() == most || from + 1 > f {
            break;
        }
        let gap = len_at - t.len();
        add(r, &mut t, gap, free);
    }
    let least = up(t.len(), 2);
    let n = if r.one_in(2) { least } else { least + 2 * r.below((f - least) / 2 + 1) };
    let more = n - t.len();
    add(r, &mut t, more, free);
    if len_at < n {
        t[len_at] = 0;
    }
    (t, lens)
}

fn flexray_reading(r: &mut Random, aim: &[Why], b: &Bounds) -> Call {
    let mut s = flexray_suited(r, aim);
    let first = counter(r, 256);
    let (mut t, lens) = frame(r, &s, first);
    if aim.contains(&Past) {
        run_past(r, &s, &mut t, &lens);
    }
    frame_faults(r, &s, &mut t, aim);
    if r.one_in(8) {
        damage(r, &mut t);
    }
    let c = state(r, flexray_counters(&s), first, aim);
    let table = lent(r, 5 * reasons::flexray_layout(&s, &t).1, aim, b.numbers);
    if aim.contains(&Setting) || r.one_in(80) {
        flexray_broken(r, &mut s, aim);
    }
    Call::FlexRayRead { s, t, c, table }
}

/// Makes a packet run past the frame: by its LEN, by a cut, or by a byte on the place of the next LEN.
fn run_past(r: &mut Random, s: &FlexRay, t: &mut Vec<u8>, lens: &[usize]) {
    match r.below(3) {
        0 => {
            let at = r.pick(lens);
            let more = t[at].wrapping_add(r.from(1, 6) as u8);
            t[at] = r.pick(&[255, 254, more, more]);
        }
        1 => {
            let n = up(r.below(t.len()), 2);
            t.truncate(n);
        }
        _ => {
            let last = *lens.last().unwrap();
            let from = if lens.len() == 1 { flexray_header(s.header).unwrap().0 } else { last + 1 };
            let next = up(from + t[last] as usize + 1, s.align as usize) - 1;
            while t.len() <= next && t.len() + 2 <= s.ceiling as usize {
                add(r, t, 2, Noise::Any);
            }
            if next < t.len() {
                t[next] = r.from(1, 255) as u8;
            }
        }
    }
}

/// Makes the reasons hold that go by a frame's header and length; the length comes last.
fn frame_faults(r: &mut Random, s: &FlexRay, t: &mut Vec<u8>, aim: &[Why]) {
    let (h, _, len, _) = flexray_header(s.header).unwrap();
    if aim.contains(&Bare) {
        t[len.unwrap()] = 0;
    }
    if (aim.contains(&Node) || r.one_in(40)) && !t.is_empty() {
        t[0] = if r.one_in(2) { t[0].wrapping_add(1) } else { r.byte() };
    }
    if aim.contains(&Short) {
        t.truncate(r.from(0, h));
    }
    if aim.contains(&Ceiling) {
        let n = if r.one_in(3) { r.from(255, 600) } else { s.ceiling as usize + r.from(1, 4) };
        let more = n.saturating_sub(t.len());
        let free = noise(r, false);
        add(r, t, more, free);
    }
    if aim.contains(&Odd) {
        if r.one_in(2) { t.push(r.byte()) } else { t.truncate(t.len().saturating_sub(1)) }
    }
}

fn flexray_writing(r: &mut Random, aim: &[Why], b: &Bounds) -> Call {
    let mut s = flexray_suited(r, aim);
    let (h, ..) = flexray_header(s.header).unwrap();
    let (f, a) = (s.ceiling as usize, s.align as usize);
    let mut all = frame_list(r, &s, aim, b);
    spoil(r, aim, &mut all, |r, why, before| match why {
        Zero => Some(0),
        Unfit => {
            let from = before.iter().fold(h, |from, &l| up(from + l as usize + 1, a));
            let past = (f + 1).saturating_sub(from);
            Some(r.pick(&[past, past, past + 1, past + 2, f - h + 1, f, 255, 256, 257, 512]))
        }
        _ => None,
    });
    let (packets, lengths) = all;
    let first = start(r, flexray_counters(&s), aim);
    let fill = fill_byte(r);
    let room = lent(r, reasons::flexray_size(&s, &lengths), aim, b.room);
    if aim.contains(&Setting) || r.one_in(80) {
        flexray_broken(r, &mut s, aim);
    }
    Call::FlexRayWrite { s, packets, lengths, first, fill, room }
}

/// A list for a frame that holds it, unless its count is to be wrong.
fn frame_list(r: &mut Random, s: &FlexRay, aim: &[Why], b: &Bounds) -> (Vec<u8>, Vec<u32>) {
    let (h, _, len, _) = flexray_header(s.header).unwrap();
    let (f, a) = (s.ceiling as usize, s.align as usize);
    if aim.contains(&Nothing) {
        return (Vec::new(), Vec::new());
    }
    if aim.contains(&Count) {
        let n = too_many(r, b);
        return list(r, n, f - h);
    }
    if aim.contains(&Several) {
        let n = r.pick(&[0, 2, 2, 3]);
        return list(r, n, f - h);
    }
    if aim.contains(&Unfit) && r.one_in(60) {
        return list(r, MOST_LENGTHS, 3);
    }
    let n = if len.is_some() { r.pick(&[1, 1, 2, 3, 4, 30]) } else { 1 };
    let content = noise(r, false);
    let (mut packets, mut lengths) = (Vec::new(), Vec::new());
    let mut from = h;
    while lengths.len() < n && from < f {
        let l = length(r, f - from);
        packet(r, &mut packets, l, content);
        lengths.push(l as u32);
        from = up(from + l + 1, a);
    }
    (packets, lengths)
}

fn parting(r: &mut Random, aim: &[Why]) -> Call {
    let n = r.below(40);
    let mut t = Vec::new();
    add(r, &mut t, n, Noise::Any);
    let place = r.below(n + 1);
    let (mut place, mut length) = (place as u32, r.below(n - place + 1) as u32);
    if aim.contains(&Past) {
        let far = large(r);
        match r.below(4) {
            0 => length = n as u32 - place + r.from(1, 3) as u32,
            1 => length = far,
            2 => place = far,
            _ => (place, length) = (0u32.wrapping_sub(place), length.max(place)),
        }
        if place == 0 && length as usize <= n {
            length = n as u32 + 1;
        }
    }
    Call::Part { t, place, length }
}
