//! Readers, writers, part check and kinds, by straightforward code from document 01 and, of datagrams, Ask 3 alone.
//! Numbers are wide and lists are owned, so that nothing here wraps or cuts.

/// A USB endpoint's setting.
#[derive(Clone, Copy, Debug, PartialEq)]
pub struct Usb {
    pub header: u32,
    pub packing: u32,
    pub align: u32,
    pub size: u32,
    pub longest: u32,
    pub direction: u32,
}

/// A FlexRay node's setting.
#[derive(Clone, Copy, Debug)]
pub struct FlexRay {
    pub node: u32,
    pub direction: u32,
    pub ceiling: u32,
    pub header: u32,
    pub align: u32,
}

/// What is set for datagrams.
#[derive(Clone, Copy, Debug)]
pub struct Udp {
    pub longest: u32,
    pub direction: u32,
}

/// The counter state: a mark and the counter expected next.
#[derive(Clone, Copy, Debug, PartialEq)]
pub struct Counter {
    pub known: bool,
    pub expected: u32,
}

pub type Row = [u32; 5];

#[derive(Clone, Debug, PartialEq)]
pub enum Read {
    Rows(Vec<Row>, Counter),
    Refused(u32, u32),
}

#[derive(Clone, Debug, PartialEq)]
pub enum Write {
    Bytes(Vec<u8>, u32),
    Refused(u32, u32),
}

pub const LONGEST_TRANSFER: usize = 262_144;
pub const LONGEST_DATAGRAM: usize = 1_472;
pub const MOST_LENGTHS: usize = 4_096;
pub const SINGLE: u32 = 0;
pub const MULTIPLE: u32 = 1;
pub const STREAMING: u32 = 2;

/// Size, width of LEN and place of CTR in a USB header; every field has LEN's width.
pub fn usb_header(number: u32) -> Option<(usize, usize, Option<usize>)> {
    match number {
        0 => Some((1, 1, None)),
        1 => Some((2, 1, Some(1))),
        2 => Some((2, 1, None)),
        3 => Some((2, 2, None)),
        4 => Some((4, 2, Some(2))),
        5 => Some((4, 2, None)),
        _ => None,
    }
}

/// Size, place of CTR and place of LEN in a FlexRay header, and the alignments that go with it.
pub fn flexray_header(number: u32) -> Option<(usize, Option<usize>, Option<usize>, &'static [u32])> {
    match number {
        0 => Some((1, None, None, &[1])),
        1 => Some((2, None, None, &[2])),
        2 => Some((4, None, None, &[4])),
        3 => Some((2, Some(1), None, &[1, 2])),
        4 => Some((4, Some(1), None, &[4])),
        5 => Some((2, None, Some(1), &[1, 2])),
        6 => Some((4, None, Some(3), &[4])),
        7 => Some((3, Some(1), Some(2), &[1])),
        8 => Some((4, Some(1), Some(3), &[2, 4])),
        _ => None,
    }
}

pub fn usb_sound(s: &Usb) -> bool {
    let Some((_, width, _)) = usb_header(s.header) else { return false };
    let top = if width == 1 { 255 } else { 65_535 };
    s.packing <= 2
        && [1, 2, 4, 8].contains(&s.align)
        && s.size % 8 == 0
        && (8..=1_024).contains(&s.size)
        && (8..=top).contains(&s.longest)
        && s.direction <= 1
}

pub fn flexray_sound(s: &FlexRay) -> bool {
    let Some((_, _, _, aligns)) = flexray_header(s.header) else { return false };
    s.node <= 255 && s.direction <= 1 && s.ceiling % 2 == 0 && (8..=254).contains(&s.ceiling) && aligns.contains(&s.align)
}

pub fn udp_sound(s: &Udp) -> bool {
    (8..=1_468).contains(&s.longest) && s.direction <= 1
}

/// How many values a USB header's counter has, if it carries one.
pub fn usb_counters(s: &Usb) -> Option<u32> {
    let (_, width, counter) = usb_header(s.header)?;
    counter.map(|_| if width == 1 { 256 } else { 65_536 })
}

pub fn flexray_counters(s: &FlexRay) -> Option<u32> {
    flexray_header(s.header)?.1.map(|_| 256)
}

/// How many values a datagram's counter has, and the bytes of a header, LEN word and CTR word.
pub const UDP_COUNTERS: u32 = 65_536;
pub const UDP_HEADER: usize = 4;

pub fn kind(direction: u32, first: u8) -> u32 {
    if direction == 0 {
        match first {
            0xFF => 1,
            0xFE => 2,
            0xFD => 3,
            0xFC => 4,
            _ => 5,
        }
    } else if first >= 0xC0 {
        6
    } else {
        7
    }
}

/// The refusal of a part that runs past an input of `n` bytes.
pub fn part(n: usize, place: u64, length: u64) -> Option<(u32, u64)> {
    if place as u128 + length as u128 > n as u128 { Some((5, place)) } else { None }
}

pub fn up(n: usize, a: usize) -> usize {
    (n + a - 1) / a * a
}

pub fn field(t: &[u8], at: usize, width: usize) -> usize {
    if width == 1 { t[at] as usize } else { t[at] as usize + 256 * t[at + 1] as usize }
}

/// The gap of a counter and the state behind it.
fn count(c: Counter, got: u32, counters: u32) -> (u32, Counter) {
    let gap = if c.known { (got + counters - c.expected) % counters } else { 0 };
    (gap, Counter { known: true, expected: (got + 1) % counters })
}

pub fn usb_read(s: &Usb, t: &[u8], c: Counter, table: usize) -> Read {
    if !usb_sound(s) {
        return Read::Refused(1, 0);
    }
    let counters = usb_counters(s);
    if let Some(n) = counters {
        if c.known && c.expected > n - 1 {
            return Read::Refused(1, 0);
        }
    }
    if t.len() > LONGEST_TRANSFER {
        return Read::Refused(2, 0);
    }
    let (h, width, counter) = usb_header(s.header).unwrap();
    let m = s.size as usize;
    let mut state = c;
    let mut rows = Vec::new();
    let mut q = 0;
    while q < t.len() {
        // Here a data packet starts, or a message has just ended.
        let start = q / m * m;
        let end = (start + m).min(t.len());
        let len = if end - q < h { 0 } else { field(t, q, width) };
        if len == 0 {
            if s.packing == SINGLE {
                return Read::Refused(6, start as u32);
            }
            q = end;
            continue;
        }
        if len > s.longest as usize {
            return Read::Refused(3, q as u32);
        }
        let whole = up(h + len, s.align as usize);
        let limit = if s.packing == STREAMING { t.len() } else { end };
        if q + whole > limit {
            return Read::Refused(5, q as u32);
        }
        let (mut got, mut gap) = (0, 0);
        if let Some(place) = counter {
            got = field(t, q + place, width) as u32;
            (gap, state) = count(state, got, counters.unwrap());
        }
        rows.push([(q + h) as u32, len as u32, got, gap, kind(s.direction, t[q + h])]);
        q = if s.packing == SINGLE { end } else { q + whole };
    }
    if table < 5 * rows.len() {
        return Read::Refused(4, 0);
    }
    Read::Rows(rows, state)
}

pub fn put(out: &mut Vec<u8>, value: usize, width: usize) {
    out.push((value % 256) as u8);
    if width == 2 {
        out.push((value / 256) as u8);
    }
}

/// The refusals 1 and 2 that the writers share.
fn lists(counters: Option<u32>, packets: &[u8], lengths: &[u32], first: u32) -> Option<Write> {
    if let Some(n) = counters {
        if first > n - 1 {
            return Some(Write::Refused(1, 0));
        }
    }
    let sum: u64 = lengths.iter().map(|&l| l as u64).sum();
    if lengths.len() > MOST_LENGTHS || sum != packets.len() as u64 {
        return Some(Write::Refused(2, 0));
    }
    None
}

pub fn usb_write(s: &Usb, packets: &[u8], lengths: &[u32], first: u32, fill: u8, full: bool, room: usize) -> Write {
    if !usb_sound(s) {
        return Write::Refused(1, 0);
    }
    let counters = usb_counters(s);
    if let Some(refused) = lists(counters, packets, lengths, first) {
        return refused;
    }
    let (h, width, counter) = usb_header(s.header).unwrap();
    let (m, a) = (s.size as usize, s.align as usize);
    for (i, &l) in lengths.iter().enumerate() {
        let l = l as usize;
        if l == 0 || l > s.longest as usize || (s.packing != STREAMING && up(h + l, a) > m) {
            return Write::Refused(3, i as u32);
        }
    }
    // The rest of the data packet that `out` ends in, if it ends inside one.
    let rest = |out: &mut Vec<u8>| {
        let left = up(out.len(), m) - out.len();
        let zeros = if s.packing != SINGLE && left >= h { width } else { 0 };
        out.resize(out.len() + zeros, 0);
        out.resize(out.len() + left - zeros, fill);
    };
    let mut out = Vec::new();
    let mut next = first;
    let mut at = 0;
    for &l in lengths {
        let l = l as usize;
        let whole = up(h + l, a);
        let left = up(out.len(), m) - out.len();
        let fits = match s.packing {
            SINGLE => left == 0,
            MULTIPLE => left == 0 || left >= whole,
            _ => left == 0 || left >= h,
        };
        if !fits {
            rest(&mut out);
        }
        let start = out.len();
        put(&mut out, l, width);
        if counter.is_some() {
            put(&mut out, next as usize, width);
            next = (next + 1) % counters.unwrap();
        }
        out.resize(start + h, fill);
        out.extend_from_slice(&packets[at..at + l]);
        at += l;
        out.resize(start + whole, fill);
    }
    if full {
        rest(&mut out);
    }
    if out.len() > room || out.len() > LONGEST_TRANSFER {
        return Write::Refused(4, 0);
    }
    Write::Bytes(out, next)
}

/// Where the packet behind one that ends at `end` starts.
fn further(end: usize, a: usize) -> usize {
    up(end + 1, a)
}

pub fn flexray_read(s: &FlexRay, t: &[u8], c: Counter, table: usize) -> Read {
    if !flexray_sound(s) {
        return Read::Refused(1, 0);
    }
    let (h, counter, len, _) = flexray_header(s.header).unwrap();
    if counter.is_some() && c.known && c.expected > 255 {
        return Read::Refused(1, 0);
    }
    if t.len() % 2 == 1 || t.len() > s.ceiling as usize {
        return Read::Refused(8, 0);
    }
    if t.len() < h + 1 {
        return Read::Refused(6, 0);
    }
    if t[0] as u32 != s.node {
        return Read::Refused(7, 0);
    }
    let (mut got, mut gap, mut state) = (0, 0, c);
    if let Some(place) = counter {
        got = t[place] as u32;
        (gap, state) = count(c, got, 256);
    }
    let mut rows = Vec::new();
    match len {
        None => rows.push([h as u32, (t.len() - h) as u32, got, gap, kind(s.direction, t[h])]),
        Some(place) => {
            let (mut header, mut start, mut l) = (0, h, t[place] as usize);
            if l == 0 {
                return Read::Refused(6, 0);
            }
            loop {
                if start + l > t.len() {
                    return Read::Refused(5, header as u32);
                }
                rows.push([start as u32, l as u32, got, gap, kind(s.direction, t[start])]);
                (got, gap) = (0, 0);
                start = further(start + l, s.align as usize);
                header = start - 1;
                if header >= t.len() || t[header] == 0 {
                    break;
                }
                l = t[header] as usize;
            }
        }
    }
    if table < 5 * rows.len() {
        return Read::Refused(4, 0);
    }
    Read::Rows(rows, state)
}

pub fn flexray_write(s: &FlexRay, packets: &[u8], lengths: &[u32], first: u32, fill: u8, room: usize) -> Write {
    if !flexray_sound(s) {
        return Write::Refused(1, 0);
    }
    let counters = flexray_counters(s);
    if let Some(refused) = lists(counters, packets, lengths, first) {
        return refused;
    }
    let (h, counter, len, _) = flexray_header(s.header).unwrap();
    if lengths.is_empty() || (len.is_none() && lengths.len() != 1) {
        return Write::Refused(2, 0);
    }
    let a = s.align as usize;
    let mut end = 0;
    for (i, &l) in lengths.iter().enumerate() {
        let start = if i == 0 { h } else { further(end, a) };
        if l == 0 || start as u64 + l as u64 > s.ceiling as u64 {
            return Write::Refused(3, i as u32);
        }
        end = start + l as usize;
    }
    let n = up(end, 2);
    if n > room {
        return Write::Refused(4, 0);
    }
    let mut out = vec![fill; n];
    out[0] = s.node as u8;
    let mut next = first;
    if let Some(place) = counter {
        out[place] = first as u8;
        next = (first + 1) % 256;
    }
    let (mut at, mut start) = (0, h);
    for (i, &l) in lengths.iter().enumerate() {
        let l = l as usize;
        if let Some(place) = len {
            out[if i == 0 { place } else { start - 1 }] = l as u8;
        }
        out[start..start + l].copy_from_slice(&packets[at..at + l]);
        at += l;
        start = further(start + l, a);
    }
    if len.is_some() && start - 1 < n {
        out[start - 1] = 0;
    }
    Write::Bytes(out, next)
}

pub fn udp_read(s: &Udp, t: &[u8], c: Counter, table: usize) -> Read {
    if !udp_sound(s) || (c.known && c.expected > 65_535) {
        return Read::Refused(1, 0);
    }
    if t.len() > LONGEST_DATAGRAM {
        return Read::Refused(2, 0);
    }
    let mut state = c;
    let mut rows = Vec::new();
    let mut left = t;
    while !left.is_empty() {
        let place = (t.len() - left.len()) as u32;
        let &[len_low, len_high, ctr_low, ctr_high, ref behind @ ..] = left else {
            return Read::Refused(5, place);
        };
        let len = u16::from_le_bytes([len_low, len_high]) as u32;
        if len == 0 {
            return Read::Refused(6, place);
        }
        if len > s.longest {
            return Read::Refused(3, place);
        }
        if len as usize > behind.len() {
            return Read::Refused(5, place);
        }
        let (packet, next) = behind.split_at(len as usize);
        let got = u16::from_le_bytes([ctr_low, ctr_high]) as u32;
        let (gap, then) = count(state, got, UDP_COUNTERS);
        rows.push([place + 4, len, got, gap, kind(s.direction, packet[0])]);
        (state, left) = (then, next);
    }
    if table < 5 * rows.len() {
        return Read::Refused(4, 0);
    }
    Read::Rows(rows, state)
}

pub fn udp_write(s: &Udp, packets: &[u8], lengths: &[u32], first: u32, room: usize) -> Write {
    if !udp_sound(s) {
        return Write::Refused(1, 0);
    }
    if let Some(refused) = lists(Some(UDP_COUNTERS), packets, lengths, first) {
        return refused;
    }
    if let Some(i) = lengths.iter().position(|l| !(1..=s.longest).contains(l)) {
        return Write::Refused(3, i as u32);
    }
    let (mut out, mut next, mut left) = (Vec::new(), first, packets);
    for &l in lengths {
        let (packet, behind) = left.split_at(l as usize);
        put(&mut out, packet.len(), 2);
        put(&mut out, next as usize, 2);
        out.extend_from_slice(packet);
        (next, left) = ((next + 1) % UDP_COUNTERS, behind);
    }
    if out.len() > room || out.len() > LONGEST_DATAGRAM {
        return Write::Refused(4, 0);
    }
    Write::Bytes(out, next)
}
