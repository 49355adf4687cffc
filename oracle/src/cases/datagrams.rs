//! Cases of datagrams: a sender's, with random packets and counters; one with a fault; those at each bound of the rule.

use super::*;

const FRESH: Counter = Counter { known: false, expected: 0 };
const TOP: Udp = Udp { longest: 1_468, direction: 0 };

fn known(expected: u32) -> Counter {
    Counter { known: true, expected }
}

fn header(t: &mut Vec<u8>, len: usize, ctr: u32) {
    put(t, len, 2);
    put(t, ctr as usize, 2);
}

/// A datagram of messages of these lengths, counted from a number.
fn counted(lengths: &[usize], first: u32) -> Vec<u8> {
    let mut t = Vec::new();
    for (i, &l) in lengths.iter().enumerate() {
        header(&mut t, l, (first + i as u32) % UDP_COUNTERS);
        t.resize(t.len() + l, 0xFC);
    }
    t
}

fn read(s: Udp, t: &[u8], c: Counter, table: usize) -> Call {
    Call::UdpRead { s, t: t.to_vec(), c, table }
}

/// The packets have as many bytes as their lengths say.
fn write(s: Udp, lengths: &[u32], first: u32, room: usize) -> Call {
    let n: u32 = lengths.iter().sum();
    Call::UdpWrite { s, packets: vec![0xBF; n as usize], lengths: lengths.to_vec(), first, room }
}

/// Datagrams at each bound of the rule, and on both sides of it.
pub fn edges() -> Vec<Call> {
    [states(), ends(), lens(), full(), settings(), firsts(), sizes(), lists()].concat()
}

/// Expected counters at their size and over the wrap.
fn states() -> Vec<Call> {
    let two = counted(&[2, 3], 65_535);
    let mut all = Vec::new();
    for expected in [0, 1, 65_534, 65_535, 65_536, u32::MAX] {
        for c in [known(expected), Counter { known: false, expected }] {
            all.extend([read(TOP, &[], c, 0), read(TOP, &two, c, 10)]);
        }
    }
    let gaps = [(65_535, 0), (65_534, 1), (0, 65_535), (1, 0), (255, 0), (256, 255), (40_000, 7_232), (7, 7)];
    all.extend(gaps.map(|(expected, got)| read(TOP, &counted(&[1], got), known(expected), 5)));
    all
}

/// One to three bytes left over, and LEN zero, alone and behind messages.
fn ends() -> Vec<Call> {
    let two = counted(&[2, 3], 65_535);
    let mut all = Vec::new();
    for front in [&[][..], &two] {
        for n in [1, 2, 3] {
            all.extend([0, 1, 0xFF].map(|b| read(TOP, &[front, &vec![b; n]].concat(), known(65_535), 10)));
        }
        for end in [&[0, 0, 5, 0][..], &[0, 0, 5, 0, 1, 0, 6, 0, 7], &[0; 8], &[0, 1, 5, 0]] {
            all.push(read(TOP, &[front, end].concat(), FRESH, 10));
        }
    }
    all
}

/// LEN at X and beside it: whole, without its last byte, and the header alone.
fn lens() -> Vec<Call> {
    let mut all = Vec::new();
    for x in [8, 9, 255, 256, 1_467, 1_468] {
        let s = Udp { longest: x as u32, direction: 1 };
        for l in [x - 1, x, x + 1] {
            let t = counted(&[l], 9);
            all.extend([t.len(), t.len() - 1, UDP_HEADER].map(|n| read(s, &t[..n], FRESH, 5)));
        }
    }
    all
}

/// Datagrams of 1,472 bytes, of one more or less, and of the most rows, with tables at their size.
fn full() -> Vec<Call> {
    let mut all = Vec::new();
    for lengths in [&[1_468][..], &[1_463, 1], &[1_464, 1], &[730, 734], &[730, 735], &[4; 184], &[1; 294], &[1; 295]] {
        let (t, numbers) = (counted(lengths, 65_400), 5 * lengths.len());
        all.extend([numbers, numbers - 1, numbers + 7, 0].map(|table| read(TOP, &t, known(65_390), table)));
    }
    for n in [1_471, 1_472, 1_473] {
        all.push(read(TOP, &vec![0; n], FRESH, 0));
        all.push(read(TOP, &[counted(&[1_463], 0), vec![1; n - 1_467]].concat(), FRESH, 5));
    }
    all
}

/// X and direction at their bounds.
fn settings() -> Vec<Call> {
    let longest = [0, 7, 8, 1_468, 1_469, u32::MAX].map(|longest| Udp { longest, direction: 0 });
    let direction = [0, 1, 2, u32::MAX].map(|direction| Udp { longest: 8, direction });
    let of = |s: &Udp| [read(*s, &counted(&[2, 3], 65_535), FRESH, 10), write(*s, &[8, 8], 65_535, 24)];
    longest.iter().chain(&direction).flat_map(of).collect()
}

/// First counters at their size, with packets and without.
fn firsts() -> Vec<Call> {
    let of = |first| [write(TOP, &[], first, 0), write(TOP, &[], first, 9), write(TOP, &[1, 2], first, 11)];
    [0, 254, 255, 65_534, 65_535, 65_536, u32::MAX].into_iter().flat_map(of).collect()
}

/// Written datagrams of 1,472 bytes, of one more or less, and outputs at their size.
fn sizes() -> Vec<Call> {
    let mut all = Vec::new();
    for lengths in [&[1_468][..], &[1_463, 1], &[1_464, 1], &[730, 734], &[730, 735], &[4; 184], &[1; 294], &[1; 295]] {
        let n: usize = lengths.iter().map(|&l| UDP_HEADER + l as usize).sum();
        all.extend([n, n - 1, n + 1, 1_471, 1_472, 1_473, 0].map(|room| write(TOP, lengths, 65_300, room)));
    }
    all
}

/// 4,096 lengths and one more; lengths 0, at X and beside it; sums that differ, one of them only modulo 2^32.
fn lists() -> Vec<Call> {
    let mut all = Vec::new();
    for count in [4_096, 4_097] {
        all.extend([0, 1].map(|l| write(TOP, &vec![l; count], 0, 2_000)));
    }
    for longest in [8, 255, 256, 1_467, 1_468] {
        for l in [longest - 1, longest, longest + 1] {
            let lists = [&[l][..], &[1, l, 0], &[1, 0, l]];
            all.extend(lists.map(|lengths| write(Udp { longest, direction: 1 }, lengths, 0, 1_472)));
        }
    }
    for (n, lengths) in [(2, &[][..]), (3, &[1, 1]), (1, &[1, 1]), (0, &[1 << 31, 1 << 31]), (0, &[0])] {
        all.push(Call::UdpWrite { s: TOP, packets: vec![0xBF; n], lengths: lengths.to_vec(), first: 0, room: 100 });
    }
    all
}

fn setting(r: &mut Random) -> Udp {
    let longest = match r.below(6) {
        0 => 8,
        1 => r.from(8, 20),
        2 => r.from(8, 300),
        3 => r.from(8, 1_468),
        _ => 1_468,
    } as u32;
    Udp { longest, direction: r.below(2) as u32 }
}

fn broken(r: &mut Random, s: &mut Udp, aim: &[Why]) {
    let far = large(r);
    match r.below(if aim.len() > 1 { 6 } else { 2 }) {
        0 => s.longest = r.pick(&[0, 1, 7, 7, 1_469, 1_469, 1_470, 1_472, 65_535, far]),
        _ => s.direction = no_direction(r),
    }
}

/// Lengths of messages that come with their headers to `end` bytes or less; few of them, or as many as there is room for.
fn lengths_to(r: &mut Random, s: &Udp, end: usize, few: bool) -> Vec<usize> {
    let most = if few { r.pick(&[0, 1, 1, 2, 3, 4, 6, 10, 20]) } else { usize::MAX };
    let mut lengths = Vec::new();
    let mut left = end;
    while lengths.len() < most && left > UDP_HEADER {
        let x = (left - UDP_HEADER).min(s.longest as usize);
        let l = if r.one_in(8) { x } else { length(r, x) };
        lengths.push(l);
        left -= UDP_HEADER + l;
    }
    lengths
}

/// How many bytes a datagram is to have at most: often just as many as it may, or one more if it is to be too long.
fn end_of(r: &mut Random, long: bool) -> usize {
    let near = LONGEST_DATAGRAM + long as usize;
    if r.one_in(2) { near } else if long { r.from(near, 1_800) } else { r.from(0, near) }
}

/// A sender's datagram and the places of its headers.
fn datagram(r: &mut Random, lengths: &[usize], from: u32) -> (Vec<u8>, Vec<usize>) {
    let content = noise(r, lengths.len() > 40);
    let mut next = from;
    let mut t = Vec::new();
    let mut headers = Vec::new();
    for &l in lengths {
        headers.push(t.len());
        header(&mut t, l, next);
        next = follow(r, next, UDP_COUNTERS);
        packet(r, &mut t, l, content);
    }
    (t, headers)
}

pub fn reading(r: &mut Random, aim: &[Why], b: &Bounds) -> Call {
    let mut s = setting(r);
    let long = aim.contains(&Long);
    let (end, few) = (end_of(r, long), !long && !r.one_in(8));
    let lengths = lengths_to(r, &s, end, few);
    let first = counter(r, UDP_COUNTERS);
    let (mut t, headers) = datagram(r, &lengths, first);
    for &why in aim {
        let at = if headers.is_empty() { 0 } else { r.pick(&headers) };
        fault(r, &s, &mut t, at, why);
    }
    if r.one_in(6) {
        damage(r, &mut t);
    }
    if r.one_in(40) {
        t.clear();
        let n = r.below(60);
        add(r, &mut t, n, Noise::Any);
    }
    let c = state(r, Some(UDP_COUNTERS), first, aim);
    let table = lent(r, 5 * reasons::udp_layout(&s, &t).1, aim, b.numbers);
    if aim.contains(&Setting) || r.one_in(80) {
        broken(r, &mut s, aim);
    }
    Call::UdpRead { s, t, c, table }
}

/// Makes a reason hold of a datagram that has a header `at` a place.
fn fault(r: &mut Random, s: &Udp, t: &mut Vec<u8>, at: usize, why: Why) {
    let x = s.longest as usize;
    match why {
        Over => {
            let over = if r.one_in(2) { x + 1 } else { r.from(x + 1, 65_535) };
            set_len(t, at, 2, over);
        }
        Past => match r.below(3) {
            0 => t.truncate(t.len() - r.below(t.len().min(8) + 1)),
            1 => set_len(t, at, 2, r.from(1, x)),
            _ => {
                let l = x.min(t.len().saturating_sub(at + UDP_HEADER) + 1 + r.below(4));
                set_len(t, at, 2, l);
            }
        },
        Bare => set_len(t, at, 2, 0),
        Left if r.one_in(3) => t.truncate(at + r.from(1, 3)),
        Left => {
            let n = r.from(1, 3);
            add(r, t, n, Noise::Any);
        }
        _ => {}
    }
}

pub fn writing(r: &mut Random, aim: &[Why], b: &Bounds) -> Call {
    let mut s = setting(r);
    let x = s.longest as usize;
    let mut all = packets_for(r, &s, aim, b);
    spoil(r, aim, &mut all, |r, why, _| match why {
        Zero => Some(0),
        Over => Some(x + r.from(1, 2)),
        _ => None,
    });
    let (packets, lengths) = all;
    let first = start(r, Some(UDP_COUNTERS), aim);
    let room = lent(r, reasons::udp_size(&s, &lengths), aim, b.room);
    if aim.contains(&Setting) || r.one_in(80) {
        broken(r, &mut s, aim);
    }
    Call::UdpWrite { s, packets, lengths, first, room }
}

/// A list for a datagram that holds it, unless its count or its bytes are to be too many.
fn packets_for(r: &mut Random, s: &Udp, aim: &[Why], b: &Bounds) -> (Vec<u8>, Vec<u32>) {
    if aim.contains(&Count) {
        let n = too_many(r, b);
        return list(r, n, s.longest as usize);
    }
    let far = aim.contains(&Far);
    if far && r.one_in(20) {
        return list(r, MOST_LENGTHS, s.longest as usize);
    }
    let (end, few) = (end_of(r, far), !far && !r.one_in(8));
    let content = noise(r, !few);
    let mut packets = Vec::new();
    let lengths = lengths_to(r, s, end, few);
    lengths.iter().for_each(|&l| packet(r, &mut packets, l, content));
    (packets, lengths.iter().map(|&l| l as u32).collect())
}
