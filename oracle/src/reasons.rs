//! Which reasons for refusal hold of a call, each by itself, whichever is answered; and which two can hold of one call.
//!
//! A reason is said where what it speaks of has a meaning. Where more than the direction of a setting is broken there is no layout, so
//! that nothing is said of messages, frames, or the room they need. What follows a fault is read on where the layout starts anew: at the
//! next data packet of a single or multiple transfer. Rows and bytes that need room are those left of the first fault.

use crate::call::{FUNCTIONS, SETTINGS, UDP_READ};
use crate::description::{told, Ending, Wanted, LONGEST_TEXT, WANTED};
use crate::rule::*;

#[derive(Clone, Copy, Debug, PartialEq)]
pub enum Why {
    Setting,
    /// The state expected or the first counter.
    Ctr,
    /// A transfer over 262,144 bytes, a datagram over 1,472, or a text over 16,384.
    Long,
    /// Over 4,096 lengths.
    Count,
    /// Lengths whose sum differs from the bytes.
    Sum,
    /// An empty list for a frame.
    Nothing,
    /// Not one packet without LEN.
    Several,
    Odd,
    Ceiling,
    /// A frame shorter than H + 1.
    Short,
    Node,
    /// A length 0.
    Zero,
    /// LEN or a length over X.
    Over,
    /// A length that does not fit.
    Unfit,
    Past,
    /// One to three bytes left over in a datagram.
    Left,
    /// A single data packet without a message, a frame's first LEN of 0, or any of a datagram.
    Bare,
    /// A table or output too small.
    Room,
    /// An output over 262,144 bytes, or a datagram over 1,472.
    Far,
    /// A word that cannot stand.
    Wrong,
    /// A text that stops early, outside of a comment or a string.
    Early,
    /// A text that stops inside a comment, or inside a string.
    Comment,
    Quote,
    /// M, or X, of a setting that a text tells.
    Size,
    Longest,
}

use Why::*;

pub const WHYS: usize = Longest as usize + 1;

/// A reason and its place.
pub type Fault = (Why, usize);

impl Why {
    pub fn number(self) -> u32 {
        match self {
            Setting | Ctr | Size | Longest => 1,
            Long | Count | Sum | Nothing | Several => 2,
            Zero | Over | Unfit => 3,
            Room | Far => 4,
            Past | Left => 5,
            Short | Bare => 6,
            Node => 7,
            Odd | Ceiling => 8,
            Wrong | Early | Comment | Quote => 9,
        }
    }

    /// The order of refusals; those of one rank go by their place.
    fn rank(self) -> u32 {
        match self {
            Setting | Ctr => 0,
            Long | Count | Sum | Nothing | Several | Odd | Ceiling => 1,
            Short | Wrong => 2,
            Node | Early | Comment | Quote => 3,
            Zero | Over | Unfit | Past | Left | Bare => 4,
            Room | Far | Size | Longest => 5,
        }
    }

    /// Whether it has a place, so that it can hold twice.
    fn placed(self) -> bool {
        self.rank() == 4
    }

    pub fn name(self) -> String {
        format!("{} {}", self.number(), format!("{self:?}").to_lowercase())
    }
}

const READER: &[Why] = &[Setting, Ctr, Long, Over, Past, Bare, Room];
const FRAME_READER: &[Why] = &[Setting, Ctr, Odd, Ceiling, Short, Node, Bare, Past, Room];
const WRITER: &[Why] = &[Setting, Ctr, Count, Sum, Zero, Over, Unfit, Room, Far];
const FRAME_WRITER: &[Why] = &[Setting, Ctr, Count, Sum, Nothing, Several, Zero, Unfit, Room];
const DATAGRAM_READER: &[Why] = &[Setting, Ctr, Long, Over, Past, Left, Bare, Room];
const DATAGRAM_WRITER: &[Why] = &[Setting, Ctr, Count, Sum, Zero, Over, Room, Far];
const DESCRIPTION: &[Why] = &[Long, Wrong, Early, Comment, Quote, Size, Longest];

/// The reasons of each function.
pub const REASONS: [&[Why]; FUNCTIONS] = [
    READER, WRITER, FRAME_READER, FRAME_WRITER, &[Past], &[], READER, FRAME_READER, DATAGRAM_READER, DATAGRAM_WRITER, DATAGRAM_READER,
    DESCRIPTION,
];

/// Reasons that never hold together of a frame that is read, of a list that is written to a frame, or of a text.
const APART_READ: [(Why, Why); 6] = [(Ceiling, Short), (Short, Room), (Bare, Bare), (Bare, Past), (Bare, Room), (Past, Past)];
const APART_WRITE: [(Why, Why); 4] = [(Count, Nothing), (Nothing, Zero), (Nothing, Unfit), (Nothing, Room)];
const APART_TEXT: [(Why, Why); 4] = [(Wrong, Early), (Early, Comment), (Early, Quote), (Comment, Quote)];

/// Whether a call of the function can be refused for `a` while `b` holds too.
pub fn meet(function: usize, a: Why, b: Why) -> bool {
    let apart: &[(Why, Why)] = match function {
        2 => &APART_READ,
        3 => &APART_WRITE,
        SETTINGS => &APART_TEXT,
        _ => &[],
    };
    let once = a == b && !a.placed();
    // Nothing is said behind a fault of a datagram, and at one header 3 comes before 5.
    let alone = function == UDP_READ && a.placed() && b.placed() && [a, b] != [Over, Past];
    a.rank() <= b.rank() && !once && !alone && !apart.contains(&(a, b)) && !apart.contains(&(b, a))
}

/// The pairs of reasons that can meet.
pub fn pairs(function: usize) -> Vec<[Why; 2]> {
    let all = REASONS[function];
    let of = |&a: &Why| all.iter().map(move |&b| [a, b]).filter(move |&[a, b]| meet(function, a, b));
    all.iter().flat_map(of).collect()
}

fn strength(&(why, place): &Fault) -> (u32, usize, u32) {
    (why.rank(), place, why.number())
}

/// The faults that document 01's order picks. There is more than one where it does not tell them apart.
pub fn answered(faults: &[Fault]) -> Vec<&Fault> {
    let least = faults.iter().map(strength).min();
    faults.iter().filter(|f| Some(strength(f)) == least).collect()
}

/// The number and place to be answered.
pub fn refusal(faults: &[Fault]) -> Option<(u32, usize)> {
    answered(faults).first().map(|&&(why, place)| (why.number(), place))
}

/// The pairs that meet: a reason answered, and one that holds too.
pub fn met(faults: &[Fault]) -> Vec<[Why; 2]> {
    let mut all = Vec::new();
    for a in answered(faults) {
        for b in faults.iter().filter(|b| !std::ptr::eq(a, *b)) {
            if !all.contains(&[a.0, b.0]) {
                all.push([a.0, b.0]);
            }
        }
    }
    all
}

fn held(place: usize, reasons: &[(Why, bool)]) -> Vec<Fault> {
    reasons.iter().filter(|(_, holds)| *holds).map(|(why, _)| (*why, place)).collect()
}

fn exceeds(counters: Option<u32>, n: u32) -> bool {
    counters.is_some_and(|size| n > size - 1)
}

fn usb_laid(s: &Usb) -> bool {
    usb_sound(&Usb { direction: 0, ..*s })
}

fn flexray_laid(s: &FlexRay) -> bool {
    flexray_sound(&FlexRay { direction: 0, ..*s })
}

fn udp_laid(s: &Udp) -> bool {
    udp_sound(&Udp { direction: 0, ..*s })
}

pub fn usb_reader(s: &Usb, t: &[u8], c: Counter, table: usize) -> Vec<Fault> {
    let counter = c.known && exceeds(usb_counters(s), c.expected);
    let mut all = held(0, &[(Setting, !usb_sound(s)), (Ctr, counter), (Long, t.len() > LONGEST_TRANSFER)]);
    if usb_laid(s) {
        let (faults, rows) = usb_layout(s, t);
        all.extend(faults);
        all.extend(held(0, &[(Room, table < 5 * rows)]));
    }
    all
}

/// The faults of a transfer, and the rows left of the first.
pub fn usb_layout(s: &Usb, t: &[u8]) -> (Vec<Fault>, usize) {
    let (h, width, _) = usb_header(s.header).unwrap();
    let m = s.size as usize;
    let (mut faults, mut rows, mut q) = (Vec::new(), 0, 0);
    while q < t.len() {
        let end = (q / m * m + m).min(t.len());
        let limit = if s.packing == STREAMING { t.len() } else { end };
        let len = if q + h > end { 0 } else { field(t, q, width) };
        let behind = q + up(h + len, s.align as usize);
        let wrong = match len {
            0 => held(q, &[(Bare, s.packing == SINGLE)]),
            _ => held(q, &[(Over, len > s.longest as usize), (Past, behind > limit)]),
        };
        let right = wrong.is_empty();
        faults.extend(wrong);
        rows += (len > 0 && faults.is_empty()) as usize;
        q = match s.packing {
            STREAMING if !right => break,
            MULTIPLE | STREAMING if right && len > 0 => behind,
            _ => end,
        };
    }
    (faults, rows)
}

pub fn flexray_reader(s: &FlexRay, t: &[u8], c: Counter, table: usize) -> Vec<Fault> {
    let counter = c.known && exceeds(flexray_counters(s), c.expected);
    let mut all = held(0, &[(Setting, !flexray_sound(s)), (Ctr, counter), (Odd, t.len() % 2 == 1)]);
    if flexray_laid(s) {
        let (h, ..) = flexray_header(s.header).unwrap();
        let node = t.first().is_some_and(|&nax| nax as u32 != s.node);
        all.extend(held(0, &[(Ceiling, t.len() > s.ceiling as usize), (Short, t.len() < h + 1), (Node, node)]));
        let (fault, rows) = flexray_layout(s, t);
        all.extend(fault);
        all.extend(held(0, &[(Room, table < 5 * rows)]));
    }
    all
}

/// The fault of a frame's packets, of which there is one at most, and the rows left of it.
pub fn flexray_layout(s: &FlexRay, t: &[u8]) -> (Option<Fault>, usize) {
    let (h, _, len, _) = flexray_header(s.header).unwrap();
    let Some(mut at) = len else { return (None, (t.len() > h) as usize) };
    if t.get(at) == Some(&0) {
        return (Some((Bare, 0)), 0);
    }
    let (mut start, mut rows) = (h, 0);
    while at < t.len() && t[at] > 0 {
        let end = start + t[at] as usize;
        if end > t.len() {
            return (Some((Past, if rows == 0 { 0 } else { at })), rows);
        }
        rows += 1;
        start = up(end + 1, s.align as usize);
        at = start - 1;
    }
    (None, rows)
}

pub fn udp_reader(s: &Udp, t: &[u8], c: Counter, table: usize) -> Vec<Fault> {
    let counter = c.known && exceeds(Some(UDP_COUNTERS), c.expected);
    let mut all = held(0, &[(Setting, !udp_sound(s)), (Ctr, counter), (Long, t.len() > LONGEST_DATAGRAM)]);
    if udp_laid(s) {
        let (faults, rows) = udp_layout(s, t);
        all.extend(faults);
        all.extend(held(0, &[(Room, table < 5 * rows)]));
    }
    all
}

/// The faults of a datagram, which stand at one place, and the rows left of it.
pub fn udp_layout(s: &Udp, t: &[u8]) -> (Vec<Fault>, usize) {
    let (mut q, mut rows) = (0, 0);
    while q + UDP_HEADER <= t.len() {
        let len = field(t, q, 2);
        let behind = q + UDP_HEADER + len;
        let faults = held(q, &[(Bare, len == 0), (Over, len > s.longest as usize), (Past, behind > t.len())]);
        if !faults.is_empty() {
            return (faults, rows);
        }
        (q, rows) = (behind, rows + 1);
    }
    (held(q, &[(Left, q < t.len())]), rows)
}

/// What the writers may refuse without a look at the layout.
fn list_faults(sound: bool, counters: Option<u32>, packets: &[u8], lengths: &[u32], first: u32) -> Vec<Fault> {
    let sum: u64 = lengths.iter().map(|&l| l as u64).sum();
    let (count, unequal) = (lengths.len() > MOST_LENGTHS, sum != packets.len() as u64);
    let mut all = held(0, &[(Setting, !sound), (Ctr, exceeds(counters, first)), (Count, count), (Sum, unequal)]);
    for (i, &l) in lengths.iter().enumerate() {
        all.extend(held(i, &[(Zero, l == 0)]));
    }
    all
}

pub fn usb_writer(s: &Usb, packets: &[u8], lengths: &[u32], first: u32, full: bool, room: usize) -> Vec<Fault> {
    let mut all = list_faults(usb_sound(s), usb_counters(s), packets, lengths, first);
    if usb_laid(s) {
        for (i, &l) in lengths.iter().enumerate() {
            all.extend(held(i, &[(Over, l > s.longest), (Unfit, s.packing != STREAMING && usb_whole(s, l) > s.size as usize)]));
        }
        let size = usb_size(s, lengths, full);
        all.extend(held(0, &[(Room, size > room), (Far, size > LONGEST_TRANSFER)]));
    }
    all
}

fn usb_whole(s: &Usb, l: u32) -> usize {
    up(usb_header(s.header).unwrap().0 + l as usize, s.align as usize)
}

/// The bytes of the messages left of the first wrong length.
pub fn usb_size(s: &Usb, lengths: &[u32], full: bool) -> usize {
    let (h, ..) = usb_header(s.header).unwrap();
    let m = s.size as usize;
    let mut n = 0;
    for &l in lengths {
        let whole = usb_whole(s, l);
        if l == 0 || l > s.longest || (s.packing != STREAMING && whole > m) {
            return n;
        }
        let needs = match s.packing {
            SINGLE => m,
            MULTIPLE => whole,
            _ => h,
        };
        let left = up(n, m) - n;
        n += whole + if left < needs { left } else { 0 };
    }
    if full { up(n, m) } else { n }
}

pub fn flexray_writer(s: &FlexRay, packets: &[u8], lengths: &[u32], first: u32, room: usize) -> Vec<Fault> {
    let mut all = list_faults(flexray_sound(s), flexray_counters(s), packets, lengths, first);
    all.extend(held(0, &[(Nothing, lengths.is_empty())]));
    if flexray_laid(s) {
        let (_, _, len, _) = flexray_header(s.header).unwrap();
        all.extend(held(0, &[(Several, len.is_none() && lengths.len() != 1)]));
        for (i, end) in flexray_ends(s, lengths).into_iter().enumerate() {
            all.extend(held(i, &[(Unfit, end > s.ceiling as usize)]));
        }
        all.extend(held(0, &[(Room, flexray_size(s, lengths) > room)]));
    }
    all
}

/// Where packets end, each behind those before it, whatever their lengths. Without LEN only the first has a place.
fn flexray_ends(s: &FlexRay, lengths: &[u32]) -> Vec<usize> {
    let (h, _, len, _) = flexray_header(s.header).unwrap();
    let mut start = h;
    let mut ends = Vec::new();
    for &l in lengths.iter().take(if len.is_some() { lengths.len() } else { 1 }) {
        ends.push(start + l as usize);
        start = up(start + l as usize + 1, s.align as usize);
    }
    ends
}

/// The frame of the packets left of the first wrong length.
pub fn flexray_size(s: &FlexRay, lengths: &[u32]) -> usize {
    let ends = flexray_ends(s, lengths);
    let right = ends.iter().zip(lengths).take_while(|(&end, &l)| l > 0 && end <= s.ceiling as usize);
    right.last().map_or(0, |(&end, _)| up(end, 2))
}

pub fn udp_writer(s: &Udp, packets: &[u8], lengths: &[u32], first: u32, room: usize) -> Vec<Fault> {
    let mut all = list_faults(udp_sound(s), Some(UDP_COUNTERS), packets, lengths, first);
    if udp_laid(s) {
        for (i, &l) in lengths.iter().enumerate() {
            all.extend(held(i, &[(Over, l > s.longest)]));
        }
        let size = udp_size(s, lengths);
        all.extend(held(0, &[(Room, size > room), (Far, size > LONGEST_DATAGRAM)]));
    }
    all
}

/// The bytes of the messages left of the first wrong length.
pub fn udp_size(s: &Udp, lengths: &[u32]) -> usize {
    lengths.iter().take_while(|&&l| l > 0 && l <= s.longest).map(|&l| UDP_HEADER + l as usize).sum()
}

pub fn parts(n: usize, place: u32, length: u32) -> Vec<Fault> {
    held(place as usize, &[(Past, place as usize + length as usize > n)])
}

/// What is said of a text: of its words up to the first that cannot stand, of its end, and of the settings that it tells so far.
pub fn description(text: &[u8], longest: u32) -> Vec<Fault> {
    let told = told(text, longest);
    let mut all = held(0, &[(Long, text.len() > LONGEST_TEXT)]);
    all.extend(told.wrong.map(|place| (Wrong, place)));
    let early = told.wrong.is_none() && told.ending == Ending::Outside && told.wanted != Wanted::Nothing;
    let open = [(Early, early), (Comment, told.ending == Ending::Comment), (Quote, told.ending == Ending::Quote)];
    all.extend(held(text.len(), &open));
    let settings = || told.settings.iter().flatten();
    let size = settings().any(|s| !usb_sound(&Usb { longest: 8, ..*s }));
    let over = settings().any(|s| !usb_sound(&Usb { size: 8, ..*s }));
    all.extend(held(0, &[(Size, size), (Longest, over)]));
    all
}

/// What was wanted where a text is refused with 9, and why it was not there.
pub fn stop(text: &[u8]) -> Option<(Wanted, Why)> {
    let faults = description(text, 8);
    let of = |why: &&Why| faults.iter().any(|fault| fault.0 == **why);
    STOPS.iter().find(of).map(|why| (told(text, 8).wanted, *why))
}

pub const STOPS: [Why; 4] = [Wrong, Early, Comment, Quote];

/// Whether a text can be refused so. Where any word can stand none is wrong, and behind the block the text may end. That an endpoint's
/// name has come before is known where it stands.
pub fn stops(wanted: Wanted, why: Why) -> bool {
    match wanted {
        Wanted::Close | Wanted::Inside => why != Wrong,
        Wanted::Nothing => why != Early,
        Wanted::Another => why == Wrong,
        _ => true,
    }
}

/// All ways in which a text is refused with 9.
pub fn all_stops() -> Vec<(Wanted, Why)> {
    let of = |&wanted: &Wanted| STOPS.iter().map(move |&why| (wanted, why)).filter(|&(wanted, why)| stops(wanted, why));
    WANTED.iter().flat_map(of).collect()
}
