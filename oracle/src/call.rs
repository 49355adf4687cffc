//! A call of a function, and what it must answer.

use crate::description::settings;
use crate::reasons::{self, Fault};
use crate::rule::*;

/// A call of one of the functions with its inputs. `table` and `room` are the lengths of what is lent.
#[derive(Clone, Debug)]
pub enum Call {
    UsbRead { s: Usb, t: Vec<u8>, c: Counter, table: usize },
    UsbWrite { s: Usb, packets: Vec<u8>, lengths: Vec<u32>, first: u32, fill: u8, full: bool, room: usize },
    FlexRayRead { s: FlexRay, t: Vec<u8>, c: Counter, table: usize },
    FlexRayWrite { s: FlexRay, packets: Vec<u8>, lengths: Vec<u32>, first: u32, fill: u8, room: usize },
    UdpRead { s: Udp, t: Vec<u8>, c: Counter, table: usize },
    UdpWrite { s: Udp, packets: Vec<u8>, lengths: Vec<u32>, first: u32, room: usize },
    Part { t: Vec<u8>, place: u32, length: u32 },
    Kind { direction: u32, packet: Vec<u8> },
    /// A reader's call with the state lent.
    Lent(Box<Call>),
    Settings { text: Vec<u8>, longest: u32 },
}

#[derive(Clone, Debug, PartialEq)]
pub enum Answer {
    Read(Read),
    Write(Write),
    Part(Option<(u32, u64)>, Vec<u8>),
    Kind(u32),
    /// What a reader answers, and the state as it is left.
    Lent(Read, Counter),
    Settings(Result<[Usb; 2], (u32, u32)>),
}

pub const FUNCTIONS: usize = 12;

pub const NAMES: [&str; FUNCTIONS] = [
    "usb_read", "usb_write", "flexray_read", "flexray_write", "part", "kind", "usb_read_lent", "flexray_read_lent", "udp_read", "udp_write",
    "udp_read_lent", "usb_settings",
];

/// The readers and writers of USB and FlexRay. Those with the state lent have the readers' own reasons for refusal.
pub const TRANSPORTS: [usize; 4] = [0, 1, 2, 3];
pub const UDP_READ: usize = 8;
pub const UDP_WRITE: usize = 9;
pub const SETTINGS: usize = 11;

/// The functions whose reasons can meet.
pub const PAIRED: [usize; 7] = [0, 1, 2, 3, UDP_READ, UDP_WRITE, SETTINGS];

impl Call {
    pub fn function(&self) -> usize {
        match self {
            Call::UsbRead { .. } => 0,
            Call::UsbWrite { .. } => 1,
            Call::FlexRayRead { .. } => 2,
            Call::FlexRayWrite { .. } => 3,
            Call::Part { .. } => 4,
            Call::Kind { .. } => 5,
            Call::UdpRead { .. } => UDP_READ,
            Call::UdpWrite { .. } => UDP_WRITE,
            Call::Lent(call) => match call.function() {
                0 => 6,
                2 => 7,
                _ => 10,
            },
            Call::Settings { .. } => SETTINGS,
        }
    }

    pub fn answer(&self) -> Answer {
        match self {
            Call::UsbRead { s, t, c, table } => Answer::Read(usb_read(s, t, *c, *table)),
            Call::UsbWrite { s, packets, lengths, first, fill, full, room } => {
                Answer::Write(usb_write(s, packets, lengths, *first, *fill, *full, *room))
            }
            Call::FlexRayRead { s, t, c, table } => Answer::Read(flexray_read(s, t, *c, *table)),
            Call::FlexRayWrite { s, packets, lengths, first, fill, room } => {
                Answer::Write(flexray_write(s, packets, lengths, *first, *fill, *room))
            }
            Call::UdpRead { s, t, c, table } => Answer::Read(udp_read(s, t, *c, *table)),
            Call::UdpWrite { s, packets, lengths, first, room } => Answer::Write(udp_write(s, packets, lengths, *first, *room)),
            Call::Part { t, place, length } => match part(t.len(), *place as u64, *length as u64) {
                Some(refused) => Answer::Part(Some(refused), Vec::new()),
                None => Answer::Part(None, t[*place as usize..][..*length as usize].to_vec()),
            },
            Call::Kind { direction, packet } => Answer::Kind(kind(*direction, packet[0])),
            Call::Lent(call) => call.lent_answer(),
            Call::Settings { text, longest } => Answer::Settings(settings(text, *longest)),
        }
    }

    fn lent_answer(&self) -> Answer {
        match (self, self.answer()) {
            (_, Answer::Read(Read::Rows(rows, state))) => Answer::Lent(Read::Rows(rows, state), state),
            (Call::UsbRead { c, .. } | Call::FlexRayRead { c, .. } | Call::UdpRead { c, .. }, Answer::Read(refused)) => {
                Answer::Lent(refused, *c)
            }
            _ => unreachable!("only readers have their state lent"),
        }
    }

    /// Every reason for refusal that holds.
    pub fn faults(&self) -> Vec<Fault> {
        match self {
            Call::UsbRead { s, t, c, table } => reasons::usb_reader(s, t, *c, *table),
            Call::UsbWrite { s, packets, lengths, first, full, room, .. } => {
                reasons::usb_writer(s, packets, lengths, *first, *full, *room)
            }
            Call::FlexRayRead { s, t, c, table } => reasons::flexray_reader(s, t, *c, *table),
            Call::FlexRayWrite { s, packets, lengths, first, room, .. } => {
                reasons::flexray_writer(s, packets, lengths, *first, *room)
            }
            Call::UdpRead { s, t, c, table } => reasons::udp_reader(s, t, *c, *table),
            Call::UdpWrite { s, packets, lengths, first, room } => reasons::udp_writer(s, packets, lengths, *first, *room),
            Call::Part { t, place, length } => reasons::parts(t.len(), *place, *length),
            Call::Kind { .. } => Vec::new(),
            Call::Lent(call) => call.faults(),
            Call::Settings { text, longest } => reasons::description(text, *longest),
        }
    }
}

impl Answer {
    /// The refusal's number and place.
    pub fn refusal(&self) -> Option<(u32, usize)> {
        match self {
            Answer::Read(Read::Refused(n, place)) | Answer::Lent(Read::Refused(n, place), _) => Some((*n, *place as usize)),
            Answer::Write(Write::Refused(n, place)) => Some((*n, *place as usize)),
            Answer::Part(refused, _) => refused.map(|(n, place)| (n, place as usize)),
            Answer::Settings(Err((n, place))) => Some((*n, *place as usize)),
            _ => None,
        }
    }
}
