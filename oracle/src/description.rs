//! Settings from a description file, by straightforward code from Ask 1 alone: first all words of the text with their places, then the
//! block, by going along the words.

use crate::rule::{usb_sound, Usb};

pub const LONGEST_TEXT: usize = 16_384;

pub const BEGIN: &[u8] = b"/begin";
pub const END: &[u8] = b"/end";
pub const BLOCK: &[u8] = b"XCP_ON_USB";
pub const HEADERS: [&[u8]; 6] = [
    b"HEADER_LEN_BYTE", b"HEADER_LEN_CTR_BYTE", b"HEADER_LEN_FILL_BYTE", b"HEADER_LEN_WORD", b"HEADER_LEN_CTR_WORD",
    b"HEADER_LEN_FILL_WORD",
];
/// The endpoints' names; the first has direction 1, the second 0.
pub const ENDPOINTS: [&[u8]; 2] = [b"OUT_EP_CMD_STIM", b"IN_EP_RESERR_DAQ_EVSERV"];
pub const TRANSFERS: [&[u8]; 2] = [b"BULK_TRANSFER", b"INTERRUPT_TRANSFER"];
pub const PACKINGS: [&[u8]; 3] = [b"MESSAGE_PACKING_SINGLE", b"MESSAGE_PACKING_MULTIPLE", b"MESSAGE_PACKING_STREAMING"];
pub const ALIGNMENTS: [&[u8]; 4] = [b"ALIGNMENT_8_BIT", b"ALIGNMENT_16_BIT", b"ALIGNMENT_32_BIT", b"ALIGNMENT_64_BIT"];

#[derive(Clone, Copy, Debug, PartialEq)]
pub struct Word<'t> {
    pub place: usize,
    pub bytes: &'t [u8],
}

/// Where a text ends: inside a comment or a string that is not closed, or outside of both.
#[derive(Clone, Copy, Debug, PartialEq)]
pub enum Ending {
    Outside,
    Comment,
    Quote,
}

fn blank(b: u8) -> bool {
    [b' ', b'\t', b'\r', b'\n'].contains(&b)
}

fn comment(rest: &[u8]) -> bool {
    rest.starts_with(b"/*") || rest.starts_with(b"//")
}

/// The words of a text, and where it ends.
pub fn words(text: &[u8]) -> (Vec<Word<'_>>, Ending) {
    let mut all = Vec::new();
    let mut place = 0;
    while place < text.len() {
        let rest = &text[place..];
        let n = if blank(rest[0]) {
            1
        } else if rest.starts_with(b"/*") {
            let Some(n) = rest[2..].windows(2).position(|two| two == b"*/") else { return (all, Ending::Comment) };
            2 + n + 2
        } else if rest.starts_with(b"//") {
            rest.iter().position(|b| b"\r\n".contains(b)).unwrap_or(rest.len())
        } else if rest[0] == b'"' {
            let Some(n) = rest[1..].iter().position(|&b| b == b'"') else { return (all, Ending::Quote) };
            all.push(Word { place, bytes: &rest[..1 + n + 1] });
            1 + n + 1
        } else {
            let ends = |&n: &usize| blank(rest[n]) || rest[n] == b'"' || comment(&rest[n..]);
            let n = (1..rest.len()).find(ends).unwrap_or(rest.len());
            all.push(Word { place, bytes: &rest[..n] });
            n
        };
        place += n;
    }
    (all, Ending::Outside)
}

/// Decimal digits, or 0x and hexadecimal digits; at most 65,535.
pub fn number(word: &[u8]) -> Option<u32> {
    let (digits, base) = match word.strip_prefix(b"0x") {
        Some(digits) => (digits, 16),
        None => (word, 10),
    };
    if digits.is_empty() {
        return None;
    }
    let mut n = 0;
    for &d in digits {
        n = n * base + (d as char).to_digit(base)?;
        if n > 65_535 {
            return None;
        }
    }
    Some(n)
}

/// What can stand at a place.
#[derive(Clone, Copy, Debug, PartialEq)]
pub enum Wanted {
    /// The first `/begin`.
    Begin,
    /// `XCP_ON_USB` behind it.
    Block,
    Version,
    Vendor,
    Product,
    Interface,
    Header,
    /// An entry. The block cannot be closed, since an endpoint is missing.
    Entry,
    /// An entry, or the block's `/end`.
    Close,
    /// The name of an entry.
    Name,
    /// The same, where the name of an endpoint stands that has come before.
    Another,
    Endpoint,
    Transfer,
    Size,
    Interval,
    Packing,
    Alignment,
    /// Any word inside what is read over.
    Inside,
    /// The name of a block inside what is read over.
    Inner,
    /// Behind an `/end`: the name of a block that is read over, the endpoint's, `XCP_ON_USB`.
    Closed,
    EndpointClosed,
    BlockClosed,
    /// Nothing, behind the block.
    Nothing,
}

pub const WANTED: [Wanted; 23] = {
    use Wanted::*;
    [
        Begin, Block, Version, Vendor, Product, Interface, Header, Entry, Close, Name, Another, Endpoint, Transfer, Size, Interval,
        Packing, Alignment, Inside, Inner, Closed, EndpointClosed, BlockClosed, Nothing,
    ]
};

/// The first word that cannot stand, or none if all can, and what could stand there or behind all words.
type Stop = (Option<usize>, Wanted);

/// The words that are not taken yet.
struct Along<'w, 't>(std::slice::Iter<'w, Word<'t>>);

impl<'t> Along<'_, 't> {
    /// Takes the next word if it can stand, and gives what it says.
    fn take<T>(&mut self, wanted: Wanted, says: impl Fn(&'t [u8]) -> Option<T>) -> Result<T, Stop> {
        match self.0.next() {
            None => Err((None, wanted)),
            Some(word) => says(word.bytes).ok_or((Some(word.place), wanted)),
        }
    }
}

fn is(word: &[u8]) -> impl Fn(&[u8]) -> Option<()> + '_ {
    move |w| (w == word).then_some(())
}

fn one_of<'a>(all: &'a [&[u8]]) -> impl Fn(&[u8]) -> Option<u32> + 'a {
    move |w| all.iter().position(|&known| known == w).map(|n| n as u32)
}

fn name(word: &[u8]) -> Option<&[u8]> {
    (word != BEGIN && word != END).then_some(word)
}

/// Words and paired blocks, up to the `/end` of the block `outer` and its name.
fn read_over<'t>(w: &mut Along<'_, 't>, outer: &'t [u8], closed: Wanted) -> Result<(), Stop> {
    let mut inner = Vec::new();
    loop {
        match w.take(Wanted::Inside, Some)? {
            BEGIN => inner.push(w.take(Wanted::Inner, name)?),
            END => match inner.pop() {
                Some(name) => w.take(Wanted::Closed, is(name))?,
                None => return w.take(closed, is(outer)),
            },
            _ => {}
        }
    }
}

/// An endpoint block behind its name: its setting is told as soon as the alignment is there.
fn endpoint<'t>(w: &mut Along<'_, 't>, name: &'t [u8], header: u32, longest: u32, told: &mut Option<Usb>) -> Result<(), Stop> {
    w.take(Wanted::Endpoint, number)?;
    w.take(Wanted::Transfer, one_of(&TRANSFERS))?;
    let size = w.take(Wanted::Size, number)?;
    w.take(Wanted::Interval, number)?;
    let packing = w.take(Wanted::Packing, one_of(&PACKINGS))?;
    let align = 1 << w.take(Wanted::Alignment, one_of(&ALIGNMENTS))?;
    let direction = if name == ENDPOINTS[0] { 1 } else { 0 };
    *told = Some(Usb { header, packing, align, size, longest, direction });
    read_over(w, name, Wanted::EndpointClosed)
}

/// The name of an entry: any but that of an endpoint that is told already.
fn entry<'t>(w: &mut Along<'_, 't>, told: &[Option<Usb>; 2]) -> Result<&'t [u8], Stop> {
    let again = |word: &[u8]| ENDPOINTS.iter().zip(told).any(|(&endpoint, setting)| endpoint == word && setting.is_some());
    let wanted = match w.0.as_slice() {
        [next, ..] if again(next.bytes) => Wanted::Another,
        _ => Wanted::Name,
    };
    w.take(wanted, |word| name(word).filter(|word| !again(word)))
}

/// The block, and nothing behind it.
fn block(words: &[Word], longest: u32, told: &mut [Option<Usb>; 2]) -> Result<(), Stop> {
    let w = &mut Along(words.iter());
    w.take(Wanted::Begin, is(BEGIN))?;
    w.take(Wanted::Block, is(BLOCK))?;
    for wanted in [Wanted::Version, Wanted::Vendor, Wanted::Product, Wanted::Interface] {
        w.take(wanted, number)?;
    }
    let header = w.take(Wanted::Header, one_of(&HEADERS))?;
    loop {
        let both = told.iter().all(|setting| setting.is_some());
        let wanted = if both { Wanted::Close } else { Wanted::Entry };
        match w.take(wanted, |word| (both || word != END).then_some(word))? {
            BEGIN => {
                let name = entry(w, told)?;
                match ENDPOINTS.iter().position(|&endpoint| endpoint == name) {
                    Some(i) => endpoint(w, name, header, longest, &mut told[i])?,
                    None => read_over(w, name, Wanted::Closed)?,
                }
            }
            END => break,
            _ => {}
        }
    }
    w.take(Wanted::BlockClosed, is(BLOCK))?;
    match w.0.next() {
        Some(behind) => Err((Some(behind.place), Wanted::Nothing)),
        None => Ok(()),
    }
}

/// What a text tells, whatever its length.
#[derive(Clone, Copy, Debug)]
pub struct Told {
    /// The settings of both endpoints, of those whose alignment can stand.
    pub settings: [Option<Usb>; 2],
    /// The place of the first word that cannot stand.
    pub wrong: Option<usize>,
    /// What could stand there, or behind the words if all can stand.
    pub wanted: Wanted,
    pub ending: Ending,
}

pub fn told(text: &[u8], longest: u32) -> Told {
    let (words, ending) = words(text);
    let mut settings = [None; 2];
    let (wrong, wanted) = block(&words, longest, &mut settings).err().unwrap_or((None, Wanted::Nothing));
    Told { settings, wrong, wanted, ending }
}

/// The settings of OUT_EP_CMD_STIM and IN_EP_RESERR_DAQ_EVSERV, or a refusal's number and place.
pub fn settings(text: &[u8], longest: u32) -> Result<[Usb; 2], (u32, u32)> {
    if text.len() > LONGEST_TEXT {
        return Err((2, 0));
    }
    let told = told(text, longest);
    if let Some(place) = told.wrong {
        return Err((9, place as u32));
    }
    let both = match told.settings {
        [Some(cmd_stim), Some(res_daq)] if told.wanted == Wanted::Nothing && told.ending == Ending::Outside => [cmd_stim, res_daq],
        _ => return Err((9, text.len() as u32)),
    };
    if both.iter().all(usb_sound) { Ok(both) } else { Err((1, 0)) }
}
