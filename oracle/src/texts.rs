//! Texts from random numbers: blocks written in many ways, and damaged in many; the rule decides what is answered.

use crate::call::{Call, SETTINGS};
use crate::description::*;
use crate::random::Random;
use crate::reasons::{self, Why};

/// How many random texts, how long they may get, and one in how many is at or past the longest.
#[derive(Clone, Copy)]
pub struct Bounds {
    pub random: usize,
    pub most: usize,
    pub long: usize,
}

/// How often each pair of reasons, and each way to be refused with 9, is made on purpose.
const TIMES: usize = 2;

/// All texts: each pair of reasons and each way to be refused with 9 on purpose, the longest and the deepest, two that are cut at every
/// place, words that are nearly right, and random ones.
pub fn each(r: &mut Random, b: &Bounds, take: &mut dyn FnMut(&Call)) {
    for pair in reasons::pairs(SETTINGS) {
        for _ in 0..TIMES {
            take(&meeting(r, b, pair));
        }
    }
    for stop in reasons::all_stops() {
        for _ in 0..TIMES {
            take(&stopping(r, stop));
        }
    }
    limits(take);
    deepest(take);
    cuts(take);
    nearly(r, take);
    for _ in 0..b.random {
        let call = if r.one_in(b.long) { long(r, b) } else { short(r) };
        take(&call);
    }
}

type Words = Vec<Vec<u8>>;

fn owned(words: &[&[u8]]) -> Words {
    words.iter().map(|word| word.to_vec()).collect()
}

/// A block with the fewest words.
fn plain() -> Words {
    let words = |text: &str| text.split(' ').map(|word| word.as_bytes().to_vec()).collect::<Words>();
    let mut all = words("/begin XCP_ON_USB 256 0x108C 3804 2 HEADER_LEN_CTR_WORD");
    all.extend(words("/begin OUT_EP_CMD_STIM 1 BULK_TRANSFER 0x40 0 MESSAGE_PACKING_SINGLE ALIGNMENT_32_BIT /end OUT_EP_CMD_STIM"));
    let more = "/begin IN_EP_RESERR_DAQ_EVSERV 1 INTERRUPT_TRANSFER 512 16 MESSAGE_PACKING_STREAMING ALIGNMENT_8_BIT";
    all.extend(words(more));
    all.extend(words("/end IN_EP_RESERR_DAQ_EVSERV /end XCP_ON_USB"));
    all
}

/// In the plain block: M of the first endpoint, and where the first endpoint is closed and an entry may stand.
const SIZE: usize = 11;
const ENTRY: usize = 17;

/// Words that are no number, or just one.
const NUMBERS: [&[u8]; 38] = [
    b"0", b"65535", b"65536", b"0xFFFF", b"0xffff", b"0xFfFf", b"0x10000", b"0x", b"0X10", b"0X", b"x10", b"00x10", b"0x0x1", b"00065535",
    b"00065536", b"0x000000000000000000000FFFF", b"0x00010000", b"000000000000000000000000000000000000000000000064", b"99999", b"655350",
    b"4294967295", b"4294967296", b"4294967360", b"18446744073709551680", b"0x100000040", b"0x10000000000000040", b"0xG", b"0x4g", b"4A",
    b"40h", b"-1", b"+1", b"1.0", b"1_0", b"\"64\"", b"0b1", b"64,", b"'@'",
];

/// Words that are nearly a given one: a byte less, a byte more, another case, in quotes.
fn near(r: &mut Random, word: &[u8]) -> Words {
    let mut all = vec![word[1..].to_vec(), word[..word.len() - 1].to_vec(), [word, b"_"].concat(), [b"_", word].concat()];
    all.push([b"\"", word, b"\""].concat());
    all.push(if word[word.len() - 1].is_ascii_lowercase() { word.to_ascii_uppercase() } else { word.to_ascii_lowercase() });
    let i = r.below(word.len());
    let mut other = word.to_vec();
    other[i] ^= 1 << r.below(7);
    all.push(other);
    all.push([&word[..i], &word[i + 1..]].concat());
    all.push([&word[..i], &[r.byte()], &word[i..]].concat());
    all.retain(|near| !near.is_empty());
    all
}

fn keyword(r: &mut Random) -> &'static [u8] {
    match r.below(8) {
        0 => r.pick(&HEADERS),
        1 => r.pick(&PACKINGS),
        2 => r.pick(&ALIGNMENTS),
        3 => r.pick(&TRANSFERS),
        4 => BLOCK,
        _ => r.pick(&ENDPOINTS),
    }
}

fn number_of(r: &mut Random, n: u32) -> Vec<u8> {
    let zeros = "0".repeat(match r.below(100) {
        0 => 300,
        1..=24 => r.from(1, 9),
        _ => 0,
    });
    let digits = match r.below(5) {
        0 | 1 => return format!("{zeros}{n}").into_bytes(),
        2 => format!("{n:x}"),
        3 => format!("{n:X}"),
        _ => format!("{n:X}").chars().map(|d| if r.one_in(2) { d.to_ascii_lowercase() } else { d }).collect(),
    };
    format!("0x{zeros}{digits}").into_bytes()
}

fn number_word(r: &mut Random) -> Vec<u8> {
    let n = match r.below(4) {
        0 => r.pick(&[0, 1, 255, 256, 65_535, 65_534]),
        1 => r.below(65_536),
        _ => r.below(20),
    };
    number_of(r, n as u32)
}

/// A string: any bytes between the marks, often what would be words or comments elsewhere.
fn quoted(r: &mut Random) -> Vec<u8> {
    let inside = match r.below(6) {
        0 => Vec::new(),
        1 => b"XCP Master".to_vec(),
        2 => keyword(r).to_vec(),
        3 => r.pick(&[&b"/end XCP_ON_USB"[..], b"/end", b"/begin", b"/*", b"*/", b"//", b"\\", b" \r\n\t", b"0x40", b"/* */ // \n"]).to_vec(),
        _ => (0..r.below(12)).map(|_| r.byte()).filter(|&b| b != b'"').collect(),
    };
    [b"\"", &inside[..], b"\""].concat()
}

/// A word of any bytes that make up one.
fn odd(r: &mut Random) -> Vec<u8> {
    let mut word: Vec<u8> = Vec::new();
    for _ in 0..r.from(1, 9) {
        let b = if r.one_in(3) { r.byte() } else { r.pick(b"/*_-aZ09.\\'\0\x0B\x0C\x7F\xA0\xFF") };
        let comment = word.last() == Some(&b'/') && (b == b'/' || b == b'*');
        if !comment && !b" \t\r\n\"".contains(&b) {
            word.push(b);
        }
    }
    if word.is_empty() { b"/".to_vec() } else { word }
}

/// A word that is read over: anything but `/begin` and `/end`.
fn over(r: &mut Random) -> Vec<u8> {
    let word = match r.below(9) {
        0 => number_word(r),
        1 => r.pick(&NUMBERS).to_vec(),
        2 => keyword(r).to_vec(),
        3 => quoted(r),
        4 => odd(r),
        5 => {
            let word = r.pick(&[BEGIN, END, BLOCK, ENDPOINTS[0], ENDPOINTS[1]]);
            let all = near(r, word);
            all[r.below(4)].clone()
        }
        6 => r.pick(&[&b"/"[..], b"*", b"*/", b"/_", b"x/y", b"begin", b"end", b"/begin/end", b"\\"]).to_vec(),
        _ => {
            let known: [&[u8]; 4] = [b"ALTERNATE_SETTING_NO", b"INTERFACE_STRING_DESCRIPTOR", b"RECOMMENDED_HOST_BUFSIZE", b"FIXED_IN"];
            r.pick(&known).to_vec()
        }
    };
    if [BEGIN, END].contains(&&word[..]) { b"X".to_vec() } else { word }
}

/// A name of a paired block; of an endpoint only where that is a name like any other.
fn pair_name(r: &mut Random, any: bool) -> Vec<u8> {
    let name = match r.below(8) {
        0 => over(r),
        1 => quoted(r),
        2 => BLOCK.to_vec(),
        3 | 4 if any => r.pick(&ENDPOINTS).to_vec(),
        5 => r.pick(&[&b"A"[..], b"AB", b"ABC", b"a", b"/"]).to_vec(),
        _ => r.pick(&[&b"OUT_EP_ONLY_STIM"[..], b"IN_EP_ONLY_DAQ", b"IN_EP_ONLY_EVSERV", b"DAQ_LIST_USB_ENDPOINT"]).to_vec(),
    };
    if !any && ENDPOINTS.contains(&&name[..]) { b"ENDPOINT".to_vec() } else { name }
}

fn pair(name: &[u8], inside: Words) -> Words {
    let mut all = owned(&[BEGIN, name]);
    all.extend(inside);
    all.extend(owned(&[END, name]));
    all
}

/// Words and paired blocks that are read over.
fn some(r: &mut Random, depth: usize, any: bool) -> Words {
    let mut all = Vec::new();
    for _ in 0..r.pick(&[0, 0, 0, 0, 1, 1, 2, 3]) {
        if depth > 0 && r.one_in(3) {
            let name = pair_name(r, any);
            let deep = if r.one_in(20) { r.from(4, 12) } else { depth - 1 };
            let inside = some(r, deep.min(12), true);
            all.extend(pair(&name, inside));
        } else {
            all.push(over(r));
        }
    }
    all
}

/// Whether M and X of a text are to be sound.
#[derive(Clone, Copy)]
struct Aim {
    size: bool,
    longest: bool,
}

const SOUND: Aim = Aim { size: true, longest: true };

fn endpoint(r: &mut Random, name: &[u8], sound: bool) -> Words {
    let far = r.below(65_536);
    let size = match r.below(4) {
        _ if !sound => r.pick(&[0, 1, 4, 7, 9, 12, 63, 65, 1_020, 1_025, 1_028, 1_032, 2_048, 32_768, 65_528, 65_535, far | 1]),
        0 => r.pick(&[8, 16, 512, 1_016, 1_024]),
        1 => 8 * r.from(1, 128),
        _ => 64,
    };
    let mut inside = vec![number_word(r), r.pick(&TRANSFERS).to_vec(), number_of(r, size as u32), number_word(r)];
    inside.extend([r.pick(&PACKINGS).to_vec(), r.pick(&ALIGNMENTS).to_vec()]);
    inside.extend(some(r, 3, true));
    pair(name, inside)
}

/// A block: its entries stand between the head and the last two words. X goes with it.
struct Block {
    head: Words,
    entries: Vec<Words>,
    longest: u32,
}

impl Block {
    fn words(&self) -> Words {
        let mut all = self.head.clone();
        all.extend(self.entries.concat());
        all.extend(owned(&[END, BLOCK]));
        all
    }
}

fn block(r: &mut Random, aim: Aim) -> Block {
    let header = r.below(6);
    let mut head = owned(&[BEGIN, BLOCK]);
    head.extend((0..4).map(|_| number_word(r)));
    head.push(HEADERS[header].to_vec());
    let (first, sound) = (r.below(2), r.below(3));
    let mut entries = Vec::new();
    for i in [first, 1 - first] {
        entries.push(some(r, 3, false));
        entries.push(endpoint(r, ENDPOINTS[i], aim.size || sound == i));
    }
    entries.push(some(r, 3, false));
    let top: u32 = if header < 3 { 255 } else { 65_535 };
    let longest = match r.below(4) {
        _ if !aim.longest => r.pick(&[0, 1, 7, top + 1, top + 1, 65_536, 65_544, (1 << 16) + 255, 1 << 31, u32::MAX - 7, u32::MAX]),
        0 => 8,
        1 => top,
        _ => r.from(8, top as usize) as u32,
    };
    Block { head, entries, longest }
}

/// What a comment may hold: keywords, marks, other comments, any bytes.
fn inside_comment(r: &mut Random) -> Vec<u8> {
    match r.below(7) {
        0 => Vec::new(),
        1 => r.pick(&[&b"/"[..], b"*", b"**", b"/ ", b"\"", b"//", b"/*", b" *", b"* /", b"/*/", b"/**"]).to_vec(),
        2 => keyword(r).to_vec(),
        3 => r.pick(&[BEGIN, END, b" /end XCP_ON_USB "]).to_vec(),
        4 => b" M ".to_vec(),
        5 => quoted(r),
        _ => (0..r.below(10)).map(|_| r.byte()).collect(),
    }
}

fn comment(r: &mut Random) -> Vec<u8> {
    let inside = inside_comment(r);
    if r.one_in(2) {
        let n = inside.iter().position(|b| b"\r\n".contains(b)).unwrap_or(inside.len());
        return [b"//", &inside[..n], &[r.pick(b"\r\n")]].concat();
    }
    let n = inside.windows(2).position(|two| two == b"*/").unwrap_or(inside.len());
    [b"/*", &inside[..n], b"*/"].concat()
}

/// What may stand between words: only blanks and line ends, comments too, or as little as possible.
#[derive(Clone, Copy, PartialEq)]
enum Gaps {
    Blank,
    Lines,
    Comments,
    Tight,
}

fn gap(r: &mut Random, gaps: Gaps) -> Vec<u8> {
    match gaps {
        Gaps::Blank => b" ".to_vec(),
        Gaps::Lines => r.pick(&[&b"\n"[..], b"\r\n", b"\r\n\t", b"\r", b"\t", b"  ", b"\n\n    "]).to_vec(),
        Gaps::Tight => comment(r),
        Gaps::Comments => {
            let mut all = Vec::new();
            for _ in 0..r.from(1, 2) {
                all.extend(if r.one_in(2) { comment(r) } else { r.pick(&[&b" "[..], b"\t", b"\r\n", b"\n", b"\r"]).to_vec() });
            }
            all
        }
    }
}

fn any_gaps(r: &mut Random) -> Gaps {
    r.pick(&[Gaps::Blank, Gaps::Blank, Gaps::Lines, Gaps::Comments, Gaps::Tight])
}

/// The words written out, with a gap before, between and behind them; next to a string there may be none.
fn written(r: &mut Random, words: &[Vec<u8>], gaps: Gaps) -> Vec<u8> {
    let mut text = Vec::new();
    let mut last: &[u8] = b"\"";
    for word in words {
        let string = last.ends_with(b"\"") || word.starts_with(b"\"");
        if !(string && (gaps == Gaps::Tight || r.one_in(3))) {
            text.extend(if last.ends_with(b"/") { b" ".to_vec() } else { gap(r, gaps) });
        }
        text.extend(word);
        last = word;
    }
    if r.one_in(2) {
        text.push(b'\n');
    }
    text
}

fn call(text: Vec<u8>, longest: u32) -> Call {
    Call::Settings { text, longest }
}

/// Bytes that open a comment or a string and do not close it.
fn opened(r: &mut Random, why: Why) -> Vec<u8> {
    let mut inside = inside_comment(r);
    if why == Why::Quote {
        inside.retain(|&b| b != b'"');
        return [b"\"", &inside[..]].concat();
    }
    let n = inside.windows(2).position(|two| two == b"*/").unwrap_or(inside.len());
    [b"/*", &inside[..n]].concat()
}

/// A text that is refused with 9 in a given way.
fn stopping(r: &mut Random, (wanted, why): (Wanted, Why)) -> Call {
    for _ in 0..100_000 {
        let block = block(r, SOUND);
        let words = block.words();
        let place = if wanted == Wanted::Another { Wanted::Name } else { wanted };
        let gaps = any_gaps(r);
        let wanted_behind = |n: &usize| told(&words[..*n].join(&b' '), 8).wanted == place;
        let places: Vec<usize> = (0..=words.len()).filter(wanted_behind).collect();
        if places.is_empty() {
            continue;
        }
        let n = r.pick(&places);
        let mut text = written(r, &words[..n], gaps);
        text.push(b' ');
        match why {
            Why::Wrong => {
                let wrong = match r.below(4) {
                    0 => r.pick(&[BEGIN, END]).to_vec(),
                    1 => r.pick(&ENDPOINTS).to_vec(),
                    2 => over(r),
                    _ => r.pick(&[BEGIN, END, BLOCK, HEADERS[0], TRANSFERS[0], PACKINGS[0], ALIGNMENTS[0], b"1", b"\"1\""]).to_vec(),
                };
                text.extend(wrong);
                text.push(b' ');
                text.extend(written(r, &words[n..], gaps));
            }
            Why::Early => {}
            _ => text.extend(opened(r, why)),
        }
        if reasons::stop(&text) == Some((wanted, why)) {
            return call(text, block.longest);
        }
    }
    panic!("no text has {wanted:?} and {why:?}")
}

/// A text for which the first reason is answered, and the second holds too.
fn meeting(r: &mut Random, b: &Bounds, pair: [Why; 2]) -> Call {
    let has = |why: Why| pair.contains(&why);
    for _ in 0..100_000 {
        let mut block = block(r, Aim { size: !has(Why::Size), longest: !has(Why::Longest) });
        let mut words = if has(Why::Wrong) { damaged(r, &mut block) } else { block.words() };
        if has(Why::Early) {
            words.truncate(r.from(words.len() / 2, words.len() - 1));
        }
        let open = pair.iter().find(|why| [Why::Comment, Why::Quote].contains(why));
        let behind = open.map_or(Vec::new(), |&why| opened(r, why));
        let n = if has(Why::Long) { length(r, b.most) - behind.len() } else { 0 };
        let text = [padded(r, &words, n), behind].concat();
        if reasons::met(&reasons::description(&text, block.longest)).contains(&pair) {
            return call(text, block.longest);
        }
    }
    panic!("no text has {pair:?}")
}

/// A length past the longest.
fn length(r: &mut Random, most: usize) -> usize {
    if r.one_in(2) { LONGEST_TEXT + 1 } else { r.from(LONGEST_TEXT + 1, most) }
}

/// The words written out with so many bytes, where they have fewer: one of the gaps is filled up, by words too where they are read over.
fn padded(r: &mut Random, words: &[Vec<u8>], n: usize) -> Vec<u8> {
    let gaps = any_gaps(r);
    let k = r.below(words.len() + 1);
    let (head, tail) = (written(r, &words[..k], gaps), written(r, &words[k..], gaps));
    let wanted = told(&words[..k].join(&b' '), 8).wanted;
    let kinds = if [Wanted::Entry, Wanted::Close, Wanted::Inside].contains(&wanted) { PADS } else { 2 };
    let kind = r.below(kinds);
    let pad = pad(kind, n.saturating_sub(head.len() + tail.len()).max(1));
    [head, pad, tail].concat()
}

const PADS: usize = 7;

/// So many bytes: a gap or, from the third on, words that are read over.
fn pad(kind: usize, n: usize) -> Vec<u8> {
    let filled = |from: &[u8], b: u8, to: &[u8]| {
        let inside = n.saturating_sub(from.len() + to.len());
        if inside == 0 { vec![b' '; n] } else { [from, &vec![b; inside], to].concat() }
    };
    match kind {
        0 => filled(b" /*", b'*', b"*/"),
        1 => filled(b" //", b'/', b"\n"),
        2 => filled(b" ", b'X', b" "),
        3 => filled(b" \"", b'\n', b"\""),
        4 => (0..n).map(|i| if i % 2 == 1 && i + 1 < n { b'X' } else { b' ' }).collect(),
        5 => [b" ", &nest(n - 1, b"\"\"")[..]].concat(),
        _ => [b" ", &nest(n - 1, b" N ")[..]].concat(),
    }
}

/// So many bytes: blocks in blocks, as deep as that allows. The name has its gaps, if it needs any.
fn nest(n: usize, name: &[u8]) -> Vec<u8> {
    let levels = n / [BEGIN, name, END, name].concat().len();
    let mut all = [[BEGIN, name].concat().repeat(levels), [END, name].concat().repeat(levels)].concat();
    all.resize(n, b' ');
    all
}

/// Texts at the longest and just past it, whole and not.
fn limits(take: &mut dyn FnMut(&Call)) {
    let plain = plain();
    let (head, tail) = (plain[..ENTRY].join(&b' '), plain[ENTRY..].join(&b' '));
    let with = |kind: usize, n: usize| [&head[..], &pad(kind, n - head.len() - tail.len()), &tail].concat();
    let mut texts: Vec<Vec<u8>> = (0..PADS).map(|kind| with(kind, LONGEST_TEXT)).collect();
    let past = with(0, LONGEST_TEXT + 1);
    texts.push(past[..LONGEST_TEXT].to_vec());
    texts.push(past);
    for (behind, n) in [(&b"/*"[..], LONGEST_TEXT), (b"\"", LONGEST_TEXT), (b"//", LONGEST_TEXT), (b" X", LONGEST_TEXT + 1)] {
        let mut text = [&plain.join(&b' ')[..], behind].concat();
        text.resize(n, b'X');
        texts.push(text);
    }
    texts.into_iter().for_each(|text| take(&call(text, 300)));
}

/// The shortest block, up to its entries and from its endpoints on.
const HEAD: &[u8] = b"/begin XCP_ON_USB 0 0 0 0 HEADER_LEN_BYTE ";
const TAIL: &[u8] = b"/begin OUT_EP_CMD_STIM 0 BULK_TRANSFER 8 0 MESSAGE_PACKING_SINGLE ALIGNMENT_8_BIT /end OUT_EP_CMD_STIM \
    /begin IN_EP_RESERR_DAQ_EVSERV 0 BULK_TRANSFER 8 0 MESSAGE_PACKING_SINGLE ALIGNMENT_8_BIT /end IN_EP_RESERR_DAQ_EVSERV \
    /end XCP_ON_USB";

/// The deepest text: whole, with a wrong name at the first and at the last end, with a beginning too few, and never ended.
fn deepest(take: &mut dyn FnMut(&Call)) {
    let with = |name: &[u8]| [HEAD, &nest(LONGEST_TEXT - HEAD.len() - TAIL.len(), name), TAIL].concat();
    let named = with(b"\"N\"");
    let places = |part: &[u8]| (0..named.len()).filter(|&i| named[i..].starts_with(part)).collect::<Vec<usize>>();
    let (begins, ends) = (places(b"/begin\"N\""), places(b"/end\"N\""));
    let mut texts = vec![with(b"\"\"")];
    for end in [ends[0], ends[ends.len() - 1]] {
        let mut wrong = named.clone();
        wrong[end + 5] = b'n';
        texts.push(wrong);
    }
    let mut few = named.clone();
    few[begins[0]..begins[1]].fill(b' ');
    texts.push(few);
    let mut open = [HEAD, &b"/begin\"\"".repeat(LONGEST_TEXT)].concat();
    open.truncate(LONGEST_TEXT);
    texts.push(open);
    texts.into_iter().for_each(|text| take(&call(text, 255)));
}

/// A text with comments, strings, and blocks in blocks that have the names of others.
const MIXED: &[u8] = b"/begin/**/XCP_ON_USB 1 0x2//\"\r\n3\t04 HEADER_LEN_BYTE\"/end\"/begin\"\"/*/ \"*//end\"\" XCP_ON_USB \
    /begin IN_EP_RESERR_DAQ_EVSERV 1 BULK_TRANSFER 8 0 MESSAGE_PACKING_SINGLE ALIGNMENT_64_BIT \
    /begin OUT_EP_CMD_STIM * / /end OUT_EP_CMD_STIM /end/*/begin*/IN_EP_RESERR_DAQ_EVSERV \
    /begin OUT_EP_CMD_STIM 0xAa INTERRUPT_TRANSFER 0x400 1//*/\nMESSAGE_PACKING_STREAMING ALIGNMENT_8_BIT \"\n\"/end//\rOUT_EP_CMD_STIM \
    /begin XCP_ON_USB /end XCP_ON_USB /end XCP_ON_USB// /*";

/// Two texts, cut at every place.
fn cuts(take: &mut dyn FnMut(&Call)) {
    for text in [&plain().join(&b' ')[..], MIXED] {
        (0..=text.len()).for_each(|n| take(&call(text[..n].to_vec(), 255)));
    }
}

/// The plain text with one of its words changed: each keyword that can stand there, words that are nearly one, and numbers that are
/// nearly none.
fn nearly(r: &mut Random, take: &mut dyn FnMut(&Call)) {
    let plain = plain();
    let mut with = |i: usize, word: &[u8]| {
        let mut words = plain.clone();
        words[i] = word.to_vec();
        take(&call(words.join(&b' '), 300));
    };
    for (i, word) in plain.iter().enumerate() {
        if number(word).is_none() {
            near(r, word).iter().for_each(|near| with(i, near));
        }
        for all in [&HEADERS[..], &TRANSFERS, &PACKINGS, &ALIGNMENTS] {
            if all.contains(&&word[..]) {
                all.iter().for_each(|other| with(i, other));
            }
        }
    }
    let numbers: Vec<usize> = (0..plain.len()).filter(|&i| number(&plain[i]).is_some()).collect();
    for word in NUMBERS {
        with(SIZE, word);
        with(r.pick(&numbers), word);
    }
}

fn is_endpoint(entry: &Words) -> bool {
    entry.len() > 1 && entry[0] == BEGIN && ENDPOINTS.contains(&&entry[1][..])
}

/// A block's words after an entry or a word was damaged.
fn damaged(r: &mut Random, block: &mut Block) -> Words {
    let entries = &mut block.entries;
    let place = r.below(entries.len());
    let endpoints: Vec<usize> = (0..entries.len()).filter(|&i| is_endpoint(&entries[i])).collect();
    let one = r.pick(&endpoints);
    match r.below(10) {
        0 => {
            entries.remove(one);
        }
        1 => {
            let again = if r.one_in(2) { entries[one].clone() } else { endpoint(r, &entries[one][1].clone(), true) };
            entries.insert(place, again);
        }
        2 => {
            let name = if r.one_in(3) { r.pick(&ENDPOINTS).to_vec() } else { pair_name(r, true) };
            entries[one] = pair(&name, entries[one].clone());
        }
        3 => {
            let inside = entries.remove(one);
            let other = entries.iter_mut().find(|entry| is_endpoint(entry)).expect("there were two");
            let behind = r.from(2, other.len() - 2);
            other.splice(behind..behind, inside);
        }
        _ => {
            let mut words = block.words();
            damaged_word(r, &mut words);
            return words;
        }
    }
    block.words()
}

fn damaged_word(r: &mut Random, words: &mut Words) {
    let i = r.below(words.len());
    let ends: Vec<usize> = (1..words.len()).filter(|&i| words[i - 1] == END).collect();
    let numbers: Vec<usize> = (0..words.len()).filter(|&i| number(&words[i]).is_some()).collect();
    match r.below(12) {
        0 => {
            words.remove(i);
        }
        1 => words.insert(i, words[i].clone()),
        2 if i > 0 => words.swap(i - 1, i),
        3 => {
            let j = r.below(words.len());
            words.swap(i, j);
        }
        4 | 5 if !numbers.is_empty() => words[r.pick(&numbers)] = r.pick(&NUMBERS).to_vec(),
        6 => {
            let all = near(r, &words[i].clone());
            words[i] = all[r.below(all.len())].clone();
        }
        7 if !ends.is_empty() => {
            let i = r.pick(&ends);
            let all = near(r, &words[i].clone());
            words[i] = if r.one_in(2) { words[r.pick(&ends)].clone() } else { all[r.below(all.len())].clone() };
        }
        8 => words.push(if r.one_in(2) { over(r) } else { words[i].clone() }),
        9 => words.insert(i, r.pick(&[BEGIN, END]).to_vec()),
        10 => words[i] = keyword(r).to_vec(),
        _ => words.insert(i, over(r)),
    }
}

/// Bytes of a text changed, removed or added: among those added are marks, and words that end in `/` right before a comment.
fn damage(r: &mut Random, text: &mut Vec<u8>) {
    let at = r.below(text.len() + 1);
    match r.below(8) {
        0 if at < text.len() => text[at] ^= 1 << r.below(8),
        1 if at < text.len() => text[at] = r.byte(),
        2 if at < text.len() => {
            text.remove(at);
        }
        3 => text.truncate(at),
        4 => text.extend(if r.one_in(2) { opened(r, Why::Comment) } else { opened(r, Why::Quote) }),
        5 => {
            let marks: Vec<u8> = (0..r.from(1, 6)).map(|_| r.pick(b"/*\" \n\rX")).collect();
            text.splice(at..at, marks);
        }
        _ => {
            let more: [&[u8]; 12] =
                [b"/*", b"*/", b"/*/", b"//", b"\"", b"/", b"\n", b"\0", b" X//* X */ ", b" X///\n", b" /end//*\n*/", b"/**/"];
            text.splice(at..at, r.pick(&more).iter().copied());
        }
    }
}

/// Words in any order, mostly behind what a block starts with.
fn soup(r: &mut Random) -> Words {
    let mut words = block(r, SOUND).words();
    words.truncate(r.below(10));
    for _ in 0..r.below(12) {
        words.push(match r.below(5) {
            0 => over(r),
            1 => number_word(r),
            2 => keyword(r).to_vec(),
            _ => r.pick(&[BEGIN, END]).to_vec(),
        });
    }
    words
}

fn aim(r: &mut Random) -> Aim {
    Aim { size: !r.one_in(8), longest: !r.one_in(8) }
}

/// A random text as long as it comes: a block, words or bytes of it damaged, or no block.
fn short(r: &mut Random) -> Call {
    let aim = aim(r);
    let mut block = block(r, aim);
    let kind = r.below(12);
    let words = match kind {
        0..=2 => damaged(r, &mut block),
        3 => soup(r),
        _ => block.words(),
    };
    let gaps = any_gaps(r);
    let mut text = written(r, &words, gaps);
    if kind > 8 {
        (0..r.from(1, 3)).for_each(|_| damage(r, &mut text));
    }
    if r.one_in(20) {
        text.extend(b"// the end");
    }
    call(text, block.longest)
}

/// A random text at the longest or past it.
fn long(r: &mut Random, b: &Bounds) -> Call {
    let aim = aim(r);
    let mut block = block(r, aim);
    let words = if r.one_in(3) { damaged(r, &mut block) } else { block.words() };
    let n = if r.one_in(2) { LONGEST_TEXT } else { length(r, b.most) };
    let mut text = padded(r, &words, n);
    if r.one_in(4) {
        damage(r, &mut text);
    }
    text.truncate(b.most);
    call(text, block.longest)
}
