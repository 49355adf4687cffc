//! The block a second time, for short texts, as the rule says it: a block is a tree of words, and a word can stand if the words up to it
//! can be gone on to a block. What they are gone on with is tried.

use crate::call::Call;
use crate::description::{self, told, Ending, Wanted, ALIGNMENTS, BEGIN, BLOCK, END, ENDPOINTS, HEADERS, PACKINGS, TRANSFERS};
use crate::rule::Usb;

/// A word, or a paired block with its name.
enum Node<'w> {
    Word(&'w [u8]),
    Pair(&'w [u8], Vec<Node<'w>>),
}

use Node::*;

/// The tree of the words, if they make up one.
fn tree<'w>(words: &[&'w [u8]]) -> Option<Node<'w>> {
    let mut open: Vec<(&[u8], Vec<Node>)> = vec![(b"", Vec::new())];
    let mut rest = words.iter();
    while let Some(&word) = rest.next() {
        let node = match word {
            BEGIN => {
                let name = *rest.next()?;
                if name == BEGIN || name == END {
                    return None;
                }
                open.push((name, Vec::new()));
                continue;
            }
            END => {
                let (name, inside) = open.pop()?;
                if *rest.next()? != name {
                    return None;
                }
                Pair(name, inside)
            }
            _ => Word(word),
        };
        open.last_mut()?.1.push(node);
    }
    let (_, mut all) = open.pop()?;
    if open.is_empty() && all.len() == 1 { all.pop() } else { None }
}

fn number(node: &Node) -> Option<u32> {
    let Word(word) = node else { return None };
    let text = std::str::from_utf8(word).ok()?;
    let (digits, base) = text.strip_prefix("0x").map_or((text, 10), |digits| (digits, 16));
    let plain = digits.chars().all(|d| d.is_ascii() && d.is_digit(base)) && !digits.is_empty();
    let least = digits.trim_start_matches('0');
    let n = if least.is_empty() { 0 } else { u128::from_str_radix(least, base).unwrap_or(u128::MAX) };
    if plain && n < 65_536 { Some(n as u32) } else { None }
}

fn listed(node: &Node, all: &[&[u8]]) -> Option<u32> {
    let Word(word) = node else { return None };
    all.iter().position(|known| known == word).map(|n| n as u32)
}

/// The settings that the words say, if they are a block.
fn block(words: &[&[u8]], longest: u32) -> Option<[Usb; 2]> {
    let Pair(BLOCK, inside) = tree(words)? else { return None };
    let [version, vendor, product, interface, header, entries @ ..] = &inside[..] else { return None };
    for n in [version, vendor, product, interface] {
        number(n)?;
    }
    let header = listed(header, &HEADERS)?;
    let setting = |i: usize| {
        let mut found = entries.iter().filter_map(|node| match node {
            Pair(name, inside) if *name == ENDPOINTS[i] => Some(inside),
            _ => None,
        });
        let (Some(inside), None) = (found.next(), found.next()) else { return None };
        let [endpoint, transfer, size, interval, packing, alignment, ..] = &inside[..] else { return None };
        number(endpoint)?;
        listed(transfer, &TRANSFERS)?;
        number(interval)?;
        let align = [1, 2, 4, 8][listed(alignment, &ALIGNMENTS)? as usize];
        Some(Usb { header, packing: listed(packing, &PACKINGS)?, align, size: number(size)?, longest, direction: 1 - i as u32 })
    };
    Some([setting(0)?, setting(1)?])
}

/// The names of the blocks that are open behind the words.
fn open<'w>(words: &[&'w [u8]]) -> Vec<&'w [u8]> {
    let mut names = Vec::new();
    for two in words.windows(2) {
        match two {
            [BEGIN, name] => names.push(*name),
            [END, _] => {
                names.pop();
            }
            _ => {}
        }
    }
    names
}

const HEAD: [&[u8]; 7] = [BEGIN, BLOCK, b"0", b"0", b"0", b"0", HEADERS[0]];
const PARAMETERS: [&[u8]; 6] = [b"0", TRANSFERS[0], b"0", b"0", PACKINGS[0], ALIGNMENTS[0]];

/// Whether the words can be gone on to a block: by a name, by what is left of the head or of an endpoint's parameters, by closing what
/// is open, by endpoints, and by closing the block.
fn can_go_on(words: &[&[u8]]) -> bool {
    let firsts = match words.last() {
        Some(&BEGIN) => vec![None, Some(&b"NAME"[..]), Some(ENDPOINTS[0]), Some(ENDPOINTS[1])],
        Some(&END) => vec![None, open(words).last().copied()],
        _ => vec![None],
    };
    let left = |i: usize| if i < 7 { &HEAD[i..] } else { &PARAMETERS[i - 7..] };
    firsts.iter().any(|first| (0..14).any(|i| closes(words, *first, left(i))))
}

fn closes(words: &[&[u8]], first: Option<&[u8]>, rest: &[&[u8]]) -> bool {
    let mut all = words.to_vec();
    all.extend(first);
    all.extend(rest);
    let mut names = open(&all);
    if names.is_empty() {
        return block(&all, 0).is_some();
    }
    while names.len() > 1 {
        all.extend(names.pop().into_iter().flat_map(|name| [END, name]));
    }
    [&[][..], &ENDPOINTS[..1], &ENDPOINTS[1..], &ENDPOINTS].iter().any(|more| {
        let mut all = all.clone();
        for name in *more {
            all.extend([BEGIN, name].into_iter().chain(PARAMETERS).chain([END, name]));
        }
        all.extend([END, names[0]]);
        block(&all, 0).is_some()
    })
}

/// The settings, or the place of refusal 9.
fn read(text: &[u8], longest: u32) -> Result<[Usb; 2], usize> {
    let (words, ending) = description::words(text);
    let all: Vec<&[u8]> = words.iter().map(|word| word.bytes).collect();
    if ending == Ending::Outside {
        if let Some(both) = block(&all, longest) {
            return Ok(both);
        }
    }
    // Where words can be gone on, fewer can too: the last that can is found by halving.
    let counts: Vec<usize> = (1..=all.len()).collect();
    let standing = counts.partition_point(|&n| can_go_on(&all[..n]));
    Err(words.get(standing).map_or(text.len(), |word| word.place))
}

/// How many bytes a short text has.
const SHORT: usize = 1_200;

/// Sees that both readings of a short text agree, whatever its numbers are worth.
pub fn check(call: &Call) {
    let Call::Settings { text, longest } = call else { return };
    if text.len() > SHORT {
        return;
    }
    let told = told(text, *longest);
    let both = match (told.settings, told.wrong) {
        (_, Some(place)) => Err(place),
        ([Some(a), Some(b)], None) if told.wanted == Wanted::Nothing && told.ending == Ending::Outside => Ok([a, b]),
        _ => Err(text.len()),
    };
    assert_eq!(read(text, *longest), both, "{:?}", String::from_utf8_lossy(text));
}
