//! A second reading of document 01 and of Asks 1 and 3: `oracle vectors SEED COUNT DATAGRAMS TEXTS DIR` writes data/cases.bin and stdout of
//! DIR/vectors and DIR/texts, `oracle hits SEED COUNT DATAGRAMS TEXTS` only counts. Both print how often each function gave each answer, how
//! often two reasons for refusal met, and in which ways a text is no block, and fail if an answer, a pair that can meet or such a way never
//! came.

mod call;
mod cases;
mod description;
mod examples;
mod hits;
mod random;
mod reasons;
mod record;
mod rule;
mod texts;
mod tree;

use call::Call;
use cases::{Bounds, Counts};
use std::fs;

/// What the program of crates/vectors has room for.
const BOUNDS: Bounds = Bounds { numbers: 20_480, room: 262_400, packets: 65_664, lengths: 4_160 };
const BODY: usize = 2_048;

/// What the program of crates/texts has room for; one in so many random texts is at or past the longest.
const TEXT: usize = 16_640;
const LONG: usize = 400;

/// How often each reader with its state lent is accepted, and refused for each reason.
const LENT: usize = 20;

/// The cases of a program and the lines expected of it.
#[derive(Default)]
struct Files {
    data: Vec<u8>,
    lines: String,
}

impl Files {
    fn write(&self, dir: &str) {
        fs::create_dir_all(format!("{dir}/data")).expect("DIR can be made");
        fs::write(format!("{dir}/data/cases.bin"), &self.data).expect("DIR can be written");
        fs::write(format!("{dir}/stdout"), &self.lines).expect("DIR can be written");
    }
}

fn main() {
    examples::check();
    let words: Vec<String> = std::env::args().collect();
    let words: Vec<&str> = words.iter().map(|w| w.as_str()).collect();
    match words[1..] {
        ["vectors", seed, count, datagrams, texts, dir] => run([seed, count, datagrams, texts], Some(dir)),
        ["hits", seed, count, datagrams, texts] => run([seed, count, datagrams, texts], None),
        _ => {
            eprintln!("oracle vectors SEED COUNT DATAGRAMS TEXTS DIR | oracle hits SEED COUNT DATAGRAMS TEXTS");
            std::process::exit(2);
        }
    }
}

fn run(numbers: [&str; 4], dir: Option<&str>) {
    let [seed, random, datagrams, texts] = numbers.map(|n| n.parse::<usize>().expect("SEED, COUNT, DATAGRAMS and TEXTS are numbers"));
    let seed = seed as u64;
    let counts = Counts { random, datagrams, lent: LENT };
    let texts = texts::Bounds { random: texts, most: TEXT, long: LONG };
    let mut hits = hits::Hits::new();
    let mut keep = |call: &Call, files: &mut Files, body: Vec<u8>| {
        let answer = call.answer();
        hits.count(call, &answer);
        files.data.extend(body);
        files.lines += &record::line(call, &answer);
    };
    let (mut vectors, mut written) = (Files::default(), Files::default());
    let mut take = |call: &Call| {
        let body = record::record(call);
        let fits = body.len() <= BODY;
        if fits {
            keep(call, &mut vectors, body);
        }
        fits
    };
    for direction in 0..2 {
        for first in 0..=255 {
            take(&Call::Kind { direction, packet: vec![first] });
        }
    }
    cases::each(&mut random::Random(seed), &BOUNDS, &counts, &mut take);
    texts::each(&mut random::Random(seed), &texts, &mut |call| {
        tree::check(call);
        keep(call, &mut written, record::record(call));
    });
    print!("{}", hits.table());
    if hits.lacking(1) {
        println!("an answer, a pair that can meet, or a way to be no block never came");
        std::process::exit(1);
    }
    if let Some(dir) = dir {
        vectors.write(&format!("{dir}/vectors"));
        written.write(&format!("{dir}/texts"));
    }
}
