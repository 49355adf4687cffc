//! How often each function gave each answer, how often two reasons for refusal met, and in which ways texts were no block.

use crate::call::{Answer, Call, FUNCTIONS, NAMES, PAIRED, SETTINGS};
use crate::description::WANTED;
use crate::reasons::{self, meet, REASONS, STOPS, WHYS};

/// What a case or an answer is, cut where it gets long.
pub fn brief(it: &impl std::fmt::Debug) -> String {
    format!("{it:?}").chars().take(3_000).collect()
}

pub struct Hits {
    answers: [[usize; 10]; FUNCTIONS],
    pairs: [[[usize; WHYS]; WHYS]; FUNCTIONS],
    /// Refusals 9: what was wanted, and why it was not there.
    stops: [[usize; WHYS]; WANTED.len()],
}

impl Hits {
    pub fn new() -> Hits {
        Hits { answers: [[0; 10]; FUNCTIONS], pairs: [[[0; WHYS]; WHYS]; FUNCTIONS], stops: [[0; WHYS]; WANTED.len()] }
    }

    /// Counts a case. Its answer must be the one that the order of refusals picks among the reasons that hold.
    pub fn count(&mut self, call: &Call, answer: &Answer) {
        let faults = call.faults();
        let refusal = answer.refusal();
        assert_eq!(reasons::refusal(&faults), refusal, "{}", brief(call));
        let function = call.function();
        self.answers[function][refusal.map_or(0, |(n, _)| n as usize)] += 1;
        if PAIRED.contains(&function) {
            for [a, b] in reasons::met(&faults) {
                assert!(meet(function, a, b), "{a:?} and {b:?} cannot meet: {}", brief(call));
                self.pairs[function][a as usize][b as usize] += 1;
            }
        }
        if let (Call::Settings { text, .. }, Some((9, _))) = (call, refusal) {
            let (wanted, why) = reasons::stop(text).expect("9 has a reason");
            assert!(reasons::stops(wanted, why), "{wanted:?} and {why:?} cannot be: {}", brief(call));
            self.stops[wanted as usize][why as usize] += 1;
        }
    }

    /// Whether an answer came fewer than so many times, two reasons that can meet never met, or a text was never refused in a way it can.
    pub fn lacking(&self, least: usize) -> bool {
        let few = |(row, all): (&[usize; 10], &&[reasons::Why])| row[0] < least || all.iter().any(|why| row[why.number() as usize] < least);
        let apart = |function: usize| reasons::pairs(function).iter().any(|&[a, b]| self.pairs[function][a as usize][b as usize] == 0);
        let unseen = reasons::all_stops().iter().any(|&(wanted, why)| self.stops[wanted as usize][why as usize] == 0);
        self.answers.iter().zip(&REASONS).any(few) || PAIRED.into_iter().any(apart) || unseen
    }

    pub fn table(&self) -> String {
        let mut text = format!("{:<18}{:>9}", "function", "accepted");
        for n in 1..10 {
            text += &format!("{n:>8}");
        }
        for (name, row) in NAMES.iter().zip(self.answers) {
            text += &format!("\n{name:<18}{:>9}", row[0]);
            for n in &row[1..] {
                text += &if *n == 0 { format!("{:>8}", "-") } else { format!("{n:>8}") };
            }
        }
        text += &format!("\ncases {}\n", self.answers.iter().flatten().sum::<usize>());
        let pairs = PAIRED.into_iter().fold(text, |text, function| text + "\n" + &self.pair_table(function));
        pairs + "\n" + &self.stop_table()
    }

    /// What was wanted in the row, why it was not there in the column; `-` where that cannot be.
    fn stop_table(&self) -> String {
        let mut text = format!("{:<14}", NAMES[SETTINGS]);
        for why in STOPS {
            text += &format!("{:>11}", why.name());
        }
        for wanted in WANTED {
            text += &format!("\n{:<14}", format!("{wanted:?}").to_lowercase());
            for why in STOPS {
                let n = self.stops[wanted as usize][why as usize];
                text += &if reasons::stops(wanted, why) { format!("{n:>11}") } else { format!("{:>11}", "-") };
            }
        }
        text + "\n"
    }

    /// The reason answered in the row, one that holds too in the column; `-` where the two cannot meet.
    fn pair_table(&self, function: usize) -> String {
        let all = REASONS[function];
        let mut text = format!("{:<14}", NAMES[function]);
        for why in all {
            text += &format!("{:>11}", why.name());
        }
        for &a in all {
            text += &format!("\n{:<14}", a.name());
            for &b in all {
                let n = self.pairs[function][a as usize][b as usize];
                text += &if meet(function, a, b) { format!("{n:>11}") } else { format!("{:>11}", "-") };
            }
        }
        text + "\n"
    }
}
