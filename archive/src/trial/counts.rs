//! What was counted: calls by group and answer.

use crate::engine::Answer;

/// What was special about a call.
#[derive(Clone, Copy)]
pub enum Group {
    Read,
    ReadBack,
    Write,
    WriteChanged,
    Fresh,
    Widen,
    Narrow,
    Measure,
    Recover,
    Words,
    Feed,
    FeedNone,
    FeedOne,
    FeedExact,
    FeedLess,
    FeedMore,
    FeedLarge,
    FeedOver,
    FeedWidened,
    FeedTable,
    FeedState,
    FeedBoth,
    SizeRead,
    SizeWrite,
    SizeFresh,
    SizeFeed,
    SizeRecover,
    SizeWiden,
    SizeNarrow,
}

const NAMES: &[&str] = &[
    "m7_read, a generated file",
    "m7_read, a file that m7_write wrote",
    "m7_write, a table as read or fed",
    "m7_write, the table changed",
    "m7_fresh",
    "m7_widen",
    "m7_narrow",
    "m7_measure, beside reading and writing out",
    "m7_recover, beside reading of what is left",
    "m7_words",
    "m7_feed, the lines of a list in turn",
    "m7_feed, budget 0",
    "m7_feed, budget 1",
    "m7_feed, budget exactly the passes",
    "m7_feed, budget one less than the passes",
    "m7_feed, budget more than the passes",
    "m7_feed, budget 1,000,000",
    "m7_feed, budget over 1,000,000",
    "m7_feed, from a widened state, beside the old engine",
    "m7_feed, the table changed",
    "m7_feed, a byte of the state changed",
    "m7_feed, several of these at once",
    "m7_read, a memory of another size",
    "m7_write, a memory of another size",
    "m7_fresh, a memory of another size",
    "m7_feed, a memory of another size",
    "m7_recover, a memory of another size",
    "m7_widen, a memory of another size",
    "m7_narrow, a memory of another size",
];

/// Behind the numbers stand the kinds of a line that was taken.
const KINDS: usize = 100;
const ANSWERS: usize = KINDS + 4;

pub struct Counts {
    calls: [[u64; ANSWERS]; NAMES.len()],
}

impl Counts {
    pub fn new() -> Counts {
        Counts { calls: [[0; ANSWERS]; NAMES.len()] }
    }

    pub fn add(&mut self, group: Group, answer: Answer) {
        let place = match (answer.number, answer.kind) {
            (0, 0) => 0,
            (0, kind) => KINDS + kind.min(3) as usize,
            (number, _) => number.min(99) as usize,
        };
        self.calls[group as usize][place] += 1;
    }

    /// The calls of one group.
    pub fn of(&self, group: Group) -> u64 {
        self.calls[group as usize].iter().sum()
    }

    pub fn all(&self) -> u64 {
        self.calls.iter().flatten().sum()
    }

    /// A table in Markdown: for each group its calls, and how many had which answer.
    pub fn print(&self) {
        println!("| Call | Calls | Answers |\n|---|---|---|");
        for (name, row) in NAMES.iter().zip(&self.calls) {
            let words: Vec<String> = (0..row.len())
                .filter(|place| row[*place] > 0)
                .map(|place| format!("{} {}", answer_name(place), grouped(row[place])))
                .collect();
            println!("| {name} | {} | {} |", grouped(row.iter().sum()), words.join(", "));
        }
        println!("| all | {} | |", grouped(self.all()));
    }
}

fn answer_name(place: usize) -> String {
    const TAKEN: [&str; 4] = ["", "out", "withheld", "control"];
    match place {
        0 => "taken".to_string(),
        KINDS.. => TAKEN[place - KINDS].to_string(),
        number => format!("**{number}**"),
    }
}

/// A number with commas between its thousands.
pub fn grouped(n: u64) -> String {
    let digits = n.to_string();
    let mut text = String::new();
    for (place, digit) in digits.chars().enumerate() {
        if place > 0 && (digits.len() - place) % 3 == 0 {
            text.push(',');
        }
        text.push(digit);
    }
    text
}
