//! How many answers were compared, by kind; the first that differs ends the run with the input that makes it.

use std::collections::BTreeMap;
use std::fmt::Debug;

/// What either side answers, in one form: figures, or a refusal's number and extras.
#[derive(Clone, Copy, Debug, PartialEq, Eq)]
pub enum Answer {
    Given([i32; 5]),
    Refused(u32, usize, usize),
}

/// What a store answers.
#[derive(Clone, Copy)]
pub enum To {
    Opening,
    Message,
    Entry,
    Question,
}

/// The refusals that settings can get, and those that messages, entries and questions can from an opened store.
const REFUSALS: [(&str, &[u32]); 4] = [
    ("openings", &[9, 10, 25]),
    ("messages", &[1, 2, 3, 4, 5, 6, 7, 8, 19]),
    ("entries", &[5, 7, 8, 11, 19, 23, 24]),
    ("questions", &[5, 11, 12, 13, 14, 15, 20, 21, 22]),
];

#[derive(Default)]
struct Count {
    compared: u64,
    refused: u64,
}

pub struct Tally {
    seed: u64,
    only: Option<String>,
    counts: BTreeMap<&'static str, Count>,
    refused: [BTreeMap<u32, u64>; 4],
}

impl Tally {
    /// Of one kind only, where it is named.
    pub fn new(seed: u64, only: Option<String>) -> Tally {
        Tally {
            seed,
            only,
            counts: BTreeMap::new(),
            refused: Default::default(),
        }
    }

    fn leaves_out(&self, kind: &str) -> bool {
        self.only.as_ref().is_some_and(|only| only != kind)
    }

    /// Compares one answer, and counts it as refused or not. `input` is what to send to either side to see a difference.
    #[inline]
    pub fn same<T: PartialEq + Debug + ?Sized>(
        &mut self,
        kind: &'static str,
        refused: bool,
        proved: &T,
        independent: &T,
        input: impl FnOnce() -> String,
    ) {
        if self.leaves_out(kind) {
            return;
        }
        let count = self.counts.entry(kind).or_default();
        count.compared += 1;
        count.refused += u64::from(refused);
        if proved != independent {
            println!(
                "{kind}: seed {}: a difference after {} comparisons of this kind",
                self.seed, count.compared
            );
            println!("proved:      {proved:?}");
            println!("independent: {independent:?}");
            println!("{}", input());
            std::process::exit(1);
        }
    }

    /// The same of an answer in the one form.
    #[inline]
    pub fn answers(
        &mut self,
        kind: &'static str,
        proved: Answer,
        independent: Answer,
        input: impl FnOnce() -> String,
    ) {
        self.same(
            kind,
            matches!(independent, Answer::Refused(..)),
            &proved,
            &independent,
            input,
        );
    }

    /// The same of what an opening, a message, an entry or a question came to, which is counted by its number too.
    #[inline]
    pub fn answers_to(
        &mut self,
        to: To,
        kind: &'static str,
        proved: Answer,
        independent: Answer,
        input: impl FnOnce() -> String,
    ) {
        if let (Answer::Refused(number, ..), false) = (independent, self.leaves_out(kind)) {
            *self.refused[to as usize].entry(number).or_default() += 1;
        }
        self.answers(kind, proved, independent, input);
    }

    /// Ends the run as failed where a refusal of any of the four was never met: nothing was compared there.
    pub fn print(&self) {
        println!("{:26} {:>12} {:>12}", "", "compared", "refused");
        for (kind, count) in &self.counts {
            println!("{kind:26} {:>12} {:>12}", count.compared, count.refused);
        }
        for ((sort, all), met) in REFUSALS.iter().zip(&self.refused) {
            let numbers = met.iter().map(|(n, count)| format!("{n}: {count}"));
            let numbers: Vec<String> = numbers.collect();
            println!("{sort} refused, by number: {}", numbers.join(", "));
            let never = |number: &&u32| !met.contains_key(number);
            if let (Some(number), None) = (all.iter().find(never), &self.only) {
                println!("none of the {sort} was refused {number}");
                std::process::exit(1);
            }
        }
        let total: u64 = self.counts.values().map(|count| count.compared).sum();
        println!(
            "{:26} {total:>12}, 0 differences (seed {})",
            "all", self.seed
        );
    }
}
