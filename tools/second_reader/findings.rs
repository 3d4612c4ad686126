//! Counts what a comparison reached, keeps its mismatches, and reports both.

use crate::replay::Outcome;

const MISMATCHES_KEPT: usize = 10;

const OUTCOMES: [Outcome; 8] = [
    Outcome::Fresh,
    Outcome::Repeat,
    Outcome::Waiting,
    Outcome::Ignored,
    Outcome::Fault,
    Outcome::Restart,
    Outcome::Quiet,
    Outcome::Taken,
];
const READS: [&str; 4] = ["PP", "PF", "FP", "FF"];

#[derive(Default)]
pub struct Findings {
    books: u64,
    records: u64,
    /// By number, in the lines of books.
    refusals: [u64; 19],
    outcomes: [u64; 8],
    reads: [u64; 4],
    /// By number, in calls that are made apart from books: judging, signing, short buffers.
    pub apart: [u64; 19],
    pub judged: u64,
    pub signed: u64,
    mismatches: Vec<String>,
}

impl Findings {
    /// False if there are enough mismatches to stop.
    pub fn go_on(&self) -> bool {
        self.mismatches.len() < MISMATCHES_KEPT
    }

    pub fn mismatch(&mut self, text: String) {
        self.mismatches.push(text);
    }

    pub fn count_text(&mut self, text: &[u8]) {
        self.books += 1;
        for line in text.split(|&octet| octet == b'\n') {
            self.count_line(line);
        }
    }

    fn count_line(&mut self, line: &[u8]) {
        let mut words = line.split(|&octet| octet == b' ');
        let first = words.next().unwrap_or_default();
        if first == b"refused" {
            self.count_refusal(words.next().unwrap_or_default());
        }
        if !first.first().is_some_and(u8::is_ascii_digit) {
            return;
        }
        self.records += 1;
        let answer = words.nth(1).unwrap_or_default();
        if answer == b"refused" {
            return self.count_refusal(words.next().unwrap_or_default());
        }
        for (outcome, count) in OUTCOMES.iter().zip(&mut self.outcomes) {
            *count += u64::from(answer == outcome.word().as_bytes());
        }
        for (reads, count) in READS.iter().zip(&mut self.reads) {
            *count += u64::from(line.ends_with(reads.as_bytes()));
        }
    }

    fn count_refusal(&mut self, digits: &[u8]) {
        let digits = digits.iter().map(|&digit| usize::from(digit - b'0'));
        self.refusals[digits.fold(0, |number, digit| number * 10 + digit)] += 1;
    }

    pub fn join(&mut self, other: Findings) {
        fn add<const N: usize>(ours: &mut [u64; N], theirs: [u64; N]) {
            ours.iter_mut()
                .zip(theirs)
                .for_each(|(count, more)| *count += more);
        }
        self.books += other.books;
        self.records += other.records;
        add(&mut self.refusals, other.refusals);
        add(&mut self.outcomes, other.outcomes);
        add(&mut self.reads, other.reads);
        self.mismatches.extend(other.mismatches);
    }

    /// Prints everything; true if nothing differed and all was reached but the refusals that are not expected.
    pub fn report(&self, not_expected: &[usize]) -> bool {
        for mismatch in self.mismatches.iter().take(MISMATCHES_KEPT) {
            println!("{mismatch}");
        }
        println!("{:<18} {:>12}", "books compared", self.books);
        println!("{:<18} {:>12}", "records replayed", self.records);
        println!("{:<18} {:>12}", "blocks judged", self.judged);
        println!("{:<18} {:>12}", "frames signed", self.signed);
        let missing = [self.print_refusals(not_expected), self.print_words()].concat();
        println!("{:<18} {:>12}", "mismatches", self.mismatches.len());
        if !missing.is_empty() {
            println!("not reached: {}", missing.join(", "));
        }
        let good = missing.is_empty() && self.mismatches.is_empty();
        println!("{}", if good { "SAME" } else { "FAIL" });
        good
    }

    /// Gives back what was not reached.
    fn print_refusals(&self, not_expected: &[usize]) -> Vec<String> {
        let mut missing = Vec::new();
        println!("{:<18} {:>12} {:>12}", "", "in books", "apart");
        for number in 1..self.refusals.len() {
            let (books, apart) = (self.refusals[number], self.apart[number]);
            let name = format!("refusal {number}");
            println!("{name:<18} {books:>12} {apart:>12}");
            if books + apart == 0 && !not_expected.contains(&number) {
                missing.push(name);
            }
        }
        missing
    }

    fn print_words(&self) -> Vec<String> {
        let mut missing = Vec::new();
        let outcomes = OUTCOMES.iter().map(|outcome| outcome.word());
        let words = outcomes.zip(self.outcomes);
        for (word, count) in words.chain(READS.into_iter().zip(self.reads)) {
            println!("{word:<18} {count:>12}");
            if count == 0 {
                missing.push(word.to_string());
            }
        }
        missing
    }
}
