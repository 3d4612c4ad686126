//! Times both replays on the same books.

use crate::compare::TEXT_ROOM;
use crate::generate::{self, Rng};
use crate::{proved, replay};
use std::hint::black_box;
use std::time::{Duration, Instant};

const PASSES: usize = 25;
const BATCH_OCTETS: usize = 6_000_000;

struct Sort {
    name: &'static str,
    books: Vec<Vec<u8>>,
    records: usize,
    proved: Duration,
    plain: Duration,
}

impl Sort {
    fn new(name: &'static str, books: Vec<Vec<u8>>) -> Sort {
        let mut text = Vec::new();
        books
            .iter()
            .for_each(|book| replay::replay(book, &mut text));
        let lines = text.iter().filter(|&&octet| octet == b'\n').count();
        Sort {
            name,
            records: lines - books.len(),
            books,
            proved: Duration::MAX,
            plain: Duration::MAX,
        }
    }

    /// One pass of each replay over all books, each into its own buffer from the front.
    fn pass(&mut self, room: &mut [u8], text: &mut Vec<u8>) {
        room.fill(0);
        let begin = Instant::now();
        for book in &self.books {
            black_box(proved::replay(black_box(book), room));
        }
        self.proved = self.proved.min(begin.elapsed());
        black_box(&room);

        text.resize(TEXT_ROOM, 0);
        text.fill(0);
        let begin = Instant::now();
        for book in &self.books {
            text.clear();
            replay::replay(black_box(book), text);
            black_box(&text);
        }
        self.plain = self.plain.min(begin.elapsed());
    }
}

fn batch() -> Vec<Vec<u8>> {
    let mut books = Vec::new();
    let mut octets = 0;
    while octets < BATCH_OCTETS {
        let book = generate::valid_book(Rng::new(2, books.len() as u64));
        octets += book.len();
        books.push(book);
    }
    books
}

fn sorts() -> Vec<Sort> {
    let smallest = generate::monotonous_book(3, 0, 3, &[]);
    let offers = generate::monotonous_book(3, 0, 4, &[0]);
    let long_offers = generate::monotonous_book(4, 123, 4, &[0; 124]);
    vec![
        Sort::new("generated valid books", batch()),
        Sort::new("block, smallest records", vec![smallest]),
        Sort::new("block, offers of no data", vec![offers]),
        Sort::new("block, offers of 123 data", vec![long_offers]),
    ]
}

fn print_row(name: &str, octets: usize, records: usize, proved: Duration, plain: Duration) {
    let each = |time: Duration| time.as_nanos() as f64 / records as f64;
    println!(
        "{name:<26} {octets:>9} {records:>8} {:>10.1} {:>10.1} {:>7.2}",
        each(proved),
        each(plain),
        proved.as_secs_f64() / plain.as_secs_f64()
    );
}

pub fn speed() {
    let mut sorts = sorts();
    let mut room = vec![0; TEXT_ROOM];
    let mut text = Vec::with_capacity(TEXT_ROOM);
    for _ in 0..PASSES {
        for sort in &mut sorts {
            sort.pass(&mut room, &mut text);
        }
    }
    println!(
        "{:<26} {:>9} {:>8} {:>10} {:>10} {:>7}",
        "ns per record, best of 25", "octets", "records", "proved", "plain", "ratio"
    );
    let (mut octets, mut records) = (0, 0);
    let (mut proved, mut plain) = (Duration::ZERO, Duration::ZERO);
    for sort in &sorts {
        let size = sort.books.iter().map(Vec::len).sum();
        print_row(sort.name, size, sort.records, sort.proved, sort.plain);
        octets += size;
        records += sort.records;
        proved += sort.proved;
        plain += sort.plain;
    }
    print_row("total", octets, records, proved, plain);
}
