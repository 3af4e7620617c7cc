//! A large book: written, checked, and units of it fetched.

use std::hint::black_box;
use std::iter::zip;
use std::rc::Rc;
use std::time::Duration;

use bench::baseline;
use bench::cost::{Cost, Per, Rounds};
use bench::counter::Cycles;
use bench::table::{Contestant, Line, Table, SUITES};
use reference::check::check;
use reference::fetch::{fetch, Fetched};
use reference::random::Random;
use sealed_book::{raw, Book};

use crate::large::{segments, LargeBook, ONE_LONG_IN, UNITS};

/// How many units are fetched.
const FETCHES: usize = 3_000;

/// How many the second implementation writes and checks, and how many it fetches: for all of them it
/// would take too long.
const FEWER_UNITS: usize = 3 * ONE_LONG_IN;
const FEWER_FETCHES: usize = 200;

/// A round takes some ten seconds.
const ROUNDS: Rounds = Rounds {
    most: 4,
    fewest: 2,
    time: Duration::from_secs(15),
};

/// The turns of writing and checking in a round, which take less time than fetching.
const TURNS: usize = 2;

#[derive(Clone)]
enum What {
    Write,
    Check,
    /// These units, one after the other.
    Fetch(Vec<u64>),
    /// These too, through the crate's book.
    FetchNoted(Vec<u64>, Rc<Book<Bytes>>),
}

/// The bytes of a large book.
#[derive(Clone)]
struct Bytes(Rc<LargeBook>);

impl AsRef<[u8]> for Bytes {
    fn as_ref(&self) -> &[u8] {
        &self.0.bytes
    }
}

/// A book, what is done with it, and what that leaves: its bytes, the two counts of a check, or the
/// segments that were fetched.
#[derive(Clone)]
struct Data {
    book: Rc<LargeBook>,
    what: What,
    left: Vec<u8>,
}

impl Data {
    fn write(book: &Rc<LargeBook>) -> Data {
        Data {
            book: book.clone(),
            what: What::Write,
            left: vec![0; book.bytes.len()],
        }
    }

    fn check(book: &Rc<LargeBook>) -> Data {
        Data {
            book: book.clone(),
            what: What::Check,
            left: vec![0; 16],
        }
    }

    fn fetch(book: &Rc<LargeBook>, fetches: usize) -> Data {
        let mut random = Random::new(2014);
        let units: Vec<usize> = (0..fetches).map(|_| random.below(UNITS)).collect();
        let len = units.iter().map(|k| segments(&book.units[*k])).sum();
        Data {
            book: book.clone(),
            what: What::Fetch(units.into_iter().map(|k| k as u64).collect()),
            left: vec![0; len],
        }
    }

    /// The same fetches through the crate's book, which is checked and has not noted anything.
    fn fetch_noted(book: &Rc<Book<Bytes>>, large: &Rc<LargeBook>, fetches: usize) -> Data {
        let data = Data::fetch(large, fetches);
        let What::Fetch(units) = data.what else {
            unreachable!("units are fetched");
        };
        let what = What::FetchNoted(units, book.clone());
        Data { what, ..data }
    }

    /// Keeps the counts of a check.
    fn keep(&mut self, units: u64, calls: u64) {
        self.left[..8].copy_from_slice(&units.to_be_bytes());
        self.left[8..].copy_from_slice(&calls.to_be_bytes());
    }
}

/// Has each unit's segments put behind those before them.
fn fetch_each(units: &[u64], mut out: &mut [u8], fetch: impl Fn(u64, &mut [u8]) -> usize) {
    for k in units {
        let len = fetch(*k, out);
        out = &mut out[len..];
    }
    assert!(out.is_empty());
}

fn library(data: &mut Data) {
    let Data { book, what, left } = data;
    match what {
        What::Write => book.write(left),
        What::Check => {
            let checked = raw::check(&book.key, &book.bytes).expect("accepted");
            data.keep(checked.units, checked.calls);
        }
        What::Fetch(units) => fetch_each(units, left, |k, out| {
            let fetched = raw::fetch(&book.key, &book.bytes, k, out).expect("not refused");
            fetched.source + fetched.target
        }),
        What::FetchNoted(units, noted) => fetch_each(units, left, |k, out| {
            let unit = noted.fetch(k).expect("not refused");
            put(out, &unit.source, &unit.target)
        }),
    }
}

/// Puts source and target at the start of the output, and returns their length.
fn put(out: &mut [u8], source: &[u8], target: &[u8]) -> usize {
    let (first, then) = out.split_at_mut(source.len());
    first.copy_from_slice(source);
    then[..target.len()].copy_from_slice(target);
    source.len() + target.len()
}

fn second(data: &mut Data) {
    let Data { book, what, left } = data;
    match what {
        What::Write => book.write_by_reference(left),
        What::Check => {
            let (units, calls) = check(&book.key, &book.bytes).expect("accepted");
            data.keep(units, calls);
        }
        What::Fetch(units) | What::FetchNoted(units, _) => fetch_each(units, left, |k, out| {
            let fetched = fetch(&book.key, &book.bytes, k, out.len()).expect("not refused");
            let Fetched { source, target } = fetched;
            put(out, &source, &target)
        }),
    }
}

fn in_c(data: &mut Data) {
    let Data { book, what, left } = data;
    match what {
        What::Write => book.write_in_c(left),
        What::Check => {
            let (units, calls) = baseline::check(&book.key, &book.bytes).expect("accepted");
            data.keep(units, calls);
        }
        What::Fetch(units) | What::FetchNoted(units, _) => fetch_each(units, left, |k, out| {
            let (s, t) = baseline::fetch(&book.key, &book.bytes, k, out).expect("not refused");
            s + t
        }),
    }
}

/// The lines of the table. The crate's books have not noted anything.
fn lines(books: &[Rc<LargeBook>; 2], checked: &[Rc<Book<Bytes>>; 2]) -> Vec<Line<Data>> {
    let mut lines = Vec::new();
    for (((name, suite), book), checked) in SUITES.into_iter().zip(books).zip(checked) {
        let first_units = Rc::new(LargeBook::new(suite, FEWER_UNITS));
        let whole = |data: fn(&Rc<LargeBook>) -> Data| {
            let [data, less] = [book, &first_units].map(data);
            ((UNITS, data), (FEWER_UNITS, less))
        };
        let fetch = |count: usize| (count, Data::fetch(book, count));
        let noted = |count: usize| (count, Data::fetch_noted(checked, book, count));
        for (word, turns, ((size, data), less)) in [
            ("write", TURNS, whole(Data::write)),
            ("check", TURNS, whole(Data::check)),
            ("fetch", 1, (fetch(FETCHES), fetch(FEWER_FETCHES))),
            ("Book", 1, (noted(FETCHES), noted(FEWER_FETCHES))),
        ] {
            lines.push(Line {
                cells: format!("{name:<11}{word:<6}{size:>6}{:>7}", less.0),
                size,
                later: false,
                data,
                less: Some(less),
                turns,
            });
        }
    }
    lines
}

/// What the first use of the crate's book costs, which notes where each unit begins: a unit.
fn first_use(checked: &Book<Bytes>, counter: &mut Option<Cycles>) -> Cost {
    let mut cost = Cost::NONE;
    Rounds::USUAL.run(|| {
        let book = checked.clone();
        cost.measure(counter, UNITS, || {
            black_box(book.ciphertext(0));
        });
    });
    cost
}

/// The costs of the first use in words.
fn first_uses(costs: [Cost; 2]) -> String {
    let words = zip(SUITES, costs).map(|((name, _), cost)| {
        let unit = cost.nanoseconds;
        let all = unit * UNITS as f64 / 1e6;
        format!("{all:.2} ms with {name} ({unit:.1} ns a unit)")
    });
    words.collect::<Vec<_>>().join(", ")
}

/// Measures all lines in turns, and prints the table.
pub fn table(books: &[Rc<LargeBook>; 2], counter: &mut Option<Cycles>) {
    let checked = books.each_ref().map(|book| {
        let checked = Book::check(&book.key, Bytes(book.clone()));
        Rc::new(checked.expect("accepted"))
    });
    let first = checked.each_ref().map(|book| first_use(book, counter));
    let long = UNITS / ONE_LONG_IN;
    let len = books[0].bytes.len();
    let table = Table {
        title: "A large book: nanoseconds and cycles a unit that is written, checked or fetched.",
        contestants: vec![
            Contestant::library(1, library),
            Contestant::reference(", on fewer units", 1, second).up_to(FEWER_UNITS),
            Contestant::baseline("", 1, in_c),
        ],
        notes: vec![
            format!("The book has {UNITS} units and {len} bytes. {long} of its units, spread evenly, have 4096 + 4096"),
            "bytes in source and target, the others 160 to 240 together. Units is how many the library and C write,".to_string(),
            "check or fetch, fewer is how many the reference does: it writes and checks a book of the first units,".to_string(),
            "with the same share of long ones, and fetches from the whole book. A fetch is of a unit at random, and".to_string(),
            format!("walks over half of the book on the average. Writing and checking have {TURNS} turns in a round."),
            "Book is the same fetches, by the library through Book of the crate for Rust, which has noted where its".to_string(),
            "units begin; the reference and C walk. Noting them takes 8 bytes of memory a unit, and at the first use,".to_string(),
            format!("which is not counted in, {}.", first_uses(first)),
        ],
        on_numbers: vec!["Ratios are of ns a unit."],
        per: Per::Unit,
        rounds: ROUNDS,
        head: format!("{:<17}{:>6}{:>7}", "suite", "units", "fewer"),
        later: None,
        lines: lines(books, &checked),
        left: |data| &data.left,
    };
    table.print(counter);
}
