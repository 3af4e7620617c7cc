//! Pages of a large book, beside checking it.

use std::rc::Rc;
use std::time::Duration;

use bench::baseline;
use bench::cost::{Per, Rounds};
use bench::counter::Cycles;
use bench::table::{Contestant, Line, Table, SUITES};
use bench::words::sentence;
use reference::page::page;
use reference::random::Random;
use sealed_book::raw::{self, ROW_LEN};

use crate::large::{LargeBook, ONE_LONG_IN, UNITS};

/// Bytes of the typed sentences.
const TYPED: [usize; 3] = [20, 60, 200];

/// The second implementation compares the first so many.
const FEWER_UNITS: usize = 3 * ONE_LONG_IN;

/// A round takes some seconds.
const ROUNDS: Rounds = Rounds {
    most: 6,
    fewest: 3,
    time: Duration::from_secs(20),
};

/// A book, a typed sentence, and the page.
#[derive(Clone)]
struct Data {
    book: Rc<LargeBook>,
    typed: Vec<u8>,
    page: Vec<u8>,
}

impl Data {
    fn new(book: &Rc<LargeBook>, typed: &[u8]) -> Data {
        Data {
            book: book.clone(),
            typed: typed.to_vec(),
            page: vec![0; ROW_LEN * book.units.len()],
        }
    }
}

fn library(data: &mut Data) {
    let Data { book, typed, page } = data;
    let len = raw::page(&book.key, &book.bytes, typed, page).expect("accepted");
    assert_eq!(len, page.len());
}

fn second(data: &mut Data) {
    let Data { book, typed, .. } = data;
    data.page = page(&book.key, &book.bytes, typed, data.page.len()).expect("accepted");
}

fn in_c(data: &mut Data) {
    let Data { book, typed, page } = data;
    let len = baseline::page(&book.key, &book.bytes, typed, page).expect("accepted");
    assert_eq!(len, page.len());
}

fn check(data: &mut Data) {
    let checked = raw::check(&data.book.key, &data.book.bytes).expect("accepted");
    assert_eq!(checked.units, data.book.units.len() as u64);
}

fn lines(books: &[Rc<LargeBook>; 2]) -> Vec<Line<Data>> {
    let mut lines = Vec::new();
    for ((name, suite), book) in SUITES.into_iter().zip(books) {
        let first_units = Rc::new(LargeBook::new(suite, FEWER_UNITS));
        let mut random = Random::new(77);
        for len in TYPED {
            let typed = sentence(&mut random, len);
            lines.push(Line {
                cells: format!("{name:<11}{len:>6}"),
                size: UNITS,
                later: false,
                data: Data::new(book, &typed),
                less: Some((FEWER_UNITS, Data::new(&first_units, &typed))),
                turns: 1,
            });
        }
    }
    lines
}

/// Measures all lines in turns, and prints the table.
pub fn table(books: &[Rc<LargeBook>; 2], counter: &mut Option<Cycles>) {
    let table = Table {
        title: "Pages of the large book: nanoseconds and cycles a unit.",
        contestants: vec![
            Contestant::library(1, library),
            Contestant::check("its check of the same book alone", 1, check),
            Contestant::reference(&format!(", on the first {FEWER_UNITS} units"), 1, second)
                .up_to(FEWER_UNITS),
            Contestant::baseline("", 1, in_c),
        ],
        notes: vec![
            "Typed is the length of the typed sentence in bytes. Sources and typed sentences are of words, drawn from the same list."
                .to_string(),
        ],
        on_numbers: vec!["Ratios are of ns a unit."],
        per: Per::Unit,
        rounds: ROUNDS,
        head: format!("{:<11}{:>6}", "suite", "typed"),
        later: None,
        lines: lines(books),
        left: |data| &data.page,
    };
    table.print(counter);
}
