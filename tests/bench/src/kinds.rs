//! Both kinds of the large book: reading a wide one, beside an old one of the same units.

use std::hint::black_box;
use std::rc::Rc;
use std::time::Duration;

use bench::baseline;
use bench::cost::{Cost, Rounds};
use bench::counter::Cycles;
use bench::table::{least_of, SUITES};
use bench::words::sentence;
use reference::book::Kind;
use reference::random::Random;
use sealed_book::raw::{self, Checked, ROW_LEN};

use crate::large::{LargeBook, LAST, NEAR, UNITS};

/// What is aimed at: the library's cost of a wide book to that of an old one, and that of its walk to the
/// walk in C.
const TO_OLD: &str = "1.03";
const TO_C: &str = "1";

/// How many units are fetched at random in a run.
const FETCHES: usize = 50;

/// Bytes of the typed sentence.
const TYPED: usize = 60;

/// A round of whole books takes a second and a half, one of fetches and walks a fifteenth of a second.
const WHOLE: Rounds = Rounds {
    most: 8,
    fewest: 3,
    time: Duration::from_secs(12),
};
const PARTS: Rounds = Rounds {
    most: 100,
    fewest: 3,
    time: Duration::from_secs(5),
};

/// The two books, in the order of the columns.
const WIDE: usize = 0;
const OLD: usize = 1;

/// A line of the table: what is done with a book.
struct Line<'a> {
    name: String,
    run: Box<dyn FnMut(&[u8]) + 'a>,
    /// How many units a run is for: the costs are of one.
    units: usize,
    /// How many runs are measured, one by one, before the other book has its turn, and how many are not,
    /// before these, to bring the book into the caches.
    runs: usize,
    before: usize,
    /// The ratio that is aimed at.
    most: &'static str,
    /// Of the wide book and the old one.
    costs: [Cost; 2],
}

impl<'a> Line<'a> {
    /// What is run on the whole book, and does not wait for memory.
    fn whole(name: &str, units: usize, run: impl FnMut(&[u8]) + 'a) -> Line<'a> {
        Line {
            name: name.to_string(),
            run: Box::new(run),
            units,
            runs: 1,
            before: 0,
            most: TO_OLD,
            costs: [Cost::NONE; 2],
        }
    }

    /// What walks once.
    fn walk(name: &str, units: usize, run: impl FnMut(&[u8]) + 'a) -> Line<'a> {
        Line {
            runs: 4,
            before: 1,
            ..Line::whole(name, units, run)
        }
    }

    /// The walk of the line before, by the baseline in C.
    fn in_c(units: usize, run: impl FnMut(&[u8]) + 'a) -> Line<'a> {
        Line {
            most: "",
            ..Line::walk("    in C", units, run)
        }
    }

    /// Measures it on a book.
    fn measure(&mut self, counter: &mut Option<Cycles>, kind: usize, book: &[u8]) {
        for _ in 0..self.before {
            (self.run)(black_box(book));
        }
        let cost = &mut self.costs[kind];
        for _ in 0..self.runs {
            cost.measure(counter, self.units, || (self.run)(black_box(book)));
        }
    }

    fn nanoseconds(&self) -> [f64; 2] {
        self.costs.map(|cost| cost.nanoseconds)
    }

    fn print(&self) {
        let [wide, old] = self.nanoseconds();
        let digits = if old < 100.0 { 2 } else { 0 };
        let [wide_cell, old_cell] = [wide, old].map(|ns| format!("{ns:.digits$}"));
        print_row(
            &self.name,
            [&wide_cell, &old_cell],
            &format!("{:.3}", wide / old),
            self.most,
        );
    }
}

fn print_row(name: &str, [wide, old]: [&str; 2], ratio: &str, most: &str) {
    let row = format!("{name:<32}{wide:>11}{old:>11}{ratio:>10}{most:>9}");
    println!("{}", row.trim_end());
}

/// Sees that both books have the same units, for everyone who reads them here.
fn assert_agreement(large: &LargeBook, books: &[&[u8]; 2], typed: &[u8], units: &[u64]) {
    assert_eq!(Kind::of(books[WIDE]), Some(Kind::Tag14));
    assert_eq!(Kind::of(books[OLD]), Some(Kind::Tag10));
    let key = &large.key;
    let [wide, old] = books.map(|book| {
        let Checked { units, calls } = raw::check(key, book).expect("accepted");
        assert_eq!(units, UNITS as u64);
        let mut page = vec![0; ROW_LEN * UNITS];
        assert_eq!(raw::page(key, book, typed, &mut page), Ok(page.len()));
        (calls, page)
    });
    assert!(wide == old);
    for k in units.iter().copied().chain([NEAR, LAST].map(|k| k as u64)) {
        let unit = &large.units[k as usize];
        let segments = [&unit.source[..], &unit.target].concat();
        for book in books {
            let mut out = vec![0; segments.len()];
            assert!(raw::fetch(key, book, k, &mut out).is_ok());
            assert!(out == segments);
            let part = raw::ciphertext(book, k);
            assert_eq!(part.len(), 2 + segments.len());
            assert_eq!(part, baseline::ciphertext(book, k));
        }
    }
}

/// Measures the lines in rounds. Both books stand in the same memory, one after the other, so that where it
/// is makes no difference.
fn measure(
    lines: &mut [Line],
    books: &[&[u8]; 2],
    rounds: Rounds,
    counter: &mut Option<Cycles>,
) -> usize {
    let mut memory = vec![0; books[WIDE].len().max(books[OLD].len())];
    rounds.run(|| {
        for kind in [WIDE, OLD] {
            let book = &mut memory[..books[kind].len()];
            book.copy_from_slice(books[kind]);
            for line in &mut *lines {
                line.measure(counter, kind, book);
            }
        }
    })
}

/// Measures all lines, and prints the table.
pub fn table(large: &Rc<LargeBook>, counter: &mut Option<Cycles>) {
    let old = large.old();
    let books = [&large.bytes[..], &old[..]];
    let (key, near, last) = (&large.key, NEAR as u64, LAST as u64);
    let mut random = Random::new(77);
    let typed = sentence(&mut random, TYPED);
    let units: Vec<u64> = (0..FETCHES).map(|_| random.below(UNITS) as u64).collect();
    assert_agreement(large, &books, &typed, &units);

    let mut page = vec![0; ROW_LEN * UNITS];
    let [mut out, mut last_out] = [(); 2].map(|()| vec![0; raw::UNIT_MAX]);
    let mut whole = [
        Line::whole("check", UNITS, |book| {
            black_box(raw::check(key, book).expect("accepted"));
        }),
        Line::whole(&format!("page, {TYPED} bytes typed"), UNITS, |book| {
            raw::page(key, book, &typed, &mut page).expect("accepted");
        }),
    ];
    let mut parts = [
        Line::whole("fetch of a unit at random", FETCHES, |book| {
            for k in &units {
                raw::fetch(key, book, *k, &mut out).expect("not refused");
            }
        }),
        Line::walk("fetch of the last unit", 1, |book| {
            raw::fetch(key, book, last, &mut last_out).expect("not refused");
        }),
        Line::walk("walk to the last unit", LAST, |book| {
            black_box(raw::ciphertext(book, last));
        }),
        Line::in_c(LAST, |book| {
            black_box(baseline::ciphertext(book, last));
        }),
        Line::walk(&format!("walk to unit {NEAR}"), NEAR, |book| {
            black_box(raw::ciphertext(book, near));
        }),
        Line::in_c(NEAR, |book| {
            black_box(baseline::ciphertext(book, near));
        }),
    ];
    let whole_rounds = measure(&mut whole, &books, WHOLE, counter);
    let rounds = measure(&mut parts, &books, PARTS, counter);

    let [wide_len, old_len] = books.map(<[u8]>::len);
    println!("Both kinds of the large book, with {}: nanoseconds a unit that is checked, compared, fetched or passed.", SUITES[0].0);
    println!("  wide       numbers of 4 bytes, as the library writes it: {wide_len} bytes");
    println!(
        "  old        the same units, numbers of 2 bytes, by bench/baseline.c: {old_len} bytes"
    );
    println!("Walk is sb_ciphertext alone, which walks to the unit and does not open it. What stands before unit {NEAR} is about");
    println!("a megabyte, so that this walk hardly waits for memory. A fetch of a unit at random walks over half of the book");
    println!("on the average. Both books stand in the same memory, one after the other.");
    println!("{}", least_of(rounds));
    println!("Check and page have {whole_rounds} rounds.");
    println!();
    print_row("", ["wide", "old"], "wide/old", "at most");
    let (fetches, walks) = parts.split_at(2);
    whole.iter().chain(fetches).for_each(Line::print);
    for walk in walks.chunks(2) {
        walk.iter().for_each(Line::print);
        print_to_c(&walk[0], &walk[1]);
    }
}

/// The library's walk to that in C, of a wide book and an old one.
fn print_to_c(library: &Line, in_c: &Line) {
    let [library, in_c] = [library, in_c].map(Line::nanoseconds);
    let [wide, old] = [WIDE, OLD].map(|kind| format!("{:.3}", library[kind] / in_c[kind]));
    print_row("    library / C", [&wide, &old], "", TO_C);
}
