//! Fetching one unit of the large book by its place: the walk to it, and the rest.

use std::hint::black_box;
use std::iter::zip;
use std::rc::Rc;
use std::time::Duration;

use bench::baseline;
use bench::cache::put_out;
use bench::calls::OpenCalls;
use bench::cost::{Cost, Rounds};
use bench::counter::Cycles;
use bench::table::{least_of, SUITES};
use sealed_book::raw;

use crate::large::{segments, LargeBook, FIRST, LAST, LONG, MIDDLE, NEAR};

/// The units that are fetched.
const UNITS: [usize; 5] = [FIRST, LONG, NEAR, MIDDLE, LAST];

/// What is aimed at: nanoseconds of the walk for a unit that it passes, and the time of a fetch with no
/// walk to that of its calls of the cipher.
const WALK: &str = "15";
const TO_CALLS: &str = "1.25";

/// The rounds of fetches from a book that stands in no cache.
const COLD: Rounds = Rounds {
    most: 20,
    fewest: 3,
    time: Duration::from_secs(2),
};

/// What was measured on a unit, by its column.
#[derive(Clone, Copy)]
enum Column {
    Fetch,
    Walk,
    Calls,
    InC,
    Cold,
    ColdInC,
}

use Column::*;

/// The columns and their heads, in their order.
const COLUMNS: [(Column, [&str; 2]); 6] = [
    (Fetch, ["", "fetch"]),
    (Walk, ["", "walk"]),
    (Calls, ["", "calls"]),
    (InC, ["", "C"]),
    (Cold, ["cold", "fetch"]),
    (ColdInC, ["cold", "C"]),
];

/// A unit that is fetched.
struct Line {
    book: Rc<LargeBook>,
    k: usize,
    calls: OpenCalls,
    out: Vec<u8>,
    costs: [Cost; 6],
}

impl Line {
    fn new(book: &Rc<LargeBook>, k: usize) -> Line {
        let text = 2 + segments(&book.units[k]);
        let line = Line {
            book: book.clone(),
            k,
            calls: OpenCalls::of_unit(book.suite, book.key, text),
            out: vec![0; 8_192],
            costs: [Cost::NONE; 6],
        };
        // "⌈a/16⌉ + ⌈m/16⌉ + 1 in all", with a header of 27 bytes
        assert_eq!(line.calls.count(), 2 + text.div_ceil(16) + 1);
        line.assert_fetched();
        line
    }

    /// Sees that library and baseline fetch the unit, and that its ciphertext is found.
    fn assert_fetched(&self) {
        let (key, bytes, k) = (&self.book.key, &self.book.bytes, self.k as u64);
        let unit = &self.book.units[self.k];
        let lengths = (unit.source.len(), unit.target.len());
        let segments = [&unit.source[..], &unit.target].concat();
        let mut out = vec![0; segments.len()];
        let fetched = raw::fetch(key, bytes, k, &mut out).expect("not refused");
        assert_eq!((fetched.source, fetched.target), lengths);
        assert!(out == segments);
        out.fill(0);
        assert_eq!(baseline::fetch(key, bytes, k, &mut out), Ok(lengths));
        assert!(out == segments);
        assert_eq!(raw::ciphertext(bytes, k).len(), 2 + segments.len());
    }

    /// Runs one of those who are measured.
    fn run(&mut self, column: Column) {
        let (key, bytes, k) = (&self.book.key, &self.book.bytes, self.k as u64);
        let out = &mut self.out;
        match column {
            Fetch | Cold => {
                raw::fetch(key, bytes, k, out).expect("not refused");
            }
            InC | ColdInC => {
                baseline::fetch(key, bytes, k, out).expect("not refused");
            }
            Walk => {
                black_box(raw::ciphertext(bytes, k));
            }
            Calls => self.calls.run(),
        }
    }

    /// Measures a column once, by so many runs.
    fn measure(&mut self, counter: &mut Option<Cycles>, column: Column, runs: usize) {
        let mut cost = self.cost(column);
        cost.measure(counter, runs, || {
            for _ in 0..runs {
                black_box(&mut *self).run(column);
            }
        });
        self.costs[column as usize] = cost;
    }

    /// Measures what is not cold, three times in turns, so that the book comes into the caches as far as
    /// these have room, and each by as many runs as take a tenth of a millisecond or so.
    fn measure_warm(&mut self, counter: &mut Option<Cycles>) {
        let bytes = segments(&self.book.units[self.k]);
        for column in [Fetch, Walk, Calls, InC].repeat(3) {
            let runs = match column {
                Walk => 8_192 / (1 + self.k),
                _ => 8_192 / (bytes + self.k),
            };
            self.measure(counter, column, runs.max(1));
        }
    }

    /// Measures what is cold, where the book can be put out of the caches.
    fn measure_cold(&mut self, counter: &mut Option<Cycles>) {
        for column in [Cold, ColdInC] {
            if put_out(&self.book.bytes) {
                self.measure(counter, column, 1);
            }
        }
    }

    fn cost(&self, column: Column) -> Cost {
        self.costs[column as usize]
    }

    fn print(&self, name: &str) {
        let bytes = segments(&self.book.units[self.k]);
        print!("{name:<11}{:>6}{bytes:>7}", self.k);
        for (column, _) in COLUMNS {
            print!("{:>9}", number(self.cost(column).nanoseconds, 0));
        }
        println!();
    }
}

/// A cell; `-` where nothing was measured.
fn number(value: f64, digits: usize) -> String {
    match value.is_finite() {
        true => format!("{value:.digits$}"),
        false => "-".to_string(),
    }
}

/// Measures all units in turns, and prints the table.
pub fn table(books: &[Rc<LargeBook>; 2], counter: &mut Option<Cycles>) {
    let mut suites = books
        .each_ref()
        .map(|book| UNITS.map(|k| Line::new(book, k)));
    let lines = suites.as_flattened_mut();
    let rounds = Rounds::USUAL.run(|| lines.iter_mut().for_each(|line| line.measure_warm(counter)));
    let cold = COLD.run(|| lines.iter_mut().for_each(|line| line.measure_cold(counter)));

    println!("Fetching one unit of the large book: nanoseconds a fetch.");
    println!("  fetch      the proved library");
    println!("  walk       its sb_ciphertext alone, which walks to the unit and does not open it");
    println!("  calls      its functions on many blocks alone, two calls, on as many as the unit's call list has:");
    println!("             4 blocks are enciphered, the others deciphered, each of them once");
    println!("  C          bench/baseline.c with -O3");
    println!("  cold       the two fetches, each after the whole book was put out of the caches, in {cold} rounds");
    println!("Unit is its number, and so how many are passed; bytes are those of source and target together.");
    println!("{}", least_of(rounds));
    println!();
    for (row, first) in ["", "suite        unit  bytes"].into_iter().enumerate() {
        print!("{first:<24}");
        for (_, heads) in COLUMNS {
            print!("{:>9}", heads[row]);
        }
        println!();
    }
    for ((name, _), lines) in zip(SUITES, &suites) {
        for line in lines {
            line.print(name);
        }
    }
    println!();
    print_against_targets(&suites);
}

/// Prints the walk and the rest of a fetch for each suite, beside what is aimed at.
fn print_against_targets(suites: &[[Line; 5]; 2]) {
    let row = |what: &str, most: &str, value: &dyn Fn(&[Line; 5]) -> String| {
        let [one, other] = suites.each_ref().map(value);
        println!("{what:<56}{one:>11}{other:>11}{most:>9}");
    };
    let nanoseconds = |lines: &[Line; 5], unit: usize, column: Column| {
        let line = lines.iter().find(|line| line.k == unit);
        line.expect("it is measured").cost(column).nanoseconds
    };
    let walk = |column: Column, to: usize| {
        move |lines: &[Line; 5]| {
            let [first, last] = [FIRST, to].map(|unit| nanoseconds(lines, unit, column));
            number((last - first) / to as f64, 2)
        }
    };
    let to_calls = |unit: usize| {
        move |lines: &[Line; 5]| {
            let [fetch, calls] = [Fetch, Calls].map(|column| nanoseconds(lines, unit, column));
            number(fetch / calls, 3)
        }
    };

    let [one, other] = SUITES.map(|(name, _)| name);
    println!("{:<56}{one:>11}{other:>11}{:>9}", "", "at most");
    let name = format!("walk, ns a unit passed: (fetch {LAST} - fetch {FIRST}) / {LAST}");
    row(&name, WALK, &walk(Fetch, LAST));
    let name = format!("    the same, to unit {MIDDLE}");
    row(&name, "", &walk(Fetch, MIDDLE));
    let name = format!("    the same, to unit {NEAR}");
    row(&name, "", &walk(Fetch, NEAR));
    row("    by sb_ciphertext alone", "", &walk(Walk, LAST));
    row("    in C", "", &walk(InC, LAST));
    row("    cold", "", &walk(Cold, LAST));
    row("    cold, in C", "", &walk(ColdInC, LAST));
    let name = format!("rest, 200 bytes: fetch {FIRST} / its calls");
    row(&name, TO_CALLS, &to_calls(FIRST));
    let name = format!("rest, 8192 bytes: fetch {LONG} / its calls");
    row(&name, TO_CALLS, &to_calls(LONG));
}
