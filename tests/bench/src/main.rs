//! Measures the proved library beside the reference and the baseline in C, all in one run.

mod checking;
mod ciphers;
mod fetching;
mod kinds;
mod large;
mod paging;
mod scoring;
mod sealing;
mod walking;
mod writing;

use std::rc::Rc;

use bench::counter::Cycles;
use bench::table::SUITES;
use large::{LargeBook, UNITS};

fn main() {
    let mut counter = Cycles::open();
    ciphers::table(&mut counter);
    println!();
    sealing::table(&mut counter);
    println!();
    writing::table(&mut counter);
    println!();
    checking::table(&mut counter);
    println!();
    scoring::table(&mut counter);
    println!();
    let books = SUITES.map(|(_, suite)| Rc::new(LargeBook::new(suite, UNITS)));
    fetching::table(&books, &mut counter);
    println!();
    walking::table(&books, &mut counter);
    println!();
    paging::table(&books, &mut counter);
    println!();
    kinds::table(&books[0], &mut counter);
}
