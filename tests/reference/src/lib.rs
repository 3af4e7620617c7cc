//! A second implementation of the tweakable block ciphers Scream and iScream (CAESAR version 1), of the
//! sealing mode over them, of the writer, the checker and the fetcher of sealed books, of what these say in
//! the clear, and of the page that compares a typed sentence with a book.
//!
//! It is written from the paper's tables, on columns and rows as the paper draws them, and is
//! never fast: it is there to be read, and to hold other implementations against.

pub mod book;
pub mod boxes;
pub mod check;
pub mod cipher;
pub mod clear;
pub mod fetch;
pub mod page;
pub mod random;
pub mod score;
pub mod sealing;
pub mod state;
pub mod tables;
pub mod tweakey;
pub mod vectors;
pub mod writer;

#[cfg(test)]
mod printed;
