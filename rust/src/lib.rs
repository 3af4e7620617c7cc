//! Sealed books, for the makers of translation memory software: a manual that is not released yet goes to
//! a translator as one sealed file, a **book**.
//!
//! A book is a list of **units**, each a source text and its translation, with the languages of the two, which may
//! be the same, as where English is rewritten in a controlled English.
//! A [`Writer`] writes one, and gives a [`Receipt`] with it; [`Book::check_receipt`] accepts the bytes under
//! the key where a writer can have left them and they have the receipt's three numbers, and refuses any other;
//! units are then fetched one by one or in order. Texts are sealed with the tweakable block ciphers Scream and iScream
//! (CAESAR version 1).
//!
//! ```
//! use sealed_book::{Book, Refusal, Suite, Writer};
//!
//! # fn main() -> Result<(), Box<dyn std::error::Error>> {
//! # let key = [7; 16];
//! // in a function that returns Result<_, Box<dyn std::error::Error>>
//! // key: 16 secret bytes; no other book under it has the number 7
//! let mut writer = Writer::start(Suite::SCREAM_10, &key, 7)?;
//! writer.add("en", "de", "Hold the button down.", "Halten Sie die Taste.")?;
//! writer.add("en", "fr", "Hold the button down.", "Maintenez le bouton.")?;
//! let (bytes, receipt) = writer.close()?; // the receipt goes another way than the bytes
//!
//! let book = Book::check_receipt(&key, bytes, &receipt)?; // all of it, or a refusal
//! assert_eq!(book.number(), 7);
//! assert_eq!(book.fetch(1)?.target_text()?, "Maintenez le bouton.");
//! for unit in &book {
//!     println!("{}", unit?.source_text()?);
//! }
//! assert_eq!(book.fetch(2), Err(Refusal::NoSuchUnit)); // what cannot be done says why
//! # Ok(())
//! # }
//! ```
//!
//! [`Book::page`] compares a typed sentence with every unit of a book, a row each, and [`score`] two segments.
//!
//! Where there is no receipt, [`Book::check`] does the rest: without one, a text that was made shorter on the
//! way may be accepted ([`Receipt`] says when). [`fetch`] opens one unit of bytes that were not checked, and
//! says what is tested then. [`info`] and [`clear_unit`] read what stands in the clear, without the
//! key. [`seal`] and [`open`] do a single text. A call that cannot be done gives a [`Refusal`] and changes
//! nothing that was lent. A book that a call takes over is dropped with a refusal: lend `&bytes` to keep it.
//!
//! A book has at most 16,777,215 units. Books that versions before 0.3 have written, with at most 65,535 units, are
//! read by everything here that reads a book; those versions do not read the books that this one writes. Versions
//! before 0.4 refuse a book in which a unit's two language codes are the same.
//!
//! # What stands below
//!
//! All of this calls a static library, which is proved to do what its definitions say, for all inputs; [`raw`] has its functions one to one. This crate adds memory and types, and is
//! tested, not proved. docs/PROOFS.md says what is proved, and docs/SECURITY.md what is promised and what a
//! user has to see to.
//!
//! # Building
//!
//! The build script proves the library and has its archive put among cargo's own output, which needs the
//! Rattle kit (`rt`) and `ar`. Where the variable `SEALED_BOOK_LIB` has the absolute path of a folder, the
//! archive `libsealed_book.a` there is linked instead. It is for x86-64 Linux.

#![deny(missing_docs)]

mod book;
mod clear;
mod fetching;
pub mod foreign;
pub mod raw;
mod receipt;
mod refusal;
mod score;
mod sealing;
mod secret;
mod suite;
mod unit;
mod writer;

pub use book::{Book, Units};
pub use clear::{ciphertext, clear_unit, info, ClearUnit, Info};
pub use fetching::fetch;
pub use receipt::{ParseReceiptError, Receipt};
pub use refusal::Refusal;
pub use score::score;
pub use sealing::{open, seal};
pub use suite::{Cipher, Suite};
pub use unit::Unit;
pub use writer::Writer;
