//! The functions of the static library one to one: a suite is two bytes, the caller lends every buffer,
//! and nothing is allocated.
//!
//! Programs are better served by the crate's root. This module is for those that need the block ciphers,
//! bring their own buffers, keep a writer as its 64 bytes, or go over a book without its key. Every input is answered, with a refusal
//! where it is not allowed; after a refusal what was lent to be written is as it was, but for the
//! writer of a refused [`start`], which is then 64 zero bytes.
//!
//! A suite is a cipher (1 Scream, 2 iScream) and a number of steps: 6, 8, 10 or 12 for Scream,
//! 8, 10, 12 or 14 for iScream. Any other is refused.

mod blocks;
mod by_value;
mod clear;
mod code;
mod limits;
mod page;
mod reading;
mod sealing;
mod writer;

pub use blocks::{decipher, decipher_blocks, encipher, encipher_blocks};
pub use by_value::Writer;
pub use clear::{ciphertext, info, unit, unit_at, Info, Unit};
pub use code::Code;
pub use limits::{
    book_room, header_max, text_max, unit_room, BLOCK_LEN, CLOSE_ROOM, CODE_LEN, CODE_ROOM,
    FIRST_UNIT, KEY_LEN, NONCE_MAX, ROW_LEN, SCORE_MAX, SEGMENT_MAX, TAG_LEN, UNITS_MAX, UNIT_MAX,
};
pub use page::{page, score};
pub use reading::{check, fetch, fetch_at, Checked, Fetched, FetchedAt};
pub use sealing::{open, seal, Sealed};
pub use writer::{add, calls, close, place, start, units, Bytes, LEN};
