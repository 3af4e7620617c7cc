//! Lengths and limits, under the names that the header for C has for them.

/// How many bytes a key has.
pub const KEY_LEN: usize = 16;

/// How many bytes a block of the ciphers has, and a tweak.
pub const BLOCK_LEN: usize = 16;

/// How many bytes a tag has.
pub const TAG_LEN: usize = 16;

/// How many bytes a nonce has at most. It has one at least.
pub const NONCE_MAX: usize = 15;

/// How many bytes a header that is sealed along has at most under a nonce of so many bytes, 1 to
/// [`NONCE_MAX`].
pub const fn header_max(nonce: usize) -> usize {
    match nonce {
        15.. => 1 << 10,
        14 => 1 << 18,
        _ => 1 << 24,
    }
}

/// How many bytes a text that is sealed has at most under a nonce of so many bytes, 1 to [`NONCE_MAX`].
pub const fn text_max(nonce: usize) -> usize {
    match nonce {
        15.. => 1 << 11,
        14 => 1 << 19,
        _ => 1 << 24,
    }
}

/// How many bytes a source has at most, or a target. A source has one at least.
pub const SEGMENT_MAX: usize = 4_096;

/// How many bytes source and target of a unit have together at most: always enough output for a fetch.
pub const UNIT_MAX: usize = 2 * SEGMENT_MAX;

/// How many units a book has at most. A book of a version before 0.3 has at most 65,535.
pub const UNITS_MAX: u64 = 16_777_215;

/// How many bytes of a language code [`add`](super::add) reads: two letters a to z.
pub const CODE_LEN: usize = 2;

/// Room for a language code that is handed out.
pub const CODE_ROOM: usize = 4;

/// Where unit 0 begins in a book, or the close of a book without units.
pub const FIRST_UNIT: usize = 16;

/// How many bytes a row of a page has; a page has a row for each unit.
pub const ROW_LEN: usize = 12;

/// What a score is at most: that of a segment and itself.
pub const SCORE_MAX: u32 = 1_000;

/// How many bytes of a book the close takes, as it is written; two less in a book of a version before 0.3.
pub const CLOSE_ROOM: usize = 26;

/// How many bytes of a book a unit takes whose source and target have so many, as it is written; two less in a book of
/// a version before 0.3.
pub const fn unit_room(source: usize, target: usize) -> usize {
    35usize.saturating_add(source).saturating_add(target)
}

/// How many bytes a book takes, as it is written, that has so many units, with so many bytes in their sources and
/// targets together.
pub const fn book_room(units: usize, segments: usize) -> usize {
    let around = units.saturating_mul(unit_room(0, 0));
    (FIRST_UNIT + CLOSE_ROOM)
        .saturating_add(around)
        .saturating_add(segments)
}
