//! Books from which a unit is to be fetched, with any set of causes of refusal.

use std::ops::Range;

use reference::book::Book;
use reference::cipher::SUITES;
use reference::random::Random;

use super::parts::{another, close_fields, random_book, unit_fields, Parts};
use super::spoiling::{bad_ciphertext, bad_codes, bad_text, good_codes, spoil, text};
use super::{causes, UNLISTED};

/// The causes in the order in which they are given. Those of a unit that is walked past stand before
/// those of the unit that is fetched; these are followed by those of the close, which is met where there
/// is no such unit.
#[derive(Clone, Copy, Debug, PartialEq)]
pub enum Cause {
    Key,
    OpeningFields,
    Suite,
    WalkHead,
    WalkNumber,
    WalkLanguages,
    WalkRest,
    UnitHead,
    UnitNumber,
    Languages,
    UnitRest,
    UnitTag,
    Lengths,
    Room,
    CloseFields,
    Count,
    CloseTag,
    LeftOver,
    NoUnit,
}

use Cause::*;

/// Those of the walk.
pub const WALK: [Cause; 4] = [WalkHead, WalkNumber, WalkLanguages, WalkRest];

/// Those before the unit is opened, behind the walk.
pub const UNIT_FRAME: [Cause; 4] = [UnitHead, UnitNumber, Languages, UnitRest];

/// Those of the close.
pub const CLOSE: [Cause; 4] = [CloseFields, Count, CloseTag, LeftOver];

impl causes::Cause for Cause {
    fn number(self) -> u32 {
        match self {
            Suite => 1,
            Key => 2,
            Room => 7,
            UnitTag | CloseTag => 8,
            WalkLanguages | Languages => 11,
            Lengths => 12,
            OpeningFields | WalkHead | WalkRest | UnitHead | UnitRest | CloseFields | LeftOver => {
                14
            }
            WalkNumber | UnitNumber | Count => 15,
            NoUnit => 16,
        }
    }
}

/// A key, a book, and what is to be fetched from it.
pub struct Spoiled {
    pub key: Vec<u8>,
    pub book: Vec<u8>,
    /// The number of the unit, or with `NoUnit` one that the book has not.
    pub k: u64,
    /// How many units stand before `place`, where the unit or the close stands.
    pub running: u64,
    pub place: usize,
    /// Where the unit's ciphertext stands, if no cause keeps it from being handed back.
    pub part: Range<usize>,
    pub out_len: usize,
}

/// Changes a bit of field 11's value or field 12's.
fn unseal(random: &mut Random, ciphertext: &mut [u8], tag: &mut [u8]) {
    let sealed = match random.below(2) {
        0 => ciphertext,
        _ => tag,
    };
    let at = 3 + random.below(sealed.len() - 3);
    sealed[at] ^= 1 << random.below(8);
}

/// Which causes a unit has, but for those of its fields' tags and lengths.
struct UnitCauses {
    number: bool,
    languages: bool,
    unsealed: bool,
    lengths: bool,
}

/// The three fields of a unit with these causes.
fn some_unit(
    random: &mut Random,
    book: &Book,
    running: usize,
    causes: &UnitCauses,
) -> [Vec<u8>; 3] {
    let number = match causes.number {
        true => another(random, book.kind, running),
        false => running,
    };
    let codes = match causes.languages {
        true => bad_codes(random),
        false => good_codes(random),
    };
    let text = match causes.lengths {
        true if random.below(16) == 0 => bad_text(random),
        true => {
            let after = 1 + random.below(30);
            let s = random.one_of(&[0, after + 1, after + 256, 0xFFFF]);
            text(random, s, after)
        }
        false => {
            let (s, t) = (1 + random.below(20), random.below(20));
            text(random, s, s + t)
        }
    };
    let [head, mut ciphertext, mut tag] = unit_fields(book, running, number, codes, &text);
    if causes.unsealed {
        unseal(random, &mut ciphertext, &mut tag);
    }
    [head, ciphertext, tag]
}

/// Spoils a unit's field 11, which is the one at this place, or its field 12.
fn spoil_rest(random: &mut Random, fields: &mut Vec<Vec<u8>>, at: usize) {
    match random.below(3) {
        0 => fields[at] = bad_ciphertext(random),
        1 => spoil(random, fields, at),
        _ => spoil(random, fields, at + 1),
    }
}

/// A book with these causes. One to three units stand before the one that is fetched, or before the
/// close. Every second time there is also what fetching does not see: units before with a broken seal or
/// with texts out of range, a close that is broken behind the unit that is fetched, and with `NoUnit` an
/// output without room.
pub fn spoiled(random: &mut Random, set: &[Cause]) -> Spoiled {
    let has = |cause| set.contains(&cause);
    let suite = random.one_of(&SUITES);
    let before = 1 + random.below(3);
    let book = random_book(random, suite, before, 10);
    let mut parts = Parts::of(&book);
    let ciphertext_at = book.kind.ciphertext_at();
    let key = match has(Key) {
        true => {
            let len = random.one_of(&[0, 1, 15, 17, 32]);
            random.some_bytes(len)
        }
        false => book.key.to_vec(),
    };
    let (number_field, suite_field) = parts.opening.split_at(11);
    let mut suite_field = suite_field.to_vec();
    if has(Suite) {
        let (cipher, steps) = random.one_of(&UNLISTED);
        suite_field[3..].copy_from_slice(&[cipher, steps]);
    }

    // the seals of units that are walked past are not looked at
    let some = |random: &mut Random| random.below(2) == 0;
    for unit in &mut parts.units {
        if some(random) {
            let at = ciphertext_at + random.below(unit.len() - ciphertext_at - 19);
            unit[at] ^= 1 << random.below(8);
        }
    }
    let walked = random.below(before);
    let causes = UnitCauses {
        number: has(WalkNumber),
        languages: has(WalkLanguages),
        unsealed: some(random),
        lengths: some(random),
    };
    let [walk_head, walk_ciphertext, walk_tag] = some_unit(random, &book, walked, &causes);

    let causes = UnitCauses {
        number: has(UnitNumber),
        languages: has(Languages),
        unsealed: has(UnitTag),
        lengths: has(Lengths),
    };
    let unit = match has(NoUnit) {
        true => [Vec::new(), Vec::new(), Vec::new()],
        false => some_unit(random, &book, before, &causes),
    };
    let [head, ciphertext, tag] = unit;
    let units = before + usize::from(!has(NoUnit));
    let count = match has(Count) {
        true => another(random, book.kind, units),
        false => units,
    };
    let [close_head, mut close_tag] = close_fields(&book, units, count);
    let behind = !has(NoUnit) && some(random);
    if has(CloseTag) || behind {
        close_tag[3 + random.below(16)] ^= 1 << random.below(8);
    }
    let left_over = match has(LeftOver) || behind {
        true => {
            let len = random.one_of(&[1, 2, 24, 40]);
            random.some_bytes(len)
        }
        false => Vec::new(),
    };

    // 0 and 1 are the opening fields, 3 to 5 the unit that is walked past, 7 to 9 the unit that is
    // fetched, 10 and 11 the close
    let m = ciphertext.len().saturating_sub(3);
    let mut fields = vec![
        number_field.to_vec(),
        suite_field,
        parts.units[..walked].concat(),
        walk_head,
        walk_ciphertext,
        walk_tag,
        parts.units[walked + 1..].concat(),
        head,
        ciphertext,
        tag,
        close_head,
        close_tag,
        left_over,
    ];
    let place = fields[..7].concat().len();
    if has(CloseFields) || behind && some(random) {
        let at = random.one_of(&[10, 11]);
        spoil(random, &mut fields, at);
    }
    if has(UnitRest) {
        spoil_rest(random, &mut fields, 8);
    }
    if has(UnitHead) {
        spoil(random, &mut fields, 7);
    }
    if has(WalkRest) {
        spoil_rest(random, &mut fields, 4);
    }
    if has(WalkHead) {
        spoil(random, &mut fields, 3);
    }
    if has(OpeningFields) {
        let at = random.one_of(&[0, 1]);
        spoil(random, &mut fields, at);
    }
    let running = before as u64;
    let farther = [0, 1, 2, 0x1_0000 - running, 0x1_0000, 0xFF_FFFF, 1 << 32];
    Spoiled {
        key,
        book: fields.concat(),
        k: match has(NoUnit) {
            true if some(random) => u64::MAX,
            true => running + random.one_of(&farther),
            false => running,
        },
        running,
        place,
        part: place + ciphertext_at..place + ciphertext_at + m,
        out_len: match has(Room) || has(NoUnit) && some(random) {
            true => random.below(m.saturating_sub(2).max(1)),
            false => m + random.below(9),
        },
    }
}
