//! Reading a book: checking it, fetching from it, and going over it.

mod common;

use std::cell::Cell;
use std::sync::Arc;

use common::{assert_unit, book, lengths, of_both_kinds, suite, written};
use reference::book::{self as second, places, Kind};
use reference::random::Random;
use sealed_book::Refusal::{
    FieldMalformed, LanguagesNotAllowed, NoSuchUnit, NumberOutOfOrder, SuiteNotListed, TagDiffers,
};
use sealed_book::{ciphertext, clear_unit, fetch, info, raw, Book, Refusal, Suite};

const SEED: u64 = 0x424F_4F4B;

/// All that the book says is what was written, by each way to read it.
fn assert_reads(given: &second::Book, bytes: &[u8], name: &str) {
    let book = Book::check(&given.key, bytes).unwrap();
    let count = given.units.len();
    assert_eq!((book.number(), book.suite()), (given.number, suite(given)));
    let info = info(bytes).unwrap();
    assert_eq!((info.number, info.suite), (book.number(), book.suite()));
    assert_eq!((book.len(), book.is_empty()), (count as u64, count == 0));
    assert_eq!(book.bytes().as_ptr_range(), bytes.as_ptr_range());
    // a header of 25 or 27 bytes, the text with the two bytes of its source's length, a tag; and the close
    let blocks = given
        .units
        .iter()
        .map(|unit| (unit.source.len() + unit.target.len() + 2).div_ceil(16));
    let calls = blocks.map(|blocks| 2 + blocks + 1).sum::<usize>() + 3;
    assert_eq!(book.calls(), calls as u64, "{name}");

    // in order
    let mut units = book.iter();
    for (k, added) in given.units.iter().enumerate() {
        assert_eq!(units.len(), count - k, "{name}");
        let unit = units.next().expect("one more").unwrap();
        assert_unit(&unit, k, added, &format!("{k} in order, {name}"));
    }
    assert_eq!((units.len(), units.next(), units.next()), (0, None, None));
    assert_eq!((&book).into_iter().count(), count, "{name}");

    // one by one
    for (k, added) in given.units.iter().enumerate() {
        let name = format!("{k} of {name}");
        let unit = book.fetch(k as u64).unwrap();
        assert_unit(&unit, k, added, &name);
        let clear = clear_unit(bytes, k as u64).unwrap();
        assert_eq!(clear.number(), unit.number(), "{name}");
        assert_eq!(clear.source_language(), unit.source_language(), "{name}");
        assert_eq!(clear.target_language(), unit.target_language(), "{name}");
        let parts = [book.ciphertext(k as u64), ciphertext(bytes, k as u64)];
        assert_eq!(parts, [Some(clear.ciphertext()); 2], "{name}");
        assert_eq!(fetch(&given.key, bytes, k as u64), Ok(unit), "{name}");
    }
    let count = count as u64;
    for k in [count, count + 1, 65_536, 16_777_215, 1 << 32, u64::MAX] {
        assert_eq!(book.fetch(k), Err(NoSuchUnit), "{k} of {name}");
        assert_eq!(
            fetch(&given.key, bytes, k),
            Err(NoSuchUnit),
            "{k} of {name}"
        );
        assert_eq!((book.ciphertext(k), ciphertext(bytes, k)), (None, None));
        assert_eq!(clear_unit(bytes, k), Err(NoSuchUnit), "{k} of {name}");
    }
}

/// Books of no unit, one, a few, and some hundred, with unit numbers of more than a byte.
#[test]
fn books_of_some_units() {
    let mut random = Random::new(SEED);
    for suite in Suite::ALL {
        for (count, end) in [(0, 2), (1, 50), (2, 2), (7, 200), (300, 30)] {
            let lengths = lengths(&mut random, count, end);
            let book = book(&mut random, suite, &lengths);
            for book in of_both_kinds(&book) {
                let name = format!("{:?}, {count} units, {suite}, seed {SEED:X}", book.kind);
                assert_reads(&book, &written(&book), &name);
            }
        }
    }
}

/// Segments up to the longest, among short ones.
#[test]
fn long_segments() {
    let mut random = Random::new(SEED + 1);
    for suite in Suite::ALL {
        let lengths = [
            (4_096, 4_096),
            (1, 0),
            (1, 4_096),
            (4_096, 0),
            (4_095, 1),
            (2, 3),
        ];
        let book = book(&mut random, suite, &lengths);
        for book in of_both_kinds(&book) {
            let name = format!("{:?}, {suite}, seed {:X}", book.kind, SEED + 1);
            assert_reads(&book, &written(&book), &name);
        }
    }
}

/// The ciphertext is a part of the bytes that were lent, at its place, and two bytes longer than source and
/// target.
#[test]
fn ciphertext_is_a_part() {
    let mut random = Random::new(SEED + 2);
    let lengths = lengths(&mut random, 20, 300);
    let given = book(&mut random, Suite::SCREAM_8, &lengths);
    for given in of_both_kinds(&given) {
        let bytes = written(&given);
        let book = Book::check(&given.key, &bytes).unwrap();
        let places = places(&given);
        for (k, (s, t)) in lengths.iter().enumerate() {
            let start = places[k] + given.kind.ciphertext_at();
            let start = bytes.as_ptr().wrapping_add(start);
            let range = start..start.wrapping_add(2 + s + t);
            for part in [book.ciphertext(k as u64), ciphertext(&bytes, k as u64)] {
                assert_eq!(part.unwrap().as_ptr_range(), range, "unit {k}");
            }
        }
    }
}

/// A book of bytes that it owns: it can be handed on, cloned, and asked by several threads at once, before
/// its places are noted and after; and it gives its bytes back.
#[test]
fn owns_its_bytes() {
    let mut random = Random::new(SEED + 3);
    let lengths = lengths(&mut random, 60, 40);
    let given = book(&mut random, Suite::SCREAM_6, &lengths);
    let bytes = written(&given);
    fn checked<B: AsRef<[u8]> + Clone + Send + Sync>(given: &second::Book, bytes: B) -> Book<B> {
        let book = Book::check(&given.key, bytes).unwrap();
        let copy = book.clone();
        std::thread::scope(|scope| {
            for _ in 0..4 {
                scope.spawn(|| {
                    for (k, added) in given.units.iter().enumerate().rev() {
                        assert_unit(&book.fetch(k as u64).unwrap(), k, added, "at once");
                    }
                });
            }
        });
        for book in [&copy, &book.clone()] {
            assert_unit(&book.fetch(9).unwrap(), 9, &given.units[9], "a clone");
        }
        book
    }
    let borrowed: &[u8] = checked(&given, &bytes[..]).into_bytes();
    let array: &[u8; 3] = borrowed.first_chunk().expect("a book");
    assert_eq!(Book::check(&given.key, array).err(), Some(FieldMalformed));
    let shared: Arc<[u8]> = checked(&given, Arc::from(&bytes[..])).into_bytes();
    let boxed: Box<[u8]> = checked(&given, Box::from(&bytes[..])).into_bytes();
    let owned: Vec<u8> = checked(&given, bytes.clone()).into_bytes();
    for back in [borrowed, &shared, &boxed, &owned] {
        assert!(back == bytes);
    }
}

/// Lends one string of bytes for the first times that it is asked, and then another.
struct Changing {
    lent: Cell<usize>,
    times: usize,
    first: Vec<u8>,
    then: Vec<u8>,
}

impl AsRef<[u8]> for Changing {
    fn as_ref(&self) -> &[u8] {
        self.lent.set(self.lent.get() + 1);
        match self.lent.get() <= self.times {
            true => &self.first,
            false => &self.then,
        }
    }
}

/// Bytes that are not the same each time are answered with a refusal or with a unit whose seal is right.
#[test]
fn bytes_that_change() {
    let mut random = Random::new(SEED + 8);
    let given = book(
        &mut random,
        Suite::ISCREAM_8,
        &[(3, 4), (1, 0), (6, 2), (9, 9)],
    );
    let other = second::Book {
        units: book(&mut random, Suite::ISCREAM_8, &[(2, 2), (60, 1)]).units,
        ..given.clone()
    };
    let bytes = written(&given);
    let (mut handed_out, mut refused) = (0, 0);
    for case in 0..3_000 {
        let mut then = match random.below(4) {
            0 => written(&other),
            1 => Vec::new(),
            _ => bytes.clone(),
        };
        for _ in 0..random.below(3) {
            let at = random.below(then.len() + 1);
            if let Some(byte) = then.get_mut(at) {
                *byte = random.one_of(&[0, 1, 0x10, 0x12, 0x14, 0x21, b'e', 0xFF]);
            } else {
                then.truncate(random.below(then.len() + 1));
            }
        }
        // checking asks once; the places are noted of the first bytes or of the others
        let changing = Changing {
            lent: Cell::new(0),
            times: 1 + random.below(3),
            first: bytes.clone(),
            then,
        };
        let book = Book::check(&given.key, changing).unwrap();
        assert_eq!(book.len(), 4);
        for k in [3, 0, 1, 2, 4, u64::MAX] {
            match book.fetch(k) {
                Ok(unit) => {
                    let written = [&given, &other].map(|book| book.units.get(k as usize));
                    let same = |added: &&second::Unit| unit.source == added.source;
                    assert!(
                        written.into_iter().flatten().any(|one| same(&one)),
                        "{case}"
                    );
                    handed_out += 1;
                }
                Err(_) => refused += 1,
            }
            assert!(book.ciphertext(k).is_none_or(|part| part.len() >= 3));
        }
        assert!(book.iter().count() <= 4);
        assert_eq!(book.fetch(4), Err(NoSuchUnit));
    }
    assert!(
        handed_out > 1_000 && refused > 1_000,
        "{handed_out} {refused}"
    );
}

/// The refusal of each byte of a book of this kind with two units, when its highest bit is changed.
fn by_place(kind: Kind, places: &[usize], len: usize) -> Vec<Refusal> {
    let [one, two, close] = places else {
        panic!("two units and a close");
    };
    let number = kind.number_bytes();
    let mut refusals = vec![TagDiffers; len];
    let mut put = |at: usize, count: usize, refusal| refusals[at..at + count].fill(refusal);
    // fields 01 and 02: tags and lengths; the suite
    put(0, 3, FieldMalformed);
    put(11, 3, FieldMalformed);
    put(14, 2, SuiteNotListed);
    for (start, end) in [(*one, *two), (*two, *close)] {
        // the header: tag and length, the number, the languages
        put(start, 3, FieldMalformed);
        put(start + 3, number, NumberOutOfOrder);
        put(start + 3 + number, 4, LanguagesNotAllowed);
        // tag and length of fields 11 and 12
        put(start + 7 + number, 3, FieldMalformed);
        put(end - 19, 3, FieldMalformed);
    }
    // the close: tag and length, the count; tag and length of field 12
    put(*close, 3, FieldMalformed);
    put(close + 3, number, NumberOutOfOrder);
    put(close + 3 + number, 3, FieldMalformed);
    refusals
}

/// A changed byte gives the refusal of its place. Fetching sees it where it looks: not in the seals of
/// the units before, and not behind the unit.
#[test]
fn changed_bytes() {
    let mut random = Random::new(SEED + 4);
    let books = Suite::ALL.map(|suite| book(&mut random, suite, &[(5, 6), (20, 9)]));
    for given in books.iter().flat_map(of_both_kinds) {
        let (suite, kind) = (suite(&given), given.kind);
        let (key, bytes) = (&given.key, written(&given));
        let places = places(&given);
        let [one, two, close] = places[..] else {
            panic!("two units and a close");
        };
        let refusals = by_place(kind, &places, bytes.len());
        for (at, &refusal) in refusals.iter().enumerate() {
            let mut changed = bytes.clone();
            changed[at] ^= 0x80;
            let name = format!("{kind:?}, byte {at}, {suite}, seed {:X}", SEED + 4);
            let checked = Book::check(key, &changed);
            assert_eq!(checked.err(), Some(refusal), "{name}");

            // ciphertexts and tags of the units
            let start = kind.ciphertext_at();
            let seal_of_one = at >= one + start && at < two && refusal == TagDiffers;
            let seal_of_two = at >= two + start && at < close && refusal == TagDiffers;
            let seen = [
                at < two,
                at < close && !seal_of_one,
                !seal_of_one && !seal_of_two,
            ];
            for (k, seen) in seen.into_iter().enumerate() {
                let name = format!("unit {k}, {name}");
                match (fetch(key, &changed, k as u64), given.units.get(k)) {
                    (Ok(unit), Some(added)) => {
                        assert!(!seen, "{name}");
                        assert_unit(&unit, k, added, &name);
                    }
                    (Ok(_), None) => panic!("{name}"),
                    (Err(given), _) if seen => assert_eq!(given, refusal, "{name}"),
                    (Err(given), _) => assert_eq!(given, NoSuchUnit, "{name}"),
                }
                // the ciphertext of a unit is found where no seal has to be looked at
                let found = ciphertext(&changed, k as u64).is_some();
                let walked = at >= [two, close, 0][k] || refusal == TagDiffers;
                assert_eq!(found, k < 2 && walked, "{name}");
            }
        }
    }
}

/// A book that ends early is refused, as is one with a byte more; fetching does not see it behind the
/// unit.
#[test]
fn cut_and_lengthened() {
    let given = book(
        &mut Random::new(SEED + 5),
        Suite::ISCREAM_10,
        &[(5, 0), (1, 2), (9, 9)],
    );
    let (key, bytes) = (&given.key, written(&given));
    let places = places(&given);
    for len in 0..bytes.len() {
        let cut = &bytes[..len];
        let checked = Book::check(key, cut);
        assert_eq!(checked.err(), Some(FieldMalformed), "{len} bytes");
        for (k, added) in given.units.iter().enumerate() {
            let fetched = fetch(key, cut, k as u64);
            if len < places[k + 1] {
                assert_eq!(fetched, Err(FieldMalformed), "unit {k}, {len} bytes");
                assert_eq!(ciphertext(cut, k as u64), None);
            } else {
                assert_unit(
                    &fetched.unwrap(),
                    k,
                    added,
                    &format!("unit {k}, {len} bytes"),
                );
            }
        }
        assert_eq!(fetch(key, cut, 3), Err(FieldMalformed), "{len} bytes");
    }
    for byte in [0, 0x10, 0x14, 0x20, 0x21] {
        let longer = [&bytes[..], &[byte]].concat();
        assert_eq!(Book::check(key, &longer).err(), Some(FieldMalformed));
        assert_eq!(fetch(key, &longer, 3), Err(FieldMalformed));
        assert!(fetch(key, &longer, 2).is_ok());
    }
}

/// The codes are sealed along: a unit from en to de that was made one from en to en has another tag, and the other way
/// round. What stands in the clear is said as it stands.
#[test]
fn changed_codes() {
    let mut random = Random::new(SEED + 8);
    let mut given = book(&mut random, Suite::SCREAM_10, &[(5, 6), (7, 0)]);
    let pairs = [*b"ende", *b"enen", *b"deen", *b"dede"];
    for (sealed, put) in pairs.map(|one| pairs.map(|other| (one, other))).concat() {
        let [f0, f1, t0, t1] = sealed;
        (given.units[0].from, given.units[0].to) = ([f0, f1], [t0, t1]);
        for given in of_both_kinds(&given) {
            let name = format!("{sealed:?}, {put:?}, {:?}", given.kind);
            let mut bytes = written(&given);
            let at = raw::FIRST_UNIT + 3 + given.kind.number_bytes();
            assert_eq!(bytes[at..at + 4], sealed, "{name}");
            bytes[at..at + 4].copy_from_slice(&put);
            let due = (sealed != put).then_some(TagDiffers);
            assert_eq!(Book::check(&given.key, &bytes).err(), due, "{name}");
            assert_eq!(fetch(&given.key, &bytes, 0).err(), due, "{name}");
            let behind = fetch(&given.key, &bytes, 1).unwrap();
            assert_unit(&behind, 1, &given.units[1], &name);
            let clear = clear_unit(&bytes, 0).unwrap();
            let said = [clear.source_language(), clear.target_language()].concat();
            assert_eq!(said.as_bytes(), put, "{name}");
        }
    }
}

/// Each bit of the key counts, for a book of no units too.
#[test]
fn other_keys() {
    let mut random = Random::new(SEED + 6);
    for lengths in [&[][..], &[(8, 8)]] {
        let given = book(&mut random, Suite::SCREAM_12, lengths);
        let bytes = written(&given);
        for bit in 0..128 {
            let mut key = given.key;
            key[bit / 8] ^= 1 << (bit % 8);
            assert_eq!(Book::check(&key, &bytes).err(), Some(TagDiffers));
            assert_eq!(fetch(&key, &bytes, 0), Err(TagDiffers), "bit {bit}");
        }
    }
}

/// Fetching answers as the library's own call does, whatever the bytes.
#[test]
fn fetching_is_the_librarys() {
    let mut random = Random::new(SEED + 7);
    let given = book(&mut random, Suite::SCREAM_6, &[(3, 4), (1, 0), (6, 2)]);
    let bytes = written(&given);
    let mut refused = 0;
    for case in 0..20_000 {
        let mut changed = bytes.clone();
        for _ in 0..random.below(3) {
            let at = random.below(changed.len());
            changed[at] = random.one_of(&[0, 1, 2, 0x10, 0x11, 0x12, 0x14, 0x21, b'a', 0xFF]);
        }
        if random.below(4) == 0 {
            changed.truncate(random.below(changed.len() + 1));
        }
        let k = random.below(5) as u64;
        let name = format!("case {case}, unit {k}, seed {:X}", SEED + 7);

        let mut out = [0; raw::UNIT_MAX];
        let expected = raw::fetch(&given.key, &changed, k, &mut out);
        refused += usize::from(expected.is_err());
        let segments = expected.map(|lengths| {
            let (source, rest) = out.split_at(lengths.source);
            (source.to_vec(), rest[..lengths.target].to_vec())
        });
        let fetched = fetch(&given.key, &changed, k);
        assert_eq!(
            fetched.map(|unit| (unit.source, unit.target)),
            segments,
            "{name}"
        );
        let place = raw::ciphertext(&changed, k);
        let part = changed.get(place).filter(|part| !part.is_empty());
        assert_eq!(ciphertext(&changed, k), part, "{name}");
        let clear = clear_unit(&changed, k);
        assert_eq!(clear.as_ref().map(|unit| unit.ciphertext()).ok(), part);
        let expected = raw::unit(&changed, k).map(|unit| unit.from.to_string());
        let language = clear.map(|unit| unit.source_language().to_string());
        assert_eq!(language, expected, "{name}");
        let suite = info(&changed).map(|info| info.suite.to_bytes());
        let expected = raw::info(&changed).map(|info| [info.cipher, info.steps]);
        assert_eq!(suite, expected, "{name}");
    }
    assert!((5_000..15_000).contains(&refused), "{refused}");
}
