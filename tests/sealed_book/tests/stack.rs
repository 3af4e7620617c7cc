//! How much stack each call takes, measured on a stack of its own that is painted before: not more than the C
//! header says. And the archive has no data that could be written.

mod common;

use std::arch::asm;
use std::collections::BTreeMap;
use std::ffi::c_void;
use std::fs;
use std::path::PathBuf;
use std::process::Command;

use common::guarded::Numbers;
use common::parts::{random_book, written};
use common::program::archive;
use common::writing::unit;
use reference::book::{Book, Kind};
use reference::cipher::SUITES;
use reference::random::Random;
use sealed_book::foreign::*;
use sealed_book::raw;

const SEED: u64 = 0x5354_4143;

/// How many bytes the painted stack has.
const LEN: usize = 1 << 18;

const PAINT: u8 = 0xC5;

/// A call on the painted stack, whose pointer is to the closure.
extern "C" fn run<F: FnMut()>(closure: *mut c_void) {
    // SAFETY: `used` hands over a closure of this type, which nobody else has meanwhile.
    unsafe { (*closure.cast::<F>())() }
}

/// How many bytes of stack the closure takes, which does not panic.
fn used<F: FnMut()>(stack: &mut [u8], mut closure: F) -> usize {
    stack.fill(PAINT);
    let end = stack.as_mut_ptr_range().end;
    let top = end.wrapping_sub(end as usize % 16);
    let closure: *mut F = &mut closure;
    // SAFETY: the stack is aligned and long enough, nothing else uses it, and rsp is set back. r12 is kept by
    // what is called.
    unsafe {
        asm!(
            "mov r12, rsp",
            "mov rsp, {top}",
            "call {run}",
            "mov rsp, r12",
            top = in(reg) top,
            run = in(reg) run::<F> as extern "C" fn(*mut c_void),
            in("rdi") closure.cast::<c_void>(),
            out("r12") _,
            clobber_abi("C"),
        );
    }
    let untouched = stack.iter().take_while(|byte| **byte == PAINT).count();
    assert!(untouched > 0, "the stack was long enough");
    top as usize - stack.as_ptr() as usize - untouched
}

/// A stack, and the most that each call has taken of it.
struct Most {
    stack: Vec<u8>,
    of: BTreeMap<&'static str, usize>,
}

impl Most {
    /// Makes the call of this name, and returns what it returns.
    fn measure<T>(&mut self, name: &'static str, mut call: impl FnMut() -> T) -> T {
        let mut returned = None;
        let used = used(&mut self.stack, || returned = Some(call()));
        let most = self.of.entry(name).or_default();
        *most = used.max(*most);
        returned.expect("the call was made")
    }
}

/// The block ciphers, with suites that are listed and one that is not.
// Of 100 blocks 64 go side by side, and the others in a group that is filled up.
fn blocks(most: &mut Most, random: &mut Random) {
    for (cipher, steps) in SUITES.into_iter().chain([(0, 0)]) {
        let key: [u8; 16] = random.bytes();
        let tweaks = random.some_bytes(1600);
        let mut blocks = random.some_bytes(1600);
        let (key, tweaks, blocks) = (key.as_ptr(), tweaks.as_ptr(), blocks.as_mut_ptr());
        // SAFETY: key, tweaks and blocks have the lengths that are given.
        let returned = unsafe {
            [
                most.measure("sb_encipher", || {
                    sb_encipher(cipher, steps, key, tweaks, blocks)
                }),
                most.measure("sb_decipher", || {
                    sb_decipher(cipher, steps, key, tweaks, blocks)
                }),
                most.measure("sb_encipher_blocks", || {
                    sb_encipher_blocks(cipher, steps, key, tweaks, 1600, blocks, 1600)
                }),
                most.measure("sb_decipher_blocks", || {
                    sb_decipher_blocks(cipher, steps, key, tweaks, 1600, blocks, 1600)
                }),
            ]
        };
        assert_eq!(returned, [u32::from(cipher == 0); 4]);
    }
}

/// Lengths of headers and texts: none, short and long ones, and those with which runs have groups of 64 blocks, a last
/// group that is filled up, or fewer blocks that are left over. Up to 1,008 bytes of a header are sealed in one run with
/// the text's end, and opened in one run.
const SEALED: [(usize, usize); 12] = [
    (0, 0),
    (1, 1),
    (25, 500),
    (400, 700),
    (25, 8_194),
    (1_008, 1_024),
    (961, 300),
    (1_008, 1_025),
    (1_009, 1_400),
    (5_000, 40),
    (16, 8_700),
    (16, 20_000),
];

/// Sealing and opening: short texts and long ones, accepted and refused.
fn sealing(most: &mut Most, random: &mut Random) {
    for (cipher, steps) in SUITES.into_iter().chain([(0, 0)]) {
        for (a, m) in SEALED {
            let (key, nonce): ([u8; 16], [u8; 12]) = (random.bytes(), random.bytes());
            let [header, text] = [a, m].map(|len| random.some_bytes(len));
            let (mut sealed, mut opened) = (vec![0; m + 16], vec![0; m]);
            let (mut len, mut calls) = (0, 0);
            let (key, nonce, header) = (key.as_ptr(), nonce.as_ptr(), header.as_ptr());
            let (text, body, out) = (text.as_ptr(), sealed.as_mut_ptr(), opened.as_mut_ptr());
            let (len, calls): (*mut u64, *mut u64) = (&mut len, &mut calls);
            // what both calls are given first
            macro_rules! call {
                ($function:ident, $($rest:expr),*) => {
                    $function(cipher, steps, key, 16, nonce, 12, header, a, $($rest),*)
                };
            }
            // SAFETY: each slice is given with its length, and the numbers are there.
            let returned = most.measure("sb_seal", || unsafe {
                call!(sb_seal, text, m, body, m + 16, len, calls)
            });
            assert_eq!(returned, u32::from(cipher == 0));
            for refused in [0, 8] {
                // SAFETY: the same.
                let returned = most.measure("sb_open", || unsafe {
                    call!(sb_open, body, m + 16, out, m, len)
                });
                assert_eq!(returned, if cipher == 0 { 1 } else { refused });
                sealed[m] ^= 1;
            }
        }
    }
}

/// The writer's calls for this book, each refused first and then accepted; returns the book's bytes.
fn writing(most: &mut Most, book: &Book) -> Vec<u8> {
    let mut buffer = vec![0; 60_000];
    let mut writer = [0; raw::LEN];
    let (start, len, bytes) = (buffer.as_mut_ptr(), buffer.len(), writer.as_mut_ptr());
    let (cipher, steps, key, number) = (book.cipher, book.steps, book.key.as_ptr(), book.number);
    for (len, expected) in [(15, 7), (len, 0)] {
        // SAFETY: each slice is given with its length, or a shorter one, and the writer has 64 bytes.
        let returned = most.measure("sb_start", || unsafe {
            sb_start(cipher, steps, key, 16, number, start, len, bytes)
        });
        assert_eq!(returned, expected);
    }
    for unit in &book.units {
        let (from, to) = (unit.from.as_ptr(), unit.to.as_ptr());
        let (source, target) = (unit.source.as_ptr(), unit.target.as_ptr());
        let (s, t) = (unit.source.len(), unit.target.len());
        for (to, expected) in [(b"eN".as_ptr(), 11), (to, 0)] {
            // SAFETY: the same, and the codes have two bytes.
            let returned = most.measure("sb_add", || unsafe {
                sb_add(bytes, start, len, from, to, source, s, target, t)
            });
            assert_eq!(returned, expected);
        }
    }
    for (len, expected) in [(0, 9), (len, 0), (len, 10)] {
        // SAFETY: the same.
        let returned = most.measure("sb_close", || unsafe { sb_close(bytes, start, len) });
        assert_eq!(returned, expected);
    }
    // SAFETY: the writer has 64 bytes.
    let [place, units, _] = unsafe {
        [
            most.measure("sb_place", || sb_place(bytes)),
            most.measure("sb_units", || sb_units(bytes)),
            most.measure("sb_calls", || sb_calls(bytes)),
        ]
    };
    assert_eq!(units, book.units.len() as u64);
    buffer.truncate(place as usize);
    buffer
}

/// All calls that read this book, whole or not; says what checking and fetching of unit 1 returned.
fn reading(most: &mut Most, key: &[u8], book: &[u8]) -> [u32; 2] {
    let mut out = vec![0; raw::UNIT_MAX];
    let (key, key_len, book, len) = (key.as_ptr(), key.len(), book.as_ptr(), book.len());
    let (out, room) = (out.as_mut_ptr(), out.len());
    let (mut codes, mut suite, mut numbers) = ([0; 8], [0; 2], Numbers::<6>::before());
    let (from, cipher) = (codes.as_mut_ptr(), suite.as_mut_ptr());
    let (to, steps) = (from.wrapping_add(4), cipher.wrapping_add(1));
    let [a, b, c, d, e, f] = numbers.pointers();
    let mut returned = [0; 2];
    // SAFETY: each slice is given with its length, the codes have 4 bytes each, and the numbers are there.
    unsafe {
        returned[0] = most.measure("sb_check", || sb_check(key, key_len, book, len, a, b));
        most.measure("sb_info", || sb_info(book, len, cipher, steps, a));
        for k in [0, 2, 3, 9, 1] {
            returned[1] = most.measure("sb_fetch", || {
                sb_fetch(key, key_len, book, len, k, out, room, a, b)
            });
            most.measure("sb_unit", || {
                sb_unit(book, len, k, a, from, b, to, c, d, e, f)
            });
            let at = *a as usize;
            most.measure("sb_fetch_at", || {
                sb_fetch_at(key, key_len, book, len, k, at, out, room, a, b, c)
            });
            most.measure("sb_unit_at", || {
                sb_unit_at(book, len, k, at, from, b, to, c, d, e, f)
            });
            most.measure("sb_ciphertext", || sb_ciphertext(book, len, k, a, b));
        }
    }
    returned
}

/// Lengths of segments and typed sentences: without trigrams, short, around 256, and the longest of a unit and
/// longer ones.
const LENGTHS: [usize; 10] = [0, 2, 3, 20, 256, 259, 300, 4_096, 4_099, 9_000];

/// Scores of segments of any bytes, and of one letter.
fn scoring(most: &mut Most, random: &mut Random) {
    let texts = LENGTHS.map(|len| [random.some_bytes(len), vec![b'a'; len]]);
    for one in texts.as_flattened() {
        for other in texts.as_flattened() {
            let (source, typed) = (one.as_ptr(), other.as_ptr());
            // SAFETY: each slice is given with its length.
            let score = most.measure("sb_score", || unsafe {
                sb_score(source, one.len(), typed, other.len())
            });
            assert!(score == 1_000 || one != other);
        }
    }
}

/// Pages of this book, whole or not, of which checking says this: with typed sentences of many lengths, and a
/// buffer with room and without.
fn paging(most: &mut Most, random: &mut Random, key: &[u8], book: &[u8], checked: u32) {
    let mut page = [0; 3 * raw::ROW_LEN];
    let (key, key_len, book, len) = (key.as_ptr(), key.len(), book.as_ptr(), book.len());
    let (page, mut written) = (page.as_mut_ptr(), 0);
    for typed in LENGTHS.map(|len| random.some_bytes(len)) {
        let (typed, typed_len) = (typed.as_ptr(), typed.len());
        for (room, short) in [(3 * raw::ROW_LEN, 0), (3 * raw::ROW_LEN - 1, 7)] {
            // SAFETY: each slice is given with its length, and the number is there.
            let returned = most.measure("sb_page", || unsafe {
                sb_page(
                    key,
                    key_len,
                    book,
                    len,
                    typed,
                    typed_len,
                    page,
                    room,
                    &mut written,
                )
            });
            assert_eq!(returned, if checked == 0 { short } else { checked });
        }
    }
}

/// The most that each call takes, over books of both kinds in all suites, whole and damaged, with a short unit, the longest one, and
/// one whose text and whose source have enough blocks for a group that is filled up.
fn measured() -> BTreeMap<&'static str, usize> {
    let mut most = Most {
        stack: vec![0; LEN],
        of: BTreeMap::new(),
    };
    let mut random = Random::new(SEED);
    blocks(&mut most, &mut random);
    sealing(&mut most, &mut random);
    scoring(&mut most, &mut random);
    for suite in SUITES {
        let mut book = random_book(&mut random, suite, 3, 40);
        book.units[1] = unit(&mut random, 4_096, 4_096);
        book.units[2] = unit(&mut random, 480, 30);
        book.kind = Kind::NEWEST;
        let bytes = writing(&mut most, &book);
        assert_eq!(bytes, written(&book).0);
        book.kind = Kind::Tag10;
        for bytes in [bytes, written(&book).0] {
            assert_eq!(reading(&mut most, &book.key, &bytes), [0, 0]);
            assert_eq!(reading(&mut most, &book.key[1..], &bytes), [2, 2]);
            assert_eq!(reading(&mut most, &[0; 16], &bytes), [8, 8]);
            reading(&mut most, &book.key, &bytes[..bytes.len() - 1]);
            paging(&mut most, &mut random, &book.key, &bytes, 0);
            paging(&mut most, &mut random, &book.key[1..], &bytes, 2);
            paging(&mut most, &mut random, &[0; 16], &bytes, 8);
        }
        reading(&mut most, &book.key, &[]);
        paging(&mut most, &mut random, &book.key, &[], 14);
    }
    most.of
}

/// What the header says: lines of its table as " *    8 KB  sb_seal, sb_check".
fn stated() -> BTreeMap<String, usize> {
    let header = PathBuf::from(env!("CARGO_MANIFEST_DIR")).join("../../include/sealed_book.h");
    let header = fs::read_to_string(header).expect("the header is there");
    let mut stated = BTreeMap::new();
    for line in header.lines() {
        let Some((kilobytes, names)) = line.split_once(" KB  sb_") else {
            continue;
        };
        let kilobytes: usize = kilobytes.trim_start_matches([' ', '*']).parse().unwrap();
        for name in format!("sb_{names}").split(", ") {
            let before = stated.insert(name.to_string(), 1_024 * kilobytes);
            assert_eq!(before, None, "{name} stands there once");
        }
    }
    stated
}

#[test]
fn as_the_header_says() {
    let (measured, stated) = (measured(), stated());
    for (name, used) in &measured {
        println!("{name} {used}");
    }
    assert!(measured.keys().eq(stated.keys()), "{stated:?}");
    for (name, used) in measured {
        assert!(used <= stated[name], "{name} took {used} bytes of stack");
    }
}

/// Nothing is kept between calls: the archive has no data that can be written.
#[test]
fn no_state() {
    let output = Command::new("objdump")
        .arg("-h")
        .arg(archive())
        .output()
        .expect("objdump runs");
    assert!(output.status.success());
    let text = String::from_utf8(output.stdout).expect("text");
    let mut code = 0;
    for line in text.lines() {
        let words: Vec<_> = line.split_whitespace().collect();
        let [_, name, len, ..] = words[..] else {
            continue;
        };
        if name.starts_with(".text") {
            code += usize::from_str_radix(len, 16).unwrap();
        }
        let written = [".data", ".bss", ".tdata", ".tbss"];
        let is_written = written.iter().any(|start| name.starts_with(start));
        let only_read = name.starts_with(".data.rel.ro");
        assert!(!is_written || only_read || len == "00000000", "{line}");
    }
    assert!(code > 0, "the archive has code");
}
