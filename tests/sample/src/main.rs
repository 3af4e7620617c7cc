//! Writes a book of three units with the proved library, checks it and holds it to its receipt, fetches one
//! unit, goes over all, compares a typed sentence with each, reads what stands in the clear, and has the book
//! refused with two blocks exchanged; seals a sentence, opens it again, and has it refused with one bit changed;
//! enciphers one block and deciphers it again.
//! Prints what it did.

use std::error::Error;

use sealed_book::{clear_unit, info, open, raw, seal, Book, Receipt, Refusal, Suite, Unit, Writer};

const SUITE: Suite = Suite::SCREAM_10;

fn main() -> Result<(), Box<dyn Error>> {
    let key: [u8; 16] = std::array::from_fn(|i| i as u8);
    print("key", &key, "16 secret bytes");
    one_book(&key)?;
    println!();
    one_sentence(&key)?;
    println!();
    one_block(&key)?;
    Ok(())
}

fn one_book(key: &[u8; 16]) -> Result<(), Box<dyn Error>> {
    let (bytes, receipt) = write_a_book(key)?;
    read_a_book(key, &bytes, &receipt)?;
    read_without_key(&bytes)?;
    change_a_book(key, bytes)
}

fn write_a_book(key: &[u8; 16]) -> Result<(Vec<u8>, Receipt), Box<dyn Error>> {
    let mut writer = Writer::start(SUITE, key, 7)?;
    let about = format!("book 7, {SUITE}: public");
    print("started", writer.written(), &about);
    for (to, source, target) in [
        ("de", "Hold the button down.", "Halten Sie die Taste."),
        // rewritten in a controlled English
        ("en", "Hold the button down.", "Push and hold the button."),
        ("de", "Close the valve.", ""),
    ] {
        let before = writer.len();
        let k = writer.add("en", to, source, target)?;
        let unit = raw::unit_at(writer.written(), k, before)?;
        let fields = &writer.written()[before..unit.ciphertext.start];
        let about = format!("number, languages and length of unit {k}: public");
        print("added", fields, &about);
        println!("            {source:?} {target:?}  secret");
    }
    let answer = writer.add("EN", "de", "Close the valve.", "");
    refused("one more", answer, "from EN to de")?;

    let before = writer.len();
    let (bytes, receipt) = writer.close()?;
    print(
        "closed",
        &bytes[before..],
        "the number of units, and the tag",
    );
    println!("receipt     {receipt}  sent another way than the book");
    Ok((bytes, receipt))
}

fn read_a_book(key: &[u8; 16], bytes: &[u8], receipt: &Receipt) -> Result<(), Box<dyn Error>> {
    let book = Book::check_receipt(key, bytes, receipt)?;
    println!(
        "checked     book {}, {}: {} bytes, {} units, {} calls of the cipher",
        book.number(),
        book.suite(),
        bytes.len(),
        book.len(),
        book.calls()
    );
    println!("fetched     unit 1: {}", shown(&book.fetch(1)?)?);
    refused("fetched", book.fetch(3), "unit 3")?;
    for unit in &book {
        let unit = unit?;
        let (k, name) = (unit.number(), if unit.number() == 0 { "all" } else { "" });
        println!("{name:<10}  unit {k}: {}", shown(&unit)?);
    }
    let typed = "Hold the button up.";
    println!(
        "page        {typed:?} typed: the length of each source, and how near it is, 0 to 1000"
    );
    for row in book.page(typed)?.lines() {
        println!("            {row}");
    }
    Ok(())
}

fn read_without_key(bytes: &[u8]) -> Result<(), Refusal> {
    let info = info(bytes)?;
    let (number, suite) = (info.number, info.suite);
    println!("no key      book {number}, {suite}: no seal is tested");
    let unit = clear_unit(bytes, 2)?;
    let (from, to) = (unit.source_language(), unit.target_language());
    let about = format!("unit 2, {from} to {to}, unopened");
    print("", unit.ciphertext(), &about);
    Ok(())
}

fn change_a_book(key: &[u8; 16], mut bytes: Vec<u8>) -> Result<(), Box<dyn Error>> {
    let ciphertext = raw::unit(&bytes, 0)?.ciphertext;
    let (one, rest) = bytes[ciphertext].split_at_mut(raw::BLOCK_LEN);
    one.swap_with_slice(&mut rest[..raw::BLOCK_LEN]);
    let answer = Book::check(key, bytes);
    refused("exchanged", answer, "two blocks of unit 0")
}

fn one_sentence(key: &[u8; 16]) -> Result<(), Box<dyn Error>> {
    let nonce: [u8; 12] = std::array::from_fn(|i| 0xA0 + i as u8);
    let header = "manual 7, en to de";
    let text = "Hold the button down.";
    print("nonce", &nonce, "1 to 15 public bytes, used once");
    println!("header      {header:?}  public, sealed along");
    println!("text        {text:?}  secret");

    let mut sealed = seal(SUITE, key, &nonce, header.as_bytes(), text.as_bytes())?;
    let (ciphertext, tag) = sealed.split_at(text.len());
    print("sealed", ciphertext, "the ciphertext, and");
    print("", tag, "the tag");

    let opened = String::from_utf8(open(SUITE, key, &nonce, header.as_bytes(), &sealed)?)?;
    println!("opened      {opened:?}  the text again");
    assert_eq!(opened, text);

    sealed[4] ^= 1;
    let answer = open(SUITE, key, &nonce, header.as_bytes(), &sealed);
    refused("changed", answer, "one bit of byte 4")
}

fn one_block(key: &[u8; 16]) -> Result<(), Refusal> {
    let [cipher, steps] = SUITE.to_bytes();
    let tweak: [u8; 16] = std::array::from_fn(|i| 0xF0 + i as u8);
    let block = *b"A block of text.";
    print(
        "tweak",
        &tweak,
        "16 public bytes; another tweak makes another cipher",
    );
    print("block", &block, "the 16 bytes of \"A block of text.\"");

    let mut text = block;
    raw::encipher(cipher, steps, key, &tweak, &mut text)?;
    let about = format!("by {SUITE}, under the key and that tweak");
    print("enciphered", &text, &about);
    raw::decipher(cipher, steps, key, &tweak, &mut text)?;
    print(
        "deciphered",
        &text,
        "under the same key and tweak: the block again",
    );
    assert_eq!(text, block);
    Ok(())
}

/// A line about a call that has to be refused.
fn refused<T>(name: &str, answer: Result<T, Refusal>, about: &str) -> Result<(), Box<dyn Error>> {
    match answer {
        Ok(_) => Err(format!("{name}, {about}: not refused").into()),
        Err(refusal) => {
            let number = refusal.number();
            println!("{name:<10}  {about}: refused {number}, {refusal}");
            Ok(())
        }
    }
}

/// The languages and texts of a unit.
fn shown(unit: &Unit) -> Result<String, Box<dyn Error>> {
    let (from, source) = (unit.source_language(), unit.source_text()?);
    let (to, target) = (unit.target_language(), unit.target_text()?);
    Ok(format!("{from} {source:?}, {to} {target:?}"))
}

/// A line: what it is, its bytes in hex, and a word about it.
fn print(name: &str, bytes: &[u8], about: &str) {
    let hex: String = bytes.iter().map(|byte| format!("{byte:02X}")).collect();
    println!("{name:<10}  {hex}  {about}");
}
