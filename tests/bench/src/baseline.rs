//! A safe wrapper over bench/baseline.c. The functions on blocks say whether the suite is listed;
//! sealing, opening, the writer, the checker, the fetcher and the page return a refusal's number.

use std::ops::Range;

use reference::book::Kind;

extern "C" {
    fn baseline_encipher(
        cipher: u8,
        steps: u8,
        key: *const u8,
        tweak: *const u8,
        block: *mut u8,
    ) -> u32;

    fn baseline_decipher(
        cipher: u8,
        steps: u8,
        key: *const u8,
        tweak: *const u8,
        block: *mut u8,
    ) -> u32;

    fn baseline_encipher_blocks(
        cipher: u8,
        steps: u8,
        key: *const u8,
        tweaks: *const u8,
        blocks: *mut u8,
        count: usize,
    ) -> u32;

    fn baseline_decipher_blocks(
        cipher: u8,
        steps: u8,
        key: *const u8,
        tweaks: *const u8,
        blocks: *mut u8,
        count: usize,
    ) -> u32;

    fn baseline_seal(
        cipher: u8,
        steps: u8,
        key: *const u8,
        key_len: usize,
        nonce: *const u8,
        nonce_len: usize,
        header: *const u8,
        header_len: usize,
        text: *const u8,
        text_len: usize,
        out: *mut u8,
        out_len: usize,
    ) -> u32;

    fn baseline_open(
        cipher: u8,
        steps: u8,
        key: *const u8,
        key_len: usize,
        nonce: *const u8,
        nonce_len: usize,
        header: *const u8,
        header_len: usize,
        sealed: *const u8,
        sealed_len: usize,
        out: *mut u8,
        out_len: usize,
    ) -> u32;

    fn baseline_start(
        cipher: u8,
        steps: u8,
        key: *const u8,
        key_len: usize,
        number: u64,
        buffer: *mut u8,
        len: usize,
        writer: *mut Writer,
    ) -> u32;

    fn baseline_add(
        writer: *mut Writer,
        buffer: *mut u8,
        len: usize,
        from: *const u8,
        to: *const u8,
        source: *const u8,
        source_len: usize,
        target: *const u8,
        target_len: usize,
    ) -> u32;

    fn baseline_add_old(
        writer: *mut Writer,
        buffer: *mut u8,
        len: usize,
        from: *const u8,
        to: *const u8,
        source: *const u8,
        source_len: usize,
        target: *const u8,
        target_len: usize,
    ) -> u32;

    fn baseline_close(writer: *mut Writer, buffer: *mut u8, len: usize) -> u32;

    fn baseline_close_old(writer: *mut Writer, buffer: *mut u8, len: usize) -> u32;

    fn baseline_check(
        key: *const u8,
        key_len: usize,
        book: *const u8,
        len: usize,
        units: *mut u64,
        calls: *mut u64,
    ) -> u32;

    fn baseline_ciphertext(
        book: *const u8,
        len: usize,
        k: u64,
        at: *mut u64,
        ciphertext_len: *mut u64,
    );

    fn baseline_fetch(
        key: *const u8,
        key_len: usize,
        book: *const u8,
        len: usize,
        k: u64,
        out: *mut u8,
        out_len: usize,
        source_len: *mut u64,
        target_len: *mut u64,
    ) -> u32;

    fn baseline_score(
        source: *const u8,
        source_len: usize,
        typed: *const u8,
        typed_len: usize,
    ) -> u32;

    fn baseline_page(
        key: *const u8,
        key_len: usize,
        book: *const u8,
        len: usize,
        typed: *const u8,
        typed_len: usize,
        page: *mut u8,
        room: usize,
        page_len: *mut u64,
    ) -> u32;
}

/// The baseline's writer; `open` is 0 where it is closed.
#[repr(C)]
#[derive(Clone, Copy, Debug, PartialEq, Eq)]
pub struct Writer {
    pub number: u64,
    pub place: u64,
    pub units: u64,
    pub calls: u64,
    pub key: [u8; 16],
    pub cipher: u8,
    pub steps: u8,
    pub open: u8,
}

/// Enciphers the block in place under key and tweak.
#[inline]
pub fn encipher(
    cipher: u8,
    steps: u8,
    key: &[u8; 16],
    tweak: &[u8; 16],
    block: &mut [u8; 16],
) -> bool {
    // SAFETY: the three pointers are to 16 bytes each, and only the block's are written.
    let number = unsafe {
        baseline_encipher(
            cipher,
            steps,
            key.as_ptr(),
            tweak.as_ptr(),
            block.as_mut_ptr(),
        )
    };
    number == 0
}

/// Deciphers the block in place under key and tweak.
#[inline]
pub fn decipher(
    cipher: u8,
    steps: u8,
    key: &[u8; 16],
    tweak: &[u8; 16],
    block: &mut [u8; 16],
) -> bool {
    // SAFETY: the three pointers are to 16 bytes each, and only the block's are written.
    let number = unsafe {
        baseline_decipher(
            cipher,
            steps,
            key.as_ptr(),
            tweak.as_ptr(),
            block.as_mut_ptr(),
        )
    };
    number == 0
}

/// Enciphers in place every whole block that both slices have, each under its own tweak.
#[inline]
pub fn encipher_blocks(
    cipher: u8,
    steps: u8,
    key: &[u8; 16],
    tweaks: &[u8],
    blocks: &mut [u8],
) -> bool {
    let count = (tweaks.len() / 16).min(blocks.len() / 16);
    // SAFETY: the key has 16 bytes, both slices have `count` blocks, and only `blocks` is written.
    let number = unsafe {
        baseline_encipher_blocks(
            cipher,
            steps,
            key.as_ptr(),
            tweaks.as_ptr(),
            blocks.as_mut_ptr(),
            count,
        )
    };
    number == 0
}

/// Deciphers in place every whole block that both slices have, each under its own tweak.
#[inline]
pub fn decipher_blocks(
    cipher: u8,
    steps: u8,
    key: &[u8; 16],
    tweaks: &[u8],
    blocks: &mut [u8],
) -> bool {
    let count = (tweaks.len() / 16).min(blocks.len() / 16);
    // SAFETY: the key has 16 bytes, both slices have `count` blocks, and only `blocks` is written.
    let number = unsafe {
        baseline_decipher_blocks(
            cipher,
            steps,
            key.as_ptr(),
            tweaks.as_ptr(),
            blocks.as_mut_ptr(),
            count,
        )
    };
    number == 0
}

/// Writes the sealed text, ciphertext and tag, at the start of `out`.
#[inline]
pub fn seal(
    cipher: u8,
    steps: u8,
    key: &[u8],
    nonce: &[u8],
    header: &[u8],
    text: &[u8],
    out: &mut [u8],
) -> Result<(), u32> {
    // SAFETY: each slice is given with its length, and only `out` is written.
    let number = unsafe {
        baseline_seal(
            cipher,
            steps,
            key.as_ptr(),
            key.len(),
            nonce.as_ptr(),
            nonce.len(),
            header.as_ptr(),
            header.len(),
            text.as_ptr(),
            text.len(),
            out.as_mut_ptr(),
            out.len(),
        )
    };
    answer(number)
}

/// Writes the text of what was sealed at the start of `out`.
#[inline]
pub fn open(
    cipher: u8,
    steps: u8,
    key: &[u8],
    nonce: &[u8],
    header: &[u8],
    sealed: &[u8],
    out: &mut [u8],
) -> Result<(), u32> {
    // SAFETY: each slice is given with its length, and only `out` is written.
    let number = unsafe {
        baseline_open(
            cipher,
            steps,
            key.as_ptr(),
            key.len(),
            nonce.as_ptr(),
            nonce.len(),
            header.as_ptr(),
            header.len(),
            sealed.as_ptr(),
            sealed.len(),
            out.as_mut_ptr(),
            out.len(),
        )
    };
    answer(number)
}

/// Starts a book at the start of the buffer; a refused one hands back a closed writer of zeros.
#[inline]
pub fn start(
    cipher: u8,
    steps: u8,
    key: &[u8],
    number: u64,
    buffer: &mut [u8],
) -> (Writer, Result<(), u32>) {
    let mut writer = Writer {
        number: 0,
        place: 0,
        units: 0,
        calls: 0,
        key: [0; 16],
        cipher: 0,
        steps: 0,
        open: 0,
    };
    // SAFETY: each slice is given with its length, and only the buffer and the writer are written.
    let number = unsafe {
        baseline_start(
            cipher,
            steps,
            key.as_ptr(),
            key.len(),
            number,
            buffer.as_mut_ptr(),
            buffer.len(),
            &mut writer,
        )
    };
    (writer, answer(number))
}

impl Writer {
    /// Adds a unit at the place.
    #[inline]
    pub fn add(
        &mut self,
        buffer: &mut [u8],
        from: &[u8; 2],
        to: &[u8; 2],
        source: &[u8],
        target: &[u8],
    ) -> Result<(), u32> {
        self.add_of(Kind::NEWEST, buffer, from, to, source, target)
    }

    /// Closes the book at the place.
    #[inline]
    pub fn close(&mut self, buffer: &mut [u8]) -> Result<(), u32> {
        self.close_of(Kind::NEWEST, buffer)
    }

    /// Adds a unit as the writer of this kind.
    #[inline]
    pub fn add_of(
        &mut self,
        kind: Kind,
        buffer: &mut [u8],
        from: &[u8; 2],
        to: &[u8; 2],
        source: &[u8],
        target: &[u8],
    ) -> Result<(), u32> {
        let add = match kind {
            Kind::Tag10 => baseline_add_old,
            Kind::Tag14 => baseline_add,
        };
        // SAFETY: the codes have two bytes each, each slice is given with its length, and only the
        // writer and the buffer are written.
        let number = unsafe {
            add(
                self,
                buffer.as_mut_ptr(),
                buffer.len(),
                from.as_ptr(),
                to.as_ptr(),
                source.as_ptr(),
                source.len(),
                target.as_ptr(),
                target.len(),
            )
        };
        answer(number)
    }

    /// Closes the book as the writer of this kind.
    #[inline]
    pub fn close_of(&mut self, kind: Kind, buffer: &mut [u8]) -> Result<(), u32> {
        let close = match kind {
            Kind::Tag10 => baseline_close_old,
            Kind::Tag14 => baseline_close,
        };
        // SAFETY: the buffer is given with its length, and only it and the writer are written.
        let number = unsafe { close(self, buffer.as_mut_ptr(), buffer.len()) };
        answer(number)
    }
}

/// Unit count and call total of a book that is accepted.
#[inline]
pub fn check(key: &[u8], book: &[u8]) -> Result<(u64, u64), u32> {
    let (mut units, mut calls) = (0, 0);
    // SAFETY: each slice is given with its length, and only the two numbers are written.
    let number = unsafe {
        baseline_check(
            key.as_ptr(),
            key.len(),
            book.as_ptr(),
            book.len(),
            &mut units,
            &mut calls,
        )
    };
    answer(number).map(|()| (units, calls))
}

/// Where the ciphertext of unit `k` stands in the book, unopened; empty at its start where there is none.
#[inline]
pub fn ciphertext(book: &[u8], k: u64) -> Range<usize> {
    let (mut at, mut len) = (0, 0);
    // SAFETY: the book is given with its length, and only the two numbers are written.
    unsafe { baseline_ciphertext(book.as_ptr(), book.len(), k, &mut at, &mut len) };
    at as usize..(at + len) as usize
}

/// Writes source and target of unit `k` at the start of `out`, and returns their lengths.
#[inline]
pub fn fetch(key: &[u8], book: &[u8], k: u64, out: &mut [u8]) -> Result<(usize, usize), u32> {
    let (mut source, mut target) = (0, 0);
    // SAFETY: each slice is given with its length, and only `out` and the two numbers are written.
    let number = unsafe {
        baseline_fetch(
            key.as_ptr(),
            key.len(),
            book.as_ptr(),
            book.len(),
            k,
            out.as_mut_ptr(),
            out.len(),
            &mut source,
            &mut target,
        )
    };
    answer(number).map(|()| (source as usize, target as usize))
}

/// How alike two segments are.
#[inline]
pub fn score(source: &[u8], typed: &[u8]) -> u32 {
    // SAFETY: each slice is given with its length, and both are only read.
    unsafe { baseline_score(source.as_ptr(), source.len(), typed.as_ptr(), typed.len()) }
}

/// Writes a row for each unit at the start of `page`, and returns their length.
#[inline]
pub fn page(key: &[u8], book: &[u8], typed: &[u8], page: &mut [u8]) -> Result<usize, u32> {
    let mut len = 0;
    // SAFETY: each slice is given with its length, and only `page` and the number are written.
    let number = unsafe {
        baseline_page(
            key.as_ptr(),
            key.len(),
            book.as_ptr(),
            book.len(),
            typed.as_ptr(),
            typed.len(),
            page.as_mut_ptr(),
            page.len(),
            &mut len,
        )
    };
    answer(number).map(|()| len as usize)
}

/// 0, or a refusal's number.
fn answer(number: u32) -> Result<(), u32> {
    match number {
        0 => Ok(()),
        number => Err(number),
    }
}
