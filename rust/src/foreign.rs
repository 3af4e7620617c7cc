//! The functions of the static library, as C sees them; `include/sealed_book.h` says what each asks for.
//! Each returns 0 or a refusal's number, but for [`sb_score`], which returns a score, [`sb_ciphertext`], which
//! returns nothing, and the last three, which return a number of the writer.

extern "C" {
    /// Enciphers one block.
    pub fn sb_encipher(
        cipher: u8,
        steps: u8,
        key: *const u8,
        tweak: *const u8,
        block: *mut u8,
    ) -> u32;

    /// Deciphers one block.
    pub fn sb_decipher(
        cipher: u8,
        steps: u8,
        key: *const u8,
        tweak: *const u8,
        block: *mut u8,
    ) -> u32;

    /// Enciphers many blocks.
    pub fn sb_encipher_blocks(
        cipher: u8,
        steps: u8,
        key: *const u8,
        tweaks: *const u8,
        tweaks_len: usize,
        blocks: *mut u8,
        blocks_len: usize,
    ) -> u32;

    /// Deciphers many blocks.
    pub fn sb_decipher_blocks(
        cipher: u8,
        steps: u8,
        key: *const u8,
        tweaks: *const u8,
        tweaks_len: usize,
        blocks: *mut u8,
        blocks_len: usize,
    ) -> u32;

    /// Seals a text.
    pub fn sb_seal(
        cipher: u8,
        steps: u8,
        key: *const u8,
        key_len: usize,
        nonce: *const u8,
        nonce_len: usize,
        header: *const u8,
        header_len: usize,
        text: *const u8,
        text_len: usize,
        out: *mut u8,
        out_len: usize,
        len: *mut u64,
        calls: *mut u64,
    ) -> u32;

    /// Opens what was sealed.
    pub fn sb_open(
        cipher: u8,
        steps: u8,
        key: *const u8,
        key_len: usize,
        nonce: *const u8,
        nonce_len: usize,
        header: *const u8,
        header_len: usize,
        sealed: *const u8,
        sealed_len: usize,
        out: *mut u8,
        out_len: usize,
        len: *mut u64,
    ) -> u32;

    /// Starts a book.
    pub fn sb_start(
        cipher: u8,
        steps: u8,
        key: *const u8,
        key_len: usize,
        number: u64,
        buf: *mut u8,
        buf_len: usize,
        writer: *mut u8,
    ) -> u32;

    /// Adds a unit.
    pub fn sb_add(
        writer: *mut u8,
        buf: *mut u8,
        buf_len: usize,
        from: *const u8,
        to: *const u8,
        source: *const u8,
        source_len: usize,
        target: *const u8,
        target_len: usize,
    ) -> u32;

    /// Closes the book.
    pub fn sb_close(writer: *mut u8, buf: *mut u8, buf_len: usize) -> u32;

    /// Checks a whole book.
    pub fn sb_check(
        key: *const u8,
        key_len: usize,
        book: *const u8,
        book_len: usize,
        units: *mut u64,
        calls: *mut u64,
    ) -> u32;

    /// Fetches unit `k`, with a walk over the units before it.
    pub fn sb_fetch(
        key: *const u8,
        key_len: usize,
        book: *const u8,
        book_len: usize,
        k: u64,
        out: *mut u8,
        out_len: usize,
        source_len: *mut u64,
        target_len: *mut u64,
    ) -> u32;

    /// Fetches the unit of this number from this place.
    pub fn sb_fetch_at(
        key: *const u8,
        key_len: usize,
        book: *const u8,
        book_len: usize,
        number: u64,
        at: usize,
        out: *mut u8,
        out_len: usize,
        source_len: *mut u64,
        target_len: *mut u64,
        next: *mut u64,
    ) -> u32;

    /// How alike two segments are.
    pub fn sb_score(
        source: *const u8,
        source_len: usize,
        typed: *const u8,
        typed_len: usize,
    ) -> u32;

    /// Compares a typed sentence with every unit of a book.
    pub fn sb_page(
        key: *const u8,
        key_len: usize,
        book: *const u8,
        book_len: usize,
        typed: *const u8,
        typed_len: usize,
        page: *mut u8,
        page_len: usize,
        len: *mut u64,
    ) -> u32;

    /// Suite and book number.
    pub fn sb_info(
        book: *const u8,
        book_len: usize,
        cipher: *mut u8,
        steps: *mut u8,
        number: *mut u64,
    ) -> u32;

    /// What the fields at a place say of the unit of this number.
    pub fn sb_unit_at(
        book: *const u8,
        book_len: usize,
        number: u64,
        at: usize,
        from: *mut u8,
        from_len: *mut u64,
        to: *mut u8,
        to_len: *mut u64,
        ciphertext_at: *mut u64,
        ciphertext_len: *mut u64,
        next: *mut u64,
    ) -> u32;

    /// The same of unit `k`, with a walk over the units before it.
    pub fn sb_unit(
        book: *const u8,
        book_len: usize,
        k: u64,
        at: *mut u64,
        from: *mut u8,
        from_len: *mut u64,
        to: *mut u8,
        to_len: *mut u64,
        ciphertext_at: *mut u64,
        ciphertext_len: *mut u64,
        next: *mut u64,
    ) -> u32;

    /// Where unit `k`'s ciphertext stands.
    pub fn sb_ciphertext(book: *const u8, book_len: usize, k: u64, at: *mut u64, len: *mut u64);

    /// The writer's place.
    pub fn sb_place(writer: *const u8) -> u64;

    /// The writer's unit count.
    pub fn sb_units(writer: *const u8) -> u64;

    /// The writer's call total.
    pub fn sb_calls(writer: *const u8) -> u64;
}
