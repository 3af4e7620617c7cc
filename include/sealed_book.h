/* Sealed books: the functions for C.
 *
 * Each function that can refuse returns 0, or the number of the refusal that it gives (SB_* below). After a refusal
 * everything that was lent is as it was, but for the writer of a refused sb_start, which is then a closed one. No function
 * keeps a pointer, allocates, or writes anywhere but through the parameters that are not const. What is lent to be written
 * must not overlap anything else that is lent to the same call.
 *
 * There is no state outside what is lent: calls may be made from several threads at once, as long as none writes what another
 * one is lent.
 *
 * How much stack a call takes at most, measured, with the C library's memcpy and memset, and not counting the dynamic linker,
 * which may take some KB more at the first call of these:
 *    1 KB  sb_start, sb_place, sb_units, sb_calls, sb_info, sb_unit, sb_unit_at, sb_ciphertext
 *    4 KB  sb_encipher, sb_decipher
 *   10 KB  sb_encipher_blocks, sb_decipher_blocks
 *   18 KB  sb_seal, sb_add, sb_close, sb_check
 *   24 KB  sb_open, sb_fetch, sb_fetch_at
 *   56 KB  sb_score
 *   64 KB  sb_page
 *
 * Link with libsealed_book.a (x86-64 Linux).
 */
#ifndef SEALED_BOOK_H
#define SEALED_BOOK_H

#include <stddef.h>
#include <stdint.h>

#ifdef __cplusplus
extern "C" {
#endif

/* The version of these declarations, N of the library's version 0.N.x. It moves whenever one of them changes its meaning, or a
 * program in Rust has to change; an archive goes with the header of its own version only. CHANGELOG.md has what changed.
 *   1  headers that do not define it
 *   2  sb_fetch_at has one more parameter at its end, *next
 *   3  books are written with unit numbers of 4 bytes, up to SB_UNITS_MAX, and take more room: SB_UNIT_ROOM, SB_CLOSE_ROOM,
 *      SB_BOOK_ROOM and SB_UNITS_MAX are larger. A program that was compiled with an older header may lend too short a buffer,
 *      which is refused with 7. Books of older versions are read still; older versions of the library refuse the new ones
 *   4  the two codes of a unit may be the same: sb_add takes such units, and all calls that read a book read them, where versions
 *      before refused with 11. A program that left it to the library to refuse such a pair has to test it itself now. A book
 *      without such a unit is byte for byte that of version 3, which reads it; older versions refuse a book with such a unit */
#define SB_VERSION 4

/* Lengths in bytes, and limits. */
#define SB_KEY_LEN 16         /* a key */
#define SB_BLOCK_LEN 16       /* a block of the ciphers, and a tweak */
#define SB_TAG_LEN 16         /* a tag: what sb_seal writes behind the ciphertext */
#define SB_NONCE_MAX 15       /* a nonce at most; it has 1 at least */
#define SB_WRITER_LEN 64      /* a writer */
#define SB_SEGMENT_MAX 4096   /* a source at most, or a target; a source has 1 at least */
#define SB_UNIT_MAX 8192      /* source and target of a unit together at most: always enough output for a fetch */
#define SB_UNITS_MAX 16777215 /* units of a book at most; a book of a version before 3 has at most 65,535 */
#define SB_CODE_LEN 2         /* what sb_add reads of each language code: two letters a to z */
#define SB_CODE_ROOM 4        /* room for a language code that is handed out */
#define SB_FIRST_UNIT 16      /* where unit 0 begins in a book, or the close of a book without units */
#define SB_ROW_LEN 12         /* a row of a page, which has one for each unit */
#define SB_SCORE_MAX 1000     /* a score at most: that of a segment and itself */

/* How many bytes of a book a unit takes, how many the close does, and how many a book takes in all that has so many units with
 * so many bytes in their sources and targets together. These are for writing; a book of a version before 3 takes 2 bytes less
 * for each unit, and 2 less for the close. */
#define SB_UNIT_ROOM(source_len, target_len) ((size_t)35 + (size_t)(source_len) + (size_t)(target_len))
#define SB_CLOSE_ROOM 26
#define SB_BOOK_ROOM(units, segments_len) \
    ((size_t)SB_FIRST_UNIT + (size_t)(units) * SB_UNIT_ROOM(0, 0) + (size_t)(segments_len) + (size_t)SB_CLOSE_ROOM)

/* What sb_seal and sb_open take at most under a nonce of 1 to SB_NONCE_MAX bytes: of a header, and of a text. */
#define SB_HEADER_MAX(nonce_len) ((size_t)1 << ((nonce_len) > 13 ? 130 - 8 * (nonce_len) : 24))
#define SB_TEXT_MAX(nonce_len) ((size_t)1 << ((nonce_len) > 13 ? 131 - 8 * (nonce_len) : 24))

/* A suite is a cipher and a step count. These eight are listed; every other pair of bytes is refused. */
#define SB_SCREAM 1  /* steps 6, 8, 10 or 12 */
#define SB_ISCREAM 2 /* steps 8, 10, 12 or 14 */

/* Refusals. */
#define SB_SUITE_NOT_LISTED 1 /* the suite is none of the eight */
#define SB_KEY_LENGTH 2       /* the key has not 16 bytes */
#define SB_NONCE_LENGTH 3     /* the nonce has not 1 to 15 bytes */
#define SB_HEADER_TOO_LONG 4  /* the header is over its limit */
#define SB_SEALED_TOO_SHORT 5 /* the sealed bytes are under 16 */
#define SB_TEXT_TOO_LONG 6    /* the text is over its limit */
#define SB_OUTPUT_TOO_SHORT 7 /* the output has no room for the result */
#define SB_TAG_DIFFERS 8      /* the tag is not the one of these bytes: something was changed, or the key is another */
#define SB_WRITER_INVALID 9   /* the writer has an unlisted suite, a place under 16 or past the buffer, a unit count over
                                 16,777,215 or a call total over 1,024 * (unit count + 1): it comes from a refused start, the
                                 buffer is shorter than before, or its bytes were changed */
#define SB_WRITER_CLOSED 10   /* the writer is closed */
#define SB_LANGUAGES 11       /* a language code has a byte that is no letter a to z */
#define SB_SEGMENT_LENGTH 12  /* the source has not 1 to 4,096 bytes, or the target has more than 4,096 */
#define SB_TOO_MANY_UNITS 13  /* the book has 16,777,215 units already; one with numbers of 2 bytes never gets so far */
#define SB_FIELD_MALFORMED 14 /* a field of the book has another tag or length than it must have there, also one of the other
                                 kind of book, or bytes are missing or left over */
#define SB_UNIT_NUMBER 15     /* a unit's number is not the running one, or the close's count is not the number of units; also
                                 where 2 bytes of a book from before version 3 cannot hold it */
#define SB_NO_UNIT 16         /* the book has no unit of that number */

/* A refusal in words: a sentence of static storage, for 0 "done", and never null. The crate for Rust has the
 * same sixteen, and one of its own (1,001), where a receipt differs. */
static inline const char *sb_refusal_text(uint32_t refusal) {
    switch (refusal) {
    case 0: return "done";
    case SB_SUITE_NOT_LISTED: return "the suite is not listed: Scream has 6, 8, 10 or 12 steps, iScream 8, 10, 12 or 14";
    case SB_KEY_LENGTH: return "the key does not have 16 bytes";
    case SB_NONCE_LENGTH: return "the nonce does not have 1 to 15 bytes";
    case SB_HEADER_TOO_LONG: return "the header is longer than a nonce of this length allows";
    case SB_SEALED_TOO_SHORT: return "the sealed bytes are fewer than the 16 of a tag";
    case SB_TEXT_TOO_LONG: return "the text is longer than a nonce of this length allows";
    case SB_OUTPUT_TOO_SHORT: return "the output has no room for the result";
    case SB_TAG_DIFFERS: return "the tag differs: bytes were changed, or the key is another";
    case SB_WRITER_INVALID: return "the writer is not valid, or its buffer is shorter than it was";
    case SB_WRITER_CLOSED: return "the writer is closed already";
    case SB_LANGUAGES: return "a language code has a byte that is no letter a to z";
    case SB_SEGMENT_LENGTH: return "the source does not have 1 to 4,096 bytes, or the target has more than 4,096";
    case SB_TOO_MANY_UNITS: return "a book has no room for more than 16,777,215 units";
    case SB_FIELD_MALFORMED: return "not a whole book: a field is malformed, or bytes are missing or left over";
    case SB_UNIT_NUMBER: return "a unit's number is not the running one, or the close's count is not that of the units";
    case SB_NO_UNIT: return "the book has no unit of this number";
    default: return "no refusal has this number";
    }
}

/* Enciphers, or deciphers, one block of 16 bytes in place, under a key and a tweak of 16 bytes each.
 * Refusal: 1; then nothing is written, and the block is as it was. */
uint32_t sb_encipher(uint8_t cipher, uint8_t steps, const uint8_t key[SB_KEY_LEN], const uint8_t tweak[SB_BLOCK_LEN],
                     uint8_t block[SB_BLOCK_LEN]);
uint32_t sb_decipher(uint8_t cipher, uint8_t steps, const uint8_t key[SB_KEY_LEN], const uint8_t tweak[SB_BLOCK_LEN],
                     uint8_t block[SB_BLOCK_LEN]);

/* Enciphers, or deciphers, as many whole blocks as both slices have, each in place under its own tweak: block i stands at
 * blocks + 16 * i, its tweak at tweaks + 16 * i. All other bytes stay as they are. A slice of length 0 may be null.
 * Refusal: 1; then all bytes are as they were. */
uint32_t sb_encipher_blocks(uint8_t cipher, uint8_t steps, const uint8_t key[SB_KEY_LEN],
                            const uint8_t *tweaks, size_t tweaks_len, uint8_t *blocks, size_t blocks_len);
uint32_t sb_decipher_blocks(uint8_t cipher, uint8_t steps, const uint8_t key[SB_KEY_LEN],
                            const uint8_t *tweaks, size_t tweaks_len, uint8_t *blocks, size_t blocks_len);

/* Seals a text under a key of 16 bytes, a nonce of n = 1 to 15 bytes and a header that is sealed along and not hidden: writes
 * text_len + SB_TAG_LEN bytes, ciphertext then tag, to the start of out, and leaves every other byte of out as it was. *len is
 * then text_len + SB_TAG_LEN, *calls the number of cipher calls made. A nonce must never be used twice under one key, and all
 * nonces under one key must have the same length.
 * Limits: header min(2^(130 - 8n), 2^24) bytes, text min(2^(131 - 8n), 2^24), which are SB_HEADER_MAX(n) and SB_TEXT_MAX(n). A
 * slice of length 0 may be null.
 * How long the text is, is not sealed along: without the key, who knows some of a text (16 bytes can be enough) can make sealed
 * bytes of a shorter one from it, which sb_open accepts (docs/SECURITY.md says when). Put text_len into the header, in a fixed
 * number of bytes, and on opening sealed_len - SB_TAG_LEN: then these are refused.
 * Refusals, the first that applies: 1, 2, 3, 4, 6, 7; then out, *len and *calls are as they were. */
uint32_t sb_seal(uint8_t cipher, uint8_t steps, const uint8_t *key, size_t key_len, const uint8_t *nonce, size_t nonce_len,
                 const uint8_t *header, size_t header_len, const uint8_t *text, size_t text_len,
                 uint8_t *out, size_t out_len, uint64_t *len, uint64_t *calls);

/* Opens what sb_seal has sealed under the same suite, key, nonce and header: writes the text, sealed_len - SB_TAG_LEN bytes, to
 * the start of out, and leaves every other byte of out as it was. *len is then the text's length. Nothing is written before the
 * tag has been compared in full. The limits are those of sb_seal, which also says how a text that was made shorter on the way is
 * refused. A slice of length 0 may be null.
 * Refusals, the first that applies: 1, 2, 3, 4, 5, 6, 7, 8; then out and *len are as they were. */
uint32_t sb_open(uint8_t cipher, uint8_t steps, const uint8_t *key, size_t key_len, const uint8_t *nonce, size_t nonce_len,
                 const uint8_t *header, size_t header_len, const uint8_t *sealed, size_t sealed_len,
                 uint8_t *out, size_t out_len, uint64_t *len);

/* Writing a book.
 *
 * A book is written into one buffer by sb_start, then sb_add for each unit, then sb_close. The caller keeps the writer, 64 bytes,
 * and the buffer, and lends both to each call; what stands before the writer's place must not be changed meanwhile. The book is
 * the first sb_place(writer) bytes of the buffer. A book number must never be used twice under one key.
 *
 * A book takes SB_BOOK_ROOM bytes, SB_UNIT_ROOM of them for each unit.
 *
 * The writer's bytes, numbers big-endian:
 *    0      cipher
 *    1      steps
 *    2      1 while the writer is open, 0 when it is closed; any other value counts as closed
 *    3..7   not used: any content, 0 once a call has been done
 *    8..15  book number
 *   16..31  key
 *   32..39  place: how many bytes of the buffer are written
 *   40..47  unit count
 *   48..55  call total: the number of cipher calls made for the book
 *   56..63  not used, likewise
 * sb_add and sb_close take any 64 bytes and read these fields from them. Bytes that hold no valid writer are refused with 9, as
 * are the 64 zero bytes that a refused sb_start leaves. Changed bytes that hold one are taken as they are: nobody may change them.
 * The writer holds the key: clear it when the book is done, by means that the compiler does not leave out (explicit_bzero).
 *
 * The receipt: without the key, who knows some of the text of a unit (16 bytes can be enough) can make it shorter, and so can
 * anybody where two equal blocks of 16 bytes stand right before its last one, as in a row of dots; and sb_check accepts the book
 * (docs/SECURITY.md says when). A book that was made so is shorter, and takes fewer cipher calls. So who makes a book keeps three
 * numbers of its writer after sb_close, and sends them another way than the book: one on which nobody can change them who can
 * change the book. They are no secret.
 *     bytes   sb_place(writer)     the length of the file that was received
 *     units   sb_units(writer)     *units of sb_check
 *     calls   sb_calls(writer)     *calls of sb_check
 * Who receives the book compares them with what stands at the right, before any unit is used. They do not say which book it is:
 * another one under the key can have the same three. Compare the book number (sb_info) too. As text they are a line as
 * "bytes=88 units=1 calls=7", which the crate for Rust writes and reads.
 */

/* Starts a book under a suite, a key of 16 bytes and a book number: writes SB_FIRST_UNIT bytes to the start of buf, leaves every
 * other byte of buf as it was, and makes the writer, whatever its 64 bytes were. A slice of length 0 may be null.
 * Refusals, the first that applies: 1, 2, 7; then buf is as it was, and the writer's 64 bytes are 0: a closed writer. */
uint32_t sb_start(uint8_t cipher, uint8_t steps, const uint8_t *key, size_t key_len, uint64_t number,
                  uint8_t *buf, size_t buf_len, uint8_t writer[SB_WRITER_LEN]);

/* Adds a unit: from and to are its language codes, two letters a to z each. The two codes may be the same, as where English is
 * rewritten in a controlled English; where that would be a mistake, compare them before the call. Writes
 * SB_UNIT_ROOM(source_len, target_len) bytes at the writer's place, leaves every other byte of buf as it was, and moves the writer
 * on: place, unit count and call total. A slice of length 0 may be null.
 * Exactly SB_CODE_LEN bytes of each code are read, whatever follows them: a string of fewer letters would be read past its end,
 * and one of more is cut without a word, "deu" to "de". Test strlen(code) == SB_CODE_LEN where a code comes from outside.
 * Refusals, the first that applies: 9, 10, 11, 12, 13, 7; then buf and writer are as they were. */
uint32_t sb_add(uint8_t writer[SB_WRITER_LEN], uint8_t *buf, size_t buf_len,
                const uint8_t from[SB_CODE_LEN], const uint8_t to[SB_CODE_LEN],
                const uint8_t *source, size_t source_len, const uint8_t *target, size_t target_len);

/* Closes the book: writes SB_CLOSE_ROOM bytes at the writer's place, leaves every other byte of buf as it was, moves the writer's
 * place and call total on and closes it. A slice of length 0 may be null.
 * Refusals, the first that applies: 9, 10, 7; then buf and writer are as they were. */
uint32_t sb_close(uint8_t writer[SB_WRITER_LEN], uint8_t *buf, size_t buf_len);

/* Reading a book.
 *
 * There are two kinds of book. In those of sb_start, sb_add and sb_close a unit's number has 4 bytes, and so has the count in the
 * close; in those of the versions before 3 these have 2 bytes, and there are at most 65,535 units. Every call that reads a book
 * reads both kinds. The byte behind the opening fields says the kind: 0x10 or 0x20 the second, any other byte the first, whose
 * books have 0x14 or 0x21 there; what is read there and begins otherwise is refused with 14. So is a field of the other kind: a
 * book is of one kind throughout. In a book of the second kind no number over 65,535 can stand: a unit or a close that would need
 * one is refused with 15, so that the limit of 13 is never reached but by the number that sb_fetch_at or sb_unit_at is given.
 *
 * The rule for language codes is one for both kinds: letters a to z. A unit whose two codes are the same is read in either kind,
 * though versions before 4 wrote none, and refuse it.
 */

/* Checks a whole book, from its first byte to its last, under its key of 16 bytes: accepts it where sb_start, sb_add for each unit
 * and sb_close under this key can have written it, or those of a version before 3, taken with this version's rule for language
 * codes, and refuses any other bytes. Only reads. *units is then the number of units, *calls the number of cipher calls that it
 * takes to write these bytes: what sb_units and sb_calls give of a writer that leaves them. Of a book that was made shorter on the
 * way these are not its maker's numbers: compare them and book_len with the receipt (above). A slice of length 0 may be null.
 * Refusals, the first that applies in the order of the bytes: 2; 14 of the opening fields; 1; of each unit 14 of its number and
 * languages' field, 13, 15, 11, 14 of its ciphertext's and tag's fields, 8, 12; of the close 14 of its fields, 15, 8, and 14 for
 * bytes left over. Then *units and *calls are as they were. */
uint32_t sb_check(const uint8_t *key, size_t key_len, const uint8_t *book, size_t book_len, uint64_t *units, uint64_t *calls);

/* Fetches unit k, from 0, under the book's key of 16 bytes: walks past the units before it without opening them, opens unit k, and
 * writes its source and then its target to the start of out; every other byte of out stays as it was. *source_len and
 * *target_len are then their lengths. SB_UNIT_MAX bytes of out are always enough. Nothing is written before the tag has been
 * compared in full. The book need not have been checked: of the units before k only the fields, numbers and languages are looked
 * at, and nothing behind k. Whether or not the book was checked, the unit may have been made shorter on the way: only the receipt
 * of the whole book, compared after sb_check, shows that. Key length and opening fields are tested before the walk. A slice of
 * length 0 may be null.
 * Refusals, the first that applies in the order of the bytes: 2; 14 of the opening fields; 1; of each unit before k 14, 13, 15, 11,
 * 14 as in sb_check; of unit k these, then 8, 12, and 7; where the close is met, 14, 15, 8, 14 as in sb_check, then 16. Then out,
 * *source_len and *target_len are as they were. */
uint32_t sb_fetch(const uint8_t *key, size_t key_len, const uint8_t *book, size_t book_len, uint64_t k,
                  uint8_t *out, size_t out_len, uint64_t *source_len, uint64_t *target_len);

/* The same of unit `number` where its fields begin at byte `at` of the book, without a walk; *next is then where the next unit
 * begins, or the close. So a book is gone over in time linear in its length:
 *     for (k = 0, at = SB_FIRST_UNIT; (no = sb_fetch_at(.., k, (size_t)at, .., &at)) == 0; k++) ..
 * ends with SB_NO_UNIT at the close of a whole book. What stands at the place is read as unit `number`, or as the close; only the
 * opening fields and the byte behind them, which says the kind, are looked at besides. Any place may be given; one past the book's
 * end is refused with 14.
 * Refusals: those of sb_fetch without the units before k. Then out, *source_len, *target_len and *next are as they were. */
uint32_t sb_fetch_at(const uint8_t *key, size_t key_len, const uint8_t *book, size_t book_len, uint64_t number, size_t at,
                     uint8_t *out, size_t out_len, uint64_t *source_len, uint64_t *target_len, uint64_t *next);

/* How alike two segments are, of any length, empty ones too: 0 to SB_SCORE_MAX, and the same both ways round. A segment has a run
 * of three bytes from each place on but its last two, none if it is shorter than 3: the one has p runs, the other q, and c are
 * shared, each counted as often as both have it. The score is 2,000 * c / (p + q), rounded down; where p + q is 0, 1,000 for
 * equal segments and 0 for others. Bytes are compared, whatever they mean: a letter of two bytes counts as two, and a capital is
 * another letter. Only reads. A slice of length 0 may be null.
 * It takes time as the two lengths together, on ordinary text of which one side has at most 4,096 bytes; docs/SPEED.md has what
 * longer ones take, and bytes that were chosen to be slow.
 * Nothing is refused. */
uint32_t sb_score(const uint8_t *source, size_t source_len, const uint8_t *typed, size_t typed_len);

/* Compares a typed sentence of any length, also an empty one, with every unit of a book under its key of 16 bytes: writes a row
 * for each unit, in the order of the book, to the start of page, and leaves every other byte of page as it was. *len is then
 * SB_ROW_LEN times the number of units, and so many bytes of page are enough: SB_ROW_LEN times *units of sb_check. A row is the
 * length of the source in bytes, right-aligned in 5 columns, two blanks, sb_score of the source and the typed sentence,
 * right-aligned in 4 columns, and a line feed: "    5   857\n" for a source "valve" and a typed "valves". No zero byte stands
 * behind the rows. The whole book is checked, as by sb_check, before anything is written. It is read twice, and must not change
 * during the call. Compare it with its receipt (above) first: a book that was made shorter on the way is not refused. A slice of
 * length 0 may be null.
 * It takes sb_check's time and about half of it again; a typed sentence of over SB_SEGMENT_MAX bytes is gone over once for each
 * unit, and bytes can be chosen to be slow (docs/SPEED.md).
 * Refusals, the first that applies: those of sb_check in their order, then 7; then page and *len are as they were. */
uint32_t sb_page(const uint8_t *key, size_t key_len, const uint8_t *book, size_t book_len, const uint8_t *typed, size_t typed_len,
                 uint8_t *page, size_t page_len, uint64_t *len);

/* What a book says in the clear.
 *
 * These four need no key and open nothing. No seal is tested: that what they give is a writer's is known only once sb_check has
 * accepted the book, or sb_fetch or sb_fetch_at the unit. A slice of length 0 may be null.
 */

/* Suite and book number, of the opening fields: *cipher, *steps and *number. Nothing behind these fields is looked at,
 * and no seal is tested.
 * Refusals, the first that applies: 14 of the opening fields, 1; then *cipher, *steps and *number are as they were. */
uint32_t sb_info(const uint8_t *book, size_t book_len, uint8_t *cipher, uint8_t *steps, uint64_t *number);

/* Of unit `number`, whose fields begin at byte `at` of the book: its language codes, which may be the same, *from_len letters a to
 * z in from and *to_len in to, zeros behind them up to SB_CODE_ROOM bytes; its ciphertext, *ciphertext_len bytes from byte
 * *ciphertext_at of the book on, 2 more than source and target have together; and *next, where the next unit begins, or the close.
 * Any place may be given, as with sb_fetch_at. No seal is tested.
 * Refusals, the first that applies: 14 of the opening fields, 1; of what stands at the place 14, 13, 15, 11, 14 as in sb_fetch of a
 * unit; where it begins as a close does, 14 of the close's fields, 15, then 16, whatever stands behind it. Then everything that
 * was lent is as it was. */
uint32_t sb_unit_at(const uint8_t *book, size_t book_len, uint64_t number, size_t at,
                    uint8_t from[SB_CODE_ROOM], uint64_t *from_len, uint8_t to[SB_CODE_ROOM], uint64_t *to_len,
                    uint64_t *ciphertext_at, uint64_t *ciphertext_len, uint64_t *next);

/* The same of unit k, from 0, which is found by a walk past the units before it; *at is then where its fields begin. No
 * seal is tested.
 * Refusals, the first that applies: 14 of the opening fields, 1; of each unit up to k 14, 13, 15, 11, 14; where the close is met,
 * 14 of its fields, 15, then 16. Then everything that was lent is as it was. */
uint32_t sb_unit(const uint8_t *book, size_t book_len, uint64_t k, uint64_t *at,
                 uint8_t from[SB_CODE_ROOM], uint64_t *from_len, uint8_t to[SB_CODE_ROOM], uint64_t *to_len,
                 uint64_t *ciphertext_at, uint64_t *ciphertext_len, uint64_t *next);

/* Where the ciphertext of unit k stands in the book, found by a walk: *len bytes from byte *at on. *at and *len are 0 where sb_unit
 * would refuse. No seal is tested. */
void sb_ciphertext(const uint8_t *book, size_t book_len, uint64_t k, uint64_t *at, uint64_t *len);

/* The writer's place, unit count and call total, of any 64 bytes; after sb_close they are the receipt. Nothing is refused. */
uint64_t sb_place(const uint8_t writer[SB_WRITER_LEN]);
uint64_t sb_units(const uint8_t writer[SB_WRITER_LEN]);
uint64_t sb_calls(const uint8_t writer[SB_WRITER_LEN]);

#ifdef __cplusplus
}
#endif

#endif
