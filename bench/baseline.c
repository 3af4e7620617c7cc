/*
 * Scream and iScream (CAESAR version 1) in C, one block at a time, sealing over them, the writer, the
 * checker and the fetcher of sealed books, and the page that compares a sentence with a book: the
 * yardstick of the benchmark. Books are written of the wide kind or the old one, and read of both.
 *
 * The S-boxes are bitsliced on the eight rows (Algorithms 3 and 4, and 5 with its round corrected).
 * The L-boxes go by two tables of 256 words each, one for each byte of a row. Four byte tables, as
 * the paper prints them, and 16-bit entries were slower with gcc -O3 on x86-64.
 *
 * The tables are indexed by secret bytes: this code is for measuring, not for use.
 */

#include <stddef.h>
#include <stdint.h>
#include <stdlib.h>
#include <string.h>

#if __BYTE_ORDER__ != __ORDER_LITTLE_ENDIAN__
#error "rows are taken from 64-bit words, low byte first"
#endif

#define INLINE static inline __attribute__((always_inline))

enum { SCREAM = 1, ISCREAM = 2 };

/* A row, in the low 16 bits; the bits above are 0. */
typedef uint32_t row;

/* The rows of a state, a tweak or a key as two words: rows 0 to 3 and rows 4 to 7, lowest first. */
typedef struct {
    uint64_t low, high;
} packed_rows;

/* ---- L-boxes ---- */

/* The products of the matrix and a word that has only a low byte, or only a high byte. */
typedef struct {
    uint32_t low[256], high[256];
} l_box;

static l_box scream_l, scream_l_inverse, iscream_l;

/* Column i of the matrix: its product with the word that has only bit i. */
static const uint16_t scream_columns[16] = {
    0x385C, 0x52A9, 0x7BB3, 0x96C1, 0xD76D, 0x3AE0, 0xE524, 0xFEA5,
    0x464B, 0xF1AF, 0xA133, 0x7F74, 0x6712, 0x7A6F, 0x701B, 0x8AB1,
};

/* iScream's matrix is its own inverse. */
static const uint16_t iscream_columns[16] = {
    0xFFFE, 0xCCC1, 0xAAA1, 0x9991, 0x6689, 0x5585, 0x3383, 0x007F,
    0xE069, 0xD055, 0xB033, 0x700F, 0x0E69, 0x0D55, 0x0B33, 0x070F,
};

static void fill(l_box *l, const uint16_t columns[16])
{
    for (int byte = 0; byte < 256; byte++) {
        uint32_t low = 0, high = 0;
        for (int i = 0; i < 8; i++) {
            if (byte >> i & 1) {
                low ^= columns[i];
                high ^= columns[8 + i];
            }
        }
        l->low[byte] = low;
        l->high[byte] = high;
    }
}

/* Runs before main. The inverse of Scream's matrix is its transpose. */
__attribute__((constructor)) static void make_tables(void)
{
    uint16_t transpose[16] = {0};
    for (int i = 0; i < 16; i++)
        for (int j = 0; j < 16; j++)
            transpose[j] |= (uint16_t)((scream_columns[i] >> j & 1) << i);
    fill(&scream_l, scream_columns);
    fill(&scream_l_inverse, transpose);
    fill(&iscream_l, iscream_columns);
}

INLINE void l_layer(const l_box *l, row w[8])
{
    for (int i = 0; i < 8; i++)
        w[i] = l->low[w[i] & 0xFF] ^ l->high[w[i] >> 8];
}

/* ---- S-boxes ---- */

INLINE void five_bits(row w[8])
{
    w[2] ^= w[0] & w[1];
    w[1] ^= w[2];
    w[3] ^= w[0] & w[4];
    w[2] ^= w[3];
    w[0] ^= w[3] & w[1];
    w[4] ^= w[1];
    w[1] ^= w[2] & w[4];
    w[1] ^= w[0];
}

INLINE void five_bits_inverse(row w[8])
{
    w[1] ^= w[0];
    w[1] ^= w[2] & w[4];
    w[4] ^= w[1];
    w[0] ^= w[3] & w[1];
    w[2] ^= w[3];
    w[3] ^= w[0] & w[4];
    w[1] ^= w[2];
    w[2] ^= w[0] & w[1];
}

/* Its own inverse. */
INLINE void three_bits(row w[8])
{
    row t5 = w[5], t6 = w[6], t7 = w[7];
    w[5] ^= ~t6 & t7;
    w[6] ^= ~t7 & t5;
    w[7] ^= ~t5 & t6;
}

/* Algorithm 3. */
INLINE void scream_s(row w[8])
{
    five_bits(w);
    w[0] ^= w[5];
    w[1] ^= w[6];
    w[2] ^= w[7];
    w[3] ^= 0xFFFF;
    w[4] ^= 0xFFFF;
    three_bits(w);
    w[5] ^= w[0];
    w[6] ^= w[1];
    w[7] ^= w[2];
    five_bits(w);
}

/* Algorithm 4. */
INLINE void scream_s_inverse(row w[8])
{
    five_bits_inverse(w);
    w[7] ^= w[2];
    w[6] ^= w[1];
    w[5] ^= w[0];
    three_bits(w);
    w[4] ^= 0xFFFF;
    w[3] ^= 0xFFFF;
    w[2] ^= w[7];
    w[1] ^= w[6];
    w[0] ^= w[5];
    five_bits_inverse(w);
}

/* A round of Algorithm 5, corrected: adds a function of a, b, c, d to four rows. */
INLINE void four_bits(row to[4], row a, row b, row c, row d)
{
    row t0 = (a & b) ^ c;
    row t2 = (c | b) ^ d;
    row t3 = (t0 & d) ^ a;
    row t1 = (t2 & a) ^ b;
    to[0] ^= t0;
    to[1] ^= t1;
    to[2] ^= t2;
    to[3] ^= t3;
}

/* Algorithm 5, its own inverse. */
INLINE void iscream_s(row w[8])
{
    four_bits(w, w[4], w[5], w[6], w[7]);
    four_bits(w + 4, w[0], w[1], w[2], w[3]);
    four_bits(w, w[4], w[5], w[6], w[7]);
}

/* ---- Tweakeys ---- */

INLINE packed_rows load(const uint8_t bytes[16])
{
    packed_rows x;
    memcpy(&x.low, bytes, 8);
    memcpy(&x.high, bytes + 8, 8);
    return x;
}

/* Each of four rows rotated left by one bit. */
INLINE uint64_t rotated(uint64_t rows)
{
    const uint64_t lowest = 0x0001000100010001;
    return (rows & ~(lowest << 15)) << 1 | (rows >> 15 & lowest);
}

/* The different tweakeys of a cipher, in order of the step; returns how many: 3 or 2. */
INLINE int tweakeys(int cipher, const uint8_t *key, const uint8_t *tweak, packed_rows tk[3])
{
    packed_rows k = load(key), t = load(tweak);
    tk[0].low = k.low ^ t.low;
    tk[0].high = k.high ^ t.high;
    if (cipher == SCREAM) {
        tk[1].low = tk[0].low ^ t.high;
        tk[1].high = k.high ^ t.low;
        tk[2].low = k.low ^ t.high;
        tk[2].high = tk[0].high ^ t.low;
        return 3;
    }
    tk[1].low = rotated(t.low);
    tk[1].high = rotated(t.high);
    return 2;
}

INLINE void add_tweakey(row w[8], const packed_rows *tk)
{
    for (int i = 0; i < 4; i++) {
        w[i] ^= (uint16_t)(tk->low >> 16 * i);
        w[4 + i] ^= (uint16_t)(tk->high >> 16 * i);
    }
}

/* ---- Algorithm 1 and its inverse ---- */

INLINE void load_rows(row w[8], const uint8_t block[16])
{
    packed_rows x = load(block);
    for (int i = 0; i < 4; i++) {
        w[i] = (uint16_t)(x.low >> 16 * i);
        w[4 + i] = (uint16_t)(x.high >> 16 * i);
    }
}

INLINE void store_rows(uint8_t block[16], const row w[8])
{
    packed_rows x = {0, 0};
    for (int i = 0; i < 4; i++) {
        x.low |= (uint64_t)w[i] << 16 * i;
        x.high |= (uint64_t)w[4 + i] << 16 * i;
    }
    memcpy(block, &x.low, 8);
    memcpy(block + 8, &x.high, 8);
}

INLINE void encipher_block(int cipher, int steps, const uint8_t *key, const uint8_t *tweak,
                           uint8_t *block)
{
    const l_box *l = cipher == SCREAM ? &scream_l : &iscream_l;
    packed_rows tk[3];
    int count = tweakeys(cipher, key, tweak, tk);
    int next = 0;
    uint8_t constant = 0;
    row w[8];
    load_rows(w, block);
    add_tweakey(w, &tk[0]);
    for (int step = 0; step < steps; step++) {
        for (int round = 0; round < 2; round++) {
            if (cipher == SCREAM)
                scream_s(w);
            else
                iscream_s(w);
            constant += 27;
            w[0] ^= constant;
            l_layer(l, w);
        }
        next = next == count - 1 ? 0 : next + 1;
        add_tweakey(w, &tk[next]);
    }
    store_rows(block, w);
}

INLINE void decipher_block(int cipher, int steps, const uint8_t *key, const uint8_t *tweak,
                           uint8_t *block)
{
    const l_box *l = cipher == SCREAM ? &scream_l_inverse : &iscream_l;
    packed_rows tk[3];
    int count = tweakeys(cipher, key, tweak, tk);
    int next = steps % count;
    uint8_t constant = (uint8_t)(27 * 2 * steps);
    row w[8];
    load_rows(w, block);
    for (int step = 0; step < steps; step++) {
        add_tweakey(w, &tk[next]);
        next = next == 0 ? count - 1 : next - 1;
        for (int round = 0; round < 2; round++) {
            l_layer(l, w);
            w[0] ^= constant;
            constant -= 27;
            if (cipher == SCREAM)
                scream_s_inverse(w);
            else
                iscream_s(w);
        }
    }
    add_tweakey(w, &tk[0]);
    store_rows(block, w);
}

/* ---- Calls ---- */

static int listed(uint8_t cipher, uint8_t steps)
{
    if (steps % 2 != 0)
        return 0;
    return (cipher == SCREAM && steps >= 6 && steps <= 12) ||
           (cipher == ISCREAM && steps >= 8 && steps <= 14);
}

/* Enciphers a block in place under its tweak. Returns 0, or 1 where the suite is not listed. */
uint32_t baseline_encipher(uint8_t cipher, uint8_t steps, const uint8_t *key, const uint8_t *tweak,
                           uint8_t *block)
{
    if (!listed(cipher, steps))
        return 1;
    if (cipher == SCREAM)
        encipher_block(SCREAM, steps, key, tweak, block);
    else
        encipher_block(ISCREAM, steps, key, tweak, block);
    return 0;
}

/* Deciphers a block in place under its tweak. Returns 0, or 1 where the suite is not listed. */
uint32_t baseline_decipher(uint8_t cipher, uint8_t steps, const uint8_t *key, const uint8_t *tweak,
                           uint8_t *block)
{
    if (!listed(cipher, steps))
        return 1;
    if (cipher == SCREAM)
        decipher_block(SCREAM, steps, key, tweak, block);
    else
        decipher_block(ISCREAM, steps, key, tweak, block);
    return 0;
}

/* Enciphers `count` blocks in place, each under its own tweak; returns as baseline_encipher. */
uint32_t baseline_encipher_blocks(uint8_t cipher, uint8_t steps, const uint8_t *key,
                                  const uint8_t *tweaks, uint8_t *blocks, size_t count)
{
    if (!listed(cipher, steps))
        return 1;
    if (cipher == SCREAM)
        for (size_t i = 0; i < count; i++)
            encipher_block(SCREAM, steps, key, tweaks + 16 * i, blocks + 16 * i);
    else
        for (size_t i = 0; i < count; i++)
            encipher_block(ISCREAM, steps, key, tweaks + 16 * i, blocks + 16 * i);
    return 0;
}

/* Deciphers `count` blocks in place, each under its own tweak; returns as baseline_encipher. */
uint32_t baseline_decipher_blocks(uint8_t cipher, uint8_t steps, const uint8_t *key,
                                  const uint8_t *tweaks, uint8_t *blocks, size_t count)
{
    if (!listed(cipher, steps))
        return 1;
    if (cipher == SCREAM)
        for (size_t i = 0; i < count; i++)
            decipher_block(SCREAM, steps, key, tweaks + 16 * i, blocks + 16 * i);
    else
        for (size_t i = 0; i < count; i++)
            decipher_block(ISCREAM, steps, key, tweaks + 16 * i, blocks + 16 * i);
    return 0;
}

/* ---- Sealing ---- */

/* The nonce, then a first bit or two and a number, big-endian to the last byte. */
INLINE void set_number(uint8_t tweak[16], size_t n, uint8_t first, size_t number)
{
    for (size_t i = 15; i >= n; i--) {
        tweak[i] = (uint8_t)number;
        number >>= 8;
    }
    tweak[n] |= first;
}

/* The nonce, then a byte, then zeros. */
INLINE void set_special(uint8_t tweak[16], size_t n, uint8_t byte)
{
    memset(tweak + n, 0, 16 - n);
    tweak[n] = byte;
}

INLINE void add_block(uint8_t to[16], const uint8_t *from)
{
    for (int i = 0; i < 16; i++)
        to[i] ^= from[i];
}

/* Adds the enciphered header blocks to the tag. */
INLINE void add_header(int cipher, int steps, const uint8_t *key, uint8_t tweak[16], size_t n,
                       const uint8_t *header, size_t len, uint8_t tag[16])
{
    for (size_t at = 0; at < len; at += 16) {
        uint8_t block[16] = {0};
        size_t rest = len - at;
        memcpy(block, header + at, rest < 16 ? rest : 16);
        if (rest > 16) {
            set_number(tweak, n, 0x80, at / 16);
        } else if (rest == 16) {
            set_special(tweak, n, 0xD0);
        } else {
            block[rest] = 0x80;
            set_special(tweak, n, 0xD8);
        }
        encipher_block(cipher, steps, key, tweak, block);
        add_block(tag, block);
    }
}

/* The last text block, either way: `len` bytes of 1 to 16 with the enciphered length added. */
INLINE void last_block(int cipher, int steps, const uint8_t *key, uint8_t tweak[16], size_t n,
                       const uint8_t *from, uint8_t *to, size_t len)
{
    uint8_t block[16] = {0};
    block[15] = (uint8_t)(8 * len);
    set_special(tweak, n, len == 16 ? 0xC0 : 0xC8);
    encipher_block(cipher, steps, key, tweak, block);
    for (size_t i = 0; i < len; i++)
        to[i] = from[i] ^ block[i];
}

/* Adds the enciphered checksum of a text of `len` bytes to the tag. */
INLINE void add_checksum(int cipher, int steps, const uint8_t *key, uint8_t tweak[16], size_t n,
                         uint8_t checksum[16], size_t len, uint8_t tag[16])
{
    set_special(tweak, n, len > 0 && len % 16 == 0 ? 0xE0 : 0xE8);
    encipher_block(cipher, steps, key, tweak, checksum);
    add_block(tag, checksum);
}

/* Writes a ciphertext of `len` bytes and its tag. */
INLINE void seal(int cipher, int steps, const uint8_t *key, const uint8_t *nonce, size_t n,
                 const uint8_t *header, size_t header_len, const uint8_t *text, size_t len,
                 uint8_t *out, uint8_t *out_tag)
{
    uint8_t tweak[16], checksum[16] = {0}, tag[16] = {0};
    size_t at = 0;
    memcpy(tweak, nonce, n);
    add_header(cipher, steps, key, tweak, n, header, header_len, tag);
    for (; len - at > 16; at += 16) {
        memcpy(out + at, text + at, 16);
        add_block(checksum, text + at);
        set_number(tweak, n, 0, at / 16);
        encipher_block(cipher, steps, key, tweak, out + at);
    }
    if (len > at) {
        for (size_t i = at; i < len; i++)
            checksum[i - at] ^= text[i];
        last_block(cipher, steps, key, tweak, n, text + at, out + at, len - at);
    }
    add_checksum(cipher, steps, key, tweak, n, checksum, len, tag);
    memcpy(out_tag, tag, 16);
}

/* Writes the text of `len` bytes; returns whether the given tag is its tag. */
INLINE int unseal(int cipher, int steps, const uint8_t *key, const uint8_t *nonce, size_t n,
                  const uint8_t *header, size_t header_len, const uint8_t *sealed, size_t len,
                  const uint8_t *given, uint8_t *text)
{
    uint8_t tweak[16], checksum[16] = {0}, tag[16] = {0};
    size_t at = 0;
    memcpy(tweak, nonce, n);
    for (; len - at > 16; at += 16) {
        memcpy(text + at, sealed + at, 16);
        set_number(tweak, n, 0, at / 16);
        decipher_block(cipher, steps, key, tweak, text + at);
        add_block(checksum, text + at);
    }
    if (len > at) {
        last_block(cipher, steps, key, tweak, n, sealed + at, text + at, len - at);
        for (size_t i = at; i < len; i++)
            checksum[i - at] ^= text[i];
    }
    add_header(cipher, steps, key, tweak, n, header, header_len, tag);
    add_checksum(cipher, steps, key, tweak, n, checksum, len, tag);
    return memcmp(tag, given, 16) == 0;
}

/* Writes of a text of `len` bytes the blocks from byte `at` on, a multiple of 16, up to the one that has
 * byte `end` - 1. */
INLINE void unseal_some(int cipher, int steps, const uint8_t *key, const uint8_t *nonce, size_t n,
                        const uint8_t *sealed, size_t len, size_t at, size_t end, uint8_t *text)
{
    uint8_t tweak[16];
    memcpy(tweak, nonce, n);
    for (; at < end && len - at > 16; at += 16) {
        memcpy(text + at, sealed + at, 16);
        set_number(tweak, n, 0, at / 16);
        decipher_block(cipher, steps, key, tweak, text + at);
    }
    if (at < end)
        last_block(cipher, steps, key, tweak, n, sealed + at, text + at, len - at);
}

static size_t limit(size_t exponent)
{
    return (size_t)1 << (exponent < 24 ? exponent : 24);
}

/* Refusals 1 to 4. */
static uint32_t refused(uint8_t cipher, uint8_t steps, size_t key_len, size_t n, size_t header_len)
{
    if (!listed(cipher, steps))
        return 1;
    if (key_len != 16)
        return 2;
    if (n < 1 || n > 15)
        return 3;
    return header_len > limit(130 - 8 * n) ? 4 : 0;
}

/* Seals the text to `text_len` + 16 bytes of output. Returns 0, or the refusal's number. */
uint32_t baseline_seal(uint8_t cipher, uint8_t steps, const uint8_t *key, size_t key_len,
                       const uint8_t *nonce, size_t n, const uint8_t *header, size_t header_len,
                       const uint8_t *text, size_t text_len, uint8_t *out, size_t out_len)
{
    uint32_t number = refused(cipher, steps, key_len, n, header_len);
    if (number != 0)
        return number;
    if (text_len > limit(131 - 8 * n))
        return 6;
    if (out_len < text_len + 16)
        return 7;
    uint8_t *tag = out + text_len;
    if (cipher == SCREAM)
        seal(SCREAM, steps, key, nonce, n, header, header_len, text, text_len, out, tag);
    else
        seal(ISCREAM, steps, key, nonce, n, header, header_len, text, text_len, out, tag);
    return 0;
}

/* Opens to `sealed_len` - 16 bytes of output, by way of a buffer, so that a refusal leaves the
 * output as it was and each block is deciphered once. Returns 0, or the refusal's number. */
uint32_t baseline_open(uint8_t cipher, uint8_t steps, const uint8_t *key, size_t key_len,
                       const uint8_t *nonce, size_t n, const uint8_t *header, size_t header_len,
                       const uint8_t *sealed, size_t sealed_len, uint8_t *out, size_t out_len)
{
    uint32_t number = refused(cipher, steps, key_len, n, header_len);
    if (number != 0)
        return number;
    if (sealed_len < 16)
        return 5;
    size_t len = sealed_len - 16;
    if (len > limit(131 - 8 * n))
        return 6;
    if (out_len < len)
        return 7;
    uint8_t *text = malloc(len + 1);
    if (text == NULL)
        abort();
    int same = cipher == SCREAM
        ? unseal(SCREAM, steps, key, nonce, n, header, header_len, sealed, len, sealed + len, text)
        : unseal(ISCREAM, steps, key, nonce, n, header, header_len, sealed, len, sealed + len, text);
    if (same)
        memcpy(out, text, len);
    free(text);
    return same ? 0 : 8;
}

/* ---- Books ---- */

enum { LONGEST_SEGMENT = 4096, LONGEST_TEXT = 2 + 2 * LONGEST_SEGMENT };

/* Units that are read at most, of either kind. */
enum { MOST_UNITS = 16777215 };

/* A kind of book: the tags of unit header and close, the bytes of a number in these, and how many units
 * are written at most. */
typedef struct {
    uint8_t header_tag, close_tag;
    size_t number_bytes;
    uint64_t most_units;
} kind;

static const kind OLD = {0x10, 0x20, 2, 65535}, WIDE = {0x14, 0x21, 4, MOST_UNITS};

/* Tag and length of a field. */
enum { FIELD = 3 };

/* Fields 01 and 02, and these with the longest header of a unit. */
enum { OPENING = 16, LONGEST_HEADER = OPENING + FIELD + 8 };

/* The bytes of a unit's header, those of a whole unit without its segments, and those of a close's first
 * field and of a whole close. */
INLINE size_t header_len(const kind *k)
{
    return FIELD + k->number_bytes + 4;
}

INLINE size_t around_segments(const kind *k)
{
    return header_len(k) + FIELD + 2 + FIELD + 16;
}

INLINE size_t close_header_len(const kind *k)
{
    return FIELD + k->number_bytes;
}

INLINE size_t close_len(const kind *k)
{
    return close_header_len(k) + FIELD + 16;
}

/* `open` is 0 for a closed writer. */
typedef struct {
    uint64_t number, place, units, calls;
    uint8_t key[16];
    uint8_t cipher, steps, open;
} baseline_writer;

INLINE uint8_t *put(uint8_t *to, const uint8_t *from, size_t len)
{
    if (len > 0)
        memcpy(to, from, len);
    return to + len;
}

/* A number of so many bytes, highest first. */
INLINE uint8_t *put_number(uint8_t *to, uint64_t number, size_t bytes)
{
    for (size_t i = bytes; i > 0; i--) {
        to[i - 1] = (uint8_t)number;
        number >>= 8;
    }
    return to + bytes;
}

/* Tag and length of a field. */
INLINE uint8_t *put_head(uint8_t *to, uint8_t tag, size_t len)
{
    *to = tag;
    return put_number(to + 1, len, 2);
}

/* Fields 01 and 02. */
static uint8_t *put_opening(uint8_t *to, const baseline_writer *w)
{
    to = put_number(put_head(to, 0x01, 8), w->number, 8);
    to = put_head(to, 0x02, 2);
    *to++ = w->cipher;
    *to++ = w->steps;
    return to;
}

/* Seals a text along with fields 01 and 02 and a field of `head_len` bytes, and counts the calls. */
static void seal_part(baseline_writer *w, const uint8_t *head, size_t head_len, const uint8_t *text,
                      size_t len, uint8_t *out, uint8_t *tag)
{
    uint8_t nonce[12], header[LONGEST_HEADER];
    size_t along = OPENING + head_len;
    put_number(put_number(nonce, w->number, 8), w->units, 4);
    put(put_opening(header, w), head, head_len);
    if (w->cipher == SCREAM)
        seal(SCREAM, w->steps, w->key, nonce, 12, header, along, text, len, out, tag);
    else
        seal(ISCREAM, w->steps, w->key, nonce, 12, header, along, text, len, out, tag);
    w->calls += (along + 15) / 16 + (len + 15) / 16 + 1;
}

/* Refusals 9 and 10. */
static uint32_t writer_refused(const kind *k, const baseline_writer *w, size_t len)
{
    if (!listed(w->cipher, w->steps) || w->place < OPENING || w->place > len ||
        w->units > k->most_units || w->calls > 1024 * (w->units + 1))
        return 9;
    return w->open ? 0 : 10;
}

static int letters(const uint8_t code[2])
{
    return code[0] >= 'a' && code[0] <= 'z' && code[1] >= 'a' && code[1] <= 'z';
}

/* Starts a book in a buffer of `len` bytes. Returns 0, or the refusal's number. */
uint32_t baseline_start(uint8_t cipher, uint8_t steps, const uint8_t *key, size_t key_len,
                        uint64_t number, uint8_t *buffer, size_t len, baseline_writer *w)
{
    memset(w, 0, sizeof *w);
    if (!listed(cipher, steps))
        return 1;
    if (key_len != 16)
        return 2;
    if (len < OPENING)
        return 7;
    w->cipher = cipher;
    w->steps = steps;
    w->open = 1;
    w->number = number;
    w->place = OPENING;
    memcpy(w->key, key, 16);
    put_opening(buffer, w);
    return 0;
}

INLINE uint32_t add_unit(const kind *k, baseline_writer *w, uint8_t *buffer, size_t len,
                         const uint8_t from[2], const uint8_t to[2], const uint8_t *source, size_t s,
                         const uint8_t *target, size_t t)
{
    uint32_t number = writer_refused(k, w, len);
    if (number != 0)
        return number;
    if (!letters(from) || !letters(to))
        return 11;
    if (s == 0 || s > LONGEST_SEGMENT || t > LONGEST_SEGMENT)
        return 12;
    if (w->units == k->most_units)
        return 13;
    if (len - w->place < around_segments(k) + s + t)
        return 7;

    uint8_t text[LONGEST_TEXT];
    size_t m = 2 + s + t;
    put(put(put_number(text, s, 2), source, s), target, t);

    uint8_t *head = buffer + w->place;
    uint8_t *at = put_head(head, k->header_tag, k->number_bytes + 4);
    at = put_number(at, w->units, k->number_bytes);
    at = put(put(at, from, 2), to, 2);
    uint8_t *ciphertext = put_head(at, 0x11, m);
    uint8_t *tag = put_head(ciphertext + m, 0x12, 16);
    seal_part(w, head, header_len(k), text, m, ciphertext, tag);
    w->place += around_segments(k) + s + t;
    w->units++;
    return 0;
}

/* Adds a unit at the place. Returns 0, or the refusal's number. */
uint32_t baseline_add(baseline_writer *w, uint8_t *buffer, size_t len, const uint8_t from[2],
                      const uint8_t to[2], const uint8_t *source, size_t s, const uint8_t *target,
                      size_t t)
{
    return add_unit(&WIDE, w, buffer, len, from, to, source, s, target, t);
}

/* The same as the writer of old books did. */
uint32_t baseline_add_old(baseline_writer *w, uint8_t *buffer, size_t len, const uint8_t from[2],
                          const uint8_t to[2], const uint8_t *source, size_t s,
                          const uint8_t *target, size_t t)
{
    return add_unit(&OLD, w, buffer, len, from, to, source, s, target, t);
}

INLINE uint32_t close_book(const kind *k, baseline_writer *w, uint8_t *buffer, size_t len)
{
    uint32_t number = writer_refused(k, w, len);
    if (number != 0)
        return number;
    if (len - w->place < close_len(k))
        return 7;
    uint8_t *head = buffer + w->place;
    uint8_t *at = put_head(head, k->close_tag, k->number_bytes);
    at = put_number(at, w->units, k->number_bytes);
    uint8_t *tag = put_head(at, 0x12, 16);
    seal_part(w, head, close_header_len(k), NULL, 0, NULL, tag);
    w->place += close_len(k);
    w->open = 0;
    return 0;
}

/* Closes the book at the place. Returns 0, or the refusal's number. */
uint32_t baseline_close(baseline_writer *w, uint8_t *buffer, size_t len)
{
    return close_book(&WIDE, w, buffer, len);
}

/* The same as the writer of old books did. */
uint32_t baseline_close_old(baseline_writer *w, uint8_t *buffer, size_t len)
{
    return close_book(&OLD, w, buffer, len);
}

/* What is left of a book that is read. */
typedef struct {
    const uint8_t *at;
    size_t len;
} rest;

INLINE uint16_t two_bytes_at(const uint8_t *at)
{
    uint16_t number;
    memcpy(&number, at, 2);
    return __builtin_bswap16(number);
}

INLINE uint32_t four_bytes_at(const uint8_t *at)
{
    uint32_t number;
    memcpy(&number, at, 4);
    return __builtin_bswap32(number);
}

/* A unit's number, or the count of a close. */
INLINE uint64_t number_at(const kind *k, const uint8_t *at)
{
    return k->number_bytes == 2 ? two_bytes_at(at) : four_bytes_at(at);
}

/* The value of the field that comes next, and its length, where it has this tag and a length in this
 * range; else NULL. */
INLINE const uint8_t *next_field(rest *r, uint8_t tag, size_t least, size_t most, size_t *len)
{
    if (r->len < 3 || r->at[0] != tag)
        return NULL;
    *len = two_bytes_at(r->at + 1);
    if (*len < least || *len > most || r->len - 3 < *len)
        return NULL;
    const uint8_t *value = r->at + 3;
    r->at = value + *len;
    r->len -= 3 + *len;
    return value;
}

/* Whether the tag is that of a ciphertext sealed along with the 16 bytes of fields 01 and 02 at the
 * start of the book and a field of `head_len` bytes; writes its text, and counts the calls. */
static int open_part(const uint8_t *key, const uint8_t *book, uint64_t units, const uint8_t *head,
                     size_t head_len, const uint8_t *ciphertext, size_t len, const uint8_t *tag,
                     uint8_t *text, uint64_t *calls)
{
    uint8_t nonce[12], header[LONGEST_HEADER], cipher = book[14], steps = book[15];
    size_t along = OPENING + head_len;
    put_number(put(nonce, book + 3, 8), units, 4);
    put(put(header, book, OPENING), head, head_len);
    *calls += (along + 15) / 16 + (len + 15) / 16 + 1;
    return cipher == SCREAM
        ? unseal(SCREAM, steps, key, nonce, 12, header, along, ciphertext, len, tag, text)
        : unseal(ISCREAM, steps, key, nonce, 12, header, along, ciphertext, len, tag, text);
}

/* The fields of a unit: its header whole, the ciphertext of `m` bytes, the tag. */
typedef struct {
    const uint8_t *head, *ciphertext, *tag;
    size_t head_len, m;
} unit;

/* Reads the unit that comes next, and opens nothing. Returns 0, or the refusal's number. */
INLINE uint32_t next_unit(const kind *k, rest *r, uint64_t units, unit *u)
{
    size_t len, value_len = k->number_bytes + 4;
    const uint8_t *head = next_field(r, k->header_tag, value_len, value_len, &len);
    if (head == NULL)
        return 14;
    if (units == MOST_UNITS)
        return 13;
    if (number_at(k, head) != units)
        return 15;
    const uint8_t *from = head + k->number_bytes, *to = from + 2;
    if (!letters(from) || !letters(to))
        return 11;
    u->head = head - FIELD;
    u->head_len = header_len(k);
    u->ciphertext = next_field(r, 0x11, 3, LONGEST_TEXT, &u->m);
    u->tag = u->ciphertext == NULL ? NULL : next_field(r, 0x12, 16, 16, &len);
    return u->tag == NULL ? 14 : 0;
}

/* Writes a unit's text of at most LONGEST_TEXT bytes, and its source's length. Returns 0, or the
 * refusal's number. */
static uint32_t open_unit(const uint8_t *key, const uint8_t *book, uint64_t units, const unit *u,
                          uint8_t *text, size_t *source_len, uint64_t *calls)
{
    if (!open_part(key, book, units, u->head, u->head_len, u->ciphertext, u->m, u->tag, text, calls))
        return 8;
    size_t s = two_bytes_at(text), segments = u->m - 2;
    if (s == 0 || s > LONGEST_SEGMENT || s > segments || segments - s > LONGEST_SEGMENT)
        return 12;
    *source_len = s;
    return 0;
}

/* The close that comes next, and the end of the book. Returns 0, or the refusal's number. */
static uint32_t check_close(const kind *k, const uint8_t *key, const uint8_t *book, rest *r,
                            uint64_t units, uint64_t *calls)
{
    size_t len, value_len = k->number_bytes;
    const uint8_t *head = next_field(r, k->close_tag, value_len, value_len, &len);
    const uint8_t *tag = head == NULL ? NULL : next_field(r, 0x12, 16, 16, &len);
    if (tag == NULL)
        return 14;
    if (number_at(k, head) != units)
        return 15;
    if (!open_part(key, book, units, head - FIELD, close_header_len(k), NULL, 0, tag, NULL, calls))
        return 8;
    return r->len == 0 ? 0 : 14;
}

/* Reads fields 01 and 02. Returns 0, or the refusal's number. */
static uint32_t read_opening(rest *r)
{
    const uint8_t *book = r->at;
    size_t len;
    if (next_field(r, 0x01, 8, 8, &len) == NULL || next_field(r, 0x02, 2, 2, &len) == NULL)
        return 14;
    return listed(book[14], book[15]) ? 0 : 1;
}

/* Whether an old book stands there, behind fields 01 and 02: the tag that comes next says it. Any tag that
 * neither kind has is refused in both. */
INLINE int is_old(const rest *r)
{
    return r->len > 0 && (r->at[0] == OLD.header_tag || r->at[0] == OLD.close_tag);
}

/* Whether a close comes next. */
INLINE int at_close(const kind *k, const rest *r)
{
    return r->len > 0 && r->at[0] == k->close_tag;
}

INLINE uint32_t check_rest(const kind *k, const uint8_t *key, const uint8_t *book, rest r,
                           uint64_t *unit_count, uint64_t *call_total)
{
    uint64_t units = 0, calls = 0;
    uint32_t number;
    for (; !at_close(k, &r); units++) {
        uint8_t text[LONGEST_TEXT];
        size_t s;
        unit u;
        number = next_unit(k, &r, units, &u);
        if (number == 0)
            number = open_unit(key, book, units, &u, text, &s, &calls);
        if (number != 0)
            return number;
    }
    number = check_close(k, key, book, &r, units, &calls);
    if (number != 0)
        return number;
    *unit_count = units;
    *call_total = calls;
    return 0;
}

/* Checks a book of `len` bytes. Returns 0, with unit count and call total written, or the refusal's
 * number. */
uint32_t baseline_check(const uint8_t *key, size_t key_len, const uint8_t *book, size_t len,
                        uint64_t *unit_count, uint64_t *call_total)
{
    rest r = {book, len};
    if (key_len != 16)
        return 2;
    uint32_t number = read_opening(&r);
    if (number != 0)
        return number;
    return is_old(&r) ? check_rest(&OLD, key, book, r, unit_count, call_total)
                      : check_rest(&WIDE, key, book, r, unit_count, call_total);
}

/* What a walk came to: the unit that was looked for, or a close behind `units` units, with what is left of
 * the book from there on; or a refusal's number. */
typedef struct {
    uint32_t number;
    uint64_t units;
    unit u;
    rest r;
} met;

/* The numbers of the first two. */
enum { MET_UNIT = 0, MET_CLOSE = 16 };

/* Walks over the units before unit `k`, and reads that unit. */
INLINE met walk(const kind *kind, rest r, uint64_t k)
{
    unit u = {0};
    uint64_t units = 0;
    for (; !at_close(kind, &r); units++) {
        uint32_t number = next_unit(kind, &r, units, &u);
        if (number != 0 || units == k)
            return (met){number, units, u, r};
    }
    return (met){MET_CLOSE, units, u, r};
}

/* Finds the ciphertext of unit `k` in a book of `len` bytes, and opens nothing: where it stands, and its
 * length, both 0 where there is none. */
void baseline_ciphertext(const uint8_t *book, size_t len, uint64_t k, uint64_t *at,
                         uint64_t *ciphertext_len)
{
    rest r = {book, len};
    *at = *ciphertext_len = 0;
    if (read_opening(&r) != 0)
        return;
    met m = is_old(&r) ? walk(&OLD, r, k) : walk(&WIDE, r, k);
    if (m.number != MET_UNIT)
        return;
    *at = (uint64_t)(m.u.ciphertext - book);
    *ciphertext_len = m.u.m;
}

/* Fetches unit `k` of a book of `len` bytes: walks over the units before it, opens it where it stands,
 * by way of a buffer, and copies source and target to the start of the output. Returns 0, with the two
 * lengths written, or the refusal's number. */
uint32_t baseline_fetch(const uint8_t *key, size_t key_len, const uint8_t *book, size_t len,
                        uint64_t k, uint8_t *out, size_t out_len, uint64_t *source_len,
                        uint64_t *target_len)
{
    rest r = {book, len};
    if (key_len != 16)
        return 2;
    uint32_t number = read_opening(&r);
    if (number != 0)
        return number;
    const kind *kind = is_old(&r) ? &OLD : &WIDE;
    uint64_t calls = 0;
    met m = kind == &OLD ? walk(&OLD, r, k) : walk(&WIDE, r, k);
    if (m.number == MET_CLOSE) {
        number = check_close(kind, key, book, &m.r, m.units, &calls);
        return number != 0 ? number : 16;
    }
    if (m.number != MET_UNIT)
        return m.number;
    uint8_t text[LONGEST_TEXT];
    size_t s, segments = m.u.m - 2;
    number = open_unit(key, book, k, &m.u, text, &s, &calls);
    if (number != 0)
        return number;
    if (out_len < segments)
        return 7;
    memcpy(out, text + 2, segments);
    *source_len = s;
    *target_len = segments - s;
    return 0;
}

/* ---- Score and page ---- */

/* Three bytes as a number, plus 1, and how often a sentence has them; a place that is not taken has 0. */
typedef struct {
    uint32_t trigram, count;
} place;

/* The trigrams of a sentence, in twice as many places at least, of which there are 2^bits. */
typedef struct {
    place *places;
    int bits;
} trigram_table;

INLINE size_t trigram_count(size_t len)
{
    return len < 3 ? 0 : len - 2;
}

INLINE uint32_t trigram_at(const uint8_t *at)
{
    return at[0] | (uint32_t)at[1] << 8 | (uint32_t)at[2] << 16;
}

/* Where this trigram stands, or the free place where it would. */
INLINE place *find_trigram(const trigram_table *t, uint32_t trigram)
{
    size_t last = ((size_t)1 << t->bits) - 1;
    size_t i = trigram * 0x85EBCA6Bu >> (32 - t->bits);
    while (t->places[i].trigram != 0 && t->places[i].trigram != trigram + 1)
        i = (i + 1) & last;
    return t->places + i;
}

/* The table of a sentence's trigrams, which the caller frees. */
static trigram_table count_trigrams(const uint8_t *typed, size_t len)
{
    trigram_table t = {NULL, 4};
    size_t trigrams = trigram_count(len);
    while (((size_t)1 << t.bits) < 2 * trigrams)
        t.bits++;
    t.places = calloc((size_t)1 << t.bits, sizeof *t.places);
    if (t.places == NULL)
        abort();
    for (size_t i = 0; i < trigrams; i++) {
        uint32_t trigram = trigram_at(typed + i);
        place *p = find_trigram(&t, trigram);
        p->trigram = trigram + 1;
        p->count++;
    }
    return t;
}

/* How many trigrams both have, with the table of one and the bytes of the other. Of those that are shared one
 * is taken from its count; `taken` has room to note them all, so that they are put back. */
static size_t shared_trigrams(const trigram_table *t, const uint8_t *source, size_t len, place **taken)
{
    size_t shared = 0, trigrams = trigram_count(len);
    for (size_t i = 0; i < trigrams; i++) {
        place *p = find_trigram(t, trigram_at(source + i));
        if (p->count > 0) {
            p->count--;
            taken[shared++] = p;
        }
    }
    for (size_t i = 0; i < shared; i++)
        taken[i]->count++;
    return shared;
}

INLINE uint32_t score_of(size_t shared, const uint8_t *source, size_t s, const uint8_t *typed, size_t len)
{
    size_t trigrams = trigram_count(s) + trigram_count(len);
    if (trigrams == 0)
        return s == len && (s == 0 || memcmp(source, typed, s) == 0) ? 1000 : 0;
    return (uint32_t)(2000 * shared / trigrams);
}

/* How alike two segments are, 0 to 1,000. */
uint32_t baseline_score(const uint8_t *source, size_t s, const uint8_t *typed, size_t len)
{
    trigram_table t = count_trigrams(typed, len);
    place **taken = malloc((s + 1) * sizeof *taken);
    if (taken == NULL)
        abort();
    uint32_t score = score_of(shared_trigrams(&t, source, s, taken), source, s, typed, len);
    free(taken);
    free(t.places);
    return score;
}

/* Writes the source of a unit that was opened before, behind two bytes, and returns its length: only the
 * blocks that it stands in are deciphered. */
static size_t open_source(const uint8_t *key, const uint8_t *book, uint64_t units, const unit *u,
                          uint8_t *text)
{
    uint8_t nonce[12], cipher = book[14], steps = book[15];
    size_t s;
    put_number(put(nonce, book + 3, 8), units, 4);
    if (cipher == SCREAM) {
        unseal_some(SCREAM, steps, key, nonce, 12, u->ciphertext, u->m, 0, 2, text);
        s = two_bytes_at(text);
        unseal_some(SCREAM, steps, key, nonce, 12, u->ciphertext, u->m, 16, 2 + s, text);
    } else {
        unseal_some(ISCREAM, steps, key, nonce, 12, u->ciphertext, u->m, 0, 2, text);
        s = two_bytes_at(text);
        unseal_some(ISCREAM, steps, key, nonce, 12, u->ciphertext, u->m, 16, 2 + s, text);
    }
    return s;
}

/* A number, right-aligned in so many columns. */
INLINE uint8_t *put_right(uint8_t *to, uint32_t number, size_t columns)
{
    memset(to, ' ', columns);
    size_t i = columns;
    do {
        to[--i] = (uint8_t)('0' + number % 10);
        number /= 10;
    } while (number > 0);
    return to + columns;
}

/* The rows of the first `count` units of a checked book. */
INLINE void put_rows(const kind *k, const uint8_t *key, const uint8_t *book, size_t len, uint64_t count,
                     const trigram_table *t, const uint8_t *typed, size_t typed_len, uint8_t *page)
{
    rest r = {book + OPENING, len - OPENING};
    for (uint64_t units = 0; units < count; units++) {
        uint8_t text[LONGEST_TEXT];
        place *taken[LONGEST_SEGMENT];
        unit u;
        if (next_unit(k, &r, units, &u) != 0)
            abort();
        size_t s = open_source(key, book, units, &u, text);
        size_t shared = shared_trigrams(t, text + 2, s, taken);
        page = put_right(page, (uint32_t)s, 5);
        page = put_right(page, score_of(shared, text + 2, s, typed, typed_len), 6);
        *page++ = '\n';
    }
}

/* Compares a typed sentence with every unit of a book: 12 bytes a unit to the start of the page. Returns
 * 0, with the page's length written, or the refusal's number. */
uint32_t baseline_page(const uint8_t *key, size_t key_len, const uint8_t *book, size_t len,
                       const uint8_t *typed, size_t typed_len, uint8_t *page, size_t room,
                       uint64_t *page_len)
{
    uint64_t count, calls;
    uint32_t number = baseline_check(key, key_len, book, len, &count, &calls);
    if (number != 0)
        return number;
    if (room < 12 * count)
        return 7;
    trigram_table t = count_trigrams(typed, typed_len);
    rest r = {book + OPENING, len - OPENING};
    if (is_old(&r))
        put_rows(&OLD, key, book, len, count, &t, typed, typed_len, page);
    else
        put_rows(&WIDE, key, book, len, count, &t, typed, typed_len, page);
    free(t.places);
    *page_len = 12 * count;
    return 0;
}
