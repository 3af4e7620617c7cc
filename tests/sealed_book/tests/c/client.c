/* A client in C: includes the header, links the library, and says what each call returned. */
#include "sealed_book.h"

#include <stdio.h>
#include <string.h>

static void print(const char *name, uint32_t returned, const uint8_t *bytes, size_t len) {
    printf("%s %u ", name, (unsigned)returned);
    for (size_t i = 0; i < len; i++) printf("%02X", bytes[i]);
    printf("\n");
}

int main(void) {
    uint8_t key[SB_KEY_LEN] = {0}, tweaks[40] = {0}, blocks[40] = {0};

    printf("version %d\n", SB_VERSION);
    printf("lengths %d %d %d %d %d %d %d %d %d %d %d %d %d %d\n", SB_KEY_LEN, SB_BLOCK_LEN, SB_TAG_LEN, SB_NONCE_MAX,
           SB_WRITER_LEN, SB_SEGMENT_MAX, SB_UNIT_MAX, SB_UNITS_MAX, SB_CODE_LEN, SB_CODE_ROOM, SB_FIRST_UNIT, SB_CLOSE_ROOM,
           SB_ROW_LEN, SB_SCORE_MAX);
    printf("rooms %lu %lu %lu\n", (unsigned long)SB_UNIT_ROOM(5, 6), (unsigned long)SB_BOOK_ROOM(1, 5 + 6),
           (unsigned long)SB_BOOK_ROOM(SB_UNITS_MAX, (size_t)SB_UNITS_MAX * SB_UNIT_MAX));
    for (size_t n = 1; n <= SB_NONCE_MAX; n++)
        printf("limits %lu %lu %lu\n", (unsigned long)n, (unsigned long)SB_HEADER_MAX(n), (unsigned long)SB_TEXT_MAX(n));

    print("encipher", sb_encipher(SB_SCREAM, 6, key, tweaks, blocks), blocks, 16);
    print("decipher", sb_decipher(SB_SCREAM, 6, key, tweaks, blocks), blocks, 16);
    print("unlisted", sb_encipher(SB_SCREAM, 14, key, tweaks, blocks), blocks, 16);

    /* two whole blocks and eight bytes that stay */
    print("blocks", sb_encipher_blocks(SB_ISCREAM, 12, key, tweaks, sizeof tweaks, blocks, sizeof blocks), blocks, sizeof blocks);
    print("back", sb_decipher_blocks(SB_ISCREAM, 12, key, tweaks, sizeof tweaks, blocks, sizeof blocks), blocks, sizeof blocks);
    print("refused", sb_encipher_blocks(3, 12, key, tweaks, sizeof tweaks, blocks, sizeof blocks), blocks, sizeof blocks);

    /* nothing to do, and nothing lent */
    print("empty", sb_encipher_blocks(SB_SCREAM, 10, key, NULL, 0, NULL, 0), NULL, 0);
    print("empty", sb_decipher_blocks(SB_SCREAM, 10, key, NULL, 0, NULL, 0), NULL, 0);

    /* a header of 5 bytes and a text of 20, into outputs with 4 bytes to spare */
    uint8_t nonce[12] = {0}, header[5] = {0}, text[20] = {0}, sealed[40] = {0}, opened[24];
    uint64_t len = 7, calls = 8;
    uint32_t returned = sb_seal(SB_SCREAM, 10, key, sizeof key, nonce, sizeof nonce, header, sizeof header,
                                text, sizeof text, sealed, sizeof sealed, &len, &calls);
    print("seal", returned, sealed, sizeof sealed);
    printf("len %u calls %u\n", (unsigned)len, (unsigned)calls);
    memset(opened, 0xFF, sizeof opened);
    returned = sb_open(SB_SCREAM, 10, key, sizeof key, nonce, sizeof nonce, header, sizeof header,
                       sealed, 36, opened, sizeof opened, &len);
    print("open", returned, opened, sizeof opened);
    printf("len %u\n", (unsigned)len);

    /* refused: a key of 15 bytes, and a changed tag */
    len = 7, calls = 8;
    returned = sb_seal(SB_SCREAM, 10, key, 15, nonce, sizeof nonce, header, sizeof header,
                       text, sizeof text, blocks, sizeof blocks, &len, &calls);
    print("key", returned, blocks, sizeof blocks);
    printf("len %u calls %u\n", (unsigned)len, (unsigned)calls);
    sealed[35] ^= 1;
    memset(opened, 0xFF, sizeof opened);
    returned = sb_open(SB_SCREAM, 10, key, sizeof key, nonce, sizeof nonce, header, sizeof header,
                       sealed, 36, opened, sizeof opened, &len);
    print("tag", returned, opened, sizeof opened);
    printf("len %u\n", (unsigned)len);

    /* no header and no text, and no output for the text */
    returned = sb_seal(SB_ISCREAM, 12, key, sizeof key, nonce, 1, NULL, 0, NULL, 0, sealed, 16, &len, &calls);
    print("seal", returned, sealed, 16);
    printf("len %u calls %u\n", (unsigned)len, (unsigned)calls);
    returned = sb_open(SB_ISCREAM, 12, key, sizeof key, nonce, 1, NULL, 0, sealed, 16, NULL, 0, &len);
    print("open", returned, NULL, 0);
    printf("len %u\n", (unsigned)len);
    returned = sb_seal(SB_ISCREAM, 12, NULL, 0, NULL, 0, NULL, 0, NULL, 0, NULL, 0, &len, &calls);
    print("none", returned, NULL, 0);

    /* a book of one unit, in a buffer with 4 bytes to spare */
    const uint8_t en[SB_CODE_LEN] = {'e', 'n'}, de[SB_CODE_LEN] = {'d', 'e'}, capital[SB_CODE_LEN] = {'e', 'N'};
    const uint8_t valve[5] = {'v', 'a', 'l', 'v', 'e'}, ventil[6] = {'V', 'e', 'n', 't', 'i', 'l'};
    uint8_t book[SB_BOOK_ROOM(1, sizeof valve + sizeof ventil) + 4], writer[SB_WRITER_LEN];
    const size_t book_len = sizeof book - 4;
    memset(book, 0xFF, sizeof book);
    memset(writer, 0xFF, sizeof writer);
    print("start", sb_start(SB_SCREAM, 10, key, sizeof key, 7, book, sizeof book, writer), writer, sizeof writer);
    returned = sb_add(writer, book, sizeof book, en, de, valve, sizeof valve, ventil, sizeof ventil);
    print("add", returned, writer, sizeof writer);
    print("languages", sb_add(writer, book, sizeof book, en, capital, valve, sizeof valve, NULL, 0), writer, sizeof writer);
    print("languages", sb_add(writer, book, sizeof book, capital, capital, valve, sizeof valve, NULL, 0), writer, sizeof writer);
    print("segment", sb_add(writer, book, sizeof book, en, de, NULL, 0, NULL, 0), writer, sizeof writer);
    print("short", sb_close(writer, book, book_len - 1), writer, sizeof writer);
    print("close", sb_close(writer, book, sizeof book), writer, sizeof writer);
    print("closed", sb_close(writer, book, sizeof book), book, sizeof book);
    printf("place %u units %u calls %u\n", (unsigned)sb_place(writer), (unsigned)sb_units(writer), (unsigned)sb_calls(writer));

    /* four bytes more, the book itself, a changed tag, nothing lent, and a key alone */
    uint64_t units = 7;
    calls = 8;
    returned = sb_check(key, sizeof key, book, sizeof book, &units, &calls);
    printf("check %u units %u calls %u\n", (unsigned)returned, (unsigned)units, (unsigned)calls);
    returned = sb_check(key, sizeof key, book, book_len, &units, &calls);
    printf("check %u units %u calls %u\n", (unsigned)returned, (unsigned)units, (unsigned)calls);

    /* its unit, walked to and at its place, an output one byte short, no such unit, and nothing lent; its ciphertext */
    uint8_t out[12];
    uint64_t source = 7, target = 8, at = 9, part = 9;
    memset(out, 0xFF, sizeof out);
    returned = sb_fetch(key, sizeof key, book, book_len, 0, out, 10, &source, &target);
    print("fetch", returned, out, sizeof out);
    printf("source %u target %u\n", (unsigned)source, (unsigned)target);
    returned = sb_fetch(key, sizeof key, book, book_len, 1, out, sizeof out, &source, &target);
    print("fetch", returned, out, sizeof out);
    printf("source %u target %u\n", (unsigned)source, (unsigned)target);
    returned = sb_fetch(key, sizeof key, book, book_len, 0, out, sizeof out, &source, &target);
    print("fetch", returned, out, sizeof out);
    printf("source %u target %u\n", (unsigned)source, (unsigned)target);
    memset(out, 0xFF, sizeof out);
    uint64_t next = 9;
    returned = sb_fetch_at(key, sizeof key, book, book_len, 0, SB_FIRST_UNIT, out, sizeof out, &source, &target, &next);
    print("fetch at", returned, out, sizeof out);
    printf("source %u target %u next %u\n", (unsigned)source, (unsigned)target, (unsigned)next);
    source = 7, target = 8;
    returned = sb_fetch_at(key, sizeof key, book, book_len, 1, (size_t)next, out, sizeof out, &source, &target, &next);
    print("fetch at", returned, out, sizeof out);
    printf("source %u target %u next %u\n", (unsigned)source, (unsigned)target, (unsigned)next);
    returned = sb_fetch(NULL, 0, NULL, 0, 0, NULL, 0, &source, &target);
    print("fetch", returned, NULL, 0);
    sb_ciphertext(book, book_len, 0, &at, &part);
    printf("ciphertext %u %u\n", (unsigned)at, (unsigned)part);
    sb_ciphertext(book, book_len, 1, &at, &part);
    printf("ciphertext %u %u\n", (unsigned)at, (unsigned)part);
    at = 9, part = 9;
    sb_ciphertext(NULL, 0, UINT64_MAX, &at, &part);
    printf("ciphertext %u %u\n", (unsigned)at, (unsigned)part);

    /* scores; the page of the book: a buffer one byte short, a changed tag, then with 2 bytes to spare; an empty sentence, the
     * source itself, nothing lent, and a book without units, which takes no buffer */
    const uint8_t valves[6] = {'v', 'a', 'l', 'v', 'e', 's'};
    uint8_t page[SB_ROW_LEN + 2], empty[SB_BOOK_ROOM(0, 0)], second[SB_WRITER_LEN];
    printf("scores %u %u %u %u %u\n", (unsigned)sb_score(valve, sizeof valve, valves, sizeof valves),
           (unsigned)sb_score(valves, sizeof valves, valve, sizeof valve), (unsigned)sb_score(valve, sizeof valve, valve, sizeof valve),
           (unsigned)sb_score(NULL, 0, NULL, 0), (unsigned)sb_score(valve, sizeof valve, NULL, 0));
    memset(page, 0xFF, sizeof page);
    len = 9;
    returned = sb_page(key, sizeof key, book, book_len, valves, sizeof valves, page, SB_ROW_LEN - 1, &len);
    print("page", returned, page, sizeof page);
    printf("len %u\n", (unsigned)len);
    book[book_len - 1] ^= 1;
    returned = sb_page(key, sizeof key, book, book_len, valves, sizeof valves, page, sizeof page, &len);
    print("page", returned, page, sizeof page);
    printf("len %u\n", (unsigned)len);
    book[book_len - 1] ^= 1;
    returned = sb_page(key, sizeof key, book, book_len, valves, sizeof valves, page, sizeof page, &len);
    print("page", returned, page, sizeof page);
    printf("len %u\n", (unsigned)len);
    returned = sb_page(key, sizeof key, book, book_len, NULL, 0, page, sizeof page, &len);
    print("page", returned, page, sizeof page);
    printf("len %u\n", (unsigned)len);
    returned = sb_page(key, sizeof key, book, book_len, valve, sizeof valve, page, SB_ROW_LEN, &len);
    print("page", returned, page, sizeof page);
    printf("len %u\n", (unsigned)len);
    len = 9;
    print("page", sb_page(NULL, 0, NULL, 0, NULL, 0, NULL, 0, &len), NULL, 0);
    printf("len %u\n", (unsigned)len);
    if (sb_start(SB_SCREAM, 10, key, sizeof key, 8, empty, sizeof empty, second) != 0 || sb_close(second, empty, sizeof empty) != 0)
        return 1;
    print("page", sb_page(key, sizeof key, empty, sizeof empty, valves, sizeof valves, NULL, 0, &len), NULL, 0);
    printf("len %u\n", (unsigned)len);

    /* what stands in the clear: of the book, of its unit, at its place and walked to, of the close, and with nothing lent */
    uint8_t cipher = 7, steps = 8, from[SB_CODE_ROOM], to[SB_CODE_ROOM];
    uint64_t number = 9, from_len = 9, to_len = 9;
    returned = sb_info(NULL, 0, &cipher, &steps, &number);
    printf("info %u %u %u %u\n", (unsigned)returned, cipher, steps, (unsigned)number);
    returned = sb_info(book, book_len, &cipher, &steps, &number);
    printf("info %u %u %u %u\n", (unsigned)returned, cipher, steps, (unsigned)number);
    at = 9, part = 9, next = 9;
    memset(from, 0xFF, sizeof from);
    memset(to, 0xFF, sizeof to);
    returned = sb_unit_at(NULL, 0, 0, 0, from, &from_len, to, &to_len, &at, &part, &next);
    print("unit at", returned, from, sizeof from);
    returned = sb_unit_at(book, book_len, 0, SB_FIRST_UNIT, from, &from_len, to, &to_len, &at, &part, &next);
    print("unit at", returned, from, sizeof from);
    print("to", (uint32_t)to_len, to, sizeof to);
    printf("from %u ciphertext %u %u next %u\n", (unsigned)from_len, (unsigned)at, (unsigned)part, (unsigned)next);
    print("unit at", sb_unit_at(book, book_len, 1, (size_t)next, from, &from_len, to, &to_len, &at, &part, &next), to, sizeof to);
    uint64_t begins = 9;
    at = 9, part = 9, next = 9, from_len = 9, to_len = 9;
    memset(from, 0xFF, sizeof from);
    memset(to, 0xFF, sizeof to);
    returned = sb_unit(NULL, 0, 0, &begins, from, &from_len, to, &to_len, &at, &part, &next);
    print("unit", returned, from, sizeof from);
    returned = sb_unit(book, book_len, 1, &begins, from, &from_len, to, &to_len, &at, &part, &next);
    print("unit", returned, from, sizeof from);
    returned = sb_unit(book, book_len, 0, &begins, from, &from_len, to, &to_len, &at, &part, &next);
    print("unit", returned, from, sizeof from);
    print("to", (uint32_t)to_len, to, sizeof to);
    printf("at %u from %u ciphertext %u %u next %u\n", (unsigned)begins, (unsigned)from_len, (unsigned)at, (unsigned)part,
           (unsigned)next);

    /* a book with a unit from en to en; then with another code in its header, and with one that has a byte that is no letter */
    uint8_t same[SB_BOOK_ROOM(1, sizeof valve + sizeof valves)];
    if (sb_start(SB_SCREAM, 10, key, sizeof key, 9, same, sizeof same, second) != 0) return 1;
    print("same", sb_add(second, same, sizeof same, en, en, valve, sizeof valve, valves, sizeof valves), second, sizeof second);
    print("same", sb_close(second, same, sizeof same), same, sizeof same);
    returned = sb_check(key, sizeof key, same, sizeof same, &units, &calls);
    printf("check %u units %u calls %u\n", (unsigned)returned, (unsigned)units, (unsigned)calls);
    memset(out, 0xFF, sizeof out);
    returned = sb_fetch(key, sizeof key, same, sizeof same, 0, out, sizeof out, &source, &target);
    print("fetch", returned, out, sizeof out);
    printf("source %u target %u\n", (unsigned)source, (unsigned)target);
    returned = sb_unit(same, sizeof same, 0, &begins, from, &from_len, to, &to_len, &at, &part, &next);
    print("unit", returned, from, sizeof from);
    print("to", (uint32_t)to_len, to, sizeof to);
    printf("at %u from %u ciphertext %u %u next %u\n", (unsigned)begins, (unsigned)from_len, (unsigned)at, (unsigned)part,
           (unsigned)next);
    print("page", sb_page(key, sizeof key, same, sizeof same, valves, sizeof valves, page, SB_ROW_LEN, &len), page, SB_ROW_LEN);
    units = 7, calls = 8;
    same[26] = 'o';
    returned = sb_check(key, sizeof key, same, sizeof same, &units, &calls);
    printf("check %u units %u calls %u\n", (unsigned)returned, (unsigned)units, (unsigned)calls);
    same[24] = same[26] = 'N';
    returned = sb_check(key, sizeof key, same, sizeof same, &units, &calls);
    printf("check %u units %u calls %u\n", (unsigned)returned, (unsigned)units, (unsigned)calls);

    /* the words of every refusal, and of numbers that are none */
    for (unsigned i = 0; i <= 40; i++) printf("text %u %s\n", i, sb_refusal_text(i));

    units = 7, calls = 8;
    book[book_len - 1] ^= 1;
    returned = sb_check(key, sizeof key, book, book_len, &units, &calls);
    printf("check %u units %u calls %u\n", (unsigned)returned, (unsigned)units, (unsigned)calls);
    returned = sb_check(NULL, 0, NULL, 0, &units, &calls);
    printf("check %u units %u calls %u\n", (unsigned)returned, (unsigned)units, (unsigned)calls);
    returned = sb_check(key, sizeof key, NULL, 0, &units, &calls);
    printf("check %u units %u calls %u\n", (unsigned)returned, (unsigned)units, (unsigned)calls);

    print("none", sb_start(SB_SCREAM, 10, NULL, 0, 7, NULL, 0, writer), writer, sizeof writer);
    print("zeros", sb_close(writer, NULL, 0), writer, sizeof writer);
    return 0;
}
