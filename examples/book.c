/* Writes a book of three units, checks it and compares it with its receipt, fetches one unit and goes over all, and compares a
 * sentence with each; then reads what stands in the clear, without the key, and has the book refused with one bit changed. Prints
 * what it did.
 *
 *     cc -std=c99 -Wall -Wextra -I include examples/book.c target/staticlib/libsealed_book.a -o target/book && target/book
 */
#include <stdint.h>
#include <stdio.h>
#include <stdlib.h>
#include <string.h>

#include "sealed_book.h"

#if SB_VERSION != 4
#error "this program is written for version 4 of the header"
#endif

struct unit {
    const char *source, *target;
};

static const struct unit units[] = {
    {"Close the valve.", "Das Ventil schlie\xC3\x9F" "en."},
    {"Open the drain.", "Den Ablass \xC3\xB6" "ffnen."},
    {"Wait two minutes.", ""}, /* not translated yet */
};

#define COUNT (sizeof units / sizeof units[0])

/* What the maker of a book sends another way than the book: of a book that was made shorter meanwhile they are others. */
struct receipt {
    uint64_t bytes, units, calls;
};

/* Here fixed, in real use secret. */
static const uint8_t key[SB_KEY_LEN] = {0x00, 0x01, 0x02, 0x03, 0x04, 0x05, 0x06, 0x07,
                                        0x08, 0x09, 0x0A, 0x0B, 0x0C, 0x0D, 0x0E, 0x0F};

/* Says what was refused, and returns it. */
static uint32_t refused(const char *call, uint32_t number) {
    fprintf(stderr, "%s: refusal %u: %s\n", call, (unsigned)number, sb_refusal_text(number));
    return number;
}

/* Writes zeros that the compiler does not leave out, as it may leave out a memset. */
static void clear(uint8_t *bytes, size_t len) {
    for (volatile uint8_t *byte = bytes; len > 0; len--) *byte++ = 0;
}

/* Writes the book. Its number must be one never used before under the key. */
static uint32_t write_units(uint8_t writer[SB_WRITER_LEN], uint8_t *book, size_t room) {
    uint32_t no = sb_start(SB_SCREAM, 10, key, sizeof key, 1, book, room, writer);
    if (no != 0) return refused("sb_start", no);
    for (size_t i = 0; i < COUNT; i++) {
        no = sb_add(writer, book, room, (const uint8_t *)"en", (const uint8_t *)"de",
                    (const uint8_t *)units[i].source, strlen(units[i].source),
                    (const uint8_t *)units[i].target, strlen(units[i].target));
        if (no != 0) return refused("sb_add", no);
    }
    no = sb_close(writer, book, room);
    return no == 0 ? 0 : refused("sb_close", no);
}

/* Writes the book, and hands out its receipt. */
static uint32_t write_book(uint8_t *book, size_t room, struct receipt *receipt) {
    uint8_t writer[SB_WRITER_LEN];
    uint32_t no = write_units(writer, book, room);
    receipt->bytes = sb_place(writer);
    receipt->units = sb_units(writer);
    receipt->calls = sb_calls(writer);
    clear(writer, sizeof writer); /* it holds the key */
    return no;
}

static void print_unit(const char *name, uint64_t k, const uint8_t *out, uint64_t source_len, uint64_t target_len) {
    printf("%s %lu: %.*s", name, (unsigned long)k, (int)source_len, (const char *)out);
    if (target_len > 0) printf(" = %.*s", (int)target_len, (const char *)out + source_len);
    printf("\n");
}

/* Checks the book and compares it with the receipt, fetches one unit, and then all in order. */
static uint32_t read_book(const uint8_t *book, size_t len, const struct receipt *receipt) {
    uint8_t out[SB_UNIT_MAX];
    uint64_t count, calls, source_len, target_len, k = 0, at = SB_FIRST_UNIT;
    uint32_t no = sb_check(key, sizeof key, book, len, &count, &calls);
    if (no != 0) return refused("sb_check", no);
    printf("checked: %lu units, %lu cipher calls\n", (unsigned long)count, (unsigned long)calls);
    if (receipt->bytes != len || receipt->units != count || receipt->calls != calls) {
        fprintf(stderr, "the book does not have the numbers of the receipt\n");
        return UINT32_MAX; /* no refusal has this number */
    }
    printf("the receipt agrees\n");

    no = sb_fetch(key, sizeof key, book, len, 1, out, sizeof out, &source_len, &target_len);
    if (no != 0) return refused("sb_fetch", no);
    print_unit("fetched unit", 1, out, source_len, target_len);

    /* at is where the next unit begins */
    while ((no = sb_fetch_at(key, sizeof key, book, len, k, (size_t)at, out, sizeof out, &source_len, &target_len, &at)) == 0)
        print_unit("unit", k++, out, source_len, target_len);
    return no == SB_NO_UNIT ? 0 : refused("sb_fetch_at", no);
}

/* Prints the page of a typed sentence: how long each source is, and how near the sentence is to it, 0 to 1,000. */
static uint32_t print_page(const uint8_t *book, size_t len, const char *typed) {
    uint8_t page[COUNT * SB_ROW_LEN]; /* a row for each unit */
    uint64_t page_len;
    uint32_t no = sb_page(key, sizeof key, book, len, (const uint8_t *)typed, strlen(typed), page, sizeof page, &page_len);
    if (no != 0) return refused("sb_page", no);
    printf("page of \"%s\":\n%.*s", typed, (int)page_len, (const char *)page);
    return 0;
}

/* Says what stands in the clear, of the book and of one unit: no key is needed, and no seal is tested. Hands out where that
 * unit's ciphertext begins. */
static uint32_t read_clear(const uint8_t *book, size_t len, size_t *ciphertext) {
    uint8_t cipher, steps, from[SB_CODE_ROOM], to[SB_CODE_ROOM];
    uint64_t number, at, from_len, to_len, ciphertext_at, ciphertext_len, next;
    uint32_t no = sb_info(book, len, &cipher, &steps, &number);
    if (no != 0) return refused("sb_info", no);
    printf("in the clear: book %lu, cipher %u with %u steps\n", (unsigned long)number, cipher, steps);
    no = sb_unit(book, len, 1, &at, from, &from_len, to, &to_len, &ciphertext_at, &ciphertext_len, &next);
    if (no != 0) return refused("sb_unit", no);
    printf("in the clear: unit 1, %.*s to %.*s, %lu bytes of ciphertext\n", (int)from_len, (const char *)from,
           (int)to_len, (const char *)to, (unsigned long)ciphertext_len);
    *ciphertext = (size_t)ciphertext_at;
    return 0;
}

int main(void) {
    size_t segments = 0, len = 0, ciphertext = 0;
    struct receipt receipt;
    for (size_t i = 0; i < COUNT; i++) segments += strlen(units[i].source) + strlen(units[i].target);
    size_t room = SB_BOOK_ROOM(COUNT, segments);
    uint8_t *book = malloc(room);
    if (book == NULL) return 1;

    uint32_t no = write_book(book, room, &receipt);
    if (no == 0) {
        len = (size_t)receipt.bytes; /* in real use the length of the file that is received */
        printf("receipt: bytes=%lu units=%lu calls=%lu\n", (unsigned long)receipt.bytes, (unsigned long)receipt.units,
               (unsigned long)receipt.calls);
        no = read_book(book, len, &receipt);
    }
    if (no == 0) no = print_page(book, len, "Close the valves.");
    if (no == 0) no = read_clear(book, len, &ciphertext);
    if (no == 0) {
        uint64_t count, calls;
        book[ciphertext] ^= 1; /* one bit of the book changed on the way */
        uint32_t answer = sb_check(key, sizeof key, book, len, &count, &calls);
        printf("a changed bit: refusal %u: %s\n", (unsigned)answer, sb_refusal_text(answer));
        if (answer != SB_TAG_DIFFERS) no = answer + 1;
    }
    free(book);
    return no == 0 ? 0 : 1;
}
