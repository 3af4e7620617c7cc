/* Calls of the library on bytes that are marked as undefined, for valgrind's memory check: it reports each branch and each
 * address that depends on them. Makes the call that each line of standard input names, and writes the line again with what the
 * call returned and how many reports it made. The argument says what is marked while a call runs:
 *   none     nothing
 *   secrets  the key, also the writer's, and the texts and blocks that are lent
 *   tags     of sealed bytes the tags alone
 *   ends     of each tag the last byte alone
 *   lengths  of a book the first two bytes of each ciphertext alone, and for a page the whole ciphertexts and the typed sentence */
#include "sealed_book.h"

#include <stdio.h>
#include <stdlib.h>
#include <string.h>
#include <valgrind/memcheck.h>

enum marks { NONE, SECRETS, TAGS, ENDS, LENGTHS };

static enum marks marks;

/* What the last call returned, and the reports that it made. */
static uint32_t returned;
static unsigned reports;

/* What a call returned where it gave something else than it should. */
#define WRONG 1000

static void hide(enum marks when, const void *bytes, size_t len) {
    if (marks == when) (void)VALGRIND_MAKE_MEM_UNDEFINED(bytes, len);
}

static void hide_tag(const uint8_t *tag) {
    hide(TAGS, tag, SB_TAG_LEN);
    hide(ENDS, tag + SB_TAG_LEN - 1, 1);
}

static void show(const void *bytes, size_t len) {
    (void)VALGRIND_MAKE_MEM_DEFINED(bytes, len);
}

/* What is returned may depend on a comparison; the caller is told it. Lengths and numbers that a call gives are not marked here:
 * where they depend on a secret, what is done with them is reported. */
#define CALL(call)                                 \
    do {                                           \
        unsigned before = VALGRIND_COUNT_ERRORS;   \
        returned = (call);                         \
        reports = VALGRIND_COUNT_ERRORS - before;  \
        show(&returned, sizeof returned);          \
    } while (0)

/* Bytes that look random. */
static void fill(uint8_t *bytes, size_t len) {
    static uint32_t state = 0x5EC2E7;
    for (size_t i = 0; i < len; i++) {
        state = state * 1664525 + 1013904223;
        bytes[i] = (uint8_t)(state >> 24);
    }
}

static void check_room(size_t len, size_t room) {
    if (len <= room) return;
    fprintf(stderr, "%lu is more than there is room for\n", (unsigned long)len);
    exit(1);
}

static uint8_t key[SB_KEY_LEN], nonce[SB_NONCE_MAX];

/* One block, and many. */

static void one_block(int back, uint8_t cipher, uint8_t steps) {
    uint8_t tweak[SB_BLOCK_LEN], block[SB_BLOCK_LEN];
    fill(tweak, sizeof tweak);
    fill(block, sizeof block);
    hide(SECRETS, key, sizeof key);
    hide(SECRETS, block, sizeof block);
    CALL((back ? sb_decipher : sb_encipher)(cipher, steps, key, tweak, block));
    show(key, sizeof key);
}

static uint8_t tweaks[16 * 200], blocks[sizeof tweaks], there[sizeof tweaks];

/* Enciphers new blocks, or deciphers those that were enciphered last. */
static void many_blocks(int back, uint8_t cipher, uint8_t steps, size_t count) {
    size_t len = SB_BLOCK_LEN * count;
    check_room(len, sizeof blocks);
    if (!back) {
        fill(tweaks, len);
        fill(blocks, len);
        memcpy(there, blocks, len);
    }
    hide(SECRETS, key, sizeof key);
    hide(SECRETS, blocks, len);
    CALL((back ? sb_decipher_blocks : sb_encipher_blocks)(cipher, steps, key, tweaks, len, blocks, len));
    show(key, sizeof key);
    show(blocks, len);
    if (back && memcmp(blocks, there, len)) returned = WRONG;
}

/* Sealing, and opening what was sealed last; with a bit of its tag changed where asked for. */

static uint8_t header[1200], text[10000], sealed[sizeof text + SB_TAG_LEN], opened[sizeof text];

static void seal(uint8_t cipher, uint8_t steps, size_t nonce_len, size_t header_len, size_t text_len) {
    uint64_t len = 0, calls = 0;
    check_room(nonce_len, sizeof nonce);
    check_room(header_len, sizeof header);
    check_room(text_len, sizeof text);
    fill(nonce, nonce_len);
    fill(header, header_len);
    fill(text, text_len);
    hide(SECRETS, key, sizeof key);
    hide(SECRETS, text, text_len);
    CALL(sb_seal(cipher, steps, key, sizeof key, nonce, nonce_len, header, header_len, text, text_len, sealed, sizeof sealed,
                 &len, &calls));
    show(key, sizeof key);
    show(text, text_len);
    show(sealed, sizeof sealed);
    if (len != text_len + SB_TAG_LEN || calls != (header_len + 15) / 16 + (text_len + 15) / 16 + 1) returned = WRONG;
}

static void unseal(uint8_t cipher, uint8_t steps, size_t nonce_len, size_t header_len, size_t text_len, int changed) {
    uint64_t len = 0;
    uint8_t *tag = sealed + text_len;
    tag[7] ^= changed;
    memset(opened, 0, text_len);
    hide(SECRETS, key, sizeof key);
    hide_tag(tag);
    CALL(sb_open(cipher, steps, key, sizeof key, nonce, nonce_len, header, header_len, sealed, text_len + SB_TAG_LEN,
                 opened, sizeof opened, &len));
    show(key, sizeof key);
    show(tag, SB_TAG_LEN);
    show(opened, sizeof opened);
    tag[7] ^= changed;
    if (!returned && (len != text_len || memcmp(opened, text, text_len))) returned = WRONG;
}

/* A book: each unit's lengths, and where its fields begin; the close stands behind the last. */

#define UNITS 20

static struct {
    size_t at, source_len, target_len;
} units[UNITS + 1];
static size_t count, book_len;

static uint8_t writer[SB_WRITER_LEN], book[200000], texts[sizeof book];

/* Where a frame's ciphertext stands, and its tag: that of a unit, or of the close. Either ends with a field of the tag; a
 * unit's text has two bytes before source and target. */
static size_t ciphertext_at(size_t frame) {
    return units[frame].at + SB_UNIT_ROOM(0, 0) - 2 - 3 - SB_TAG_LEN;
}

static size_t ciphertext_len(size_t frame) {
    return 2 + units[frame].source_len + units[frame].target_len;
}

static size_t tag_at(size_t frame) {
    return frame < count ? ciphertext_at(frame) + ciphertext_len(frame) + 3 : units[frame].at + SB_CLOSE_ROOM - SB_TAG_LEN;
}

static void start(uint8_t cipher, uint8_t steps) {
    hide(SECRETS, key, sizeof key);
    CALL(sb_start(cipher, steps, key, sizeof key, 7, book, sizeof book, writer));
    show(key, sizeof key);
    count = 0;
    units[0].at = SB_FIRST_UNIT;
}

/* The texts of all units stand one behind the other where they will stand in the book. */
static void add(size_t source_len, size_t target_len) {
    static const uint8_t from[SB_CODE_LEN] = {'e', 'n'}, to[SB_CODE_LEN] = {'d', 'e'};
    uint8_t *source = texts + ciphertext_at(count) + 2, *target = source + source_len;
    check_room(count + 1, UNITS);
    check_room(ciphertext_at(count) + 2 + source_len + target_len, sizeof texts);
    fill(source, source_len + target_len);
    hide(SECRETS, source, source_len + target_len);
    CALL(sb_add(writer, book, sizeof book, from, to, source, source_len, target, target_len));
    show(source, source_len + target_len);
    units[count].source_len = source_len;
    units[count].target_len = target_len;
    count++;
    units[count].at = (size_t)sb_place(writer);
    if (sb_units(writer) != count) returned = WRONG;
}

static void close_book(void) {
    CALL(sb_close(writer, book, sizeof book));
    book_len = (size_t)sb_place(writer);
    if (book_len != units[count].at + SB_CLOSE_ROOM) returned = WRONG;
    /* who has the book can read it */
    show(book, sizeof book);
}

/* The marks for a call that reads the book, and a bit of the tag of frame `changed` - 1 changed, of none where that is 0. */
static void before_reading(size_t changed, int page) {
    check_room(changed, count + 1);
    if (changed) book[tag_at(changed - 1) + 7] ^= 1;
    hide(SECRETS, key, sizeof key);
    for (size_t k = 0; k <= count; k++) {
        hide_tag(book + tag_at(k));
        if (k < count) hide(LENGTHS, book + ciphertext_at(k), page ? ciphertext_len(k) : 2);
    }
}

static void behind_reading(size_t changed) {
    show(key, sizeof key);
    show(book, book_len);
    if (changed) book[tag_at(changed - 1) + 7] ^= 1;
}

static void check(size_t changed) {
    uint64_t found = 0, calls = 0;
    before_reading(changed, 0);
    CALL(sb_check(key, sizeof key, book, book_len, &found, &calls));
    behind_reading(changed);
    if (!returned && (found != count || calls != sb_calls(writer))) returned = WRONG;
}

static void fetch(int placed, size_t k, size_t changed) {
    uint64_t source_len = 0, target_len = 0, next = 0;
    check_room(k, count);
    memset(opened, 0, sizeof opened);
    before_reading(changed, 0);
    if (placed)
        CALL(sb_fetch_at(key, sizeof key, book, book_len, k, units[k].at, opened, sizeof opened, &source_len, &target_len, &next));
    else
        CALL(sb_fetch(key, sizeof key, book, book_len, k, opened, sizeof opened, &source_len, &target_len));
    behind_reading(changed);
    /* the caller is told the source's length, which stands in the text */
    show(&source_len, sizeof source_len);
    show(&target_len, sizeof target_len);
    show(opened, sizeof opened);
    if (returned) return;
    if (placed && next != units[k + 1].at) returned = WRONG;
    if (source_len != units[k].source_len || target_len != units[k].target_len) returned = WRONG;
    if (memcmp(opened, texts + ciphertext_at(k) + 2, source_len + target_len)) returned = WRONG;
}

static void page(size_t typed_len, size_t changed) {
    static uint8_t typed[5000], rows[UNITS * SB_ROW_LEN];
    uint64_t len = 0;
    check_room(typed_len, sizeof typed);
    fill(typed, typed_len);
    before_reading(changed, 1);
    hide(SECRETS, typed, typed_len);
    hide(LENGTHS, typed, typed_len);
    CALL(sb_page(key, sizeof key, book, book_len, typed, typed_len, rows, sizeof rows, &len));
    behind_reading(changed);
    show(typed, typed_len);
    show(rows, sizeof rows);
    if (!returned && len != count * SB_ROW_LEN) returned = WRONG;
}

/* What must be reported: an address that depends on the key, and a branch. */

__attribute__((noinline)) static uint32_t look_up(const uint8_t *secret) {
    static volatile const uint8_t table[256] = {1};
    return table[*secret] > 1;
}

__attribute__((noinline)) static uint32_t branch(const uint8_t *secret) {
    static volatile uint32_t zero;
    if (*secret & 1) return zero;
    return 0;
}

static void own(int with_branch) {
    hide(SECRETS, key, sizeof key);
    CALL((with_branch ? branch(key) : look_up(key)));
    show(key, sizeof key);
}

static int called(const char *name, const unsigned long *n) {
    uint8_t cipher = (uint8_t)n[0], steps = (uint8_t)n[1];
    if (!strcmp(name, "look_up")) own(0);
    else if (!strcmp(name, "branch")) own(1);
    else if (!strcmp(name, "encipher")) one_block(0, cipher, steps);
    else if (!strcmp(name, "decipher")) one_block(1, cipher, steps);
    else if (!strcmp(name, "encipher_blocks")) many_blocks(0, cipher, steps, n[2]);
    else if (!strcmp(name, "decipher_blocks")) many_blocks(1, cipher, steps, n[2]);
    else if (!strcmp(name, "seal")) seal(cipher, steps, n[2], n[3], n[4]);
    else if (!strcmp(name, "open")) unseal(cipher, steps, n[2], n[3], n[4], (int)n[5]);
    else if (!strcmp(name, "start")) start(cipher, steps);
    else if (!strcmp(name, "add")) add(n[0], n[1]);
    else if (!strcmp(name, "close")) close_book();
    else if (!strcmp(name, "check")) check(n[0]);
    else if (!strcmp(name, "fetch")) fetch(0, n[0], n[1]);
    else if (!strcmp(name, "fetch_at")) fetch(1, n[0], n[1]);
    else if (!strcmp(name, "page")) page(n[0], n[1]);
    else return 0;
    return 1;
}

int main(int argc, char **argv) {
    static const char *const names[] = {"none", "secrets", "tags", "ends", "lengths"};
    char line[100], name[20];
    while (argc == 2 && marks <= LENGTHS && strcmp(argv[1], names[marks])) marks++;
    if (argc != 2 || marks > LENGTHS || !RUNNING_ON_VALGRIND) {
        fputs("usage, under valgrind: secrets none|secrets|tags|ends|lengths\n", stderr);
        return 1;
    }
    fill(key, sizeof key);
    while (fgets(line, sizeof line, stdin)) {
        unsigned long n[6] = {0};
        line[strcspn(line, "\n")] = 0;
        if (sscanf(line, "%19s %lu %lu %lu %lu %lu %lu", name, n, n + 1, n + 2, n + 3, n + 4, n + 5) < 1 || !called(name, n)) {
            fprintf(stderr, "no call: %s\n", line);
            return 1;
        }
        printf("%s: %lu %u\n", line, (unsigned long)returned, reports);
    }
    return 0;
}
