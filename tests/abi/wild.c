/*
 * Calls the library with wrong counts, short arrays and wild numbers, and prints each answer that is not the paper's.
 * Each array ends at a page that may not be touched, so that a step past its end ends the program.
 */
#define _DEFAULT_SOURCE
#include <inttypes.h>
#include <stdio.h>
#include <stdlib.h>
#include <string.h>
#include <sys/mman.h>
#include <unistd.h>

#include "chudopolk.h"

static unsigned ran, failed;

static void expect(const char *name, uint64_t got, uint64_t expected) {
    ran++;
    if (got == expected) return;
    failed++;
    printf("FAILED %s: expected %" PRIu64 " and got %" PRIu64 "\n", name, expected, got);
}

/* So many bytes before a page that may not be touched. */
static void *lent(size_t bytes) {
    size_t page = (size_t)sysconf(_SC_PAGESIZE), room = (bytes + page - 1) / page * page;
    char *at = mmap(NULL, room + page, PROT_READ | PROT_WRITE, MAP_PRIVATE | MAP_ANONYMOUS, -1, 0);
    if (at == MAP_FAILED || mprotect(at + room, page, PROT_NONE) != 0) {
        perror("wild");
        exit(2);
    }
    memset(at, 0xA5, room);
    return at + room - bytes;
}

static const chudopolk_type_row table_w[5] = {
    {1, 1, CHUDOPOLK_UINT32, 0, 0}, {1, 2, CHUDOPOLK_SINT16, 0, 1}, {1, 5, CHUDOPOLK_STRUCT, 0, 0},
    {2, 1, CHUDOPOLK_UINT16, 0, 1}, {1, 7, CHUDOPOLK_STRING, 0, 0},
};
static const chudopolk_form form_w = {5, 1, CHUDOPOLK_TOLD};
static const chudopolk_expectation expected_w = {0x4A01, 0x8001, 1, CHUDOPOLK_NOTIFICATION};
static const chudopolk_fields header_w = {0x4A01, 0x8001, 0, 1, 1, CHUDOPOLK_NOTIFICATION, 0};
static const chudopolk_value_row values_w[5] = {{0, 0, 0, 0}, {2, (uint64_t)-125, 0, 0}, {6, 0, 0, 0}, {1, 2900, 0, 0}, {5, 0, 0, 4}};
static const uint8_t datagram_w[20] = {0x4A, 0x01, 0x80, 0x01, 0, 0, 0, 0x0C, 0, 0, 0, 1, 1, 1, 2, 0, 0x10, 0x02, 0xFF, 0x83};

static uint64_t *types;   /* table W's 25 numbers */
static uint64_t *values;  /* 20 numbers */
static uint8_t *datagram; /* case c */
static uint8_t *content;  /* 4 bytes */
static uint8_t *out;      /* 60 bytes */

/* A table gets one verdict from all three functions, and where that is 1 neither rows nor output change. */
static void table(const char *name, chudopolk_form form, size_t types_len, uint32_t verdict) {
    const uint64_t *end = types + 25 - types_len;
    expect(name, chudopolk_check_table(form, end, types_len), verdict);
    if (verdict == CHUDOPOLK_VERDICT_ACCEPTED) return;
    memset(values, 0xA5, 160);
    memset(out, 0xA5, 60);
    expect(name, chudopolk_read_message(datagram, 20, expected_w, form, end, types_len, values, 20).verdict, verdict);
    for (size_t i = 0; i < 20; i++) expect("a value row after verdict 1", values[i], 0xA5A5A5A5A5A5A5A5);
    expect(name, chudopolk_write_message(header_w, form, end, types_len, values, 20, content, 4, out, 60).verdict, verdict);
    for (size_t i = 0; i < 60; i++) expect("an output byte after verdict 1", out[i], 0xA5);
}

static void tables(void) {
    static const uint64_t wild[] = {
        256, 257, 258, 260, 65536, 65537, 65538, (uint64_t)1 << 32, ((uint64_t)1 << 32) + 1, (uint64_t)1 << 40, UINT64_MAX,
    };
    static const size_t counts[] = {0, 6, 64, 65, 1000, SIZE_MAX / 5 + 1, SIZE_MAX};
    static const uint32_t widths[] = {0, 3, 5, 8, 257, UINT32_MAX}, marks[] = {2, 9, 256, 257, UINT32_MAX};
    table("table W", form_w, 25, CHUDOPOLK_VERDICT_ACCEPTED);
    for (size_t i = 0; i < sizeof counts / sizeof *counts; i++)
        table("a wrong count", (chudopolk_form){counts[i], 1, 0}, 25, CHUDOPOLK_VERDICT_TABLE);
    for (size_t n = 0; n < 25; n++) table("a short table", form_w, n, CHUDOPOLK_VERDICT_TABLE);
    for (size_t i = 0; i < sizeof widths / sizeof *widths; i++)
        table("a wild width", (chudopolk_form){5, widths[i], 0}, 25, CHUDOPOLK_VERDICT_TABLE);
    for (size_t i = 0; i < sizeof marks / sizeof *marks; i++)
        table("a wild mark", (chudopolk_form){5, 1, marks[i]}, 25, CHUDOPOLK_VERDICT_TABLE);
    for (size_t at = 0; at < 25; at++)
        for (size_t i = 0; i < sizeof wild / sizeof *wild; i++) {
            uint64_t old = types[at];
            /* 256 to 260 are Data IDs */
            if (at % 5 == 1 && wild[i] < 4096) continue;
            types[at] = wild[i];
            table("a wild number", form_w, 25, CHUDOPOLK_VERDICT_TABLE);
            types[at] = old;
        }
}

static void reading(void) {
    for (unsigned kind = 0; kind < 256; kind++) {
        chudopolk_expectation e = expected_w;
        e.kind = (uint8_t)kind;
        int one = kind < 3 || kind == 0x80 || kind == 0x81;
        uint32_t verdict = !one ? CHUDOPOLK_VERDICT_TABLE : kind == 2 ? CHUDOPOLK_VERDICT_ACCEPTED : CHUDOPOLK_VERDICT_MESSAGE_TYPE;
        expect("a Message Type", chudopolk_read_message(datagram, 20, e, form_w, types, 25, values, 20).verdict, verdict);
    }
    for (size_t n = 0; n < 20; n++) {
        memset(values, 0xA5, 160);
        chudopolk_answer a = chudopolk_read_message(datagram, 20, expected_w, form_w, types, 25, values + 20 - n, n);
        expect("too few value rows", a.verdict, CHUDOPOLK_VERDICT_ROOM);
        expect("too few value rows: code", a.code, CHUDOPOLK_NO_CODE);
        for (size_t i = 0; i < 20; i++) expect("a value row after verdict 2", values[i], 0xA5A5A5A5A5A5A5A5);
    }
    for (size_t n = 0; n < 20; n++) {
        memset(values, 0xA5, 160);
        chudopolk_answer a = chudopolk_read_message(datagram + 20 - n, n, expected_w, form_w, types, 25, values, 20);
        expect("a cut datagram is refused", a.verdict >= CHUDOPOLK_VERDICT_SHORT && a.code != CHUDOPOLK_NO_CODE, 1);
        for (size_t i = 0; i < 20; i++) expect("a value row after a refusal", values[i], 0);
    }
    uint64_t *more = lent(6 * 32);
    expect("one row more", chudopolk_read_message(datagram, 20, expected_w, form_w, types, 25, more, 24).verdict, CHUDOPOLK_VERDICT_ACCEPTED);
    expect("row 2", (more[4] == 2) & (more[5] == (uint64_t)-125) & (more[6] == 0) & (more[7] == 0), 1);
    for (size_t i = 20; i < 24; i++) expect("a row beyond the table's", more[i], 0xA5A5A5A5A5A5A5A5);
}

/* What writing values[at] as x gets; a refusal changes no byte. */
static void writes(const char *name, size_t at, uint64_t x, uint32_t verdict) {
    memcpy(values, values_w, sizeof values_w);
    memset(out, 0xA5, 60);
    values[at] = x;
    chudopolk_sent s = chudopolk_write_message(header_w, form_w, types, 25, values, 20, content, 4, out, 60);
    expect(name, s.verdict, verdict);
    if (verdict != CHUDOPOLK_VERDICT_ACCEPTED) {
        expect("the length of a refused writing", s.len, 0);
        for (size_t i = 0; i < 60; i++) expect("an output byte after a refusal", out[i], 0xA5);
    }
}

static void writing(void) {
    static const uint64_t whats[] = {7, 12, 255, 256, 257, 258, 261, (uint64_t)1 << 32, ((uint64_t)1 << 32) + 1, UINT64_MAX};
    writes("the rows as they are", 1, 0, CHUDOPOLK_VERDICT_ACCEPTED);
    for (size_t row = 0; row < 5; row++)
        for (size_t i = 0; i < sizeof whats / sizeof *whats; i++) writes("a wild what", 4 * row, whats[i], CHUDOPOLK_VERDICT_VALUE);
    writes("a sint16 of 40000", 5, 40000, CHUDOPOLK_VERDICT_VALUE);
    writes("a sint16 of -40000", 5, (uint64_t)-40000, CHUDOPOLK_VERDICT_VALUE);
    writes("a uint16 of 65536", 13, 65536, CHUDOPOLK_VERDICT_VALUE);
    writes("a required row absent", 4, 0, CHUDOPOLK_VERDICT_VALUE);
    writes("a run that ends past the content", 18, 1, CHUDOPOLK_VERDICT_OUTSIDE);
    writes("a run far away", 18, UINT64_MAX, CHUDOPOLK_VERDICT_OUTSIDE);
    writes("a run without end", 19, UINT64_MAX, CHUDOPOLK_VERDICT_OUTSIDE);
    memcpy(values, values_w, sizeof values_w);
    for (size_t n = 0; n < 20; n++) {
        chudopolk_sent s = chudopolk_write_message(header_w, form_w, types, 25, values + 20 - n, n, content, 4, out, 60);
        expect("too few value rows", s.verdict, CHUDOPOLK_VERDICT_ROOM);
    }
    for (unsigned kind = 0; kind < 256; kind++) {
        chudopolk_fields h = header_w;
        h.kind = (uint8_t)kind;
        int one = kind < 3 || kind == 0x80 || kind == 0x81;
        chudopolk_sent s = chudopolk_write_message(h, form_w, types, 25, values, 20, content, 4, out, 60);
        expect("a Message Type", s.verdict, one ? CHUDOPOLK_VERDICT_ACCEPTED : CHUDOPOLK_VERDICT_TABLE);
    }
    size_t len = chudopolk_write_message(header_w, form_w, types, 25, values, 20, content, 4, out, 60).len;
    for (size_t n = 0; n <= len; n++) {
        memset(out, 0xA5, 60);
        chudopolk_sent s = chudopolk_write_message(header_w, form_w, types, 25, values, 20, content, 4, out + 60 - n, n);
        expect("an output of each length", s.verdict, n < len ? CHUDOPOLK_VERDICT_ROOM : CHUDOPOLK_VERDICT_ACCEPTED);
        for (size_t i = 0; i < 60 - (n < len ? 0 : n); i++) expect("an output byte that stays", out[i], 0xA5);
    }
}

/* Floats cross by their bits, NaN included. */
static void floats(void) {
    static const uint64_t row[] = {1, 1, CHUDOPOLK_FLOAT32, 0, 1, 1, 2, CHUDOPOLK_FLOAT64, 0, 1};
    static const uint64_t bits[][2] = {{0, 0}, {0x80000000, (uint64_t)1 << 63}, {0x7F800001, 0x7FF0000000000001}, {0xFFFFFFFF, UINT64_MAX}};
    chudopolk_form form = {2, 4, CHUDOPOLK_FIXED};
    for (size_t i = 0; i < 4; i++) {
        uint64_t given[8] = {3, bits[i][0], 9, 9, 4, bits[i][1], 9, 9}, got[8];
        chudopolk_sent s = chudopolk_write_message(header_w, form, row, 10, given, 8, content, 0, out, 60);
        expect("floats written", s.verdict, CHUDOPOLK_VERDICT_ACCEPTED);
        memset(got, 0xA5, sizeof got);
        chudopolk_answer a = chudopolk_read_message(out, s.len, expected_w, form, row, 10, got, 8);
        expect("floats read", a.verdict, CHUDOPOLK_VERDICT_ACCEPTED);
        expect("a float32's bits", (got[0] == 3) & (got[1] == bits[i][0]) & (got[2] == 0) & (got[3] == 0), 1);
        expect("a float64's bits", (got[4] == 4) & (got[5] == bits[i][1]) & (got[6] == 0) & (got[7] == 0), 1);
    }
    uint64_t given[8] = {3, (uint64_t)1 << 32, 0, 0, 4, 0, 0, 0};
    expect("a float32 of 33 bits", chudopolk_write_message(header_w, form, row, 10, given, 8, content, 0, out, 60).verdict, CHUDOPOLK_VERDICT_VALUE);
}

int main(void) {
    types = memcpy(lent(sizeof table_w), table_w, sizeof table_w);
    values = memcpy(lent(sizeof values_w), values_w, sizeof values_w);
    datagram = memcpy(lent(sizeof datagram_w), datagram_w, sizeof datagram_w);
    content = memcpy(lent(4), "snow", 4);
    out = lent(60);
    tables();
    reading();
    writing();
    floats();
    printf("wild: %u of %u expectations met\n", ran - failed, ran);
    return failed != 0;
}
