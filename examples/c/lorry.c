/*
 * A logger's table in C: a datagram is read and its values are printed, then a message is written.
 *   cc -I include examples/c/lorry.c crates/chudopolk/out/libchudopolk.a -o lorry
 */
#include <inttypes.h>
#include <stdio.h>

#include "chudopolk.h"

/* Time, temperature in tenths of a degree, and a spreader with its grams per square metre, behind which stands a remark. */
static const chudopolk_type_row types[] = {
    {1, 1, CHUDOPOLK_UINT32, 0, CHUDOPOLK_OPTIONAL},
    {1, 2, CHUDOPOLK_SINT16, 0, CHUDOPOLK_REQUIRED},
    {1, 5, CHUDOPOLK_STRUCT, 0, CHUDOPOLK_OPTIONAL},
    {2, 1, CHUDOPOLK_UINT16, 0, CHUDOPOLK_REQUIRED},
    {1, 7, CHUDOPOLK_STRING, 0, CHUDOPOLK_OPTIONAL},
};
static const chudopolk_form form = {5, 1, CHUDOPOLK_TOLD};

static const uint8_t datagram[] = {
    0x4A, 0x01, 0x80, 0x01,             /* Service ID, Method ID */
    0x00, 0x00, 0x00, 0x16,             /* Length */
    0x00, 0x00, 0x00, 0x01,             /* Client ID, Session ID */
    0x01, 0x01, 0x02, 0x00,             /* Protocol Version, Interface Version, Message Type, Return Code */
    0x10, 0x02, 0xFF, 0x83,             /* member 2: -125 */
    0x50, 0x05, 0x04,                   /* member 5: a struct of 4 bytes */
    0x10, 0x01, 0x0B, 0x54,             /* its member 1: 2900 */
    0x00, 0x09, 0x2A,                   /* member 9, which the table does not know */
};

static void print_row(size_t i, const chudopolk_value_row *row) {
    printf("%zu %" PRIu64 " ", i + 1, types[i].ident);
    switch (row->what) {
    case CHUDOPOLK_IS_UNSIGNED: printf("unsigned %" PRIu64 "\n", row->number); break;
    case CHUDOPOLK_IS_SIGNED: printf("signed %" PRId64 "\n", (int64_t)row->number); break;
    case CHUDOPOLK_IS_BYTES: printf("bytes %" PRIu64 " %" PRIu64 "\n", row->place, row->len); break;
    case CHUDOPOLK_IS_MEMBERS: printf("members\n"); break;
    default: printf("absent\n"); break;
    }
}

int main(void) {
    printf("table %" PRIu32 "\n", chudopolk_check_table(form, &types[0].level, CHUDOPOLK_NUMBERS(types)));

    chudopolk_value_row values[5] = {0};
    chudopolk_expectation expected = {0x4A01, 0x8001, 1, CHUDOPOLK_NOTIFICATION};
    chudopolk_answer read = chudopolk_read_message(datagram, sizeof datagram, expected, form, &types[0].level, CHUDOPOLK_NUMBERS(types),
                                                   &values[0].what, CHUDOPOLK_NUMBERS(values));
    printf("verdict %" PRIu32 " code %" PRIu32 " place %zu skipped %zu\n", read.verdict, read.code, read.place, read.skipped);
    printf("client %u session %u payload %zu %zu rest %zu %zu\n", read.client, read.session, read.payload_at, read.payload_len, read.rest_at,
           read.rest_len);
    for (size_t i = 0; i < form.count; i++) print_row(i, &values[i]);

    /* The same values with a time and a remark, whose text stands in the content buffer. */
    static const uint8_t remark[] = {'s', 'n', 'o', 'w'};
    values[0] = (chudopolk_value_row){CHUDOPOLK_IS_UNSIGNED, 1700000000, 0, 0};
    values[4] = (chudopolk_value_row){CHUDOPOLK_IS_BYTES, 0, 0, sizeof remark};
    chudopolk_fields header = {0x4A01, 0x8001, read.client, (uint16_t)(read.session + 1), 1, CHUDOPOLK_NOTIFICATION, 0};
    uint8_t out[CHUDOPOLK_MESSAGE_MOST] = {0};
    chudopolk_sent sent = chudopolk_write_message(header, form, &types[0].level, CHUDOPOLK_NUMBERS(types), &values[0].what,
                                                  CHUDOPOLK_NUMBERS(values), remark, sizeof remark, out, sizeof out);
    printf("verdict %" PRIu32 " length %zu\n", sent.verdict, sent.len);
    for (size_t i = 0; i < sent.len; i++) printf("%02X%s", out[i], i + 1 == sent.len ? "\n" : " ");
    return 0;
}
