/* Tagged SOME/IP payloads: reader and writer of scope document 01.  Plain C11, no heap, no globals. */
#ifndef SIP_BASE_H
#define SIP_BASE_H
#include <stddef.h>
#include <stdint.h>

enum { SIP_MAX_ROWS = 64, SIP_MAX_PAYLOAD = 1400, SIP_HEADER = 16 };

enum { /* verdicts */
    SIP_OK = 0, SIP_TABLE = 1, SIP_ROOM = 2,
    SIP_SHORT = 10, SIP_LENGTH = 11, SIP_PROTOCOL = 12, SIP_SERVICE = 13, SIP_INTERFACE = 14,
    SIP_METHOD = 15, SIP_TYPE = 16, SIP_LARGE = 17,
    SIP_TAG_CUT = 20, SIP_WIRE = 21, SIP_TWICE = 22, SIP_FIELD_CUT = 23, SIP_OVERRUN = 24,
    SIP_ARRAY = 25, SIP_TEXT = 26, SIP_MISSING = 27,
    SIP_VALUE = 30, SIP_OUTSIDE = 31, SIP_WIDE = 32, SIP_HEAVY = 33
};

enum { /* what a value row holds */
    SIP_ABSENT = 0, SIP_UNSIGNED, SIP_SIGNED, SIP_FLOAT32, SIP_FLOAT64, SIP_BYTES, SIP_MEMBERS
};

enum { SIP_REQUEST = 0x00, SIP_REQUEST_NO_RETURN = 0x01, SIP_NOTIFICATION = 0x02, SIP_RESPONSE = 0x80, SIP_ERROR = 0x81 };

typedef struct { /* one row of the caller's type table: 6 bytes */
    uint16_t id;       /* 0..4095 */
    uint8_t  level;    /* 1..4 */
    uint8_t  kind;     /* 1..14 */
    uint8_t  elem;     /* 1..11 for an array, else 0 */
    uint8_t  required; /* 0 or 1 */
} sip_type_row;

typedef struct {
    const sip_type_row *rows;
    size_t  count;       /* 1..64 */
    uint8_t width;       /* 1, 2 or 4 */
    uint8_t static_wire; /* writer: 1 = wire type 4, 0 = 5, 6 or 7 by width */
} sip_table;

typedef struct { /* one value row: 16 bytes */
    uint32_t what;   /* SIP_ABSENT.. */
    uint32_t length; /* SIP_BYTES: the run's length */
    uint64_t bits;   /* the number (two's complement), the float's bits, or the run's place */
} sip_value;

/* A checked table, with sibling rings and masks for the walk.  1.5 KB; make it once and keep it. */
typedef struct {
    uint16_t tag;   /* the tag the writer puts, and the reader expects; 0xFFFF in the stand-in row */
    uint8_t  kind;
    uint8_t  next;  /* next row of the same struct, in a ring */
    uint8_t  aux;   /* struct: first member; array: element size less 1 */
    uint8_t  level;
    uint8_t  wire;  /* of the kind; 4 for 4 to 7 */
    uint8_t  zero;
} sip_plan_row;

typedef struct {
    uint32_t count;  /* 0: not a valid table */
    uint32_t width;
    uint32_t widths; /* length field's width, 4 bits for each wire type */
    uint64_t required;
    uint64_t filter[SIP_MAX_ROWS + 1]; /* for a struct, or [64] for level 1: bit (id mod 64) of each member */
    uint64_t need[SIP_MAX_ROWS + 1];   /* the same: mask of required member rows */
    sip_plan_row row[SIP_MAX_ROWS + 1];
} sip_plan;

typedef struct { uint16_t service, method; uint8_t interface, type; } sip_expect;

typedef struct {
    uint16_t service, method, client, session;
    uint8_t  interface, type, code;
} sip_header;

typedef struct {
    uint32_t verdict, place, skipped;
    uint16_t client, session;
    uint8_t  code; /* the Return Code as found */
    const uint8_t *payload; size_t payload_len;
    const uint8_t *rest;    size_t rest_len;
} sip_reading;

/* Checks the table and prepares it: SIP_OK or SIP_TABLE. */
uint32_t sip_plan_make(sip_plan *plan, const sip_table *table);

/* With a table checked once. */
uint32_t sip_read(const sip_plan *plan, const sip_expect *expect, const uint8_t *datagram, size_t len,
                  sip_value *rows, size_t nrows, sip_reading *out);
uint32_t sip_write(const sip_plan *plan, const sip_header *header, const sip_value *rows, size_t nrows,
                   const uint8_t *content, size_t content_len, uint8_t *out, size_t cap, size_t *written);

/* The same, with the table checked in each call. */
uint32_t sip_read_table(const sip_table *table, const sip_expect *expect, const uint8_t *datagram, size_t len,
                        sip_value *rows, size_t nrows, sip_reading *out);
uint32_t sip_write_table(const sip_table *table, const sip_header *header, const sip_value *rows, size_t nrows,
                         const uint8_t *content, size_t content_len, uint8_t *out, size_t cap, size_t *written);

/* Whether text is well formed and has no zero byte. */
int sip_text_ok(const uint8_t *text, size_t len);
#endif
