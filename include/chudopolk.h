/*
 * Chudopolk: SOME/IP messages with tagged payloads, read and written.
 *
 * Link with libchudopolk.a (`rt lib` in crates/chudopolk writes it to out/), on x86-64 Linux.
 *
 * Three functions: check a type table, read a message, write a message. Each of them answers every input; none keeps anything, allocates,
 * or has an error of its own: what it finds is one verdict of the list below.
 *
 * What the caller owes, as for any C function:
 * - An array is a pointer and the count of its elements. The pointer is never NULL, also where the count is 0, and is aligned for its elements;
 *   so many elements are there. An array handed in as const is initialised; so is every array that the function may leave as it was.
 * - The array that a function writes (values in reading, out in writing) overlaps no other array of the call.
 * - Arrays of rows cross as arrays of uint64_t: `&types[0].level, CHUDOPOLK_NUMBERS(types)` and `&values[0].what, CHUDOPOLK_NUMBERS(values)`.
 *   The counts are counts of numbers, 5 to a type row and 4 to a value row.
 *
 * What a number means is never assumed. A table with a wrong count, too short an array or a wild number gets verdict 1; too few value rows get
 * verdict 2; a value row to write whose `what` is none of the seven gets verdict 30.
 */
#ifndef CHUDOPOLK_H
#define CHUDOPOLK_H

#include <stddef.h>
#include <stdint.h>

#ifdef __cplusplus
extern "C" {
#endif

/* ---- The verdicts. A reading or a writing gets the first that applies. */
enum chudopolk_verdict {
    CHUDOPOLK_VERDICT_ACCEPTED = 0,       /* accepted */
    CHUDOPOLK_VERDICT_TABLE = 1,          /* the type table breaks its rules, or a Message Type handed in is none of the five */
    CHUDOPOLK_VERDICT_ROOM = 2,           /* fewer value rows than type rows, or an output shorter than the message */
    CHUDOPOLK_VERDICT_SHORT = 10,         /* fewer than 16 bytes */
    CHUDOPOLK_VERDICT_LENGTH = 11,        /* Length below 8, or the message runs past the datagram's end */
    CHUDOPOLK_VERDICT_PROTOCOL = 12,      /* Protocol Version is not 1 */
    CHUDOPOLK_VERDICT_SERVICE = 13,       /* Service ID is not the expected */
    CHUDOPOLK_VERDICT_INTERFACE = 14,     /* Interface Version is not the expected */
    CHUDOPOLK_VERDICT_METHOD = 15,        /* Method ID is not the expected */
    CHUDOPOLK_VERDICT_MESSAGE_TYPE = 16,  /* Message Type is not the expected */
    CHUDOPOLK_VERDICT_LARGE = 17,         /* payload over 1,400 bytes */
    CHUDOPOLK_VERDICT_TAG_CUT = 20,       /* one byte left at a level */
    CHUDOPOLK_VERDICT_WIRE = 21,          /* known member, wire type not its kind's */
    CHUDOPOLK_VERDICT_TWICE = 22,         /* known member already met at this level */
    CHUDOPOLK_VERDICT_FIELD_CUT = 23,     /* length field past the level's end */
    CHUDOPOLK_VERDICT_OVERRUN = 24,       /* content past the level's end */
    CHUDOPOLK_VERDICT_ARRAY = 25,         /* an array's length is no multiple of its element size */
    CHUDOPOLK_VERDICT_TEXT = 26,          /* a string's content is ill formed */
    CHUDOPOLK_VERDICT_MISSING = 27,       /* a level ends without a required member */
    CHUDOPOLK_VERDICT_VALUE = 30,         /* to write: a value not of its kind or range, ill formed, absent though required, or under an absent one */
    CHUDOPOLK_VERDICT_OUTSIDE = 31,       /* to write: a run of bytes past the content buffer */
    CHUDOPOLK_VERDICT_WIDE = 32,          /* to write: content over what the length field holds */
    CHUDOPOLK_VERDICT_HEAVY = 33          /* to write: payload over 1,400 bytes */
};

/* ---- The five Message Types. */
enum chudopolk_message_type {
    CHUDOPOLK_REQUEST = 0x00,           /* a call that is answered */
    CHUDOPOLK_REQUEST_NO_RETURN = 0x01, /* a call that is not answered */
    CHUDOPOLK_NOTIFICATION = 0x02,      /* an event */
    CHUDOPOLK_RESPONSE = 0x80,          /* the answer to a call */
    CHUDOPOLK_ERROR = 0x81              /* the answer to a call that failed */
};

/* ---- The fourteen kinds of a type row. Kinds 1 to 11 are also the element kinds of an array. */
enum chudopolk_kind {
    CHUDOPOLK_BOOLEAN = 1,  /* 1 byte, of which the lowest bit counts */
    CHUDOPOLK_UINT8 = 2,    /* 1 byte */
    CHUDOPOLK_UINT16 = 3,   /* 2 bytes */
    CHUDOPOLK_UINT32 = 4,   /* 4 bytes */
    CHUDOPOLK_UINT64 = 5,   /* 8 bytes */
    CHUDOPOLK_SINT8 = 6,    /* 1 byte, two's complement */
    CHUDOPOLK_SINT16 = 7,   /* 2 bytes, two's complement */
    CHUDOPOLK_SINT32 = 8,   /* 4 bytes, two's complement */
    CHUDOPOLK_SINT64 = 9,   /* 8 bytes, two's complement */
    CHUDOPOLK_FLOAT32 = 10, /* 4 bytes */
    CHUDOPOLK_FLOAT64 = 11, /* 8 bytes */
    CHUDOPOLK_STRING = 12,  /* a text in UTF-8 */
    CHUDOPOLK_ARRAY = 13,   /* elements of one kind 1 to 11 */
    CHUDOPOLK_STRUCT = 14   /* members, which are the deeper rows behind it */
};

/* ---- What a value row holds. */
enum chudopolk_what {
    CHUDOPOLK_IS_ABSENT = 0,    /* no value: the member was not sent, or is not to be */
    CHUDOPOLK_IS_UNSIGNED = 1,  /* number: an unsigned number, or a boolean as 0 or 1 */
    CHUDOPOLK_IS_SIGNED = 2,    /* number: a signed number in two's complement, (int64_t)number */
    CHUDOPOLK_IS_FLOAT32 = 3,   /* number: the bits of a float, below 2^32 */
    CHUDOPOLK_IS_FLOAT64 = 4,   /* number: the bits of a double */
    CHUDOPOLK_IS_BYTES = 5,     /* place and len: the text of a string, or the bytes of an array */
    CHUDOPOLK_IS_MEMBERS = 6    /* a struct that is there; its members are rows of their own */
};

/* ---- The marks of a type row and of a table. */
enum chudopolk_mark {
    CHUDOPOLK_OPTIONAL = 0, /* `required` of a type row: the member may be missing */
    CHUDOPOLK_REQUIRED = 1, /* `required` of a type row: the member may not be missing */
    CHUDOPOLK_TOLD = 0,     /* `fixed` of a form: the writer tells the width of length fields in the tag (wire types 5, 6, 7) */
    CHUDOPOLK_FIXED = 1     /* `fixed` of a form: the writer uses the static wire type 4 */
};

/* ---- Sizes, and what stands for no return code. */
enum chudopolk_limit {
    CHUDOPOLK_ROWS_MOST = 64,      /* the most rows of a table */
    CHUDOPOLK_HEADER_LENGTH = 16,  /* the bytes of a header */
    CHUDOPOLK_PAYLOAD_MOST = 1400, /* the most bytes of a payload */
    CHUDOPOLK_MESSAGE_MOST = 1416, /* the most bytes of a message: an output so long is never too short */
    CHUDOPOLK_NO_CODE = 256        /* `code` of an answer whose verdict has no return code */
};

/* A row of a type table: 5 numbers. Rows stand depth first; the first has level 1. */
typedef struct chudopolk_type_row {
    uint64_t level;    /* 1 to 4; at most the level before, or one more behind a struct */
    uint64_t ident;    /* the Data ID, 0 to 4,095; differs among the members of one struct */
    uint64_t kind;     /* enum chudopolk_kind; a struct stands at level 1 to 3 */
    uint64_t elem;     /* an array's element kind 1 to 11; 0 for every other row */
    uint64_t required; /* CHUDOPOLK_REQUIRED or CHUDOPOLK_OPTIONAL */
} chudopolk_type_row;

/* A value row: 4 numbers, one row for each row of the table. After reading, numbers that the value does not use are 0; writing ignores them. */
typedef struct chudopolk_value_row {
    uint64_t what;   /* enum chudopolk_what */
    uint64_t number; /* a number, or the bits of a float */
    uint64_t place;  /* where a run of bytes begins: in reading from the payload's first byte, in writing from the content buffer's */
    uint64_t len;    /* how many bytes it has */
} chudopolk_value_row;

#if defined(__STDC_VERSION__) && __STDC_VERSION__ >= 201112L
_Static_assert(sizeof(chudopolk_type_row) == 5 * sizeof(uint64_t), "a type row is 5 numbers");
_Static_assert(sizeof(chudopolk_value_row) == 4 * sizeof(uint64_t), "a value row is 4 numbers");
#endif

/* How many numbers an array of rows has. For an array, and not for a pointer. */
#define CHUDOPOLK_NUMBERS(rows) (sizeof(rows) / (sizeof(uint64_t)))

/* A type table beside its rows. */
typedef struct chudopolk_form {
    size_t count;   /* how many rows, 1 to 64 */
    uint32_t width; /* the bytes of a length field: 1, 2 or 4 */
    uint32_t fixed; /* CHUDOPOLK_TOLD or CHUDOPOLK_FIXED */
} chudopolk_form;

/* What the caller expects of a message. */
typedef struct chudopolk_expectation {
    uint16_t service;  /* Service ID */
    uint16_t method;   /* Method ID */
    uint8_t interface; /* Interface Version */
    uint8_t kind;      /* enum chudopolk_message_type */
} chudopolk_expectation;

/* The answer to a reading. */
typedef struct chudopolk_answer {
    uint32_t verdict;   /* enum chudopolk_verdict */
    uint32_t code;      /* the verdict's return code, or CHUDOPOLK_NO_CODE */
    size_t place;       /* where a verdict 20 to 27 is met, counted from the payload's first byte; 0 otherwise */
    size_t skipped;     /* how many unknown members were skipped; 0 on refusal */
    uint16_t client;    /* Client ID as found; 0 after verdicts 1, 2, 10 and 11 */
    uint16_t session;   /* Session ID as found, or 0 likewise */
    uint8_t found_code; /* the header's own Return Code as found, or 0 likewise */
    size_t payload_at;  /* the payload's first byte, counted in the datagram; given after 0 and 20 to 27 */
    size_t payload_len; /* the payload's bytes; 0 where it is not given */
    size_t rest_at;     /* the first byte after the message, counted in the datagram; given after 0 and 12 to 27 */
    size_t rest_len;    /* the bytes after the message; 0 where they are not given */
} chudopolk_answer;

/* The fields of a header to write. Length and Protocol Version are the writer's. */
typedef struct chudopolk_fields {
    uint16_t service;  /* Service ID */
    uint16_t method;   /* Method ID */
    uint16_t client;   /* Client ID */
    uint16_t session;  /* Session ID */
    uint8_t interface; /* Interface Version */
    uint8_t kind;      /* enum chudopolk_message_type */
    uint8_t code;      /* Return Code */
} chudopolk_fields;

/* The answer to a writing. */
typedef struct chudopolk_sent {
    uint32_t verdict; /* enum chudopolk_verdict */
    size_t len;       /* the message's bytes, from the output's start; 0 on refusal */
} chudopolk_sent;

/*
 * Whether a type table keeps its rules: CHUDOPOLK_VERDICT_ACCEPTED or CHUDOPOLK_VERDICT_TABLE.
 * types: the rows, 5 numbers each, of which form.count count.
 */
uint32_t chudopolk_check_table(chudopolk_form form, const uint64_t *types, size_t types_len);

/*
 * Reads the message at a datagram's start into value rows. What stands behind the message is not looked at.
 * values: the rows, 4 numbers each. Verdicts 1 and 2 change none. After every other verdict the first form.count rows are set, all to
 * CHUDOPOLK_IS_ABSENT on refusal; rows beyond stay as they were.
 */
chudopolk_answer chudopolk_read_message(const uint8_t *datagram, size_t datagram_len, chudopolk_expectation expected, chudopolk_form form,
                                        const uint64_t *types, size_t types_len, uint64_t *values, size_t values_len);

/*
 * Writes the message of a header and of value rows from the output's start.
 * values: the rows, 4 numbers each, one for each type row at least. content: what their runs of bytes are parts of.
 * out: a refused writing changes no byte; an accepted one changes the message's bytes only.
 */
chudopolk_sent chudopolk_write_message(chudopolk_fields header, chudopolk_form form, const uint64_t *types, size_t types_len, const uint64_t *values,
                                       size_t values_len, const uint8_t *content, size_t content_len, uint8_t *out, size_t out_len);

#ifdef __cplusplus
}
#endif

#endif
