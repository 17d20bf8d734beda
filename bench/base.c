/* A straightforward reader and writer of document 01 in C, to measure beside. Nothing proves it. */
#include "base.h"

void *memcpy(void *restrict to, const void *restrict from, size_t n);
void *memset(void *to, int byte, size_t n);

/* ---- numbers */

static inline uint32_t get16(const uint8_t *p) { return (uint32_t)p[0] << 8 | p[1]; }
#if defined(__GNUC__) && __BYTE_ORDER__ == __ORDER_LITTLE_ENDIAN__
static inline uint32_t get32(const uint8_t *p) { uint32_t x; memcpy(&x, p, 4); return __builtin_bswap32(x); }
static inline uint64_t get64(const uint8_t *p) { uint64_t x; memcpy(&x, p, 8); return __builtin_bswap64(x); }
static inline void put16(uint8_t *p, uint32_t x) { uint16_t y = __builtin_bswap16((uint16_t)x); memcpy(p, &y, 2); }
static inline void put32(uint8_t *p, uint32_t x) { x = __builtin_bswap32(x); memcpy(p, &x, 4); }
static inline void put64(uint8_t *p, uint64_t x) { x = __builtin_bswap64(x); memcpy(p, &x, 8); }
#else
static inline uint32_t get32(const uint8_t *p) { return get16(p) << 16 | get16(p + 2); }
static inline uint64_t get64(const uint8_t *p) { return (uint64_t)get32(p) << 32 | get32(p + 4); }
static inline void put16(uint8_t *p, uint32_t x) { p[0] = (uint8_t)(x >> 8); p[1] = (uint8_t)x; }
static inline void put32(uint8_t *p, uint32_t x) { put16(p, x >> 16); put16(p + 2, x); }
static inline void put64(uint8_t *p, uint64_t x) { put32(p, (uint32_t)(x >> 32)); put32(p + 4, (uint32_t)x); }
#endif

/* ---- the fourteen kinds */

enum { BOOL = 1, U8, U16, U32, U64, S8, S16, S32, S64, F32, F64, STRING, ARRAY, STRUCT };

static const struct { uint8_t wire; } kinds[15] = { /* a wire type below 4 is the log2 of the size, too */
    [BOOL] = {0}, [U8] = {0}, [U16] = {1}, [U32] = {2}, [U64] = {3}, [S8] = {0}, [S16] = {1}, [S32] = {2}, [S64] = {3},
    [F32] = {2}, [F64] = {3}, [STRING] = {4}, [ARRAY] = {4}, [STRUCT] = {4},
};

#if defined(__GNUC__)
#define UNREACHABLE __builtin_unreachable()
#else
#define UNREACHABLE break
#endif

static inline int type_ok(uint8_t t) { return t <= 2 || t == SIP_RESPONSE || t == SIP_ERROR; }

/* ---- text */

/* The length of the sequence at s, whose first byte isn't 01..7F, or 0. */
static inline size_t sequence(const uint8_t *s, const uint8_t *e)
{
    unsigned b = *s;
    size_t n = b < 0xE0 ? 2 : b < 0xF0 ? 3 : 4;
    if (b - 0xC2 > 0xF4 - 0xC2 || (size_t)(e - s) < n || (s[1] & 0xC0) != 0x80)
        return 0;
    if (n > 2 && ((s[2] & 0xC0) != 0x80 || (n > 3 && (s[3] & 0xC0) != 0x80)))
        return 0;
    return n;
}

int sip_text_ok(const uint8_t *s, size_t len)
{
    const uint8_t *e = s + len;
    size_t n;
#if defined(__GNUC__) && __BYTE_ORDER__ == __ORDER_LITTLE_ENDIAN__
    if (len >= 8) {
        const uint8_t *last = e - 8;
        while (s <= last) { /* eight bytes at once; the lowest bit left tells the first that isn't 01..7F */
            uint64_t w;
            memcpy(&w, s, 8);
            w = ((w - UINT64_C(0x0101010101010101)) | w) & UINT64_C(0x8080808080808080);
            if (w == 0) {
                s += 8;
                continue;
            }
            s += __builtin_ctzll(w) >> 3;
            n = sequence(s, e);
            if (n == 0)
                return 0;
            s += n;
        }
    }
#endif
    while (s != e) {
        n = *s - 1u < 0x7F ? 1 : sequence(s, e);
        if (n == 0)
            return 0;
        s += n;
    }
    return 1;
}

/* ---- the table */

#define NOBODY SIP_MAX_ROWS /* the stand-in row, which no tag finds; and level 1 as a group of members */

uint32_t sip_plan_make(sip_plan *p, const sip_table *t)
{
    size_t n = t->count;
    uint32_t w = t->width;
    struct { uint32_t group, last, top; } open[5]; /* by level: the struct, its last member so far, its largest ID so far */
    uint32_t allowed = 1, before = 0;              /* the largest level that may come; the level of the row before */
    uint64_t required = 0;

    p->count = 0;
    if (n - 1 >= SIP_MAX_ROWS || !(w == 1 || w == 2 || w == 4))
        return SIP_TABLE;
    uint32_t run_wire = t->static_wire ? 4 : w == 4 ? 7 : w + 4;
    p->row[NOBODY] = (sip_plan_row){ .tag = 0xFFFF, .next = NOBODY };
    p->filter[NOBODY] = 0;
    p->need[NOBODY] = 0;
    open[1].group = NOBODY;

    for (uint32_t i = 0; i < n; i++) {
        const sip_type_row *r = &t->rows[i];
        sip_plan_row *q = &p->row[i];
        uint32_t level = r->level, id = r->id, kind = r->kind, wire, group, next = i;
        if (level - 1 >= allowed || id > 4095 || kind - 1 >= STRUCT)
            return SIP_TABLE;
        if (level > before) { /* the first member of the struct in the row before; or row 0 */
            group = i ? i - 1 : NOBODY;
            open[level].group = group;
            p->row[group].aux = (uint8_t)i;
            open[level].top = id;
        } else {
            group = open[level].group;
            uint32_t first = p->row[group].aux, last = open[level].last;
            if (id > open[level].top) {
                open[level].top = id;
            } else { /* out of order, so look */
                for (uint32_t j = first;; j = p->row[j].next) {
                    if ((p->row[j].tag & 0xFFF) == id)
                        return SIP_TABLE;
                    if (j == last)
                        break;
                }
            }
            p->row[last].next = (uint8_t)i;
            next = first;
        }
        open[level].last = i;
        before = level;
        allowed = level;
        uint32_t aux = 0, elem = r->elem;
        if (kind < STRING) {
            wire = kinds[kind].wire;
            q->tag = (uint16_t)(wire << 12 | id);
        } else {
            wire = 4;
            q->tag = (uint16_t)(run_wire << 12 | id);
            if (kind == STRUCT) {
                if (level > 3)
                    return SIP_TABLE;
                allowed = level + 1;
                aux = NOBODY;
                p->filter[i] = p->need[i] = 0;
            } else if (kind == ARRAY) {
                if (elem - 1 >= F64)
                    return SIP_TABLE;
                aux = (1u << kinds[elem].wire) - 1;
                elem = 0;
            }
        }
        if (elem)
            return SIP_TABLE;
        q->kind = (uint8_t)kind;
        q->next = (uint8_t)next;
        q->aux = (uint8_t)aux;
        q->level = (uint8_t)level;
        q->wire = (uint8_t)wire;
        q->zero = 0;
        if (r->required) {
            required |= UINT64_C(1) << i;
            p->need[group] |= UINT64_C(1) << i;
        }
        p->filter[group] |= UINT64_C(1) << (id & 63);
    }
    p->required = required;
    p->width = w;
    p->widths = w << 16 | 1u << 20 | 2u << 24 | 4u << 28;
    p->count = (uint32_t)n;
    return SIP_OK;
}

/* ---- reading */

#define REFUSE(v, at) do { *place = (uint32_t)((at) - b); return (v); } while (0)
#define NEED(n) do { if (left < (n)) REFUSE(SIP_OVERRUN, c); } while (0)
#define NUMBER(size, kind_of, x) \
    if (left < (size)) REFUSE(SIP_OVERRUN, c); \
    v->what = (kind_of); v->bits = (uint64_t)(x); c += (size); break

/* Reads the payload b[0..len) into rows, which are absent. */
static uint32_t walk(const sip_plan *p, const uint8_t *b, size_t len, sip_value *rows,
                     uint32_t *place, uint32_t *skipped_out)
{
    struct { const uint8_t *end; size_t group, hint; } outer[3];
    const uint8_t *c = b, *end = b + len;
    size_t depth = 0, group = NOBODY, hint = 0; /* hint: the row to try first, which follows the row found last */
    uint64_t seen = 0;                          /* a row is met once in all, as its struct is */
    uint32_t skipped = 0;

    for (;;) {
        size_t left = (size_t)(end - c), r = hint;
        if (left < 2) {
            if (left)
                REFUSE(SIP_TAG_CUT, c);
            if (p->need[group] & ~seen)
                REFUSE(SIP_MISSING, end);
            if (depth == 0) {
                *skipped_out = skipped;
                return SIP_OK;
            }
            depth--;
            end = outer[depth].end;
            group = outer[depth].group;
            hint = outer[depth].hint;
            continue;
        }
        uint32_t tag = get16(c) & 0x7FFF;
        if (tag != p->row[r].tag) { /* not the row that follows, or with another length field */
            if (!(p->filter[group] >> (tag & 63) & 1))
                goto unknown;
            while ((tag ^ p->row[r].tag) & 0xFFF) {
                r = p->row[r].next;
                if (r == hint)
                    goto unknown;
            }
            if ((tag < 0x4000 ? tag >> 12 : 4) != p->row[r].wire)
                REFUSE(SIP_WIRE, c);
        }
        if (seen >> r & 1)
            REFUSE(SIP_TWICE, c);
        seen |= UINT64_C(1) << r;
        hint = p->row[r].next;
        c += 2;
        left -= 2;
        sip_value *v = &rows[r];
        uint32_t kind = p->row[r].kind;
        switch (kind) {
        case BOOL: NUMBER(1, SIP_UNSIGNED, c[0] & 1);
        case U8:   NUMBER(1, SIP_UNSIGNED, c[0]);
        case U16:  NUMBER(2, SIP_UNSIGNED, get16(c));
        case U32:  NUMBER(4, SIP_UNSIGNED, get32(c));
        case U64:  NUMBER(8, SIP_UNSIGNED, get64(c));
        case S8:   NUMBER(1, SIP_SIGNED, (int64_t)(int8_t)c[0]);
        case S16:  NUMBER(2, SIP_SIGNED, (int64_t)(int16_t)get16(c));
        case S32:  NUMBER(4, SIP_SIGNED, (int64_t)(int32_t)get32(c));
        case S64:  NUMBER(8, SIP_SIGNED, get64(c));
        case F32:  NUMBER(4, SIP_FLOAT32, get32(c));
        case F64:  NUMBER(8, SIP_FLOAT64, get64(c));
        case STRING: case ARRAY: case STRUCT: {
            uint32_t w = p->widths >> (tag >> 12) * 4 & 15;
            if (left < w)
                REFUSE(SIP_FIELD_CUT, c);
            uint32_t n = w == 1 ? c[0] : w == 2 ? get16(c) : get32(c);
            c += w;
            left -= w;
            NEED(n);
            if (kind == STRUCT) {
                v->what = SIP_MEMBERS;
                outer[depth].end = end;
                outer[depth].group = group;
                outer[depth].hint = hint;
                depth++;
                end = c + n;
                group = r;
                hint = p->row[r].aux;
                break;
            }
            v->what = SIP_BYTES;
            if (kind == STRING) {
                if (n < 4 || c[0] != 0xEF || c[1] != 0xBB || c[2] != 0xBF || c[n - 1] != 0 || !sip_text_ok(c + 3, n - 4))
                    REFUSE(SIP_TEXT, c);
                v->length = n - 4;
                v->bits = (uint64_t)(c + 3 - b);
            } else {
                if (n & p->row[r].aux)
                    REFUSE(SIP_ARRAY, c);
                v->length = n;
                v->bits = (uint64_t)(c - b);
            }
            c += n;
            break;
        }
        default: UNREACHABLE;
        }
        continue;

    unknown:
        c += 2;
        left -= 2;
        size_t n;
        if (tag < 0x4000) {
            n = (size_t)1 << (tag >> 12);
        } else {
            uint32_t w = p->widths >> (tag >> 12) * 4 & 15;
            if (left < w)
                REFUSE(SIP_FIELD_CUT, c);
            n = w == 1 ? c[0] : w == 2 ? get16(c) : get32(c);
            c += w;
            left -= w;
        }
        NEED(n);
        c += n;
        skipped++;
    }
}

uint32_t sip_read(const sip_plan *p, const sip_expect *x, const uint8_t *d, size_t len,
                  sip_value *rows, size_t nrows, sip_reading *o)
{
    uint32_t n = p->count, v = SIP_OK, length;

    o->place = o->skipped = 0;
    o->client = o->session = 0;
    o->code = 0;
    o->payload = o->rest = d;
    o->payload_len = o->rest_len = 0;
    if (n == 0 || !type_ok(x->type))
        return o->verdict = SIP_TABLE;
    if (nrows < n)
        return o->verdict = SIP_ROOM;
    memset(rows, 0, n * sizeof *rows);
    if (len < SIP_HEADER)
        return o->verdict = SIP_SHORT;
    length = get32(d + 4);
    if (length < 8 || length > len - 8)
        return o->verdict = SIP_LENGTH;

    o->client = (uint16_t)get16(d + 8);
    o->session = (uint16_t)get16(d + 10);
    o->code = d[15];
    o->rest = d + 8 + length;
    o->rest_len = len - 8 - length;
    if (d[12] != 1)
        v = SIP_PROTOCOL;
    else if (get16(d) != x->service)
        v = SIP_SERVICE;
    else if (d[13] != x->interface)
        v = SIP_INTERFACE;
    else if (get16(d + 2) != x->method)
        v = SIP_METHOD;
    else if (d[14] != x->type)
        v = SIP_TYPE;
    else if (length - 8 > SIP_MAX_PAYLOAD)
        v = SIP_LARGE;
    if (v)
        return o->verdict = v;

    o->payload = d + SIP_HEADER;
    o->payload_len = length - 8;
    v = walk(p, d + SIP_HEADER, length - 8, rows, &o->place, &o->skipped);
    if (v)
        memset(rows, 0, n * sizeof *rows);
    return o->verdict = v;
}

uint32_t sip_read_table(const sip_table *t, const sip_expect *x, const uint8_t *d, size_t len,
                        sip_value *rows, size_t nrows, sip_reading *o)
{
    sip_plan p;
    (void)sip_plan_make(&p, t);
    return sip_read(&p, x, d, len, rows, nrows, o);
}

/* ---- writing */

#define FITS(size, kind_of, good) \
    if (v->what != (kind_of) || !(good)) goto bad; \
    total += 2 + (size); break

/* Checks each row, and sums the payload's bytes. */
static uint32_t weigh(const sip_plan *p, const sip_value *rows, const uint8_t *content, size_t content_len,
                      uint64_t *total_out)
{
    uint32_t head = 2 + p->width;
    uint64_t total = 0;
    const sip_value *v;

    for (size_t i = 0, n = p->count; i < n; i++) {
        uint32_t kind = p->row[i].kind;
        v = &rows[i];
        if (v->what == SIP_ABSENT) {
            if (p->required >> i & 1)
                goto bad;
            if (kind == STRUCT) { /* all below it is absent */
                uint32_t level = p->row[i].level;
                for (; i + 1 < n && p->row[i + 1].level > level; i++) {
                    v = &rows[i + 1];
                    if (v->what != SIP_ABSENT)
                        goto bad;
                }
            }
            continue;
        }
        switch (kind) {
        case BOOL: FITS(1, SIP_UNSIGNED, v->bits <= 1);
        case U8:   FITS(1, SIP_UNSIGNED, v->bits <= 0xFF);
        case U16:  FITS(2, SIP_UNSIGNED, v->bits <= 0xFFFF);
        case U32:  FITS(4, SIP_UNSIGNED, v->bits <= 0xFFFFFFFF);
        case U64:  FITS(8, SIP_UNSIGNED, 1);
        case S8:   FITS(1, SIP_SIGNED, v->bits + 0x80 <= 0xFF);
        case S16:  FITS(2, SIP_SIGNED, v->bits + 0x8000 <= 0xFFFF);
        case S32:  FITS(4, SIP_SIGNED, v->bits + 0x80000000 <= 0xFFFFFFFF);
        case S64:  FITS(8, SIP_SIGNED, 1);
        case F32:  FITS(4, SIP_FLOAT32, v->bits <= 0xFFFFFFFF);
        case F64:  FITS(8, SIP_FLOAT64, 1);
        case STRING: case ARRAY:
            if (v->what != SIP_BYTES)
                goto bad;
            if (v->bits > content_len || v->length > content_len - v->bits)
                return SIP_OUTSIDE;
            total += head + (uint64_t)v->length;
            if (kind == ARRAY) {
                if (v->length & p->row[i].aux)
                    return SIP_VALUE;
            } else {
                if (!sip_text_ok(content + v->bits, v->length))
                    return SIP_VALUE;
                total += 4;
            }
            break;
        case STRUCT:
            if (v->what != SIP_MEMBERS)
                goto bad;
            total += head;
            break;
        default: UNREACHABLE;
        }
    }
    *total_out = total;
    return SIP_OK;
bad: /* the wrong value, but a run outside goes before it */
    if (v->what == SIP_BYTES && (v->bits > content_len || v->length > content_len - v->bits))
        return SIP_OUTSIDE;
    return SIP_VALUE;
}

/* Whether some content is longer than max. */
static int too_wide(const sip_plan *p, const sip_value *rows, uint64_t max)
{
    uint64_t sum[6] = {0}; /* by level: bytes of the members behind */
    for (uint32_t i = p->count; i-- > 0;) {
        uint32_t kind = p->row[i].kind, level = p->row[i].level;
        uint64_t body;
        if (rows[i].what == SIP_ABSENT)
            continue;
        if (kind < STRING) {
            sum[level] += 2 + (1u << p->row[i].wire);
            continue;
        }
        if (kind == STRUCT) {
            body = sum[level + 1];
            sum[level + 1] = 0;
        } else {
            body = (uint64_t)rows[i].length + (kind == STRING ? 4 : 0);
        }
        if (body > max)
            return 1;
        sum[level] += 2 + p->width + body;
    }
    return 0;
}

uint32_t sip_write(const sip_plan *p, const sip_header *h, const sip_value *rows, size_t nrows,
                   const uint8_t *content, size_t content_len, uint8_t *out, size_t cap, size_t *written)
{
    uint64_t total, max;
    uint32_t v;

    *written = 0;
    if (p->count == 0 || !type_ok(h->type))
        return SIP_TABLE;
    if (nrows < p->count)
        return SIP_ROOM;
    v = weigh(p, rows, content, content_len, &total);
    if (v)
        return v;
    max = p->width == 1 ? 0xFF : p->width == 2 ? 0xFFFF : 0xFFFFFFFF;
    if (total > max && too_wide(p, rows, max))
        return SIP_WIDE;
    if (total > SIP_MAX_PAYLOAD)
        return SIP_HEAVY;
    if (cap < SIP_HEADER + total)
        return SIP_ROOM;

    put16(out, h->service);
    put16(out + 2, h->method);
    put32(out + 4, (uint32_t)total + 8);
    put16(out + 8, h->client);
    put16(out + 10, h->session);
    out[12] = 1;
    out[13] = h->interface;
    out[14] = h->type;
    out[15] = h->code;

    /* from the back, so that a struct's length is known when its turn comes */
    uint8_t *e = out + SIP_HEADER + total;
    uint8_t *start[5]; /* by level: where the row behind starts */
    start[1] = start[2] = start[3] = e;
    *written = SIP_HEADER + (size_t)total;
    for (size_t i = p->count; i-- > 0;) {
        const sip_value *x = &rows[i];
        const sip_plan_row *q = &p->row[i];
        uint32_t level = q->level, body;
        if (x->what == SIP_ABSENT)
            continue;
        switch (q->kind) {
        case BOOL: case U8: case S8: e -= 3; e[2] = (uint8_t)x->bits; break;
        case U16: case S16: e -= 4; put16(e + 2, (uint32_t)x->bits); break;
        case U32: case S32: case F32: e -= 6; put32(e + 2, (uint32_t)x->bits); break;
        case U64: case S64: case F64: e -= 10; put64(e + 2, x->bits); break;
        case STRING: case ARRAY: case STRUCT:
            if (q->kind == STRUCT) { /* up to the nearest row behind that isn't below it */
                const uint8_t *to = start[1];
                for (uint32_t l = 2; l <= level; l++)
                    if (start[l] < to)
                        to = start[l];
                body = (uint32_t)(to - e);
            } else if (q->kind == ARRAY) {
                body = x->length;
                e -= body;
                if (body)
                    memcpy(e, content + x->bits, body);
            } else {
                body = x->length + 4;
                e -= body;
                e[0] = 0xEF, e[1] = 0xBB, e[2] = 0xBF;
                if (x->length)
                    memcpy(e + 3, content + x->bits, x->length);
                e[body - 1] = 0;
            }
            if (p->width == 1)
                e -= 3, e[2] = (uint8_t)body;
            else if (p->width == 2)
                e -= 4, put16(e + 2, body);
            else
                e -= 6, put32(e + 2, body);
            break;
        default: UNREACHABLE;
        }
        put16(e, q->tag);
        start[level] = e;
    }
    return SIP_OK;
}

uint32_t sip_write_table(const sip_table *t, const sip_header *h, const sip_value *rows, size_t nrows,
                         const uint8_t *content, size_t content_len, uint8_t *out, size_t cap, size_t *written)
{
    sip_plan p;
    (void)sip_plan_make(&p, t);
    return sip_write(&p, h, rows, nrows, content, content_len, out, cap, written);
}
