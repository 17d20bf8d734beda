/* The program in C beside the crate bench: the same input (workloads.py has its form), the same answer, byte for byte. It calls base.c, or,
   compiled with -DARCHIVE, the static library, whose rows are made before the loop and taken apart behind it. */
#include "base.h"
#ifdef ARCHIVE
#include "chudopolk.h"
#endif

long read(int fd, void *buf, size_t n);
long write(int fd, const void *buf, size_t n);

static uint8_t b[4096], out[2048];
static sip_type_row types[SIP_MAX_ROWS];
static sip_value rows[SIP_MAX_ROWS];

static uint64_t number(size_t at, size_t n)
{
    uint64_t x = 0;
    while (n--)
        x = x << 8 | b[at++];
    return x;
}

static void put(uint64_t x)
{
    char s[24];
    size_t i = sizeof s;
    s[--i] = ' ';
    do
        s[--i] = (char)('0' + x % 10);
    while (x /= 10);
    write(1, s + i, sizeof s - i);
}

static void show_row(sip_value v)
{
    write(1, "\n", 1);
    put(v.what);
    if (v.what != SIP_ABSENT && v.what != SIP_MEMBERS)
        put(v.bits);
    if (v.what == SIP_BYTES)
        put(v.length);
}

static void show_reading(const sip_reading *o, const uint8_t *d, size_t count)
{
    uint64_t fields[] = { o->verdict, o->place, o->skipped, o->client, o->session, o->code, (uint64_t)(o->payload - d), o->payload_len,
                          (uint64_t)(o->rest - d), o->rest_len };
    for (size_t i = 0; i < sizeof fields / sizeof *fields; i++)
        put(fields[i]);
    for (size_t i = 0; i < count; i++)
        show_row(rows[i]);
    write(1, "\n", 1);
}

static void show_writing(uint32_t verdict, size_t got)
{
    put(verdict);
    put(got);
    write(1, "\n", 1);
    write(1, out, got);
}

#ifdef ARCHIVE
static chudopolk_type_row ts[SIP_MAX_ROWS];
static chudopolk_value_row vs[SIP_MAX_ROWS];

static chudopolk_form form_of(const sip_table *t)
{
    for (size_t i = 0; i < SIP_MAX_ROWS; i++) {
        sip_value v = rows[i];
        int is_run = v.what == SIP_BYTES;
        ts[i] = (chudopolk_type_row){ types[i].level, types[i].id, types[i].kind, types[i].elem, types[i].required };
        vs[i] = (chudopolk_value_row){ v.what, is_run ? 0 : v.bits, is_run ? v.bits : 0, v.length };
    }
    return (chudopolk_form){ t->count, t->width, t->static_wire };
}

static void read_often(const sip_table *t, size_t times, size_t len)
{
    chudopolk_expectation e = { (uint16_t)number(4, 2), (uint16_t)number(6, 2), b[12], b[13] };
    chudopolk_form f = form_of(t);
    chudopolk_answer a = { 0 };
    const uint8_t *d = b + 2048;
    for (size_t i = 0; i < times; i++)
        a = chudopolk_read_message(d, len, e, f, (const uint64_t *)ts, 5 * t->count, (uint64_t *)vs, 4 * t->count);
    for (size_t i = 0; i < t->count; i++)
        rows[i] = (sip_value){ (uint32_t)vs[i].what, (uint32_t)vs[i].len, vs[i].what == SIP_BYTES ? vs[i].place : vs[i].number };
    sip_reading o = { a.verdict, (uint32_t)a.place, (uint32_t)a.skipped, a.client, a.session, a.found_code,
                      d + a.payload_at, a.payload_len, d + a.rest_at, a.rest_len };
    show_reading(&o, d, t->count);
}

static void write_often(const sip_table *t, size_t times, size_t len)
{
    chudopolk_fields h = { (uint16_t)number(4, 2), (uint16_t)number(6, 2), (uint16_t)number(8, 2), (uint16_t)number(10, 2), b[12], b[13], b[14] };
    chudopolk_form f = form_of(t);
    chudopolk_sent s = { 0 };
    size_t room = number(20, 2);
    for (size_t i = 0; i < times; i++)
        s = chudopolk_write_message(h, f, (const uint64_t *)ts, 5 * t->count, (const uint64_t *)vs, 4 * t->count, b + 2048, len, out, room);
    show_writing(s.verdict, s.len);
}
#else
static void read_often(const sip_table *t, size_t times, size_t len)
{
    sip_expect e = { (uint16_t)number(4, 2), (uint16_t)number(6, 2), b[12], b[13] };
    sip_reading o;
    for (size_t i = 0; i < times; i++)
        sip_read_table(t, &e, b + 2048, len, rows, t->count, &o);
    show_reading(&o, b + 2048, t->count);
}

static void write_often(const sip_table *t, size_t times, size_t len)
{
    sip_header h = { (uint16_t)number(4, 2), (uint16_t)number(6, 2), (uint16_t)number(8, 2), (uint16_t)number(10, 2), b[12], b[13], b[14] };
    size_t got = 0, room = number(20, 2);
    uint32_t v = 0;
    for (size_t i = 0; i < times; i++)
        v = sip_write_table(t, &h, rows, t->count, b + 2048, len, out, room, &got);
    show_writing(v, got);
}
#endif

int main(void)
{
    sip_table t = { types, 0, 0, 0 };
    long got = 0, k;
    while (got < (long)sizeof b && (k = read(0, b + got, sizeof b - (size_t)got)) > 0)
        got += k;
    t.count = b[1];
    t.width = b[2];
    t.static_wire = b[3];
    for (size_t i = 0, at = 24; i < SIP_MAX_ROWS; i++, at += 6)
        types[i] = (sip_type_row){ (uint16_t)number(at + 1, 2), b[at], b[at + 3], b[at + 4], b[at + 5] };
    for (size_t i = 0, at = 408; i < SIP_MAX_ROWS; i++, at += 17)
        rows[i] = (sip_value){ b[at], (uint32_t)number(at + 9, 8), number(at + 1, 8) };
    if (b[0] == 'r')
        read_often(&t, number(16, 2), number(18, 2));
    else
        write_often(&t, number(16, 2), number(18, 2));
    return 0;
}
