/* An archive in C, hand-written, beside which the library's instructions are counted; nothing proves it.
   Reads cases from standard input and writes answers, both in the form of docs/CASES.md, "Archive cases". */
#include <stdint.h>
#include <string.h>
#include <unistd.h>

enum { FULL = 50, TRAILER = 51, RECORDS = 52, NO_MESSAGE = 53, NO_RECORD = 54 };
enum { MOST = 65535, ENTRY = 4, END = 8, ROOM = 131072 };

typedef struct { uint8_t verdict; uint64_t a, b, c; } answer;

static uint32_t two(const uint8_t *p)
{
    return (uint32_t)p[0] << 8 | p[1];
}

static uint64_t four(const uint8_t *p)
{
    return two(p) << 16 | two(p + 2);
}

static void put_two(uint8_t *p, uint32_t v)
{
    p[0] = (uint8_t)(v >> 8);
    p[1] = (uint8_t)v;
}

static void put_four(uint8_t *p, uint32_t v)
{
    put_two(p, v >> 16);
    put_two(p + 2, v & 0xFFFF);
}

static void put_eight(uint8_t *p, uint64_t v)
{
    put_four(p, v >> 32);
    put_four(p + 4, (uint32_t)v);
}

static int is_message(const uint8_t *m, size_t len)
{
    return len >= 16 && len <= MOST && four(m + 4) == len - 8;
}

/* How many records of messages the first `size` bytes are, or -1. */
static int64_t walk(const uint8_t *f, size_t len, uint64_t size)
{
    int64_t n = 0;
    size_t at = 0;
    if (size > len) return -1;
    while (at < size) {
        if (size - at < 2) return -1;
        size_t m = two(f + at);
        if (size - at - 2 < m || !is_message(f + at + 2, m)) return -1;
        at += 2 + m;
        n++;
    }
    return n;
}

static int is_full(size_t room, uint64_t size, uint64_t n)
{
    uint64_t whole = size + ENTRY * n + END;
    return size > MOST || whole > MOST || whole > room;
}

static answer add(uint8_t *f, size_t len, uint64_t told, const uint8_t *m, size_t size)
{
    int64_t n = walk(f, len, told);
    if (n < 0) return (answer){ RECORDS, 0, 0, 0 };
    if (!is_message(m, size)) return (answer){ NO_MESSAGE, 0, 0, 0 };
    if (told > MOST || is_full(len, told + 2 + size, n + 1)) return (answer){ FULL, 0, 0, 0 };
    put_two(f + told, size);
    memcpy(f + told + 2, m, size);
    return (answer){ 0, told + 2 + size, 0, 0 };
}

static answer closed(uint8_t *f, size_t len, uint64_t told)
{
    int64_t n = walk(f, len, told);
    if (n < 0) return (answer){ RECORDS, 0, 0, 0 };
    if (is_full(len, told, n)) return (answer){ FULL, 0, 0, 0 };
    uint8_t *to = f + told;
    for (size_t at = 0; at < told; at += 2 + two(f + at)) {
        put_two(to, at);
        memcpy(to + 2, f + at + 12, 2);
        to += ENTRY;
    }
    put_four(to, told);
    put_two(to + 4, n);
    put_two(to + 6, 1);
    return (answer){ 0, told + ENTRY * n + END, 0, 0 };
}

static answer opened(const uint8_t *f, size_t len)
{
    if (len < END || len > MOST) return (answer){ TRAILER, 0, 0, 0 };
    const uint8_t *end = f + len - END;
    uint64_t size = four(end), n = two(end + 4);
    if (two(end + 6) != 1 || size + ENTRY * n > len - END) return (answer){ TRAILER, 0, 0, 0 };
    if (walk(f, len, size) != (int64_t)n || size + ENTRY * n != len - END) return (answer){ RECORDS, 0, 0, 0 };
    const uint8_t *entry = f + size;
    for (size_t at = 0; at < size; at += 2 + two(f + at), entry += ENTRY)
        if (two(entry) != at || two(entry + 2) != two(f + at + 12)) return (answer){ RECORDS, 0, 0, 0 };
    return (answer){ 0, size, n, 0 };
}

static answer read_nth(const uint8_t *f, answer o, uint64_t n)
{
    if (o.verdict) return (answer){ o.verdict, 0, 0, 0 };
    if (n == 0 || n > o.b) return (answer){ NO_RECORD, 0, 0, 0 };
    size_t at = two(f + o.a + ENTRY * (n - 1));
    return (answer){ 0, n, at + 2, two(f + at) };
}

static answer find(const uint8_t *f, answer o, uint64_t session)
{
    if (o.verdict) return o;
    for (uint64_t i = 0; i < o.b; i++)
        if (two(f + o.a + ENTRY * i + 2) == session) return read_nth(f, o, i + 1);
    return (answer){ NO_RECORD, 0, 0, 0 };
}

static answer answered(int op, uint8_t *f, size_t len, uint64_t n, const uint8_t *m, size_t size)
{
    switch (op) {
    case 1: return add(f, len, n, m, size);
    case 2: return closed(f, len, n);
    case 3: return opened(f, len);
    case 4: return read_nth(f, opened(f, len), n);
    default: return find(f, opened(f, len), n);
    }
}

/* Whether all bytes came. */
static int filled(uint8_t *p, size_t n)
{
    while (n) {
        ssize_t k = read(0, p, n);
        if (k <= 0) return 0;
        p += k;
        n -= k;
    }
    return 1;
}

static int written(const uint8_t *p, size_t n)
{
    while (n) {
        ssize_t k = write(1, p, n);
        if (k <= 0) return 0;
        p += k;
        n -= k;
    }
    return 1;
}

int main(void)
{
    static uint8_t head[5], file[ROOM], asked[12], message[ROOM], out[29];
    while (filled(head, 5)) {
        size_t len = four(head + 1);
        if (len > ROOM || !filled(file, len) || !filled(asked, 12)) return 1;
        size_t size = four(asked + 8);
        if (size > ROOM || !filled(message, size)) return 1;
        answer a = answered(head[0], file, len, four(asked) << 32 | four(asked + 4), message, size);
        out[0] = a.verdict;
        put_eight(out + 1, a.a);
        put_eight(out + 9, a.b);
        put_eight(out + 17, a.c);
        put_four(out + 25, len);
        if (!written(out, 29) || !written(file, len)) return 1;
    }
    return 0;
}
