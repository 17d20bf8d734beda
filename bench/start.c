/* What both programs are linked with in place of the C library: start-up, read and write, and plain mem* functions. So each holds its own
   instructions only, and takes as many on every x86-64 machine. */
#include <stddef.h>
#include <stdint.h>

typedef uint8_t v16 __attribute__((vector_size(16), aligned(1), may_alias));
typedef uint64_t a8 __attribute__((aligned(1), may_alias));
typedef uint32_t a4 __attribute__((aligned(1), may_alias));
typedef uint16_t a2 __attribute__((aligned(1), may_alias));

volatile int start_data = 1; /* callgrind reads no names of a program whose data are all zero */

int main(void);

static long call(long number, long a, long b, long c)
{
    long r;
    __asm__ volatile("syscall" : "=a"(r) : "a"(number), "D"(a), "S"(b), "d"(c) : "rcx", "r11", "memory");
    return r;
}

long read(int fd, void *buf, size_t n) { return call(0, fd, (long)buf, (long)n); }
long write(int fd, const void *buf, size_t n) { return call(1, fd, (long)buf, (long)n); }

__asm__(".globl _start\n_start:\n xor %ebp,%ebp\n and $-16,%rsp\n call start\n");
__attribute__((used, noreturn)) void start(void)
{
    long status = main();
    for (;;)
        call(60, status, 0, 0);
}

void *memcpy(void *restrict d0, const void *restrict s0, size_t n)
{
    uint8_t *d = d0; const uint8_t *s = s0;
    if (n >= 16) {
        v16 tail = *(const v16 *)(s + n - 16);
        uint8_t *last = d + n - 16;
        for (; n > 64; n -= 64, d += 64, s += 64) {
            v16 a = ((const v16 *)s)[0], b = ((const v16 *)s)[1], c = ((const v16 *)s)[2], e = ((const v16 *)s)[3];
            ((v16 *)d)[0] = a; ((v16 *)d)[1] = b; ((v16 *)d)[2] = c; ((v16 *)d)[3] = e;
        }
        for (; n > 16; n -= 16, d += 16, s += 16) *(v16 *)d = *(const v16 *)s;
        *(v16 *)last = tail;
    } else if (n >= 8) {
        uint64_t a = *(const a8 *)s, b = *(const a8 *)(s + n - 8);
        *(a8 *)d = a; *(a8 *)(d + n - 8) = b;
    } else if (n >= 4) {
        uint32_t a = *(const a4 *)s, b = *(const a4 *)(s + n - 4);
        *(a4 *)d = a; *(a4 *)(d + n - 4) = b;
    } else if (n >= 2) {
        uint16_t a = *(const a2 *)s, b = *(const a2 *)(s + n - 2);
        *(a2 *)d = a; *(a2 *)(d + n - 2) = b;
    } else if (n) {
        *d = *s;
    }
    return d0;
}
void *memmove(void *d0, const void *s0, size_t n)
{
    uint8_t *d = d0; const uint8_t *s = s0;
    if ((uintptr_t)d - (uintptr_t)s >= n) return memcpy(d0, s0, n);
    while (n) { n--; d[n] = s[n]; }
    return d0;
}
void *memset(void *d0, int c, size_t n)
{
    uint8_t *d = d0;
    uint64_t w = (uint8_t)c * UINT64_C(0x0101010101010101);
    if (n >= 16) {
        v16 v; ((a8 *)&v)[0] = w; ((a8 *)&v)[1] = w;
        uint8_t *last = d + n - 16;
        for (; n > 64; n -= 64, d += 64) { ((v16 *)d)[0] = v; ((v16 *)d)[1] = v; ((v16 *)d)[2] = v; ((v16 *)d)[3] = v; }
        for (; n > 16; n -= 16, d += 16) *(v16 *)d = v;
        *(v16 *)last = v;
    } else if (n >= 8) { *(a8 *)d = w; *(a8 *)(d + n - 8) = w; }
    else if (n >= 4) { *(a4 *)d = (uint32_t)w; *(a4 *)(d + n - 4) = (uint32_t)w; }
    else { while (n) { n--; d[n] = (uint8_t)c; } }
    return d0;
}
int memcmp(const void *a0, const void *b0, size_t n)
{
    const uint8_t *a = a0, *b = b0;
    for (; n; n--, a++, b++) if (*a != *b) return *a - *b;
    return 0;
}
int bcmp(const void *a, const void *b, size_t n) { return memcmp(a, b, n); }

/* What rt's programs ask of the C library besides, before their own start: to ignore a signal, and what the processor has. */
static const uint32_t features[8] = { -1, -1, -1, -1, -1, -1, -1, -1 };

void *__sysv_signal(int number, void *handler) { (void)number, (void)handler; return 0; }
const void *__x86_get_cpuid_feature_leaf(unsigned leaf) { (void)leaf; return features; }
long __write(int fd, const void *buf, size_t n) { return write(fd, buf, n); }
