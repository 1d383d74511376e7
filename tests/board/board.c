/*
 * The board for QEMU's microbit, a Cortex-M0 with 16 KiB of RAM: its start, what it says by semihosting, and the
 * routines that a C library would give to the code that is measured. Those of the compiler are libgcc's.
 */
#include "board.h"

extern uint32_t stack_top[], data_from[], data_start[], data_end[], bss_start[], bss_end[];

static uint32_t copies, copied;

/* ---- What the board says. */

static void semihost(int operation, const void *argument)
{
    register int r0 __asm__("r0") = operation;
    register const void *r1 __asm__("r1") = argument;
    __asm__ volatile("bkpt 0xab" : "+r"(r0) : "r"(r1) : "memory", "r2", "r3", "ip", "lr");
}

static void end_run(int good)
{
    semihost(0x18, (const void *)(good ? 0x20026 : 0x20023)); /* SYS_EXIT: by itself, or by an error */
    for (;;)
        ;
}

void say(const char *text)
{
    semihost(0x04, text); /* SYS_WRITE0 */
}

void say_number(uint32_t number)
{
    char text[12], *p = text + sizeof text;
    *--p = 0;
    do
        *--p = (char)('0' + number % 10);
    while ((number /= 10) != 0);
    say(p);
}

void must(int holds, const char *fact)
{
    if (holds)
        return;
    say("board: not so: ");
    say(fact);
    say("\n");
    end_run(0);
}

/* ---- A measurement. */

/* cycles.py looks for where this function is entered. */
__attribute__((naked, noinline)) void board_mark(void)
{
    __asm__ volatile("bx lr");
}

void board_begin(void)
{
    copies = copied = 0;
}

void board_end(const char *call, const char *of)
{
    uint32_t often = copies, bytes = copied;
    say("call\t");
    say(call);
    say("\t");
    say(of);
    say("\t");
    say_number(often);
    say("\t");
    say_number(bytes);
    say("\n");
}

/* ---- memcpy and the like, as a good C library for this core has them. */

#pragma GCC optimize("O2")
#ifdef COUNT_COPIES
#define COUNT(n) (copies++, copied += (n))
#else
#define COUNT(n) ((void)0)
#endif

/* n bytes from the start on: four words in four instructions where both sides are aligned. */
static inline __attribute__((always_inline)) void copy_up(uint8_t *d, const uint8_t *s, size_t n)
{
    if ((((uintptr_t)d | (uintptr_t)s) & 3) == 0) {
        if (n >= 16)
            __asm__ volatile("subs %2, #16\n"
                             "1: ldmia %1!, {r3, r4, r5, r6}\n stmia %0!, {r3, r4, r5, r6}\n subs %2, #16\n bhs 1b\n"
                             "adds %2, #16\n"
                             : "+l"(d), "+l"(s), "+l"(n)
                             :
                             : "r3", "r4", "r5", "r6", "cc", "memory");
        for (; n >= 4; n -= 4, d += 4, s += 4)
            *(uint32_t *)d = *(const uint32_t *)s;
    }
    for (; n > 0; n--) {
        *d++ = *s++;
        __asm__ volatile("");
    }
}

void *memcpy(void *to, const void *from, size_t n)
{
    COUNT(n);
    copy_up(to, from, n);
    return to;
}

void *memmove(void *to, const void *from, size_t n)
{
    uint8_t *d = to;
    const uint8_t *s = from;
    COUNT(n);
    if ((uintptr_t)d - (uintptr_t)s >= n) {
        copy_up(to, from, n);
        return to;
    }
    if ((((uintptr_t)(d + n) | (uintptr_t)(s + n)) & 3) == 0)
        for (; n >= 4; n -= 4)
            *(uint32_t *)(d + n - 4) = *(const uint32_t *)(s + n - 4);
    while (n-- > 0) {
        d[n] = s[n];
        __asm__ volatile("");
    }
    return to;
}

void *memset(void *to, int value, size_t n)
{
    uint8_t *d = to;
    uint32_t v = (uint8_t)value * 0x01010101u;
    COUNT(n);
    if (((uintptr_t)d & 3) == 0) {
        if (n >= 16)
            __asm__ volatile("mov r4, %2\n mov r5, %2\n mov r6, %2\n mov r3, %2\n subs %1, #16\n"
                             "1: stmia %0!, {r3, r4, r5, r6}\n subs %1, #16\n bhs 1b\n"
                             "adds %1, #16\n"
                             : "+l"(d), "+l"(n)
                             : "l"(v)
                             : "r3", "r4", "r5", "r6", "cc", "memory");
        for (; n >= 4; n -= 4, d += 4)
            *(uint32_t *)d = v;
    }
    for (; n > 0; n--) {
        *d++ = (uint8_t)value;
        __asm__ volatile("");
    }
    return to;
}

void board_memset(void *to, size_t n, int value)
{
    memset(to, value, n);
}

void board_memclr(void *to, size_t n)
{
    memset(to, 0, n);
}

#define ALIAS(name, of) __asm__(".global " #name "\n.thumb_set " #name ", " #of "\n")
ALIAS(__aeabi_memcpy, memcpy);
ALIAS(__aeabi_memcpy4, memcpy);
ALIAS(__aeabi_memcpy8, memcpy);
ALIAS(__aeabi_memmove, memmove);
ALIAS(__aeabi_memmove4, memmove);
ALIAS(__aeabi_memmove8, memmove);
ALIAS(__aeabi_memset, board_memset);
ALIAS(__aeabi_memset4, board_memset);
ALIAS(__aeabi_memset8, board_memset);
ALIAS(__aeabi_memclr, board_memclr);
ALIAS(__aeabi_memclr4, board_memclr);
ALIAS(__aeabi_memclr8, board_memclr);

/* ---- The start. */

static void start(void)
{
    uint32_t *d = data_start;
    const uint32_t *s = data_from;
    while (d < data_end)
        *d++ = *s++;
    for (d = bss_start; d < bss_end; d++)
        *d = 0;
    calls();
    end_run(1);
}

/* A stack that leaves RAM has none to enter this with: QEMU then ends by itself, in lockup. */
static void fault(void)
{
    say("board: a fault\n");
    end_run(0);
}

__attribute__((section(".vectors"), used)) const void *const vectors[16] = {
    stack_top, start, [2 ... 6] = fault, [11] = fault, [14 ... 15] = fault,
};
