/*
 * A pressure that is no number raises no floating-point exception: it is refused, and neither the flags say that an
 * operation was invalid, nor does a program stop that has this exception unmasked, as a kernel may.
 */
#include "skid.h"
#include <stdio.h>
#include <string.h>
#include <xmmintrin.h>

enum { SLOTS = 8, BOOT = 5 };

static uint32_t table[3 * SLOTS];
static uint8_t health[2], book[SKID_ROOMY_BYTES * SLOTS], before[sizeof book];

int main(void)
{
    /* the infinities; quiet and signalling NaNs of either sign */
    static const uint32_t wrong[] = {0x7f800000u, 0xff800000u, 0x7fc00000u, 0xffc00001u, 0x7f800001u, 0xffbfffffu};
    const size_t count = sizeof wrong / sizeof *wrong;
    uint64_t reply[SKID_REPLY_WORDS];
    unsigned bad = 0;
    size_t i;

    skid_prepare(2, 4, 1, BOOT, table, sizeof table / sizeof *table, health, sizeof health, reply);
    skid_try_acquire(2, 4, 1, BOOT, table, sizeof table / sizeof *table, 0, reply);
    skid_prepare_book(2, 4, 2, BOOT, book, sizeof book, reply);
    memcpy(before, book, sizeof book);
    for (i = 0; i < count; i++) {
        unsigned flags;
        /* all flags clear, and an invalid operation is no longer masked */
        _mm_setcsr(_MM_MASK_MASK & ~_MM_MASK_INVALID);
        skid_write_pressure(2, 4, 2, BOOT, table, sizeof table / sizeof *table, book, sizeof book, 0, 0, 1, BOOT,
                            wrong[i], reply);
        flags = _mm_getcsr() & _MM_EXCEPT_MASK;
        _mm_setcsr(_MM_MASK_MASK);
        if (flags || reply[SKID_BOOK_KIND] != SKID_BOOK_REFUSED || reply[SKID_BOOK_REFUSAL] != SKID_NOT_FINITE ||
            memcmp(before, book, sizeof book)) {
            printf("%08lx: flags %x, kind %lu, refusal %lu\n", (unsigned long)wrong[i], flags,
                   (unsigned long)reply[SKID_BOOK_KIND], (unsigned long)reply[SKID_BOOK_REFUSAL]);
            bad++;
        }
    }
    printf("no number, no exception in C: %lu passed\n", (unsigned long)(count - bad));
    return bad != 0;
}
