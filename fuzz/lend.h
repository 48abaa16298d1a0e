/* Buffers for a call, each between two pages that nothing may touch.
 *
 * The proved archive is not instrumented, so AddressSanitizer sees none of its loads and stores; the processor does. A buffer ends
 * where the page after it begins, or begins where the page before it ends; on its other side lies a zone with a pattern, which is
 * poisoned for AddressSanitizer (the archive's memcpy and memset are its own) and looked at after the call. A buffer that the
 * call only reads is lent from pages that cannot be written: the same memory is mapped a second time to fill it. */
#ifndef LEND_H
#define LEND_H

#include <stddef.h>
#include <stdint.h>

typedef struct {
    uint8_t *pages;  /* the first byte between the two pages, as lent */
    uint8_t *behind; /* the same memory, to be written by the target */
    size_t room;     /* bytes between the two pages */
    uint8_t *lent;   /* what the call gets */
    uint8_t *own;    /* the same bytes, to be written by the target */
    size_t len;
    uint8_t *zone; /* the pattern, by the second mapping */
} Lent;

typedef enum { AT_END, AT_START } Side;

/* Maps room for `most` bytes. */
void lend_open(Lent *l, size_t most, int written);

/* Lends `len` bytes. An empty buffer is an address in a page that nothing may touch. */
void lend(Lent *l, size_t len, Side side);

/* Ends the lending. Answers whether the zone is as it was. */
int lend_close(Lent *l);

#endif
