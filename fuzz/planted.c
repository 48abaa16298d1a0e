/* Faults to plant, by their number PLANTED, so that the target is seen to notice them. Each call below is the proved one with one
 * thing wrong. Like the archive it is compiled without instrumentation, and the target built over it in the archive's place. */
#include "zescolumba.h"

static void look(const uint8_t *at) {
    (void)*(const volatile uint8_t *)at;
}

uint32_t planted_fit(const uint8_t *coords, size_t coords_len, const uint8_t *x, size_t x_len, const uint8_t *y, size_t y_len,
                     uint64_t p, uint64_t kernel, uint64_t kind, uint64_t bandwidth, uint8_t *out, size_t out_len,
                     uint8_t *summary, size_t summary_len) {
    static unsigned calls;
    uint32_t number = zescolumba_fit(coords, coords_len, x, x_len, y, y_len, p, kernel, kind, bandwidth, out, out_len, summary,
                                     summary_len);
    int fitted = number == 0, solving = number >= 14 && number <= 17, fault = PLANTED;
    size_t rows = 8 * (coords_len / 16) * (size_t)(p + 4);
    calls++;
    switch (fault) {
    case 1: if (fitted) out[out_len] = 0; break;                   /* writes past the end of the output */
    case 2: if (fitted) out[-1] = 0; break;                        /* writes before its start */
    case 3: if (number == 1 && summary_len) summary[0] = 0; break; /* writes a summary with refusal 1 */
    case 4: if (fitted) look(coords + coords_len); break;           /* reads past the end of the coordinates */
    case 5: if (number == 6) look(y - 1); break;                   /* reads before the responses */
    case 6: if (fitted) ((uint8_t *)(uintptr_t)y)[0] ^= 1; break;  /* writes to the responses */
    case 7: if (number == 13) number = 19; break;                  /* answers a number that the call does not have */
    case 8: if (solving) summary[8] = 1; break;                    /* an AICc with a refusal met while solving */
    case 9: if (fitted && calls % 2) out[0] ^= 1; break;           /* another answer to the same call */
    case 10: if (fitted && out_len > rows) out[rows] = 0; break;   /* writes past the last row */
    case 11: if (number == 16) out[rows - 1] = 0; break;           /* writes a row that was not reached */
    case 12: if (number == 5 && x_len == 0) look(x); break;        /* reads an empty buffer */
    case 13: if (number == 9) number = 10; break;                  /* a later refusal before an earlier one */
    default: break;
    }
    return number;
}

uint32_t planted_weight(uint64_t kernel, uint64_t d, uint64_t b, uint8_t *out, size_t out_len) {
    uint32_t number = zescolumba_weight(kernel, d, b, out, out_len);
    if (PLANTED == 14 && number == 0 && out_len > 8) out[8] = 0;  /* a weight of nine bytes */
    if (PLANTED == 15 && number == 13 && out_len > 0) out[0] = 0; /* a weight with refusal 13 */
    return number;
}
