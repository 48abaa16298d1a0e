/* The byte calls of the proved regression: link target/staticlib/libgateway.a, which scripts/prove.sh gateway makes.
 *
 * Every number crosses as 8 bytes, little-endian: an f64 by its bits, a count as it is. Nothing is kept between calls, no memory
 * is taken, and calls from several threads do not meet. Slices may be empty; a slice's pointer is then not read.
 *
 * What a call writes is lent to it alone: output and summary overlap neither each other nor the inputs, and while it runs no other
 * thread touches them or writes the inputs. The proofs take this as given, and the call does not check it. Inputs may overlap each
 * other. */
#ifndef ZESCOLUMBA_H
#define ZESCOLUMBA_H

#include <stddef.h>
#include <stdint.h>

#ifdef __cplusplus
extern "C" {
#endif

/* kernel */
#define ZESCOLUMBA_GAUSSIAN 0
#define ZESCOLUMBA_BISQUARE 1
#define ZESCOLUMBA_EXPONENTIAL 2

/* kind: what the bandwidth is, and whether it is searched (its value is then ignored) */
#define ZESCOLUMBA_DISTANCE 0
#define ZESCOLUMBA_COUNT 1
#define ZESCOLUMBA_SEARCHED_DISTANCE 2
#define ZESCOLUMBA_SEARCHED_COUNT 3

/* Fits n observations (1 to 512) with p predictors each (0 to 7). Every observation is fully trusted (a trust of 1).
 *
 * coords     2n numbers, easting then northing           x  n * p numbers, row by row
 * y          n responses                                 out  at least n * (p + 4) numbers
 * bandwidth  the bits of a distance, or a count. An unsearched count of 0 becomes the larger of p + 3 and the least whole number
 *            whose square reaches n; any unsearched count is then capped at n - 1 and raised to at least 1
 * summary    at least 24 bytes: bandwidth, AICc, number of local solves. AICc is unguarded: where n - 2 - trace is below zero it is
 *            worked as it falls
 *
 * Row i of out: p + 1 coefficients with the intercept first, prediction, residual, local R squared.
 * Answers 0, or the number of the refusal. 1 to 13 and 18, of the input, write nothing. 14 to 17, met while solving, leave the rows
 * before the failing location, and a summary of zeros but for the solve count. Bytes past the last row are never written. */
uint32_t zescolumba_fit(const uint8_t *coords, size_t coords_len, const uint8_t *x, size_t x_len, const uint8_t *y, size_t y_len,
                        uint64_t p, uint64_t kernel, uint64_t kind, uint64_t bandwidth, uint8_t *out, size_t out_len,
                        uint8_t *summary, size_t summary_len);

/* The weight of a distance at a bandwidth, both by their bits, to the first 8 bytes of out.
 * Answers 0; 18 for an unknown kernel, 13 for fewer than 8 bytes (both write nothing); 9 for a NaN or negative distance, with
 * the weight 0. */
uint32_t zescolumba_weight(uint64_t kernel, uint64_t d, uint64_t b, uint8_t *out, size_t out_len);

#ifdef __cplusplus
}
#endif

#endif
