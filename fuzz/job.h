/* A call's arguments, made from the fuzzer's bytes. */
#ifndef JOB_H
#define JOB_H

#include <stddef.h>
#include <stdint.h>

/* More than 512 observations and 7 predictors, which are refused, and some bytes more or less. */
enum { MOST_N = 520, MOST_P = 8, SPARE = 64 };

typedef struct {
    uint8_t coords[16 * MOST_N + SPARE], x[8 * MOST_N * MOST_P + SPARE], y[8 * MOST_N + SPARE];
    size_t coords_len, x_len, y_len, out_len, summary_len;
    uint64_t p, kernel, kind, bandwidth;
} Job;

/* The weight call's. */
typedef struct {
    uint64_t kernel, d, b;
    size_t out_len;
} Weigh;

/* Reads the fuzzer's bytes, and numbers that follow from them where they end. */
typedef struct {
    const uint8_t *at;
    size_t left;
    uint64_t state;
} Source;

Source source_of(const uint8_t *data, size_t size);
uint8_t take(Source *s);
void make_job(Source *s, Job *j);
void make_weigh(Source *s, Weigh *w);

#endif
