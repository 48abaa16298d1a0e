/* A libFuzzer target over the byte calls of rust/gateway/include/zescolumba.h. docs/FUZZING.md says what it looks at. */
#include "job.h"
#include "lend.h"
#include "zescolumba.h"
#include <math.h>
#include <stdio.h>
#include <stdlib.h>
#include <string.h>

/* What the outputs are filled with before the first call and before the second. A byte that a call writes is the same after
 * both, a byte that it leaves differs, so the two tell what was written. */
static const uint8_t FILL[2] = {0xA5, 0x5A};
static const uint64_t NAN_BITS = 0x7FF8000000000000;

static Lent coords, x, y, out, summary;

/* libFuzzer takes a rise of one of these for something new: what was answered, to what, after how many solves. */
enum { SOLVES = 19 * 12 * 16, PREDICTORS = 19 * 9, OBSERVATIONS = 19 * 16, SORTS = 12 * 25, WIDTHS = 12 * 16, WEIGHTS = 19 * 3 * 25 };
__attribute__((section("__libfuzzer_extra_counters"))) static uint8_t
    counters[SOLVES + PREDICTORS + OBSERVATIONS + SORTS + WIDTHS + WEIGHTS];

#define REQUIRE(fact, text) ((fact) ? (void)0 : found(text))

static void found(const char *text) {
    fprintf(stderr, "FOUND: %s\n", text);
    abort();
}

static uint64_t word(const uint8_t *at) {
    uint64_t w;
    memcpy(&w, at, 8);
    return w;
}

static double real(const uint8_t *at) {
    double v;
    memcpy(&v, at, 8);
    return v;
}

static int all_finite(const uint8_t *part, size_t len) {
    for (size_t i = 0; i < len; i += 8) {
        if (!isfinite(real(part + i))) return 0;
    }
    return 1;
}

/* The refusal that the input alone demands, in 01's order; 0 where it demands none. 12 is left to the call. */
static uint32_t refused(const Job *j) {
    size_t n = j->coords_len / 16;
    double distance = real((const uint8_t *)&j->bandwidth);
    if (j->kernel > 2 || j->kind > 3) return 18;
    if (j->coords_len == 0) return 1;
    if (j->coords_len % 16 != 0) return 2;
    if (n > 512) return 3;
    if (j->p > 7) return 4;
    if (j->x_len != 8 * n * j->p) return 5;
    if (j->y_len != 8 * n) return 6;
    if (n < j->p + 1) return 7;
    if (!all_finite(j->y, j->y_len)) return 8;
    if (!all_finite(j->coords, j->coords_len)) return 9;
    if (!all_finite(j->x, j->x_len)) return 10;
    if (j->summary_len < 24 || j->out_len < 8 * n * (j->p + 4)) return 13;
    if (j->kind == 0 && !(isfinite(distance) && distance > 0)) return 11;
    return 0;
}

static void lend_copy(Lent *l, const uint8_t *part, size_t len, Side side) {
    lend(l, len, side);
    memcpy(l->own, part, len);
}

static void lend_filled(Lent *l, size_t len, Side side, uint8_t fill) {
    lend(l, len, side);
    memset(l->own, fill, len);
}

/* One call, its buffers on one side of their pages. Output and summary are kept in `rows` and `sums`. */
static uint32_t call(const Job *j, Side side, uint8_t *rows, uint8_t *sums) {
    lend_copy(&coords, j->coords, j->coords_len, side);
    lend_copy(&x, j->x, j->x_len, side);
    lend_copy(&y, j->y, j->y_len, side);
    lend_filled(&out, j->out_len, side, FILL[side]);
    lend_filled(&summary, j->summary_len, side, FILL[side]);
    uint32_t number = zescolumba_fit(coords.lent, coords.len, x.lent, x.len, y.lent, y.len, j->p, j->kernel, j->kind, j->bandwidth,
                                 out.lent, out.len, summary.lent, summary.len);
    int kept = lend_close(&coords) & lend_close(&x) & lend_close(&y);
    REQUIRE(kept, "bytes beside an input were written");
    kept = lend_close(&out) & lend_close(&summary);
    REQUIRE(kept, "bytes beside output or summary were written");
    memcpy(rows, out.own, j->out_len);
    memcpy(sums, summary.own, j->summary_len);
    return number;
}

/* How many bytes at the front of two buffers were written: the rest must be as they were filled. */
static size_t written(const uint8_t *first, const uint8_t *second, size_t len) {
    size_t front = len;
    while (front > 0 && first[front - 1] == FILL[0] && second[front - 1] == FILL[1]) front--;
    REQUIRE(memcmp(first, second, front) == 0, "the same call gave other bytes, or left a gap in what it writes");
    return front;
}

/* Every number that is put out: a NaN has one pattern. */
static void check_numbers(const uint8_t *part, size_t len) {
    for (size_t i = 0; i < len; i += 8) {
        REQUIRE(!isnan(real(part + i)) || word(part + i) == NAN_BITS, "a NaN of another pattern");
    }
}

/* The rows of a fit: finite coefficients, response less prediction, a local R squared from 0 to 1. */
static void check_rows(const Job *j, const uint8_t *rows, size_t count) {
    size_t p = (size_t)j->p, width = 8 * (p + 4);
    for (size_t i = 0; i < count; i++) {
        const uint8_t *row = rows + i * width;
        REQUIRE(all_finite(row, 8 * (p + 1)), "a coefficient that is not finite");
        double residual = real(j->y + 8 * i) - real(row + 8 * (p + 1)), r2 = real(row + 8 * (p + 3));
        REQUIRE(isnan(residual) || memcmp(&residual, row + 8 * (p + 2), 8) == 0, "a residual is not response less prediction");
        REQUIRE(isnan(r2) || (r2 >= 0 && r2 <= 1), "a local R squared outside 0 to 1");
    }
}

/* What an answer may leave, by 01 and the header. */
static void check_answer(const Job *j, uint32_t number, const uint8_t *rows, size_t row_bytes, const uint8_t *sums,
                         size_t sum_bytes) {
    uint32_t demanded = refused(j);
    REQUIRE(demanded == 0 || number == demanded, "not the refusal that the input demands");
    int solving = number >= 14 && number <= 17;
    REQUIRE(demanded != 0 || number == 0 || solving || (number == 12 && j->kind == 2), "a refusal that the input does not allow");
    if (number != 0 && !solving) {
        REQUIRE(row_bytes == 0 && sum_bytes == 0, "a refused input, and something was written");
        return;
    }
    size_t n = j->coords_len / 16, width = 8 * (size_t)(j->p + 4);
    uint64_t solves = word(sums + 16);
    REQUIRE(sum_bytes == 24, "the summary is not 24 bytes");
    REQUIRE(row_bytes % width == 0 && row_bytes <= n * width, "the output does not end with a row");
    REQUIRE(solves >= 1 && solves <= 103 * n, "solves");
    check_numbers(rows, row_bytes);
    check_rows(j, rows, row_bytes / width);
    if (solving) {
        /* 17 is met after the last location, the others at one. */
        REQUIRE((row_bytes == n * width) == (number == 17), "a row for the failing location, or rows are missing");
        REQUIRE(word(sums) == 0 && word(sums + 8) == 0, "a summary with a refusal met while solving");
    } else {
        REQUIRE(row_bytes == n * width, "rows are missing");
        REQUIRE(j->kind > 1 || solves == n, "solves of a fit that searches nothing");
        REQUIRE(isfinite(real(sums)) && real(sums) >= 0, "a bandwidth that is not finite");
        check_numbers(sums + 8, 8);
    }
}

/* Of five sorts of numbers which one v is. */
static size_t sort_of(double v) {
    return isnan(v) ? 0 : isinf(v) ? 1 : v <= 0 ? 2 : v == 1 ? 3 : 4;
}

static void count(const Job *j, uint32_t number, const uint8_t *rows, const uint8_t *sums) {
    size_t choice = number == 18 ? 0 : (size_t)(j->kernel * 4 + j->kind), n = j->coords_len / 16;
    uint64_t solves = number == 0 || (number >= 14 && number <= 17) ? word(sums + 16) : 0;
    size_t bucket = solves == 0 ? 0 : 64 - (size_t)__builtin_clzll(solves);
    uint8_t *at = counters;
    at[(number * 12 + choice) * 16 + (bucket < 16 ? bucket : 15)] = 1;
    at += SOLVES;
    at[number * 9 + (j->p < 8 ? j->p : 8)] = 1;
    at += PREDICTORS;
    at[number * 16 + (n < 15 ? n : 15)] = 1;
    at += OBSERVATIONS;
    if (number != 0) return;
    at[(choice * 5 + sort_of(real(sums + 8))) * 5 + sort_of(real(rows + 8 * (j->p + 3)))] = 1;
    at += SORTS;
    at[choice * 16 + (word(sums) >> 55) % 16] = 1;
}

static void count_weight(const Weigh *w, uint32_t number, double weight) {
    size_t kernel = w->kernel < 3 ? (size_t)w->kernel : 0;
    uint8_t *at = counters + SOLVES + PREDICTORS + OBSERVATIONS + SORTS + WIDTHS;
    at[((number * 3 + kernel) * 5 + sort_of(real((const uint8_t *)&w->b))) * 5 + sort_of(weight)] = 1;
}

static void fuzz_fit(Source *s) {
    static Job j;
    static uint8_t rows[2][8 * MOST_N * (MOST_P + 4) + SPARE], sums[2][24 + SPARE];
    make_job(s, &j);
    uint32_t number = call(&j, AT_END, rows[0], sums[0]);
    uint32_t again = call(&j, AT_START, rows[1], sums[1]);
    REQUIRE(number <= 18, "a number that the call does not have");
    REQUIRE(number == again, "the same call gave another number");
    size_t row_bytes = written(rows[0], rows[1], j.out_len);
    size_t sum_bytes = written(sums[0], sums[1], j.summary_len);
    check_answer(&j, number, rows[0], row_bytes, sums[0], sum_bytes);
    count(&j, number, rows[0], sums[0]);
}

static uint32_t call_weight(const Weigh *w, Side side, uint8_t *bytes) {
    lend_filled(&out, w->out_len, side, FILL[side]);
    uint32_t number = zescolumba_weight(w->kernel, w->d, w->b, out.lent, out.len);
    REQUIRE(lend_close(&out), "bytes beside the weight were written");
    memcpy(bytes, out.own, w->out_len);
    return number;
}

static void fuzz_weight(Source *s) {
    Weigh w;
    uint8_t bytes[2][8 + SPARE];
    make_weigh(s, &w);
    uint32_t number = call_weight(&w, AT_END, bytes[0]);
    uint32_t again = call_weight(&w, AT_START, bytes[1]);
    double d = real((const uint8_t *)&w.d);
    uint32_t demanded = w.kernel > 2 ? 18 : w.out_len < 8 ? 13 : isnan(d) || d < 0 ? 9 : 0;
    REQUIRE(number == demanded, "not the refusal that the numbers demand");
    REQUIRE(number == again, "the same call gave another number");
    size_t len = written(bytes[0], bytes[1], w.out_len);
    REQUIRE(len == (number == 13 || number == 18 ? 0 : 8), "bytes written for a weight");
    double weight = len == 0 ? 0 : real(bytes[0]);
    REQUIRE(weight >= 0 && weight <= 1, "a weight outside 0 to 1");
    REQUIRE(number == 0 || weight == 0, "a weight with refusal 9");
    count_weight(&w, number, weight);
}

int LLVMFuzzerInitialize(int *argc, char ***argv) {
    (void)argc;
    (void)argv;
    lend_open(&coords, sizeof((Job *)0)->coords, 0);
    lend_open(&x, sizeof((Job *)0)->x, 0);
    lend_open(&y, sizeof((Job *)0)->y, 0);
    lend_open(&out, 8 * MOST_N * (MOST_P + 4) + SPARE, 1);
    lend_open(&summary, 24 + SPARE, 1);
    return 0;
}

int LLVMFuzzerTestOneInput(const uint8_t *data, size_t size) {
    Source s = source_of(data, size);
    if (take(&s) % 8 == 7) {
        fuzz_weight(&s);
    } else {
        fuzz_fit(&s);
    }
    return 0;
}
