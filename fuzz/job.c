#include "job.h"
#include <float.h>
#include <math.h>
#include <string.h>

Source source_of(const uint8_t *data, size_t size) {
    Source s = {data, size, 0xCBF29CE484222325};
    for (size_t i = 0; i < size; i++) s.state = (s.state ^ data[i]) * 0x100000001B3;
    if (s.state == 0) s.state = 1;
    return s;
}

uint8_t take(Source *s) {
    if (s->left > 0) {
        s->left--;
        return *s->at++;
    }
    s->state ^= s->state << 13;
    s->state ^= s->state >> 7;
    s->state ^= s->state << 17;
    return (uint8_t)(s->state >> 40);
}

static uint64_t word(Source *s) {
    uint64_t w = 0;
    for (int i = 0; i < 8; i++) w = w << 8 | take(s);
    return w;
}

static uint64_t bits(double v) {
    uint64_t b;
    memcpy(&b, &v, 8);
    return b;
}

typedef enum { RAW, WHOLE, PLAIN, FEW, LARGE, SPECIAL, MIXED } Style;

/* The bits of a number. */
static uint64_t value(Source *s, Style style) {
    static const double special[16] = {0,       -0.0,     1,       2,        1e200,     -1e200,  1e154, 1e-200,
                                       5e-324,  DBL_MIN,  DBL_MAX, -DBL_MAX, INFINITY,  -INFINITY, NAN,   1e-308};
    double low = take(s), high;
    switch (style) {
    case RAW: return word(s);
    case WHOLE: return bits(low - 128);
    case FEW: return bits(fmod(low, 3));
    case LARGE: return bits((low - 128) * 1e153);
    case SPECIAL: return bits(special[(int)low % 16]);
    case PLAIN:
        high = take(s);
        return bits(high * 4 + low / 256);
    default: return value(s, (Style)((int)low % 32 == 31 ? RAW : (int)low % 32 == 30 ? SPECIAL : 1 + (int)low % 4));
    }
}

/* `count` numbers, and something in the bytes after them. */
static void fill(Source *s, uint8_t *part, size_t count, Style style) {
    for (size_t i = 0; i < count; i++) {
        uint64_t v = value(s, style);
        memcpy(part + 8 * i, &v, 8);
    }
    memset(part + 8 * count, 0x3F, SPARE);
}

static Style style_of(Source *s) {
    static const Style styles[16] = {PLAIN, PLAIN, PLAIN, PLAIN, PLAIN, WHOLE, WHOLE, WHOLE,
                                     FEW,   FEW,   MIXED, MIXED, LARGE, SPECIAL, RAW, PLAIN};
    return styles[take(s) % 16];
}

/* A length that is right, mostly. */
static size_t length(Source *s, size_t right) {
    static const int off[16] = {1, -1, 7, -7, 8, -8, 9, -9, 16, -16, 24, -24, 32, -32, 48, -1000000};
    uint8_t b = take(s);
    if (b < 0xF0) return right;
    int more = off[b % 16];
    return more < 0 && (size_t)-more > right ? 0 : right + (size_t)more;
}

/* One of the first `known` numbers, mostly. */
static uint64_t number(Source *s, uint64_t known) {
    static const uint64_t other[6] = {0, 1, 255, (uint64_t)1 << 32, (uint64_t)1 << 63, UINT64_MAX};
    uint8_t b = take(s);
    if (b < 0xF8) return b % known;
    return b == 0xFF ? word(s) : b == 0xFE ? known : other[b % 6];
}

/* Mostly a fit that searches nothing: a search takes a hundred times as long. */
static uint64_t kind_of(Source *s) {
    uint64_t kind = number(s, 4);
    return kind < 4 && take(s) % 8 != 0 ? kind % 2 : kind;
}

/* Mostly few observations, so that runs are many; now and then up to more than the limit. */
static size_t observations(Source *s, size_t p) {
    uint8_t b = take(s);
    if (b == 0xFF && take(s) % 8 == 0) return (size_t)(take(s) * 256 + take(s)) % MOST_N;
    if (b >= 0xFC && take(s) % 8 == 0) return 512 + (size_t)b - 0xFD;
    if (b >= 0xF0) return b == 0xF0 ? 0 : 12 + (size_t)take(s) % 28;
    return (b % 2 ? p : 0) + 1 + (size_t)(b / 2) % 8;
}

void make_job(Source *s, Job *j) {
    j->kernel = number(s, 3);
    j->kind = kind_of(s);
    j->p = number(s, 8);
    size_t p = j->p <= MOST_P ? (size_t)j->p : 1;
    size_t n = observations(s, p);
    /* A search of a large job takes seconds. */
    if (n > 24 && j->kind < 4) j->kind %= 2;
    if (j->kind % 2 == 1) {
        j->bandwidth = number(s, n + 2);
    } else {
        j->bandwidth = value(s, style_of(s));
    }
    j->coords_len = length(s, 16 * n);
    j->x_len = length(s, 8 * n * p);
    j->y_len = length(s, 8 * n);
    j->out_len = length(s, 8 * n * (p + 4));
    j->summary_len = length(s, 24);
    fill(s, j->coords, 2 * n, style_of(s));
    fill(s, j->x, n * p, style_of(s));
    fill(s, j->y, n, style_of(s));
}

void make_weigh(Source *s, Weigh *w) {
    w->kernel = number(s, 3);
    w->d = value(s, style_of(s));
    w->b = value(s, style_of(s));
    w->out_len = length(s, 8);
}
