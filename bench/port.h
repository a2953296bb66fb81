/* A plain C port of the codes: the same search, with remainders by long division. */
#ifndef PORT_H
#define PORT_H

#include <stdint.h>

typedef struct {
    int n, k, t, parity;
    uint64_t generator, rows[64];
} port_code;

typedef struct {
    uint64_t codeword, message, pattern;
} port_correction;

static inline uint64_t port_remainder(const port_code *c, uint64_t w)
{
    int r = c->n - c->k;
    for (int i = c->n - 1; i >= r; i--)
        if (w >> i & 1)
            w ^= c->generator << (i - r);
    return w;
}

/* Codes 0 to 2 are G23, Q31 and Q41; 4 more adds the parity layer. */
static inline void port_make(port_code *c, int number)
{
    static const struct { int n, k, t; uint64_t g; } of[] = {{23, 12, 3, 0xae3}, {31, 16, 3, 0xe309}, {41, 21, 4, 0x1b4e5b}};
    int i = number & 3;
    c->n = of[i].n, c->k = of[i].k, c->t = of[i].t, c->generator = of[i].g, c->parity = number >= 4;
    for (int j = 0; j < c->n; j++)
        c->rows[j] = port_remainder(c, 1ULL << j);
}

/* whether a word has at most so many ones, by clearing the lowest one */
static inline int port_light(uint64_t w, int most)
{
    for (; most > 0 && w; most--)
        w &= w - 1;
    return !w;
}

/* a pattern with at most two message flips */
static inline int port_few(const port_code *c, uint64_t syndrome, uint64_t *pattern)
{
    int r = c->n - c->k;
    if (port_light(syndrome, c->t)) {
        *pattern = syndrome;
        return 1;
    }
    for (int i = r; i < c->n; i++) {
        uint64_t one = syndrome ^ c->rows[i];
        if (port_light(one, c->t - 1)) {
            *pattern = one | 1ULL << i;
            return 1;
        }
    }
    for (int i = r; i < c->n; i++)
        for (int j = i + 1; j < c->n; j++) {
            uint64_t two = syndrome ^ c->rows[i] ^ c->rows[j];
            if (port_light(two, c->t - 2)) {
                *pattern = two | 1ULL << i | 1ULL << j;
                return 1;
            }
        }
    return 0;
}

static inline int port_find(const port_code *c, uint64_t w, uint64_t *pattern)
{
    int r = c->n - c->k;
    uint64_t all = (1ULL << c->n) - 1, syndrome = port_remainder(c, w), rotated;
    if (port_few(c, syndrome, pattern))
        return 1;
    if (!port_few(c, port_remainder(c, syndrome << r), &rotated))
        return 0;
    *pattern = (rotated >> r | rotated << c->k) & all;
    return 1;
}

static inline uint64_t port_odd(uint64_t w) { return (uint64_t)__builtin_parityll(w); }

static inline int port_encode(const port_code *c, uint64_t message, uint64_t *codeword)
{
    if (message >> c->k)
        return 3;
    uint64_t w = message << (c->n - c->k);
    w ^= port_remainder(c, w);
    *codeword = c->parity ? w << 1 | port_odd(w) : w;
    return 0;
}

static inline int port_correct(const port_code *c, uint64_t w, port_correction *out)
{
    uint64_t above = c->parity ? w >> 1 : w, pattern;
    if (w >> (c->n + c->parity))
        return 2;
    if (!port_find(c, above, &pattern))
        return 4;
    uint64_t codeword = above ^ pattern;
    out->message = codeword >> (c->n - c->k);
    if (c->parity) {
        codeword = codeword << 1 | port_odd(codeword);
        pattern = w ^ codeword;
        if (!port_light(pattern, c->t))
            return 4;
    }
    out->codeword = codeword;
    out->pattern = pattern;
    return 0;
}

#endif
