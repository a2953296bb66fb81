/* Checks the library against the plain C port on every pattern of at most t flips and on every word of parity bits alone,
 * and prints, in one run, the median time a word of each as a ratio to the port's. */
#include <stdio.h>
#include <stdlib.h>
#include <string.h>
#include <time.h>

#include "../include/waldrevoz.h"
#include "port.h"

enum { WORDS = 4096, TURNS = 31 };

static const char *const NAMES[] = {"G23", "Q31", "Q41", "", "G23+P", "Q31+P", "Q41+P"};
static wz_slot slots[WORDS], port_slots[WORDS];
static uint64_t words[WORDS], sink;
static uint64_t state = 88172645463325252ULL;

static uint64_t next_random(void)
{
    state ^= state << 13;
    state ^= state >> 7;
    state ^= state << 17;
    return state;
}

static double now(void)
{
    struct timespec at;
    clock_gettime(CLOCK_MONOTONIC, &at);
    return (double)at.tv_sec * 1e9 + (double)at.tv_nsec;
}

static void wrong(int number, uint64_t w)
{
    printf("%s: the two differ at %llx\n", NAMES[number], (unsigned long long)w);
    exit(1);
}

static void compare(const port_code *c, int number, uint64_t w)
{
    wz_correction a = {0};
    port_correction b = {0};
    uint32_t x = wz_correct((uint32_t)number, w, &a);
    int y = port_correct(c, w, &b);
    if (x != (uint32_t)y || (!y && (a.codeword != b.codeword || a.message != b.message || a.pattern != b.pattern)))
        wrong(number, w);
}

/* every pattern of at most t flips on a codeword, and a word for each syndrome */
static unsigned long compare_all(const port_code *c, int number)
{
    int n = c->n + c->parity;
    unsigned long done = 0;
    uint64_t codeword = 0, again;
    port_encode(c, next_random() >> (64 - c->k), &codeword);
    if (wz_encode((uint32_t)number, codeword >> (n - c->k), &again) || again != codeword)
        wrong(number, codeword);
    for (int flips = 0; flips <= c->t; flips++) {
        uint64_t e = (1ULL << flips) - 1;
        do {
            compare(c, number, codeword ^ e);
            done++;
            uint64_t low = e & -e, high = e + low;
            e = low ? ((high ^ e) >> 2) / low | high : 1ULL << n;
        } while (e < 1ULL << n);
    }
    for (uint64_t w = 0; w < 1ULL << (n - c->k); w++, done++)
        compare(c, number, w);
    return done;
}

static int bit_below(int n) { return (int)(next_random() % (uint64_t)n); }

static uint64_t pattern_of(int n, int flips)
{
    uint64_t e = 0;
    for (; flips > 0; flips--) {
        uint64_t bit;
        do
            bit = 1ULL << bit_below(n);
        while (e & bit);
        e |= bit;
    }
    return e;
}

/* how many flips a pattern has that is drawn from all of at most t, each as likely */
static int drawn_flips(int n, int t)
{
    uint64_t sum = 0, of[8] = {0};
    for (int f = 0; f <= t; f++) {
        of[f] = f ? of[f - 1] * (uint64_t)(n - f + 1) / (uint64_t)f : 1;
        sum += of[f];
    }
    uint64_t x = next_random() % sum;
    int f = 0;
    while (x >= of[f])
        x -= of[f++];
    return f;
}

/* words with so many flips; -1 draws from all of at most t, and -2 takes words beyond reach of every codeword */
static int fill(const port_code *c, int flips)
{
    int n = c->n + c->parity;
    for (long i = 0, tried = 0; i < WORDS; tried++) {
        uint64_t w = 0;
        port_correction out;
        port_encode(c, next_random() >> (64 - c->k), &w);
        w ^= flips == -2 ? pattern_of(n, c->t + 1 + bit_below(3)) : pattern_of(n, flips < 0 ? drawn_flips(n, c->t) : flips);
        if (flips == -2 && port_correct(c, w, &out) != 4) {
            if (tried > 100000)
                return 0;
            continue;
        }
        words[i++] = w;
    }
    return 1;
}

static int by_size(const void *a, const void *b)
{
    double x = *(const double *)a, y = *(const double *)b;
    return (x > y) - (x < y);
}

enum measure { LIBRARY_LIST, PORT_LIST, LIBRARY_SINGLE, PORT_SINGLE, LIBRARY_ENCODE, PORT_ENCODE, MEASURES };

static void run(enum measure which, const port_code *c, uint32_t number)
{
    wz_correction a = {0};
    port_correction b = {0};
    uint64_t w = 0;
    switch (which) {
    case LIBRARY_LIST:
        wz_correct_list(number, slots, WORDS);
        break;
    case PORT_LIST:
        for (int i = 0; i < WORDS; i++) {
            int refused = port_correct(c, port_slots[i].word, &b);
            port_slots[i].verdict = (uint64_t)refused;
            port_slots[i].message = refused ? 0 : b.message;
            port_slots[i].pattern = refused ? 0 : b.pattern;
        }
        break;
    case LIBRARY_SINGLE:
        for (int i = 0; i < WORDS; i++)
            sink += wz_correct(number, words[i], &a) + a.pattern;
        break;
    case PORT_SINGLE:
        for (int i = 0; i < WORDS; i++)
            sink += (uint64_t)port_correct(c, words[i], &b) + b.pattern;
        break;
    case LIBRARY_ENCODE:
        for (int i = 0; i < WORDS; i++)
            sink += wz_encode(number, words[i] >> (c->n + c->parity - c->k), &w) + w;
        break;
    default:
        for (int i = 0; i < WORDS; i++)
            sink += (uint64_t)port_encode(c, words[i] >> (c->n + c->parity - c->k), &w) + w;
    }
}

static void median(double *out, const port_code *c, int number)
{
    static double took[MEASURES][TURNS];
    for (int turn = 0; turn < TURNS; turn++)
        for (int which = 0; which < MEASURES; which++) {
            double start = now();
            run((enum measure)which, c, (uint32_t)number);
            took[which][turn] = now() - start;
        }
    for (int which = 0; which < MEASURES; which++) {
        qsort(took[which], TURNS, sizeof(double), by_size);
        out[which] = took[which][TURNS / 2] / WORDS;
    }
}

static void row(const port_code *c, int number, const char *label, int flips)
{
    double took[MEASURES];
    if (!fill(c, flips))
        return;
    for (int i = 0; i < WORDS; i++)
        slots[i].word = port_slots[i].word = words[i];
    median(took, c, number);
    if (memcmp(slots, port_slots, sizeof slots))
        wrong(number, 0);
    printf("| %s | %s | %.2f | %.2f | %.2f | %.0f ns |\n", NAMES[number], label, took[LIBRARY_LIST] / took[PORT_LIST],
           took[LIBRARY_SINGLE] / took[PORT_SINGLE], took[LIBRARY_ENCODE] / took[PORT_ENCODE], took[PORT_LIST]);
}

int main(void)
{
    static const char *const flips[] = {"0 flips", "1 flip", "2 flips", "3 flips", "4 flips"};
    printf("| code | words | list | single | encode | the port, a word by list |\n|---|---|---|---|---|---|\n");
    for (int number = 0; number < 7; number++) {
        port_code c;
        if (number == 3)
            continue;
        port_make(&c, number);
        unsigned long done = compare_all(&c, number);
        fprintf(stderr, "%s: %lu words compared\n", NAMES[number], done);
        for (int f = 0; f <= c.t; f++)
            row(&c, number, flips[f], f);
        row(&c, number, "at most t flips", -1);
        row(&c, number, "beyond reach", -2);
    }
    return sink == 1;
}
