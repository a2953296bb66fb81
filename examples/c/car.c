/* A car that hears its floor table over a noisy cable, with the library called from C. */
#include <inttypes.h>
#include <stdio.h>
#include <string.h>

#include "waldrevoz.h"

enum { Q41 = 2, Q41_PARITY = 6, TRAVEL = 1, DOOR = 2 };

/* travel times of three floors, and door times of two, in tenths of a second */
static const uint8_t TABLE[] = {6, 0, 1, 0, 0, 0, 41, 0, 63, 0, 4, 0, 2, 0, 55, 0, 40, 0};

static void look_up(const uint8_t *table, size_t length, uint32_t kind, uint32_t floor)
{
    uint32_t time = 0;
    uint32_t answer = wz_lookup(table, length, kind, floor, &time);
    printf("  %s, floor %" PRIu32 ": ", kind == TRAVEL ? "travel" : "door", floor);
    if (answer == 0)
        printf("%" PRIu32 ".%" PRIu32 " s\n", time / 10, time % 10);
    else
        printf("answered %" PRIu32 "\n", answer);
}

static void hear(const uint64_t *words, size_t count)
{
    uint8_t table[64];
    size_t length = 0;
    uint32_t answer = wz_receive(Q41, words, count, table, sizeof table, &length);
    if (answer != 0) {
        printf("  receiving answered %" PRIu32 "\n", answer);
        return;
    }
    printf("  %zu bytes, the table that was sent: %s\n", length,
           length == sizeof TABLE && !memcmp(table, TABLE, length) ? "yes" : "no");
    look_up(table, length, TRAVEL, 2);
    look_up(table, length, DOOR, 1);
    look_up(table, length, DOOR, 2);
}

static void correct_list(void)
{
    wz_slot slots[] = {{.word = 0x1b4e54}, {.word = 0x700001}, {.word = 1ULL << 41}, {.word = 0xf5}};
    printf("a list answers %" PRIu32 "\n", wz_correct_list(Q41, slots, 4));
    for (int i = 0; i < 4; i++)
        printf("  %" PRIx64 ": verdict %" PRIu64 ", message %" PRIx64 ", pattern %" PRIx64 "\n", slots[i].word,
               slots[i].verdict, slots[i].message, slots[i].pattern);
}

static void hear_long_word(void)
{
    uint64_t word = 1ULL << 41;
    uint8_t table[64];
    size_t length = 0;
    printf("receiving a word of 42 bits answers %" PRIu32, wz_receive(Q41, &word, 1, table, sizeof table, &length));
    printf(", and the length is still %zu\n", length);
}

int main(void)
{
    uint64_t words[16], codeword = 7;
    size_t count = 0;
    wz_correction found = {0};
    printf("encoding 1 over Q41 answers %" PRIu32, wz_encode(Q41, 1, &codeword));
    printf(": %" PRIx64 "\n", codeword);
    printf("encoding 200000 answers %" PRIu32, wz_encode(Q41, 0x200000, &codeword));
    printf(", and the codeword is still %" PRIx64 "\n", codeword);
    printf("a code numbered 3 answers %" PRIu32 "\n", wz_encode(3, 1, &codeword));
    printf("  the codeword is still %" PRIx64 "\n", codeword);
    printf("correcting with parity answers %" PRIu32, wz_correct(Q41_PARITY, 0x369cb6, &found));
    printf(": message %" PRIx64 ", pattern %" PRIx64 "\n", found.message, found.pattern);
    correct_list();
    printf("sending answers %" PRIu32, wz_send(Q41, TABLE, sizeof TABLE, words, 16, &count));
    printf(": %zu words\n", count);
    words[3] ^= 0x2000100808;
    printf("four bits of word 3 turned over:\n");
    hear(words, count);
    words[3] ^= 1;
    printf("five bits of word 3 turned over:\n");
    hear(words, count);
    hear_long_word();
    return 0;
}
