/* The link library of lift group controllers, for C.
 *
 * Every call answers 0, or the number of a refusal (1 to 13, as docs/codes.md lists them), or 254 for a number that is no
 * code's, or 255 where wz_lookup finds no time. It writes through its pointers only where it answers 0, and otherwise
 * leaves everything as it was; wz_correct_list alone writes whatever its words are, and answers 0.
 *
 * Codes: 0 is G23, 1 is Q31, 2 is Q41; 4 more adds the parity layer. Any other number is answered with 254.
 *
 * What the caller owes, since nothing here can test it:
 *  - each pointer is valid, aligned for its type, and points to as many elements as the number beside it says (to one,
 *    where there is none), and those that are read hold values; a pointer with the number 0 is still not NULL;
 *  - what a call writes through one pointer overlaps nothing that another pointer of the same call reaches;
 *  - the processor is an x86-64-v2 or later, since the library counts ones by an instruction that older ones lack.
 *
 * Link libcapi.a, which `rt lib` in crates/capi makes in out/. No call allocates, keeps a pointer or has state of its own,
 * so calls may be made from several threads at once. */
#ifndef WALDREVOZ_H
#define WALDREVOZ_H

#include <stddef.h>
#include <stdint.h>

#ifdef __cplusplus
extern "C" {
#endif

/* The codeword within reach of a word, its message, and the pattern: a one for each bit that was turned over. */
typedef struct {
    uint64_t codeword;
    uint64_t message;
    uint64_t pattern;
} wz_correction;

/* A word, and what correcting it came to: the verdict is 0 or the number of the refusal. */
typedef struct {
    uint64_t word;
    uint64_t verdict;
    uint64_t message;
    uint64_t pattern;
} wz_slot;

/* Writes the codeword of a message. Refuses a message that is too long with 3. */
uint32_t wz_encode(uint32_t code, uint64_t message, uint64_t *codeword);

/* Corrects a word. Refuses a word that is too long with 2, and one beyond reach of every codeword with 4. */
uint32_t wz_correct(uint32_t code, uint64_t word, wz_correction *out);

/* Corrects the word of each slot, and writes its verdict, message and pattern. The word stays; a refused slot gets
 * message 0 and pattern 0. */
uint32_t wz_correct_list(uint32_t code, wz_slot *slots, size_t count);

/* Sends a table of `length` bytes: writes a codeword for each of its messages into `words`, which has `room` entries, and
 * how many into `count`. Entries past them keep what they held. Tested in this order: 8 for a table that needs more than
 * 256 words, 9 for a list that is too short. */
uint32_t wz_send(uint32_t code, const uint8_t *table, size_t length, uint64_t *words, size_t room, size_t *count);

/* Receives a table: offers all words in order to a new receiver, stops at the first that is refused with the number of
 * that refusal, then seals and spells. Writes the table into `table`, which has `room` bytes, and its size into `length`.
 * Bytes past it keep what they held. Tested in this order: of each word in turn, 2 for one that is too long, then 5 for
 * a 257th; then 10 for a report with a gap, 11 for words of no table, 9 for a buffer that is too short. */
uint32_t wz_receive(uint32_t code, const uint64_t *words, size_t count, uint8_t *table, size_t room, size_t *length);

/* Looks up a floor's time in a table, in tenths of a second: kind 1 is travel, kind 2 the doors. Answers 255 where the
 * kind or the floor is absent, and for any other kind; refuses a faulty record that it meets first with 12. */
uint32_t wz_lookup(const uint8_t *table, size_t length, uint32_t kind, uint32_t floor, uint32_t *time);

#ifdef __cplusplus
}
#endif

#endif
