/* Exact overlaps of stabilizer states, for programs written in C.
 *
 * Link target/staticlib/libhost.a, which `make library` makes. It needs memcpy and memset, and nothing else.
 * The layout of a state's bytes is in docs/FORMAT.md.
 */
#ifndef SANGYLDEM_H
#define SANGYLDEM_H

#include <stddef.h>
#include <stdint.h>

#ifdef __cplusplus
extern "C" {
#endif

/* The overlap of two states: the sum over all strings of the conjugate of t's amplitude times s's amplitude.
 *
 * t and s are the bytes of one state each; answer is a buffer of at least 4 bytes. Every pointer must be valid for its length and
 * must not be null, also where the length is 0; answer must not share bytes with t or s.
 *
 * Returns 0 and writes 4 bytes to answer, or returns the number of a refusal and writes nothing. Checked in this order:
 *
 *   13   answer_len is below 4
 *    1   t's bytes end inside a field          4   weight field over 4096
 *    2   n is not 1 to 48                      5   rows or shift not in reduced echelon form
 *    3   k is over n                           6   a bit of the fill is 1
 *    8   bytes are left over after the state
 *        (the first of these in the order of t's fields; then the same for s)
 *   23   t and s have different numbers of qubits
 *
 * The answer stands for epsilon * 2^(p/2) * w^m with w = e^(i pi/4), packed most significant bit first:
 *
 *   epsilon  1 bit    0 or 1; if it is 0, so are p and m
 *   -p      14 bits   p lies from -8240 to 0
 *   m        3 bits   0 to 7
 *   zeros   14 bits
 *
 * Bytes of answer after the fourth stay as they are.
 * Example: t = 04 10 00 88, s = 04 10 00 89 give 80 06 40 00, which is epsilon 1, p -3, m 1.
 */
uint8_t overlap(const uint8_t *t, size_t t_len, const uint8_t *s, size_t s_len, uint8_t *answer, size_t answer_len);

#ifdef __cplusplus
}
#endif

#endif
