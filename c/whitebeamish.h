/* whitebeamish.h: the calls of Whitebeamish, a reader for damaged Reed-Solomon patches. C99 or later, and C++.
 *
 * How to read a word under the setting p, n, k, s, tau; points and word are arrays of n numbers, uint16_t:
 *
 *   size_t d[5], found[2];
 *   if (whitebeamish_setting(p, n, k, s, tau, d, 5) != WHITEBEAMISH_OK) give_up();      a refusal number, 1 to 4
 *   size_t W = d[0], l = d[1], R = d[4];                                              l is at least 1
 *   uint16_t *output = malloc(l * k * sizeof *output);
 *   uint16_t *curve = malloc((l + 1) * W * sizeof *curve), *work = malloc(R * sizeof *work);
 *   if (whitebeamish_read(p, n, k, s, tau, points, n, word, n,
 *                         output, l * k, curve, (l + 1) * W, work, R, found, 2) != WHITEBEAMISH_OK) give_up();
 *   for (size_t j = 0; j < found[0]; j++)                       every message that fits; there may be none
 *     take(output + j * k);                                     message number j: k symbols, constant term first
 *
 * Link with libwhitebeamish.a: x86-64 Linux only. It needs nothing but memcpy and memset. The most
 * stack that was seen in use, in a build for Arm, is 41 KB, at k = 64; no proof bounds it.
 * example.c beside this file is a whole program that writes a patch, damages it and reads it. */
#ifndef WHITEBEAMISH_H
#define WHITEBEAMISH_H

#include <stdbool.h>
#include <stddef.h>
#include <stdint.h>

#ifdef __cplusplus
extern "C" {
#endif

/* ---- Words ----
 *
 * p        the modulus, a prime from 2 to 929. A symbol is a number from 0 to p - 1.
 * n        the places of a patch, 2 to 64.
 * k        the symbols of a message, 2 to n. A message is a polynomial, constant term first.
 * s        the multiplicity, 1 to 4. A larger one often allows more damage, and costs more room and time. Where k is
 *          2 or 3 and the patch long, a large one may be refused at every tau.
 * tau      the damaged places that are allowed, 0 to n - 1.
 * points   n different symbols, one to a place, so that n is at most p (the setting call does not test this).
 * patch    what is printed, in other books the codeword: n symbols, the message polynomial's value at each point.
 * word     n symbols: a patch as it was received. A mark that could not be read is given as 0, like any other symbol;
 *          it is a damaged place unless 0 stood there.
 * curve    (l + 1) * W symbols, the coefficient of x^i * y^t at place t * W + i. find and read write one to a lent
 *          buffer, the curve buffer; check and list take one that somebody proposes, the proposed curve.
 *
 * The derived numbers of a setting, which whitebeamish_setting gives:
 *   W = s * (n - tau)
 *   l = (W - 1) / (k - 1), rounded down
 *   C = n * s * (s + 1) / 2
 *   U = the sum of W - t * (k - 1) for t from 0 to l
 *   R = (l + k + 4) * (l + 1) * W
 * A setting is accepted when U > C and l <= 24. Too large a tau is refused with 3, too small a one with 4;
 * whitebeamish_largest_tau finds the largest that is accepted.
 *
 * Room, in numbers of 16 bits: output l * k (encode: n), curve buffer (l + 1) * W, work R. A longer buffer is taken as
 * well. All else has an exact length: points and word n, message k, a proposed curve (l + 1) * W. */

/* Bounds, in numbers and not bytes, that hold for every accepted setting. They are not tight. Output, curve buffer and
 * work of these lengths serve for all settings. */
#define WHITEBEAMISH_P_MAX 929
#define WHITEBEAMISH_N_MAX 64
#define WHITEBEAMISH_S_MAX 4
#define WHITEBEAMISH_L_MAX 24
#define WHITEBEAMISH_W_MAX 256
#define WHITEBEAMISH_OUTPUT_MAX 1536
#define WHITEBEAMISH_CURVE_MAX 6400
#define WHITEBEAMISH_WORK_MAX 1048575

/* ---- Refusals ----
 *
 * Every call but whitebeamish_is_modulus returns one of these, as a uint16_t. They are tested in this order: the
 * lowest that applies is returned, and none is returned unless its cause is there. */
enum whitebeamish_refusal {
    WHITEBEAMISH_OK = 0,             /* accepted */
    WHITEBEAMISH_NO_MODULUS = 1,     /* p is not a prime from 2 to 929 */
    WHITEBEAMISH_OUT_OF_RANGE = 2,   /* n, k, s or tau is outside its range */
    WHITEBEAMISH_TOO_FEW_TERMS = 3,  /* U <= C: tau is too large for this multiplicity */
    WHITEBEAMISH_LIST_TOO_LONG = 4,  /* l > 24: tau is too small, or s too large, for so small a k */
    WHITEBEAMISH_WRONG_LENGTH = 5,   /* points or word not n long, message not k, proposed curve not (l + 1) * W */
    WHITEBEAMISH_NO_SYMBOL = 6,      /* a symbol of points, word, message or proposed curve, or a or b, not below p */
    WHITEBEAMISH_EQUAL_POINTS = 7,   /* two equal points */
    WHITEBEAMISH_TOO_LITTLE_ROOM = 8, /* output, curve buffer or work shorter than its room */
    WHITEBEAMISH_CURVE_FAILS = 9     /* list only: the proposed curve does not pass */
};

/* ---- Pointers, for every call ----
 *
 * A buffer is a pointer and then its length, the count of its numbers and not of bytes.
 * - A pointer is not null, also where the length is 0, and is aligned for its type.
 * - All of the length can be read, and written where the pointer is not const.
 * - A buffer that is written (output, curve buffer, work, answer) overlaps no other buffer of the call. Nothing else
 *   reads or writes it while the call runs. Those behind a const pointer may overlap each other.
 * The library cannot test these; where one is broken, nothing is promised. All else is tested: every number and every
 * length is answered. What a buffer that is written held before the call changes neither the returned number nor what the
 * call writes, with one exception: it is not promised that find and read leave the same curve, nor that read then tells
 * the same beginnings.
 *
 * A refused call changes no buffer but the answer. The library keeps nothing between calls and has no memory of its
 * own, so calls with different buffers may run at the same time.
 *
 * The answer: results other than the refusal number go to its front, as many of them as it holds. An answer that is
 * shorter gets the first ones, a longer one keeps its further places. A refused call's results are all 0, so look at
 * the returned number first. */

/* ---- The field ---- */

/* Whether p is a modulus: a prime from 2 to 929. */
bool whitebeamish_is_modulus(size_t p);

/* a + b, a - b and a * b modulo p. Answer: 1 number, the symbol. Refusals: 1; 6 where a or b is not below p. */
uint16_t whitebeamish_sum(size_t p, uint16_t a, uint16_t b, size_t *answer, size_t answer_length);
uint16_t whitebeamish_difference(size_t p, uint16_t a, uint16_t b, size_t *answer, size_t answer_length);
uint16_t whitebeamish_product(size_t p, uint16_t a, uint16_t b, size_t *answer, size_t answer_length);

/* The symbol b for which a * b leaves 1 on division by p; for a = 0 it is 0.
 * Answer: 1 number, the symbol. Refusals: 1; 6 where a is not below p. */
uint16_t whitebeamish_inverse(size_t p, uint16_t a, size_t *answer, size_t answer_length);

/* ---- The setting ---- */

/* Answer: 5 numbers, W, l, C, U and R. Refusals: 1, 2, 3, 4. */
uint16_t whitebeamish_setting(size_t p, size_t n, size_t k, size_t s, size_t tau,
                              size_t *answer, size_t answer_length);

/* How much damage can be allowed: the largest tau that is accepted with p, n, k and s. A loop over the setting call.
 * With WHITEBEAMISH_OK *tau is that number. Otherwise *tau is untouched and no tau is accepted: 1 or 2 for their causes,
 * 4 where each tau is refused with 3 or 4. */
static inline uint16_t whitebeamish_largest_tau(size_t p, size_t n, size_t k, size_t s, size_t *tau) {
    size_t none, tried = n < WHITEBEAMISH_N_MAX ? n : WHITEBEAMISH_N_MAX;
    while (tried > 0)
        if (whitebeamish_setting(p, n, k, s, --tried, &none, 0) == WHITEBEAMISH_OK) {
            *tau = tried;
            return WHITEBEAMISH_OK;
        }
    return whitebeamish_setting(p, n, k, s, 0, &none, 0);
}

/* ---- Writing a patch ---- */

/* The first n numbers of output become the patch of the message; the rest of output is untouched. No answer.
 * Refusals: 1; 2 for n or k; 5; 6; 7; 8 where output is shorter than n. */
uint16_t whitebeamish_encode(size_t p, size_t n, size_t k,
                             const uint16_t *points, size_t points_length,
                             const uint16_t *message, size_t message_length,
                             uint16_t *output, size_t output_length);

/* ---- Reading ---- */

/* Whether a proposed curve passes for the word: it is not zero; each coefficient c(i, t) with i + t * (k - 1) >= W is
 * zero; and at each place, with point x and symbol y, for each pair e, f with e + f < s the sum over i >= e, t >= f of
 * binomial(i, e) * binomial(t, f) * c(i, t) * x^(i - e) * y^(t - f) is zero modulo p. Writes to nothing but the answer.
 * Answer: 1 number, 1 for yes and 0 for no. Refusals: 1 to 7. */
uint16_t whitebeamish_check(size_t p, size_t n, size_t k, size_t s, size_t tau,
                            const uint16_t *points, size_t points_length,
                            const uint16_t *word, size_t word_length,
                            const uint16_t *curve, size_t curve_length,
                            size_t *answer, size_t answer_length);

/* Finds a curve that passes for the word; under every accepted setting there is one. Which of them is not promised, and
 * no list depends on it. No answer.
 * Afterwards: the first (l + 1) * W numbers of curve are the curve found, the first R of work are 0, and the rest of
 * both is untouched. Refusals: 1 to 7; 8 where curve is shorter than (l + 1) * W or work than R. */
uint16_t whitebeamish_find(size_t p, size_t n, size_t k, size_t s, size_t tau,
                           const uint16_t *points, size_t points_length,
                           const uint16_t *word, size_t word_length,
                           uint16_t *curve, size_t curve_length,
                           uint16_t *work, size_t work_length);

/* Lists, from a curve that somebody proposes, every message of k symbols that agrees with the word in at least
 * n - tau places: each once, smaller constant term first, then smaller coefficient of x, and so on.
 * Answer: 2 numbers, the list length (0 to l; 0 is not a refusal) and the beginnings that the search tried. A beginning
 * is 0 to k first symbols of a message which the curve leaves possible. How many there are measures the work: at most
 * 1 + l * k, and it depends on the curve.
 * Afterwards: message number j of the list, from 0, starts at output[j * k]; places behind the list are untouched.
 * The first R numbers of work are 0, the rest is untouched.
 * Refusals: 1 to 7; 8 where output is shorter than l * k or work than R; 9 where the curve does not pass. */
uint16_t whitebeamish_list(size_t p, size_t n, size_t k, size_t s, size_t tau,
                           const uint16_t *points, size_t points_length,
                           const uint16_t *word, size_t word_length,
                           const uint16_t *curve, size_t curve_length,
                           uint16_t *output, size_t output_length,
                           uint16_t *work, size_t work_length,
                           size_t *answer, size_t answer_length);

/* Finds a curve and lists from it: the same list, whatever curve is found.
 * Answer: 2 numbers, the list length and the beginnings that the search tried.
 * Afterwards: output and work as after whitebeamish_list, curve as after whitebeamish_find.
 * Refusals: 1 to 7; 8 where output is shorter than l * k, curve than (l + 1) * W or work than R. */
uint16_t whitebeamish_read(size_t p, size_t n, size_t k, size_t s, size_t tau,
                           const uint16_t *points, size_t points_length,
                           const uint16_t *word, size_t word_length,
                           uint16_t *output, size_t output_length,
                           uint16_t *curve, size_t curve_length,
                           uint16_t *work, size_t work_length,
                           size_t *answer, size_t answer_length);

#ifdef __cplusplus
}
#endif

#endif
