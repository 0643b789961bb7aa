/* The E-method evaluator for host tools in C and C++ on x86-64 Linux: link libemethod_c.a, which
 * `rt lib` writes. docs/FORMAT.md describes frames, traces and every refusal in full;
 * example.c beside this file packs a frame, evaluates it and prints its values.
 *
 * Every call takes numbers and lent memory, and answers one number that carries five:
 *
 *     answer = refusal + 256 * row + 65536 * count + 2^40 * additions + 2^56 * scale
 *
 * refusal     0, or why the call was refused: one of EM_REFUSED_..
 * row         with EM_REFUSED_HEAVY the first such row, from 1; else 0
 * count       what each call says below, less than 2^24; 0 when refused
 * additions   from em_evaluate the additions that the steps cost, told below, less than 2^16; 0 when refused,
 *             and from the other calls
 * scale       from em_check_frame and em_evaluate the frame's scale s, told below; 0 when refused, and from
 *             the other calls
 *
 * What cannot be done is refused, whatever the numbers and bytes are, and a refusal changes no lent memory.
 * Memory past what a call writes keeps its values too. No call allocates, and none keeps anything: what is
 * lent is used during the call alone. Calls may be made at the same time where none writes memory that
 * another uses.
 *
 * What a call asks of its caller is memory that is there for the length given with it, in elements of its
 * type. A pointer may be null where its length is 0. The memory that a call writes may not overlap the memory
 * that it reads: nothing is promised of such a call.
 */
#ifndef EMETHOD_H
#define EMETHOD_H

#include <stddef.h>
#include <stdint.h>

#ifdef __cplusplus
extern "C" {
#endif

#define EM_REFUSAL(answer) ((unsigned)((answer) % 256))
#define EM_ROW(answer) ((unsigned)((answer) / 256 % 256))
#define EM_COUNT(answer) ((size_t)((answer) / 65536 % 16777216))
#define EM_ADDITIONS(answer) ((unsigned)((answer) >> 40 & 65535))
#define EM_SCALE(answer) ((unsigned)((answer) >> 56))

/* Room that is always enough, in elements. */
#define EM_READINGS 16      /* readings: one a row */
#define EM_NUMBERS 272      /* numbers of a frame: a system of order 16 */
#define EM_FRAME_BYTES 1431 /* the longest frame */
#define EM_TRACE_BYTES 604  /* the longest trace */
#define EM_TRACE_WORDS 967  /* the words of the longest trace: 7, and 60 steps of 16 digits */
#define EM_SUMS 272         /* the words of the running sums: 17 for each of 16 columns */

enum em_kind {
    EM_POLYNOMIAL = 0,
    EM_RATIONAL = 1,
    EM_SYSTEM = 2,
    EM_QUOTIENTS = 3
};

/* In the words below r is the radix, n the order, p the largest digit, f the fraction bits, m the digits that
 * a frame asks for, s its scale, and k the steps made.
 *
 * The right sides of a frame are the p_0 to p_(n-1) of a polynomial or a rational curve, the b_i of a system,
 * or c_0 and the a_i of a sum of quotients. Its scale is the smallest s, 0 or more, for which every right
 * side is at most r^s / 2 in absolute value: 0 where all are within 1/2, and never above 2 where r is 2, or
 * above 1 where r is more. The job works on the right sides divided by r^s and has m + 1 + s steps. A caller
 * multiplies by r^s again:
 *
 *     value = reading / r^k * r^s
 *
 * What "m digits" means: after the last step this value is nearer than r^-m to the exact one.
 */
enum em_refusal {
    EM_ACCEPTED = 0,
    EM_REFUSED_SHORT = 1,   /* fewer than 3 bytes; a trace: fewer than 4 */
    EM_REFUSED_KIND = 2,    /* em_write_frame: a kind or a radix code above 3 */
    EM_REFUSED_P = 3,       /* p outside r/2 to r - 1 */
    EM_REFUSED_F = 4,       /* f outside 4 to 40 */
    EM_REFUSED_M = 5,       /* m is 0, or (m + 1) * log2(r) is above 60 */
    EM_REFUSED_LENGTH = 6,  /* a length other than the fields demand */
    EM_REFUSED_FILL = 7,    /* a filling bit after the last number or digit is 1 */
    EM_REFUSED_HEAVY = 8,   /* a row is too heavy: its |entries| of I - A add up to more than
                               (32p - 17(r - 1)) / (32rp) */
    EM_REFUSED_K = 10,      /* a trace: k is above m + 3, or k * log2(r) is above 60 */
    EM_REFUSED_DIGIT = 11,  /* a trace: a digit is above p in absolute value */
    EM_REFUSED_COUNT = 12,  /* em_write_frame: another count of numbers than kind and n demand */
    EM_REFUSED_NUMBER = 13, /* em_write_frame: a number does not fit f + 2 bits */
    EM_REFUSED_N = 14,      /* em_write_frame: n outside 1 to 16 */
    EM_REFUSED_STEPS = 15,  /* (m + 1 + s) * log2(r) is above 60 */
    EM_REFUSED_ROOM = 23    /* lent memory too short for what is to be written */
};

/* Loads a frame and lets it go. count: how many numbers it holds. scale: s. Refused by 1, 3 to 8, 15. */
uint64_t em_check_frame(const uint8_t *frame, size_t length);

/* Loads a frame, makes as many of its m + 1 + s steps as the budget allows, and writes n readings, row by
 * row. count: the steps made, k. scale: s. The reading Y of a row stands for Y / r^k * r^s: in every solution
 * of all rows this row's value is at most p * r^s / ((r - 1) * r^k) away from it, and after all steps less
 * than r^-m. Row 1 of a polynomial or a rational curve is its value at x, and that of a sum of quotients is
 * the sum. additions: over the steps, the pairs of a row and a column where the entry of I - A and that
 * column's digit of the step before are both other than 0; at most k - 1 times the entries other than 0, so
 * (k - 1) * (n - 1) for a polynomial, 2 * (k - 1) * (n - 1) for a rational curve or a sum of quotients.
 * Refused by 1, 3 to 8, 15, 23. A budget of 0 is not refused by 22: k is 0, and so is each reading. */
uint64_t em_evaluate(const uint8_t *frame, size_t length, uint64_t budget, int64_t *readings, size_t room);

/* Loads a frame, makes as many of its m + 1 + s steps as the budget allows, and writes in which order the
 * next step adds: for each column whose digit of the last step made is not 0, from the first, its number,
 * from 1, and then, row by row, the sum over the columns up to it of the entry of I - A times that digit, in
 * units of 2^-f whatever s is. The last n words, or n zeros where there are no words, times r^s / 2^f are
 * what the next step adds to what is left in each row. count: the words, n + 1 for each such column; 0 after
 * 0 steps. Refused by 1, 3 to 8, 15, 23. A budget of 0 is not refused by 22. */
uint64_t em_running_sums(const uint8_t *frame, size_t length, uint64_t budget, int64_t *words, size_t room);

/* Writes a frame. count: its bytes.
 *
 * kind   0 to 3, as em_kind        f   4 to 40
 * code   0 to 3 for r 2, 4, 8, 16  n   1 to 16
 * p      r/2 to r - 1              m   1 or more, with (m + 1 + s) * log2(r) at most 60
 *
 * Each number is -2^(f + 1) to 2^(f + 1) - 1 and stands for itself divided by 2^f. Their order:
 * polynomial   x, p_0 to p_(n-1)                          n + 1 numbers
 * rational     x, p_0 to p_(n-1), q_1 to q_(n-1); q_0 = 1   2 * n numbers
 * system       row by row a_i1 to a_in, then b_i          n * (n + 1) numbers
 * quotients    c_0, then c_i, a_i, b_i for each i from 1    3 * n - 2 numbers
 *
 * A sum of quotients is c_0 + c_1 * a_1 / (1 - b_1) + .. + c_(n-1) * a_(n-1) / (1 - b_(n-1)).
 *
 * Refused by 2, 14, 3, 4, 5, 12, 13, 8, 15, 23. */
uint64_t em_write_frame(size_t kind, size_t code, size_t p, size_t f, size_t n, size_t m,
                        const int64_t *numbers, size_t length, uint8_t *out, size_t room);

/* Loads a frame, makes as many of its m + 1 + s steps as the budget allows, and writes its trace. count: the
 * trace's bytes. Refused by 1, 3 to 8, 15, 23. A budget of 0 is not refused by 22: the trace after 0 steps,
 * of 4 bytes, is written. */
uint64_t em_write_trace(const uint8_t *frame, size_t length, uint64_t budget, uint8_t *out, size_t room);

/* Reads a trace into words: kind, code, p, f, n, m and k, then the digits step by step and in a step row by
 * row. A trace does not tell s; em_check_frame gives it for the job's frame. count: the words, 7 + n * k.
 * Refused by 1, 3, 4, 5, 10, 6, 7, 11, 23. */
uint64_t em_read_trace(const uint8_t *trace, size_t length, int64_t *words, size_t room);

#ifdef __cplusplus
}
#endif

#endif
