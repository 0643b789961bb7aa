/* The polynomial 9/16 + 8/16 x at x = 3/16: packed, evaluated in all steps of radix 2, its values printed.
 * 9/16 is above 1/2, so the scale is 1, and there are m + 1 + 1 = 6 steps. The readings are 21 and 16, the
 * values `0.65625 0.5`: row 1 is the polynomial's, 21 / 2^6 * 2^1 = 21/32. The matrix has one entry, in row 1
 * and column 2, and the digits of row 2 are 1, -1, 0, 0, 0, 0: `6 steps, 2 additions`. */
#include <stdio.h>

#include "emethod.h"

int main(void)
{
    const int64_t numbers[] = {3, 9, 8}; /* x, p_0 and p_1 over 2^f = 16 */
    uint8_t frame[EM_FRAME_BYTES];
    int64_t readings[EM_READINGS];
    uint64_t packed, done;
    double unit;

    packed = em_write_frame(EM_POLYNOMIAL, 0, 1, 4, 2, 4, numbers, 3, frame, EM_FRAME_BYTES);
    done = em_evaluate(frame, EM_COUNT(packed), 60, readings, EM_READINGS); /* 60: no job has more steps */
    if (EM_REFUSAL(packed) != EM_ACCEPTED || EM_REFUSAL(done) != EM_ACCEPTED) {
        fprintf(stderr, "refused: %u, %u\n", EM_REFUSAL(packed), EM_REFUSAL(done));
        return 1;
    }
    unit = 1.0 / (double)(1LL << EM_COUNT(done)) * (double)(1LL << EM_SCALE(done)); /* 1 / r^k * r^s */
    printf("%g %g\n", (double)readings[0] * unit, (double)readings[1] * unit);
    printf("%u steps, %u additions\n", (unsigned)EM_COUNT(done), EM_ADDITIONS(done));
    return 0;
}
