/* Null pointers with length 0, in each place of each call: the refusals are printed in this order. */
#include <stdio.h>

#include "emethod.h"

int main(void)
{
    const uint8_t frame[] = {0x01, 0x10, 0x44, 0x0C, 0x32, 0x00};
    const uint8_t trace[] = {0x01, 0x10, 0x44, 0x10, 0x01, 0x08, 0x00, 0x00, 0x80};
    const int64_t numbers[] = {3, 3, 8};
    int64_t words[EM_TRACE_WORDS];
    uint8_t bytes[EM_FRAME_BYTES];
    uint64_t answers[11];
    size_t i;

    answers[0] = em_check_frame(NULL, 0);
    answers[1] = em_evaluate(NULL, 0, 4, words, EM_READINGS);
    answers[2] = em_evaluate(frame, sizeof frame, 4, NULL, 0);
    answers[3] = em_write_frame(EM_POLYNOMIAL, 0, 1, 4, 2, 4, NULL, 0, bytes, EM_FRAME_BYTES);
    answers[4] = em_write_frame(EM_POLYNOMIAL, 0, 1, 4, 2, 4, numbers, 3, NULL, 0);
    answers[5] = em_write_trace(NULL, 0, 4, bytes, EM_TRACE_BYTES);
    answers[6] = em_write_trace(frame, sizeof frame, 4, NULL, 0);
    answers[7] = em_read_trace(NULL, 0, words, EM_TRACE_WORDS);
    answers[8] = em_read_trace(trace, sizeof trace, NULL, 0);
    answers[9] = em_running_sums(NULL, 0, 1, words, EM_SUMS);
    answers[10] = em_running_sums(frame, sizeof frame, 1, NULL, 0);
    for (i = 0; i < 11; i++)
        printf("%u%c", EM_REFUSAL(answers[i]), i < 10 ? ' ' : '\n');
    return 0;
}
