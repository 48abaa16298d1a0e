/* 01's four pantries through the header: prints refusal, solves and the rows' bits. */
#include "zescolumba.h"
#include <stdio.h>
#include <string.h>

int main(void) {
    double coords[8] = {0, 0, 0, 0, 10, 10, 10, 10}, y[4] = {2, 4, 10, 10}, b = 1;
    unsigned char out[4 * 4 * 8], summary[24], weight[8];
    uint64_t bits, word[19];
    memcpy(&bits, &b, 8);
    uint32_t number = zescolumba_fit((const uint8_t *)coords, sizeof coords, NULL, 0, (const uint8_t *)y, sizeof y, 0,
                                     ZESCOLUMBA_BISQUARE, ZESCOLUMBA_DISTANCE, bits, out, sizeof out, summary, sizeof summary);
    memcpy(word, summary, 24);
    memcpy(word + 3, out, sizeof out);
    printf("fit %u %016llX %016llX %llu\n", (unsigned)number, (unsigned long long)word[0], (unsigned long long)word[1],
           (unsigned long long)word[2]);
    for (int i = 0; i < 4; i++) {
        printf("row %d", i);
        for (int j = 0; j < 4; j++) printf(" %016llX", (unsigned long long)word[3 + 4 * i + j]);
        printf("\n");
    }
    number = zescolumba_weight(ZESCOLUMBA_GAUSSIAN, 0, bits, weight, sizeof weight);
    memcpy(&bits, weight, 8);
    printf("weight %u %016llX\n", (unsigned)number, (unsigned long long)bits);
    return 0;
}
