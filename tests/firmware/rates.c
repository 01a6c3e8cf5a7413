/* The proved choice of a rate on cases from standard input, one a line: the clock and the wanted rate,
 * in decimal. For each it prints the refusal's number, or 0, and the four values. */
#include "papergrotto.h"

#include <inttypes.h>
#include <stdio.h>

int main(void)
{
    uint32_t clock, wanted;

    while (scanf("%" SCNu32 " %" SCNu32, &clock, &wanted) == 2) {
        struct papergrotto_told told = papergrotto_rate(clock, wanted);

        printf("%zu %zu %zu %zu %zu\n", told.refusal, told.values[0], told.values[1],
               told.values[2], told.values[3]);
    }
    return 0;
}
