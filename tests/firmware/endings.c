/* The proved single setting of pairs from standard input, one a line: the first and the second box's
 * line-ending setting, in decimal. For each it prints the refusal's number and field, or two zeros, and
 * whether a setting does the work of both, and which. */
#include "papergrotto.h"

#include <inttypes.h>
#include <stdio.h>

int main(void)
{
    uint32_t first, second;

    while (scanf("%" SCNu32 " %" SCNu32, &first, &second) == 2) {
        struct papergrotto_told told = papergrotto_one_ending(first, second);

        if (told.refusal != PAPERGROTTO_SERVED)
            printf("%zu %zu %zu %zu\n", told.refusal, told.values[0], told.values[1], told.values[2]);
        else
            printf("0 %zu %zu %zu\n", told.values[2], told.values[0], told.values[1]);
    }
    return 0;
}
