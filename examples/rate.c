/* What goes into the registers of a channel for a rate: the number of the divisor (RCOR and TCOR of the
 * old chip's data sheet, where 0 stands for 8 and 4 for 2048) and the period (RBPR and TBPR), in
 * hexadecimal as its tables have them, and the deviation. The clock and the rates are words:
 * './rate 25000000 9600' prints '9600 1 51 +4693'. */
#include "papergrotto.h"

#include <stdio.h>
#include <stdlib.h>

/* 8, 32, 128, 512 and 2048 are 0 to 4. */
static unsigned number_of(size_t divisor)
{
    unsigned number = 0;

    for (; divisor > 8; divisor /= 4)
        number++;
    return number;
}

/* A word that is no number of 32 bits is outside every range. */
static uint32_t value_of(const char *word)
{
    char *end;
    unsigned long long value = strtoull(word, &end, 10);

    return *word < '0' || *word > '9' || *end != '\0' || value > UINT32_MAX ? UINT32_MAX : (uint32_t)value;
}

static void print_rate(uint32_t clock, const char *word)
{
    struct papergrotto_told told = papergrotto_rate(clock, value_of(word));

    if (told.refusal != PAPERGROTTO_SERVED)
        printf("%s refused %zu\n", word, told.refusal);
    else
        printf("%s %u %02zX %s%zu\n", word, number_of(told.values[0]), told.values[1],
               told.values[2] == 0 ? "" : told.values[3] ? "-" : "+", told.values[2]);
}

int main(int count, char **words)
{
    for (int at = 2; at < count; at++)
        print_rate(value_of(words[1]), words[at]);
    return 0;
}
