/* The proved confirmations of request n on cases from standard input, one a line: the lengths of
 * the four lent slices (places, numbers, litres, judgements), and the stream in hexadecimal ('-'
 * where it is empty). For each it prints 00 with the count of entries and the sum of litres, or
 * the refusal's number (8 with the place of the offending FF), and the four slices, in which each
 * byte held A5 before (of the places, the lower four). */
#include "papergrotto.h"

#include <stdint.h>
#include <stdio.h>
#include <stdlib.h>

enum { MOST = 4096, MOST_PLACES = 512, LISTS = 4, BROKEN = 8 };

static size_t places[MOST_PLACES];
static uint16_t numbers[MOST_PLACES];
static uint32_t litres[MOST_PLACES];
static uint8_t judgements[MOST_PLACES];

static void fill(void)
{
    for (size_t at = 0; at < MOST_PLACES; at++) {
        places[at] = 0xA5A5A5A5;
        numbers[at] = 0xA5A5;
        litres[at] = 0xA5A5A5A5;
        judgements[at] = 0xA5;
    }
}

/* What stands in one of the four slices. */
static size_t element(size_t list, size_t at)
{
    switch (list) {
    case 0: return places[at];
    case 1: return numbers[at];
    case 2: return litres[at];
    default: return judgements[at];
    }
}

/* A space and the numbers, with commas between them; '-' where there are none. */
static void print_list(size_t list, size_t length)
{
    printf(length == 0 ? " -" : " ");
    for (size_t at = 0; at < length; at++)
        printf(at == 0 ? "%zu" : ",%zu", element(list, at));
}

/* The bytes that the digits stand for, none for '-'; how many. The streams are longer here than
 * those for which digits.h looks through the rest of the digits at each byte. */
static size_t bytes_of(const char *digits, uint8_t *bytes)
{
    size_t length = 0;
    char pair[3] = "";

    for (; digits[0] != '-' && digits[0] != '\0' && digits[1] != '\0'; digits += 2) {
        pair[0] = digits[0];
        pair[1] = digits[1];
        bytes[length++] = (uint8_t)strtoul(pair, NULL, 16);
    }
    return length;
}

static void print_case(const uint8_t *stream, size_t length, const size_t *lengths)
{
    struct papergrotto_told told;

    fill();
    told = papergrotto_confirmations(stream, length, places, lengths[0], numbers, lengths[1],
                                     litres, lengths[2], judgements, lengths[3]);
    printf("%02zu", told.refusal);
    if (told.refusal == 0)
        printf(":%zu:%zu", told.values[0], told.values[1]);
    else if (told.refusal == BROKEN)
        printf(":%zu", told.values[0]);
    for (size_t list = 0; list < LISTS; list++)
        print_list(list, lengths[list]);
    printf("\n");
}

int main(void)
{
    static char digits[2 * MOST + 1];
    static uint8_t stream[MOST];
    size_t lengths[LISTS];

    while (scanf("%zu %zu %zu %zu %8192s", lengths, lengths + 1, lengths + 2, lengths + 3, digits) == 5) {
        for (size_t list = 0; list < LISTS; list++)
            if (lengths[list] > MOST_PLACES)
                return 1;
        print_case(stream, bytes_of(digits, stream), lengths);
    }
    return 0;
}
