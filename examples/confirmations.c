/* A yield sheet from C: the confirmations of a marked stream, which comes on standard input, and the
 * sum of their litres, line by line as './papergrotto confirmations' prints them. That program takes
 * a stream of any length; this one keeps it in memory, and the list beside it, and says so where it is
 * longer. */
#include "papergrotto.h"

#include <inttypes.h>
#include <stdio.h>

enum {
    LONGEST = 1 << 20,      /* bytes of a stream */
    SHORTEST = 5            /* bytes of an entry: STX, FF 00 and a damaged byte, ETX */
};

static uint8_t stream[LONGEST];

/* The list: four columns, with a place for each entry that the longest stream can have. */
static size_t places[LONGEST / SHORTEST + 1];
static uint16_t numbers[LONGEST / SHORTEST + 1];
static uint32_t litres[LONGEST / SHORTEST + 1];
static uint8_t judgements[LONGEST / SHORTEST + 1];

static const char *const words[] = {
    [PAPERGROTTO_ACCEPTED] = "accepted",
    [PAPERGROTTO_ACCEPTED_WITH_GAP] = "gap",
    [PAPERGROTTO_REPEATED] = "repeated",
    [PAPERGROTTO_SET_ASIDE] = "aside"
};

static void print_entry(size_t at)
{
    printf("%zu %s", places[at], words[judgements[at]]);
    if (judgements[at] != PAPERGROTTO_SET_ASIDE)
        printf(" %04" PRIu16 " %" PRIu32, numbers[at], litres[at]);
    printf("\n");
}

static struct papergrotto_told list(size_t length)
{
    return papergrotto_confirmations(stream, length, places, sizeof places / sizeof *places,
                                     numbers, sizeof numbers / sizeof *numbers,
                                     litres, sizeof litres / sizeof *litres,
                                     judgements, sizeof judgements / sizeof *judgements);
}

int main(void)
{
    size_t length = fread(stream, 1, LONGEST, stdin);
    struct papergrotto_told told, before;

    /* a sum of a part would say that this is all */
    if (getchar() != EOF || ferror(stdin)) {
        fprintf(stderr, "standard input: too long, or it failed\n");
        return 1;
    }
    /* what stands before a broken FF can be listed by itself */
    told = before = list(length);
    if (told.refusal == PAPERGROTTO_BROKEN_STREAM)
        before = list(told.values[0]);
    if (before.refusal != PAPERGROTTO_SERVED) {
        printf("refused %zu\n", before.refusal);
        return 1;
    }
    for (size_t at = 0; at < before.values[0]; at++)
        print_entry(at);
    if (told.refusal == PAPERGROTTO_BROKEN_STREAM)
        printf("refused %zu %zu\n", told.refusal, told.values[0]);
    else
        printf("litres %zu\n", told.values[1]);
    return 0;
}
