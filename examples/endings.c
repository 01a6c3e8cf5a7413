/* One box in the place of two. The line-ending settings of two boxes in a row are words, and what is on
 * standard input goes through the one box that does the work of both; where no single setting does, through
 * both, one behind the other. What comes out is written. './endings 3 3' leaves its input as it is. */
#include "papergrotto.h"

#include <stdio.h>
#include <stdlib.h>

/* A word that is no number of 32 bits is above every setting. */
static uint32_t value_of(const char *word)
{
    char *end;
    unsigned long long value = strtoull(word, &end, 10);

    return *word < '0' || *word > '9' || *end != '\0' || value > UINT32_MAX ? UINT32_MAX : (uint32_t)value;
}

/* A box with this line-ending setting, fresh otherwise. */
static struct papergrotto_channel box_with(size_t setting)
{
    struct papergrotto_channel box = papergrotto_fresh();
    const uint8_t settings[PAPERGROTTO_SETTINGS] = {1, 1, 0, (uint8_t)setting, 0, 0, 0, 1, 0, 0, 0x11, 0x13, 0x00, 0x00, 0x16};

    papergrotto_take_settings(&box, settings, sizeof settings);
    return box;
}

/* A good character arrives at the first of these boxes; what one lets out arrives at the next. */
static void arrive(struct papergrotto_channel *boxes, size_t count, uint8_t character)
{
    uint8_t out[PAPERGROTTO_IMAGE];
    struct papergrotto_told read;

    if (count == 0) {
        putchar(character);
        return;
    }
    papergrotto_arrive(boxes, PAPERGROTTO_GOOD, character);
    read = papergrotto_read(boxes, 1, out, sizeof out, 0);
    for (size_t at = 0; at < read.values[2]; at++)
        arrive(boxes + 1, count - 1, out[at]);
}

int main(int count, char **words)
{
    uint32_t first = value_of(count > 1 ? words[1] : ""), second = value_of(count > 2 ? words[2] : "");
    struct papergrotto_told told = papergrotto_one_ending(first, second);
    size_t boxes = told.values[0] == 1 ? 1 : 2;
    int character;

    if (told.refusal != PAPERGROTTO_SERVED) {
        fprintf(stderr, "refused %zu %zu\n", told.refusal, told.values[0]);
        return 1;
    }
    struct papergrotto_channel row[2] = {box_with(boxes == 1 ? told.values[1] : first), box_with(second)};
    while ((character = getchar()) != EOF)
        arrive(row, boxes, (uint8_t)character);
    return 0;
}
