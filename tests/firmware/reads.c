/* The proved read into lent buffers of any length and place, on lines from standard input: 'A KK BB'
 * an arrival, 'S HEX' settings, 'R N LENGTH PLACE' a read into a buffer that held A5. The frame
 * program only ever lends 36 bytes at place 0. */
#include "digits.h"
#include "papergrotto.h"

#include <string.h>

enum { MOST = 4096 };

static void arrive(struct papergrotto_channel *channel, const char *line)
{
    unsigned kind, byte;
    struct papergrotto_told told;

    if (sscanf(line, "%2x %2x", &kind, &byte) != 2)
        return;
    told = papergrotto_arrive(channel, (uint8_t)kind, (uint8_t)byte);
    printf(told.refusal == 0 ? "%02zu %zu" : "%02zu", told.refusal, told.values[0]);
}

static void take_settings(struct papergrotto_channel *channel, const char *digits)
{
    uint8_t bytes[MOST];
    struct papergrotto_told told = papergrotto_take_settings(channel, bytes, bytes_of(digits, bytes));

    printf(told.refusal == 0 ? "%02zu" : "%02zu %02zX", told.refusal, told.values[0]);
}

static void read_into_buffer(struct papergrotto_channel *channel, const char *line)
{
    uint8_t buffer[MOST];
    size_t n, length, place;
    struct papergrotto_told told;

    if (sscanf(line, "%zu %zu %zu", &n, &length, &place) != 3 || length > MOST)
        return;
    memset(buffer, 0xA5, sizeof buffer);
    told = papergrotto_read(channel, n, buffer, length, place);
    printf("%02zu", told.refusal);
    if (told.refusal == 0)
        printf(" %zu %zu %zu", told.values[0], told.values[1], told.values[2]);
    print_bytes(buffer, length);
}

int main(void)
{
    struct papergrotto_channel channel = papergrotto_fresh();
    char line[MOST];

    while (fgets(line, sizeof line, stdin) != NULL) {
        switch (line[0]) {
        case 'A': arrive(&channel, line + 2); break;
        case 'S': take_settings(&channel, line + 2); break;
        case 'R': read_into_buffer(&channel, line + 2); break;
        }
        printf("\n");
    }
    return 0;
}
