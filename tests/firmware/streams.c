/* The proved reader of marked streams on cases from standard input, one a line: the lengths of the
 * two outputs, and the stream in hexadecimal ('-' where it is empty). For each it prints 00 or the
 * refusal's number (with the count of items, or the place of the offending FF), the length of the
 * clean front, and both outputs, which held A5 before. */
#include "digits.h"
#include "papergrotto.h"

#include <string.h>

enum { MOST = 4096 };

static void print_case(const uint8_t *stream, size_t length, size_t sorts_length, size_t bytes_length)
{
    static uint8_t sorts[MOST], bytes[MOST];
    struct papergrotto_told told;

    memset(sorts, 0xA5, sizeof sorts);
    memset(bytes, 0xA5, sizeof bytes);
    told = papergrotto_decode(stream, length, sorts, sorts_length, bytes, bytes_length);
    printf("%02zu", told.refusal);
    if (told.refusal != PAPERGROTTO_SHORT_OUTPUT)
        printf(":%zu", told.values[0]);
    printf(" %zu", papergrotto_clean_front(stream, length));
    print_bytes(sorts, sorts_length);
    print_bytes(bytes, bytes_length);
    printf("\n");
}

int main(void)
{
    static char digits[2 * MOST + 1];
    static uint8_t stream[MOST];
    size_t sorts_length, bytes_length;

    while (scanf("%zu %zu %8192s", &sorts_length, &bytes_length, digits) == 3) {
        if (sorts_length > MOST || bytes_length > MOST)
            return 1;
        print_case(stream, bytes_of(digits, stream), sorts_length, bytes_length);
    }
    return 0;
}
