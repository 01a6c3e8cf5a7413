/* Choices of a rate, as many as standard input says: by the proved library or, with PLAIN, by plain C
 * written for speed. Both print the sum of all that was told, so that the answers are compared. */
#include "papergrotto.h"

#include <stdio.h>

#ifdef PLAIN

/* The best so far: its distance is gap / divider. */
struct best {
    uint64_t gap, divider;
    uint32_t divisor, period;
};

static inline void look(uint64_t clock, uint64_t wanted, uint32_t divisor, uint32_t period, struct best *best)
{
    uint64_t divider = (uint64_t)divisor * period, times = wanted * divider;
    uint64_t gap = times < clock ? clock - times : times - clock;

    if (gap * best->divider < best->gap * divider)
        *best = (struct best){gap, divider, divisor, period};
}

static struct papergrotto_told rate(uint32_t clock, uint32_t wanted)
{
    struct best best = {1, 0, 0, 0};
    int64_t times, deviation;

    if (clock < 1000000 || clock > 60000000 || wanted < 1 || wanted > 230400)
        return (struct papergrotto_told){PAPERGROTTO_OUTSIDE_RANGE, {0}};
    for (uint32_t divisor = 8; divisor <= 2048; divisor *= 4) {
        uint64_t whole = clock / ((uint64_t)wanted * divisor);
        uint32_t period = whole < 1 ? 1 : whole < 255 ? (uint32_t)whole : 255;

        look(clock, wanted, divisor, period, &best);
        if (period < 255)
            look(clock, wanted, divisor, period + 1, &best);
    }
    if (25000 * (wanted * best.divider) < 1000000 * best.gap)
        return (struct papergrotto_told){PAPERGROTTO_TOO_FAR, {0}};
    times = (int64_t)(wanted * best.divider);
    deviation = (clock - times) * 1000000 / times;
    return (struct papergrotto_told){
        0, {best.divisor, best.period, (size_t)(deviation < 0 ? -deviation : deviation), deviation < 0}};
}

#else
#define rate papergrotto_rate
#endif

int main(void)
{
    unsigned long count;
    uint64_t sum = 0;
    uint32_t random = 1;

    if (scanf("%lu", &count) != 1)
        return 1;
    for (unsigned long i = 0; i < count; i++) {
        uint32_t clock, wanted;
        struct papergrotto_told told;

        random = random * 1664525 + 1013904223;
        clock = 1000000 + random % 59000001;
        random = random * 1664525 + 1013904223;
        wanted = 50 + (random >> 8) % 230351;
        told = rate(clock, wanted);
        sum = sum * 31 + told.refusal + told.values[0] + 3 * told.values[1] + 5 * told.values[2] + 7 * told.values[3];
    }
    printf("%llu\n", (unsigned long long)sum);
    return 0;
}
