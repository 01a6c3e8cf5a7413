/* Writes random frames for the race, the same for the same words on every machine.
 *
 *     trace [LINES [SEED [MIX]]]
 *
 * MIX is 'even' or 'busy'. Even: each of the ten frames and lines that refusal 11 is due to come equally often. Resets are
 * then so many that no receive queue ever fills. Busy: mostly arrivals, turns and loads, as on a working line, with few
 * settings and resets, so that queues fill, characters are lost and reads are long. */
#include <stdint.h>
#include <stdio.h>
#include <stdlib.h>
#include <string.h>

static uint64_t seed;

static uint32_t below(uint32_t n) {
    seed ^= seed << 13;
    seed ^= seed >> 7;
    seed ^= seed << 17;
    return (uint32_t)(seed >> 32) % n;
}

/* ---- what a line is spelled of */

static void byte(uint8_t b) { printf(below(4) ? "%02X" : "%02x", b); }

/* often a byte that means something: CR, NL, XON, XOFF, the literal-next character, FF, 00 */
static uint8_t any(void) {
    static const uint8_t often[8] = {0x0D, 0x0A, 0x11, 0x13, 0x16, 0xFF, 0x00, 0x41};
    return below(2) ? often[below(8)] : below(256);
}

static void bytes(unsigned n) { while (n--) byte(any()); }

/* one of the usual values 0 to n - 1, or once in so many times one beyond them */
static uint8_t usually(uint32_t n, uint32_t once_in) { return below(once_in) ? below(n) : n + below(256 - n); }

static void frame(uint8_t first) {
    byte(first);
    byte(usually(4, 32));
}

/* ---- each kind of line */

static void settings(void) {
    static const uint8_t low[10] = {1, 0, 0, 0, 0, 0, 0, 1, 0, 0}, high[10] = {4, 1, 1, 7, 2, 1, 1, 12, 1, 1};
    unsigned bad = below(4) ? 10 : below(10);
    for (unsigned i = 0; i < 10; i++) byte(i == bad ? high[i] + 1u : low[i] + below(high[i] - low[i] + 1));
    byte(0x11);
    byte(0x13);
    bytes(2);
    byte(0x16);
}

static void no_frame(void) {
    switch (below(6)) {
    case 0: break;
    case 1: printf("01 00"); break;
    case 2: bytes(4); putchar("0123456789ABCDEFabcdef"[below(22)]); break;
    case 3: bytes(35 + below(20)); break;
    case 4: byte(0x0B + below(200)); bytes(below(4)); break;
    case 5: byte(0x01); bytes(5 + below(4)); break;
    }
}

static void line(unsigned what) {
    switch (what) {
    case 1: frame(1); byte(usually(4, 32)); byte(any()); break;
    case 2: frame(2); byte(usually(13, 16)); break;
    case 3: frame(3); bytes(below(33)); break;
    case 4: frame(4); break;
    case 5: frame(5); byte(usually(2, 16)); break;
    case 6: frame(6); byte(below(16) ? 1 + below(4) : below(256)); break;
    case 7: frame(7); if (below(8)) settings(); else bytes(below(33)); break;
    case 8: byte(8); break;
    case 9: frame(9); break;
    case 10: frame(10); break;
    default: no_frame();
    }
    putchar('\n');
}

static unsigned busy(void) {
    /* of 1000 lines: the frames 01 to 0A, and the rest none */
    static const uint16_t share[10] = {480, 70, 100, 200, 20, 25, 15, 40, 2, 30};
    uint32_t at = below(1000);
    for (unsigned i = 0; i < 10; i++) {
        if (at < share[i]) return i + 1;
        at -= share[i];
    }
    return 11;
}

int main(int argc, char **argv) {
    long lines = argc > 1 ? atol(argv[1]) : 1000000;
    int even = argc < 4 || strcmp(argv[3], "busy");
    seed = argc > 2 ? strtoull(argv[2], 0, 0) : 1;
    seed = seed * 0x9E3779B97F4A7C15u + 1;
    for (int i = 0; i < 8; i++) below(2);
    while (lines-- > 0) line(even ? 1 + below(11) : busy());
    return 0;
}
