/* A polling loop over one channel.
 *
 * On the box, poll() would look at the line's status register and at the host's requests. Here both
 * come as lines of standard input, in the frame program's own form and always for channel 0: so the
 * loop can be run on the paper's whole case, or on any other trace, and its answers compared. */
#include "papergrotto.h"

#include <stdio.h>
#include <string.h>

enum { LONGEST = 34 };      /* "at most 34 bytes" */

/* What there is to do next: a frame's first byte, and what follows the channel. */
struct event {
    uint8_t what;
    size_t length;
    uint8_t bytes[LONGEST];
};

/* The next event; false at the end of the input. */
static bool poll(struct event *event)
{
    char line[2 * LONGEST + 2];     /* its digits, the newline and the end */
    size_t digits;
    unsigned byte;

    *event = (struct event){0};
    if (fgets(line, sizeof line, stdin) == NULL)
        return false;
    digits = strspn(line, "0123456789ABCDEFabcdef");
    for (size_t at = 0; at + 2 <= digits && sscanf(line + at, "%2x", &byte) == 1; at += 2) {
        if (at == 0)
            event->what = (uint8_t)byte;
        if (at >= 4)                /* behind the channel's number */
            event->bytes[event->length++] = (uint8_t)byte;
    }
    return true;
}

/* An answer's first number: 00, or the refusal's, with the field behind a 5. False where the call
 * was refused. */
static bool served(struct papergrotto_told told)
{
    printf("%02zX", told.refusal);
    if (told.refusal == PAPERGROTTO_BAD_FIELD)
        printf("%02zX", told.values[0]);
    return told.refusal == PAPERGROTTO_SERVED;
}

static void served_with_one(struct papergrotto_told told)
{
    if (served(told))
        printf("%02zX", told.values[0]);
}

/* The line is ready for a character. */
static void turn(struct papergrotto_channel *channel)
{
    struct papergrotto_told told = papergrotto_turn(channel);

    served_with_one(told);
    if (told.values[0] == 1)
        printf("%02zX", told.values[1]);
}

/* The host asks for characters. */
static void read_to_host(struct papergrotto_channel *channel, size_t n)
{
    uint8_t buffer[PAPERGROTTO_IMAGE * PAPERGROTTO_MOST];
    struct papergrotto_told told = papergrotto_read(channel, n, buffer, sizeof buffer, 0);

    if (!served(told))
        return;
    printf("%02zX%02zX", told.values[0], told.values[1]);
    for (size_t at = 0; at < told.values[2]; at++)
        printf("%02X", buffer[at]);
}

/* The host asks how the channel stands. */
static void show(struct papergrotto_channel channel)
{
    struct papergrotto_told told = papergrotto_state(channel);

    if (served(told))
        printf("%02zX%02zX%02zX%04zX", told.values[0], told.values[1], told.values[2], told.values[3]);
}

int main(void)
{
    struct papergrotto_channel channel = papergrotto_fresh();
    struct event event;

    while (poll(&event)) {
        switch (event.what) {
        case 0x01: served_with_one(papergrotto_arrive(&channel, event.bytes[0], event.bytes[1])); break;
        case 0x02: read_to_host(&channel, event.bytes[0]); break;
        case 0x03: served_with_one(papergrotto_load(&channel, event.bytes, event.length)); break;
        case 0x04: turn(&channel); break;
        case 0x05: served(papergrotto_set_cts(&channel, event.bytes[0])); break;
        case 0x06: served(papergrotto_ask_special(&channel, event.bytes[0])); break;
        case 0x07: served(papergrotto_take_settings(&channel, event.bytes, event.length)); break;
        case 0x08: printf(papergrotto_ready(channel) ? "0000" : "00FF"); break;
        case 0x09: channel = papergrotto_fresh(); printf("00"); break;
        case 0x0A: show(channel); break;
        default: fprintf(stderr, "not an event of one channel\n"); return 1;
        }
        putchar('\n');
    }
    return 0;
}
