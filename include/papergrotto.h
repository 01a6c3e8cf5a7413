/* papergrotto.h: all that C may call. One serial channel in software, for the firmware of the box,
 * the reader of marked streams, the list of the confirmations in one, the choice of a rate, and the
 * single line-ending setting of two boxes in a row.
 *
 * A polling loop keeps a record for each channel and lends it to these functions, which alter it
 * where it stands. Each is proved to give, for every input, the answer and the next record that the
 * paper's steps give (crates/papergrotto; docs/PROMISES.md).
 *
 * To link: 'rt lib', in crates/papergrotto, proves the library and writes out/libpapergrotto.a there, for
 * x86-64 and with the C library. examples/polling.c is a loop to begin with, examples/confirmations.c
 * a yield sheet, examples/rate.c what goes into the registers of a rate, examples/endings.c one box
 * in the place of two.
 *
 * WHAT C MUST KEEP. A proof begins where its call begins, and takes for granted:
 *
 *   - A record is one that papergrotto_fresh returned, or a copy of one, as these calls have left
 *     it. Its fields stand below so that the compiler knows its size and alignment. They are
 *     private: C neither writes them nor relies on them.
 *   - A record is lent to one call at a time: an interrupt that uses the same record waits until
 *     the call has returned.
 *   - A pointer that comes with a length is not null, even where the length is 0, and that many
 *     bytes, or numbers of its type, stand there. What is lent to one call does not overlap: neither
 *     two buffers, nor a buffer and the record.
 *
 * Nothing else. A bad kind, count, place, setting, special, CTS, clock or rate is refused by its
 * number, and then the record and all lent bytes are as they were.
 */
#ifndef PAPERGROTTO_H
#define PAPERGROTTO_H

#include <stdbool.h>
#include <stddef.h>
#include <stdint.h>

#ifdef __cplusplus
extern "C" {
#endif

/* How many items a receive queue holds: twelve, and one that is held behind them and moves up when a
 * read makes room. The next one is lost. */
#define PAPERGROTTO_DEPTH 13

/* "Read n characters, n from 0 to 12": the most that a read asks for, a threshold names and a state
 * shows waiting. Where 12 are shown, one more may be held. */
#define PAPERGROTTO_MOST 12

/* "a transmit queue of 12 bytes" */
#define PAPERGROTTO_TRANSMIT_DEPTH 12

/* "Settings, 15 bytes" */
#define PAPERGROTTO_SETTINGS 15

/* The longest image of a character: FF 00 and the damaged byte. A read of n asks for 3 n bytes. */
#define PAPERGROTTO_IMAGE 3

#define PAPERGROTTO_CHANNEL_SIZE 104
#define PAPERGROTTO_CHANNEL_ALIGNMENT 8

/* A channel's record. All fields are private. */
struct papergrotto_channel {
    struct {
        size_t count;
        uint16_t losses;
        uint8_t kinds[PAPERGROTTO_DEPTH];
        uint8_t bytes[PAPERGROTTO_DEPTH];
        uint8_t flags[PAPERGROTTO_DEPTH];
    } queue;
    struct {
        size_t count;
        uint8_t bytes[PAPERGROTTO_TRANSMIT_DEPTH];
        bool owed;
        bool waits;
        uint8_t special;
        bool cts;
    } transmitter;
    uint8_t settings[PAPERGROTTO_SETTINGS];
    struct {
        bool literal;
        bool running;
    } flags;
};

/* What a call tells: 0 or the refusal's number, and the values that are named beside each call
 * below, with zeros behind them. */
struct papergrotto_told {
    size_t refusal;
    size_t values[4];
};

/* "Refusal numbers". A record is lent without a channel's number, so 1 does not occur; 11 is the
 * frame program's. 12 and 13 are of the choice of a rate, 16 of the list of confirmations. */
enum papergrotto_refusal {
    PAPERGROTTO_SERVED = 0,
    PAPERGROTTO_BAD_KIND = 2,       /* kind above 3 */
    PAPERGROTTO_TOO_MANY = 3,       /* more than PAPERGROTTO_MOST asked */
    PAPERGROTTO_NO_ROOM = 4,        /* fewer than 3n bytes from the place to the buffer's end, or
                                       the place beyond the end */
    PAPERGROTTO_BAD_FIELD = 5,      /* settings not 15 bytes (field 0) or the first bad field;
                                       values[0] is the field. A line-ending setting that is none
                                       is field 4 */
    PAPERGROTTO_BAD_SPECIAL = 6,    /* special not 1 to 4 */
    PAPERGROTTO_SPECIAL_WAITS = 7,  /* a special already waits */
    PAPERGROTTO_BROKEN_STREAM = 8,  /* broken stream; values[0] is the place of the offending FF */
    PAPERGROTTO_SHORT_OUTPUT = 9,   /* either output shorter than the input */
    PAPERGROTTO_BAD_CTS = 10,       /* CTS neither 0 nor 1 */
    PAPERGROTTO_OUTSIDE_RANGE = 12, /* clock or rate outside its range */
    PAPERGROTTO_TOO_FAR = 13,       /* every pair is more than 25,000 millionths away */
    PAPERGROTTO_TOO_MANY_ENTRIES = 16   /* more entries than the lent list has places */
};

/* An arrival's kind. */
enum papergrotto_kind {
    PAPERGROTTO_GOOD = 0,
    PAPERGROTTO_PARITY = 1,
    PAPERGROTTO_FRAMING = 2,
    PAPERGROTTO_BREAK = 3
};

/* An arrival's fate: stored, lost, or why there was nothing to store. */
enum papergrotto_fate {
    PAPERGROTTO_STORED = 0,
    PAPERGROTTO_FLOW_SWALLOWED = 1,     /* XON or XOFF, obeyed */
    PAPERGROTTO_LOST = 2,               /* the queue is full */
    PAPERGROTTO_DAMAGED_DISCARDED = 3,
    PAPERGROTTO_BREAK_IGNORED = 4,
    PAPERGROTTO_ENDING_DISCARDED = 5    /* a CR that gives nothing */
};

/* How a confirmation is judged. */
enum papergrotto_judgement {
    PAPERGROTTO_ACCEPTED = 0,           /* the first, or the next number */
    PAPERGROTTO_ACCEPTED_WITH_GAP = 1,  /* any other number */
    PAPERGROTTO_REPEATED = 2,           /* the number last accepted: adds no litres */
    PAPERGROTTO_SET_ASIDE = 3           /* holds a damaged character: never counted */
};

/* A fresh record. To reset a channel, store it over the channel's record. */
struct papergrotto_channel papergrotto_fresh(void);

/* ---- what a polling loop does ---- */

/* One arrival. values[0]: the fate. Refusal 2. */
struct papergrotto_told papergrotto_arrive(struct papergrotto_channel *channel, uint8_t kind,
                                           uint8_t byte);

/* One line turn, a character time. values[0]: 0 nothing goes; or 1, and values[1] the byte to
 * send. */
struct papergrotto_told papergrotto_turn(struct papergrotto_channel *channel);

/* Whether the waiting items reach the service threshold: what a pick asks of each channel. */
bool papergrotto_ready(struct papergrotto_channel channel);

/* ---- what the host does ---- */

/* Reads n characters, 0 to PAPERGROTTO_MOST: the images of the oldest that wait go into the buffer
 * from the place on. values[0] to [2]: characters removed, how many of them had the overrun flag,
 * bytes written. Where PAPERGROTTO_MOST were removed one may be left: a host that wants them all
 * reads again. Refusals 3 and 4. */
struct papergrotto_told papergrotto_read(struct papergrotto_channel *channel, size_t n,
                                         uint8_t *buffer, size_t length, size_t place);

/* Loads the first of the bytes, as many as there is room for. values[0]: how many. */
struct papergrotto_told papergrotto_load(struct papergrotto_channel *channel, const uint8_t *bytes,
                                         size_t length);

/* Takes new settings. Refusal 5. */
struct papergrotto_told papergrotto_take_settings(struct papergrotto_channel *channel,
                                                  const uint8_t *bytes, size_t length);

/* Special character 1 to 4 goes out at the next turn. Refusals 6 and 7. */
struct papergrotto_told papergrotto_ask_special(struct papergrotto_channel *channel,
                                                uint8_t number);

/* CTS is now 0 or 1. Refusal 10. */
struct papergrotto_told papergrotto_set_cts(struct papergrotto_channel *channel, uint8_t value);

/* values[0] to [3]: waiting items (PAPERGROTTO_MOST at most), bytes in the transmit queue, stopped
 * (1) or running (0), loss count. */
struct papergrotto_told papergrotto_state(struct papergrotto_channel channel);

/* ---- what the records computer does with a marked stream ---- */

/* For each character of the stream 0 (good) or 1 (damaged) goes into the front of sorts, and its
 * byte into the front of bytes; the rest of both stays. values[0]: how many. Refusals 9 and 8. */
struct papergrotto_told papergrotto_decode(const uint8_t *stream, size_t length,
                                           uint8_t *sorts, size_t sorts_length,
                                           uint8_t *bytes, size_t bytes_length);

/* How many bytes of the stream stand before its first FF: all, where there is none. */
size_t papergrotto_clean_front(const uint8_t *stream, size_t length);

/* The confirmations of the filling line in the stream: STX, a number of four digits, a space, one to
 * six digits of litres, ETX. Each entry goes to the same place of four lists, from their fronts on:
 * the place of its STX among the characters of the stream, from 0; its number; its litres; and an
 * enum papergrotto_judgement. Of one that is set aside number and litres are 0. The rest of all four
 * stays. Lengths are counted in elements; the shortest of the four decides how many entries there is
 * room for. values[0]: how many entries; values[1]: the sum of the accepted litres. Refusals 8 and
 * 16, in this order. 16 also says that the characters or the litres are more than a third of what 64
 * bits count: such a stream has 79 terabytes or more. */
struct papergrotto_told papergrotto_confirmations(const uint8_t *stream, size_t length,
                                                  size_t *places, size_t places_length,
                                                  uint16_t *numbers, size_t numbers_length,
                                                  uint32_t *litres, size_t litres_length,
                                                  uint8_t *judgements, size_t judgements_length);

/* ---- what a fitter asks ---- */

/* "Choosing the rate": of the divisors 8, 32, 128, 512 and 2048 and the periods 1 to 255 the pair whose
 * rate, the clock over divisor times period, is nearest to the wanted one; of two that are as near, the
 * smaller divisor, then the smaller period. The clock is in Hz, 1,000,000 to 60,000,000, the rate 1 to
 * 230,400. values[0]: the divisor; values[1]: the period; values[2] and values[3]: the deviation of the
 * real rate in millionths of the wanted one, cut toward zero: its size, and 1 where it is negative, so 0
 * where it was cut to 0. Refusals 12 and 13, in this order. */
struct papergrotto_told papergrotto_rate(uint32_t clock, uint32_t wanted);

/* "Two boxes in a row": the single line-ending setting, 0 to 7, that acts on every list of good
 * characters as the first box's setting followed by the second's; the least, where two do. values[0]: 1,
 * and values[1] the setting; or 0, where none does: a lone NL shows it, which the two boxes drop and each
 * single setting lets out. Refusal 5, with field 4, where either is above 7. */
struct papergrotto_told papergrotto_one_ending(uint32_t first, uint32_t second);

#ifdef __cplusplus
}
#endif

#endif
