/* Compares the header with the compiled library: calls alter a record, and every field must then be
 * found where the header says that it stands; and each fate, each judgement of a confirmation and the
 * refusals of their list and of the choice of a rate must have the header's numbers. The last line is 'N passed, M failed'. */
#include "papergrotto.h"

#include <stdalign.h>
#include <stdio.h>
#include <string.h>

static int passed, failed;

static void expect(bool holds, const char *what)
{
    if (holds) {
        passed++;
    } else {
        failed++;
        printf("NOT SO: %s\n", what);
    }
}

#define EXPECT(what) expect(what, #what)

enum {
    AROUND = 7 * PAPERGROTTO_CHANNEL_ALIGNMENT,
    HELD = PAPERGROTTO_DEPTH - 1    /* the place behind the twelve */
};

/* A record between bytes that no call may touch. It is aligned as the header says and no better, so
 * that a call that asks for more is found out. */
struct guarded {
    alignas(2 * PAPERGROTTO_CHANNEL_ALIGNMENT) uint8_t front[AROUND];
    struct papergrotto_channel channel;
    uint8_t back[AROUND];
};

static struct guarded guarded_by(int fill)
{
    struct guarded made;

    memset(&made, fill, sizeof made);
    made.channel = papergrotto_fresh();
    return made;
}

static bool untouched(const struct guarded *made, int fill)
{
    for (size_t at = 0; at < AROUND; at++)
        if (made->front[at] != fill || made->back[at] != fill)
            return false;
    return true;
}

/* All fifteen fields: XON 51, XOFF 53, the other specials 61 and 62, the literal-next character 71 */
static const uint8_t settings[PAPERGROTTO_SETTINGS] = {4, 1, 0, 7, 2, 1, 1, PAPERGROTTO_MOST, 1, 1, 0x51, 0x53, 0x61, 0x62, 0x71};

static void sizes(void)
{
    EXPECT(sizeof(struct papergrotto_channel) == PAPERGROTTO_CHANNEL_SIZE);
    EXPECT(alignof(struct papergrotto_channel) == PAPERGROTTO_CHANNEL_ALIGNMENT);
    EXPECT(sizeof(struct papergrotto_told) == 5 * sizeof(size_t));
}

/* A fresh record: written whole, and nothing beside it. */
static void fresh(void)
{
    static const uint8_t paper[PAPERGROTTO_SETTINGS] = {1, 1, 0, 0, 0, 0, 0, 1, 0, 0, 0x11, 0x13, 0x00, 0x00, 0x16};
    struct guarded made = guarded_by(0xA5);

    EXPECT(made.channel.queue.count == 0 && made.channel.queue.losses == 0 && made.channel.transmitter.count == 0);
    EXPECT(memcmp(made.channel.settings, paper, sizeof paper) == 0);
    EXPECT(!made.channel.flags.literal && made.channel.flags.running && !made.channel.transmitter.cts);
    EXPECT(untouched(&made, 0xA5));
}

static void receive_queue(void)
{
    struct guarded made = guarded_by(0x5A);
    struct papergrotto_channel *channel = &made.channel;
    uint8_t buffer[PAPERGROTTO_IMAGE];

    EXPECT(papergrotto_take_settings(channel, settings, sizeof settings).refusal == 0);
    EXPECT(memcmp(channel->settings, settings, sizeof settings) == 0);
    papergrotto_arrive(channel, PAPERGROTTO_GOOD, 0x41);
    papergrotto_arrive(channel, PAPERGROTTO_GOOD, 0xFF);
    papergrotto_arrive(channel, PAPERGROTTO_PARITY, 0x43);
    EXPECT(channel->queue.count == 3);
    EXPECT(channel->queue.kinds[0] == 0 && channel->queue.kinds[1] == 1 && channel->queue.kinds[2] == 2);
    EXPECT(channel->queue.bytes[0] == 0x41 && channel->queue.bytes[2] == 0x43);
    for (int more = 3; more < PAPERGROTTO_DEPTH + 0x203; more++)
        papergrotto_arrive(channel, PAPERGROTTO_GOOD, (uint8_t)(more < PAPERGROTTO_DEPTH ? 0x30 + more : 0x21));
    EXPECT(channel->queue.count == PAPERGROTTO_DEPTH && channel->queue.losses == 0x203);
    EXPECT(papergrotto_state(*channel).values[0] == PAPERGROTTO_MOST && papergrotto_state(*channel).values[3] == 0x203);
    EXPECT(channel->queue.bytes[HELD] == 0x3C && channel->queue.flags[HELD] == 1 && channel->queue.flags[HELD - 1] == 0);
    EXPECT(papergrotto_read(channel, 1, buffer, sizeof buffer, 0).values[2] == 1 && buffer[0] == 0x41);
    EXPECT(channel->queue.count == 12 && channel->queue.kinds[0] == 1 && channel->queue.flags[HELD - 1] == 1 && channel->queue.flags[HELD] == 0);
    EXPECT(untouched(&made, 0x5A));
}

static void transmitter_and_flags(void)
{
    struct guarded made = guarded_by(0x3C);
    struct papergrotto_channel *channel = &made.channel;
    static const uint8_t sent[] = {0x0A, 0x42, 0x43};

    papergrotto_take_settings(channel, settings, sizeof settings);
    EXPECT(papergrotto_load(channel, sent, sizeof sent).values[0] == 3);
    EXPECT(channel->transmitter.count == 3 && memcmp(channel->transmitter.bytes, sent, sizeof sent) == 0);
    EXPECT(papergrotto_set_cts(channel, 1).refusal == 0 && channel->transmitter.cts);
    EXPECT(papergrotto_turn(channel).values[1] == 0x0D && channel->transmitter.owed && channel->transmitter.count == 2);
    EXPECT(papergrotto_ask_special(channel, 4).refusal == 0 && channel->transmitter.waits && channel->transmitter.special == 0x62);
    EXPECT(papergrotto_turn(channel).values[1] == 0x62 && !channel->transmitter.waits && channel->transmitter.owed);
    EXPECT(papergrotto_arrive(channel, PAPERGROTTO_GOOD, 0x53).values[0] == PAPERGROTTO_FLOW_SWALLOWED && !channel->flags.running);
    EXPECT(papergrotto_arrive(channel, PAPERGROTTO_GOOD, 0x71).values[0] == PAPERGROTTO_STORED && channel->flags.literal && channel->flags.running);
    EXPECT(untouched(&made, 0x3C));
}

/* What an arrival is told that comes when so many good characters wait; field 1 discards, 2 ignores, 4 is row 4 and 5 swallows. */
static size_t fate(int waiting, uint8_t kind, uint8_t byte)
{
    static const uint8_t nothing_stored[PAPERGROTTO_SETTINGS] = {2, 0, 0, 4, 2, 0, 0, 1, 0, 0, 0x11, 0x13, 0x00, 0x00, 0x16};
    struct papergrotto_channel channel = papergrotto_fresh();

    papergrotto_take_settings(&channel, nothing_stored, sizeof nothing_stored);
    while (waiting-- > 0)
        papergrotto_arrive(&channel, PAPERGROTTO_GOOD, 0x41);
    return papergrotto_arrive(&channel, kind, byte).values[0];
}

static void fates(void)
{
    EXPECT(fate(HELD, PAPERGROTTO_GOOD, 0x42) == PAPERGROTTO_STORED);
    EXPECT(fate(PAPERGROTTO_DEPTH, PAPERGROTTO_GOOD, 0x42) == PAPERGROTTO_LOST);
    for (int waiting = 0; waiting <= PAPERGROTTO_DEPTH; waiting++) {
        EXPECT(fate(waiting, PAPERGROTTO_GOOD, 0x11) == PAPERGROTTO_FLOW_SWALLOWED);
        EXPECT(fate(waiting, PAPERGROTTO_GOOD, 0x13) == PAPERGROTTO_FLOW_SWALLOWED);
        EXPECT(fate(waiting, PAPERGROTTO_PARITY, 0x13) == PAPERGROTTO_DAMAGED_DISCARDED);
        EXPECT(fate(waiting, PAPERGROTTO_FRAMING, 0x0D) == PAPERGROTTO_DAMAGED_DISCARDED);
        EXPECT(fate(waiting, PAPERGROTTO_BREAK, 0x13) == PAPERGROTTO_BREAK_IGNORED);
        EXPECT(fate(waiting, PAPERGROTTO_GOOD, 0x0D) == PAPERGROTTO_ENDING_DISCARDED);
    }
}

/* 5 litres, the same again, 7 with a gap, and one with a damaged digit */
static const uint8_t stream[] = "\2" "0001 5\3\2" "0001 5\3\2" "0003 7\3\2" "00\xFF\0" "04 1\3";

enum { ENTRIES = 4, BYTES = sizeof stream - 1 };

static void confirmations(void)
{
    size_t places[ENTRIES];
    uint16_t numbers[ENTRIES];
    uint32_t litres[ENTRIES];
    uint8_t judgements[ENTRIES];

    EXPECT(papergrotto_confirmations(stream, BYTES, places, ENTRIES, numbers, ENTRIES, litres, ENTRIES - 1,
                                     judgements, ENTRIES).refusal == PAPERGROTTO_TOO_MANY_ENTRIES);
    EXPECT(papergrotto_confirmations(stream, BYTES - 5, places, ENTRIES, numbers, ENTRIES, litres, ENTRIES,
                                     judgements, ENTRIES).refusal == PAPERGROTTO_BROKEN_STREAM);
    struct papergrotto_told told = papergrotto_confirmations(stream, BYTES, places, ENTRIES, numbers, ENTRIES,
                                                             litres, ENTRIES, judgements, ENTRIES);
    EXPECT(told.refusal == PAPERGROTTO_SERVED && told.values[0] == ENTRIES && told.values[1] == 12);
    EXPECT(places[0] == 0 && places[1] == 8 && places[2] == 16 && places[3] == 24);
    EXPECT(numbers[0] == 1 && numbers[1] == 1 && numbers[2] == 3 && numbers[3] == 0);
    EXPECT(litres[0] == 5 && litres[1] == 5 && litres[2] == 7 && litres[3] == 0);
    EXPECT(judgements[0] == PAPERGROTTO_ACCEPTED);
    EXPECT(judgements[1] == PAPERGROTTO_REPEATED);
    EXPECT(judgements[2] == PAPERGROTTO_ACCEPTED_WITH_GAP);
    EXPECT(judgements[3] == PAPERGROTTO_SET_ASIDE);
}

/* the request's own case, one that is below the wanted rate, and both refusals */
static void rates(void)
{
    struct papergrotto_told told = papergrotto_rate(25000000, 9600);

    EXPECT(told.refusal == PAPERGROTTO_SERVED && told.values[0] == 32 && told.values[1] == 81);
    EXPECT(told.values[2] == 4693 && told.values[3] == 0);
    told = papergrotto_rate(25000000, 19200);
    EXPECT(told.refusal == PAPERGROTTO_SERVED && told.values[0] == 8 && told.values[1] == 163);
    EXPECT(told.values[2] == 1469 && told.values[3] == 1);
    EXPECT(papergrotto_rate(60000001, 9600).refusal == PAPERGROTTO_OUTSIDE_RANGE);
    EXPECT(papergrotto_rate(25000000, 230400).refusal == PAPERGROTTO_TOO_FAR);
}

int main(void)
{
    sizes();
    fresh();
    receive_queue();
    transmitter_and_flags();
    fates();
    confirmations();
    rates();
    printf("%d passed, %d failed\n", passed, failed);
    return failed != 0;
}
