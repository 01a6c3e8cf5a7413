/* The paper's frame program in plain C, written for speed and proved by nothing: what the proved program is raced against.
 *
 * State is altered where it stands, queues are rings, digits and pairs of digits come from tables, and input and output go in
 * large pieces. It includes no header: the kit's own compiler has none. */
typedef unsigned char uint8_t;
typedef unsigned short uint16_t;
typedef unsigned long size_t;
typedef long ssize_t;
ssize_t read(int, void *, size_t);
ssize_t write(int, const void *, size_t);
void _exit(int);
void *memcpy(void *, const void *, size_t);
void *memset(void *, int, size_t);

enum {
    DEPTH = 13,         /* "a receive queue of 12 items", and "One more place is to hold an item behind the twelve" */
    MOST = 12,          /* "a read asks for at most 12", "State still shows at most 12 waiting" */
    TRANSMIT_DEPTH = 12, /* "a transmit queue of 12 bytes" */
    FRAME = 34,         /* "at most 34 bytes" */
    NO_FRAME = 69,      /* the count of digits of a line that refusal 11 is due to: odd, so no frame has it */
    PIECE = 65536,
    OUT = 65536,
    LONGEST = 79        /* an answer's longest line: 00, characters, flagged, 36 bytes, and the newline */
};

/* the fields of the settings, from 0 */
enum { DAMAGED, BREAKS, STRIP, ENDINGS, FLOW, IMPLIED, LITERAL, THRESHOLD, HOLD, EXPAND, XON, XOFF, THIRD, FOURTH, QUOTE };

enum { GOOD, PARITY, FRAMING, BREAK };                  /* an arrival's kinds */
enum { PASS = 1, DISCARD, NULL_BYTE, MARK };            /* field 1 */
enum { PLAIN, DOUBLED, DAMAGED_BYTE };                  /* an item's kinds */
/* fates: "0 stored", "2 lost", and why nothing was stored */
enum { STORED, FLOW_SWALLOWED, LOST, DAMAGED_DISCARDED, BREAK_IGNORED, ENDING_DISCARDED };

typedef struct {
    uint8_t settings[15];
    uint8_t literal, stopped;
    uint8_t head, count;                /* receive queue: a ring of 16 places, of which at most 13 are used */
    uint8_t kind[16], byte[16], flag[16];
    uint16_t losses;
    uint8_t first, sending;             /* transmit queue: the same, at most 12 */
    uint8_t line[16];
    uint8_t owed, waits, special, cts;  /* an owed NL; whether a special waits, and which; CTS */
} Channel;

static const uint8_t FRESH[15] = {1, 1, 0, 0, 0, 0, 0, 1, 0, 0, 0x11, 0x13, 0, 0, 0x16};
static const uint8_t LOW[10] = {1, 0, 0, 0, 0, 0, 0, 1, 0, 0};
static const uint8_t HIGH[10] = {4, 1, 1, 7, 2, 1, 1, MOST, 1, 1};
static const uint8_t CR_GIVES[8] = {13, 13, 10, 10, 0, 0, 0, 0};       /* 0 is "nothing" */
static const uint8_t NL_GIVES[8] = {10, 13, 10, 13, 10, 13, 10, 13};

static Channel channels[4];
static uint8_t place = 3;               /* the channel named last: "a fresh card looks at 0 first" */
static uint8_t digits[256];             /* a digit's value, 16 for what is none */
static char pairs[256][2];              /* a byte's two digits */
static uint8_t piece[PIECE];
static char out[OUT];
static size_t put;

static void reset(Channel *c) {
    memset(c, 0, sizeof *c);
    memcpy(c->settings, FRESH, 15);
}

static inline void say(uint8_t b) {
    memcpy(out + put, pairs[b], 2);
    put += 2;
}

static inline void say2(uint8_t a, uint8_t b) {
    say(a);
    say(b);
}

/* "A loss now happens at thirteen, and the flag goes on the newest item, which is the held one." */
static inline void store(Channel *c, uint8_t kind, uint8_t b) {
    if (c->count == DEPTH) {
        c->flag[(c->head + DEPTH - 1) & 15] = 1;
        if (c->losses < 65535) c->losses++;
        say2(0, LOST);
        return;
    }
    unsigned at = (c->head + c->count++) & 15;
    c->kind[at] = kind;
    c->byte[at] = b;
    c->flag[at] = 0;
    say2(0, STORED);
}

static inline void store_good(Channel *c, uint8_t b) {
    store(c, c->settings[DAMAGED] == MARK && b == 255 ? DOUBLED : PLAIN, b);
}

/* the seven steps of "One arrival" */
static void arrive(Channel *c, uint8_t kind, uint8_t b) {
    const uint8_t *s = c->settings;
    if (kind > BREAK) { say(2); return; }
    if (kind == BREAK) {
        if (!s[BREAKS]) { say2(0, BREAK_IGNORED); return; }
        c->literal = 0;
        store(c, s[DAMAGED] == MARK ? DAMAGED_BYTE : PLAIN, 0);
        return;
    }
    if (kind != GOOD && s[DAMAGED] != PASS) {
        if (s[DAMAGED] == DISCARD) { say2(0, DAMAGED_DISCARDED); return; }
        c->literal = 0;
        if (s[DAMAGED] == NULL_BYTE) store(c, PLAIN, 0); else store(c, DAMAGED_BYTE, b);
        return;
    }
    if (s[STRIP]) b &= 127;
    if (s[IMPLIED]) c->stopped = 0;     /* step 6 stops it again where it recognises XOFF */
    if (c->literal) { c->literal = 0; store_good(c, b); return; }
    if (s[LITERAL] && b == s[QUOTE]) { c->literal = 1; store_good(c, b); return; }
    if (s[FLOW] && (b == s[XON] || b == s[XOFF])) {
        c->stopped = b != s[XON];
        if (s[FLOW] == 1) store_good(c, b); else say2(0, FLOW_SWALLOWED);
        return;
    }
    if (b == 13 || b == 10) {
        b = b == 13 ? CR_GIVES[s[ENDINGS]] : NL_GIVES[s[ENDINGS]];
        if (!b) { say2(0, ENDING_DISCARDED); return; }
    }
    store_good(c, b);
}

static void read_characters(Channel *c, uint8_t n) {
    if (n > MOST) { say(3); return; }
    if (n > c->count) n = c->count;
    say2(0, n);
    size_t at = put;                    /* the count of flagged ones goes here */
    put += 2;
    unsigned flagged = 0;
    for (unsigned i = 0; i < n; i++) {
        unsigned k = (c->head + i) & 15;
        flagged += c->flag[k];
        if (c->kind[k] == PLAIN) say(c->byte[k]);
        else if (c->kind[k] == DOUBLED) say2(255, 255);
        else { say2(255, 0); say(c->byte[k]); }
    }
    memcpy(out + at, pairs[flagged], 2);
    c->head = (c->head + n) & 15;
    c->count -= n;
}

static void load(Channel *c, const uint8_t *bytes, size_t n) {
    unsigned room = TRANSMIT_DEPTH - c->sending;
    if (n > room) n = room;
    for (unsigned i = 0; i < n; i++) c->line[(c->first + c->sending + i) & 15] = bytes[i];
    c->sending += n;
    say2(0, n);
}

static void turn(Channel *c) {
    const uint8_t *s = c->settings;
    if (c->waits) { c->waits = 0; say2(0, 1); say(c->special); return; }
    if (c->stopped || (s[HOLD] && !c->cts)) { say2(0, 0); return; }
    if (c->owed) { c->owed = 0; say2(0, 1); say(10); return; }
    if (!c->sending) { say2(0, 0); return; }
    uint8_t b = c->line[c->first];
    c->first = (c->first + 1) & 15;
    c->sending--;
    if (s[EXPAND] && b == 10) { c->owed = 1; b = 13; }
    say2(0, 1);
    say(b);
}

static void set_cts(Channel *c, uint8_t value) {
    if (value > 1) { say(10); return; }
    c->cts = value;
    say(0);
}

static void send_special(Channel *c, uint8_t s) {
    if (s < 1 || s > 4) { say(6); return; }
    if (c->waits) { say(7); return; }
    c->waits = 1;
    c->special = c->settings[XON + s - 1];
    say(0);
}

static void take_settings(Channel *c, const uint8_t *b, unsigned n) {
    if (n != 15) { say2(5, 0); return; }
    for (unsigned i = 0; i < 10; i++)
        if (b[i] < LOW[i] || b[i] > HIGH[i]) { say2(5, i + 1); return; }
    if (b[FLOW] && b[XON] == b[XOFF]) { say2(5, 12); return; }
    if (b[FLOW] && b[LITERAL] && (b[QUOTE] == b[XON] || b[QUOTE] == b[XOFF])) { say2(5, 15); return; }
    memcpy(c->settings, b, 15);
    c->literal = 0;
    c->stopped = 0;
    say(0);
}

static void pick(void) {
    for (unsigned k = 1; k < 5; k++) {
        unsigned i = (place + k) & 3;
        if (channels[i].count >= channels[i].settings[THRESHOLD]) { place = i; say2(0, i); return; }
    }
    say2(0, 255);
}

static void state(Channel *c) {
    say2(0, c->count < MOST ? c->count : MOST);
    say2(c->sending, c->stopped);
    say2(c->losses >> 8, c->losses & 255);
}

/* answers a frame of n bytes; n is 0 where the line spells none */
static void answer(const uint8_t *f, unsigned n) {
    static const uint8_t LONG[11] = {255, 4, 3, 2, 2, 3, 3, 2, 1, 2, 2};   /* the listed lengths, the least for 03 and 07 */
    if (!n || f[0] > 10 || n < LONG[f[0]] || (n > LONG[f[0]] && f[0] != 3 && f[0] != 7)) { say(11); return; }
    if (f[0] == 8) { pick(); return; }
    if (f[1] > 3) { say(1); return; }
    Channel *c = &channels[f[1]];
    switch (f[0]) {
    case 1: arrive(c, f[2], f[3]); break;
    case 2: read_characters(c, f[2]); break;
    case 3: load(c, f + 2, n - 2); break;
    case 4: turn(c); break;
    case 5: set_cts(c, f[2]); break;
    case 6: send_special(c, f[2]); break;
    case 7: take_settings(c, f + 2, n - 2); break;
    case 9: reset(c); say(0); break;
    case 10: state(c); break;
    }
}

static void flush(void) {
    size_t done = 0;
    while (done < put) {
        ssize_t n = write(1, out + done, put - done);
        if (n <= 0) _exit(1);
        done += n;
    }
    put = 0;
}

static void tables(void) {
    memset(digits, 16, sizeof digits);
    for (int i = 0; i < 10; i++) digits['0' + i] = i;
    for (int i = 0; i < 6; i++) digits['A' + i] = digits['a' + i] = 10 + i;
    for (int i = 0; i < 256; i++) {
        pairs[i][0] = "0123456789ABCDEF"[i >> 4];
        pairs[i][1] = "0123456789ABCDEF"[i & 15];
    }
    for (int i = 0; i < 4; i++) reset(&channels[i]);
}

static uint8_t frame[FRAME];
static unsigned begun;                  /* digits of the line so far, or NO_FRAME */
static uint8_t last;                    /* the last digit's value */

static void serve(const uint8_t *p, const uint8_t *end) {
    unsigned n = begun;
    while (p < end) {
        if (n == 0) {                   /* whole pairs at a line's start */
            unsigned k = 0;
            while (end - p >= 2 && k < FRAME) {
                unsigned a = digits[p[0]], b = digits[p[1]];
                if ((a | b) > 15) break;
                frame[k++] = a << 4 | b;
                p += 2;
            }
            n = 2 * k;
            if (p == end) break;
        }
        uint8_t c = *p++;
        if (c == '\n') {
            answer(frame, n & 1 ? 0 : n / 2);
            out[put++] = '\n';
            if (OUT - put < LONGEST) flush();
            n = 0;
        } else if (digits[c] < 16 && n < 2 * FRAME) {
            frame[n / 2] = last << 4 | digits[c];
            last = digits[c];
            n++;
        } else n = NO_FRAME;
    }
    begun = n;
}

int main(void) {
    ssize_t got;
    tables();
    do {
        got = read(0, piece, PIECE);
        if (got < 0) return 1;          /* half a line before an error is not answered */
        size_t n = got;
        if (got == 0 && begun) piece[n++] = '\n';       /* "A last line without its newline counts" */
        serve(piece, piece + n);
        flush();
    } while (got > 0);
    return 0;
}
