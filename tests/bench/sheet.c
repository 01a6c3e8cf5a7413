/* The yield sheet in plain C, written for speed and proved by nothing: what the proved program is raced against. It includes no
 * header: the kit's own compiler has none. */
typedef unsigned char uint8_t;
typedef unsigned int uint32_t;
typedef unsigned long uint64_t;
typedef unsigned long size_t;
typedef long ssize_t;
ssize_t read(int, void *, size_t);
ssize_t write(int, const void *, size_t);
void _exit(int);
void *memcpy(void *, const void *, size_t);
size_t strlen(const char *);

enum { PIECE = 65536, ROOM = 64, OUTSIDE = 13, OTHER = 12, NONE = 10000 };

static uint8_t piece[PIECE], out[PIECE];
static size_t put;

static uint64_t passed, place, sum, stx;
static uint32_t number, litres, last = NONE;
static int seen = OUTSIDE, damaged, part;

static void flush(void)
{
    size_t done = 0;

    while (done < put) {
        ssize_t took = write(1, out + done, put - done);
        if (took < 0)
            _exit(1);
        done += (size_t)took;
    }
    put = 0;
}

static void word(const char *text)
{
    size_t length = strlen(text);

    memcpy(out + put, text, length);
    put += length;
}

static void decimal(uint64_t value)
{
    char digits[20];
    size_t at = sizeof digits;

    do {
        digits[--at] = (char)('0' + value % 10);
        value /= 10;
    } while (value != 0);
    memcpy(out + put, digits + at, sizeof digits - at);
    put += sizeof digits - at;
}

static void entry(const char *judged)
{
    if (PIECE - put < ROOM)
        flush();
    decimal(stx);
    word(judged);
    if (!damaged) {
        out[put++] = (uint8_t)('0' + number / 1000);
        out[put++] = (uint8_t)('0' + number / 100 % 10);
        out[put++] = (uint8_t)('0' + number / 10 % 10);
        out[put++] = (uint8_t)('0' + number % 10);
        out[put++] = ' ';
        decimal(litres);
    }
    out[put++] = '\n';
}

static void close_run(void)
{
    if (damaged) {
        entry(" aside");
    } else if (seen >= 6 && seen <= 11) {
        if (number == last) {
            entry(" repeated ");
        } else {
            entry(last == NONE || number == (last + 1) % 10000 ? " accepted " : " gap ");
            last = number;
            sum += litres;
        }
    }
    seen = OUTSIDE;
}

static void character(uint8_t byte, int bad)
{
    if (!bad && byte == 0x02) {
        stx = passed;
        seen = damaged = 0;
        number = litres = 0;
    } else if (!bad && byte == 0x03) {
        if (seen != OUTSIDE)
            close_run();
    } else if (seen != OUTSIDE) {
        damaged |= bad;
        if (seen < 11 && (seen == 4 ? byte == ' ' : (unsigned)byte - '0' <= 9)) {
            if (seen < 4)
                number = 10 * number + byte - '0';
            else if (seen > 4)
                litres = 10 * litres + byte - '0';
            seen++;
        } else {
            seen = OTHER;
        }
    }
    passed++;
}

static void last_line(const char *text, uint64_t value)
{
    if (PIECE - put < ROOM)
        flush();
    word(text);
    decimal(value);
    out[put++] = '\n';
    flush();
}

/* 1 where an FF is broken. */
static int take(uint8_t byte)
{
    if (part == 0) {
        if (byte == 0xFF) {
            part = 1;
        } else {
            place += 1;
            character(byte, 0);
        }
    } else if (part == 1) {
        if (byte == 0x00) {
            part = 2;
            return 0;
        }
        if (byte != 0xFF)
            return 1;
        part = 0;
        place += 2;
        character(0xFF, 0);
    } else {
        part = 0;
        place += 3;
        character(byte, 1);
    }
    return 0;
}

/* Passes over what stands outside every run; how many bytes. */
static ssize_t outside(const uint8_t *from, const uint8_t *end)
{
    const uint8_t *at = from;

    if (part != 0 || seen != OUTSIDE)
        return 0;
    while (at < end && *at != 0x02 && *at != 0xFF)
        at++;
    passed += (uint64_t)(at - from);
    place += (uint64_t)(at - from);
    return at - from;
}

int main(void)
{
    ssize_t got;

    while ((got = read(0, piece, PIECE)) > 0) {
        for (ssize_t at = 0; at < got; at++) {
            at += outside(piece + at, piece + got);
            if (at < got && take(piece[at])) {
                last_line("refused 8 ", place);
                return 0;
            }
        }
        flush();
    }
    if (got == 0)
        last_line(part == 0 ? "litres " : "refused 8 ", part == 0 ? sum : place);
    return 0;
}
