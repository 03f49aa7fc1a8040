/* See plain.h. */
#include "plain.h"

#define MOST_DATA 35
#define MOST_CHARS (1 + 2 * MOST_DATA + 2) /* command, data, check */
#define FRAME_ROOM (MOST_CHARS + 2)        /* colon and newline besides */
#define SUM 0x55u

#define REFUSED(number) ((uint32_t)(number) << 16)

/* What a character is worth; the flag tells the digit 0 from a character that is none. */
#define DIGIT 0x10
static const uint8_t worth[256] = {
    ['0'] = DIGIT | 0x0, ['1'] = DIGIT | 0x1, ['2'] = DIGIT | 0x2, ['3'] = DIGIT | 0x3,
    ['4'] = DIGIT | 0x4, ['5'] = DIGIT | 0x5, ['6'] = DIGIT | 0x6, ['7'] = DIGIT | 0x7,
    ['8'] = DIGIT | 0x8, ['9'] = DIGIT | 0x9, ['A'] = DIGIT | 0xA, ['B'] = DIGIT | 0xB,
    ['C'] = DIGIT | 0xC, ['D'] = DIGIT | 0xD, ['E'] = DIGIT | 0xE, ['F'] = DIGIT | 0xF,
};

static const char digits[] = "0123456789ABCDEF";

static uint8_t *put_byte(uint8_t *at, unsigned byte)
{
    at[0] = (uint8_t)digits[byte >> 4 & 0xF];
    at[1] = (uint8_t)digits[byte & 0xF];
    return at + 2;
}

uint32_t plain_write_frame(uint8_t command, const uint8_t *bytes, size_t count, uint8_t *out, size_t room)
{
    uint8_t *at = out;
    unsigned sum = command;

    if (room < FRAME_ROOM)
        return REFUSED(11);
    if (command > 15 || count > MOST_DATA)
        return REFUSED(12);
    *at++ = ':';
    *at++ = (uint8_t)digits[command];
    for (size_t i = 0; i < count; i++) {
        sum += bytes[i];
        at = put_byte(at, bytes[i]);
    }
    at = put_byte(at, SUM - sum);
    *at++ = '\n';
    return (uint32_t)(at - out);
}

uint32_t plain_read_frame(const uint8_t *frame, size_t length, uint8_t *into, size_t room)
{
    uint8_t byte[MOST_DATA + 1]; /* data and check: into is not touched before the sum is known */
    unsigned all = DIGIT, sum;
    const uint8_t *chars;
    size_t count, pairs;

    if (room < MOST_DATA)
        return REFUSED(11);
    if (length < 2 || frame[0] != ':' || frame[length - 1] != '\n')
        return REFUSED(2);
    chars = frame + 1;
    count = length - 2;
    if (count > MOST_CHARS)
        return REFUSED(1);
    for (size_t i = 0; i < count; i++)
        all &= worth[chars[i]];
    if (!(all & DIGIT))
        return REFUSED(2);
    if (count < 3 || count % 2 == 0)
        return REFUSED(3);
    sum = worth[chars[0]] & 0xFu;
    pairs = count / 2;
    for (size_t i = 0; i < pairs; i++) {
        byte[i] = (uint8_t)(worth[chars[2 * i + 1]] << 4 | (worth[chars[2 * i + 2]] & 0xF));
        sum += byte[i];
    }
    if ((sum & 0xFF) != SUM)
        return REFUSED(4);
    for (size_t i = 0; i + 1 < pairs; i++)
        into[i] = byte[i];
    return (uint32_t)(worth[chars[0]] & 0xF) << 8 | (uint32_t)(pairs - 1);
}

/* id, width, lo, hi, zero too, factory, partner, kind */
const struct plain_setting plain_settings[PLAIN_SETTINGS] = {
    {0x0320, 2, 0, 950, 0, 0, 1, PLAIN_AT_MOST},           /* low voltage */
    {0x0321, 2, 0, 950, 0, 0, 0, PLAIN_AT_LEAST},          /* its clear */
    {0x0322, 2, 0, 950, 0, 0, 3, PLAIN_AT_LEAST},          /* high voltage */
    {0x0323, 2, 0, 950, 0, 0, 2, PLAIN_AT_MOST},           /* its clear */
    {0x0328, 2, 0, 990, 0, 0, 5, PLAIN_AT_MOST},           /* low state of charge */
    {0x0329, 2, 0, 990, 0, 0, 4, PLAIN_AT_LEAST},          /* its clear */
    {0x032A, 2, 17400, 37200, 1, 0, 7, PLAIN_AT_MOST},     /* low temperature */
    {0x032B, 2, 17400, 37200, 1, 0, 6, PLAIN_AT_LEAST},    /* its clear */
    {0x032C, 2, 17400, 37200, 1, 0, 9, PLAIN_AT_LEAST},    /* high temperature */
    {0x032D, 2, 17400, 37200, 1, 0, 8, PLAIN_AT_MOST},     /* its clear */
    {0x0400, 1, 0, 1, 0, 1, 10, PLAIN_ALONE},              /* backlight on */
    {0x1000, 2, 1, 9999, 0, 200, 11, PLAIN_ALONE},         /* capacity */
    {0x1001, 2, 0, 950, 0, 132, 12, PLAIN_ALONE},          /* charged voltage */
    {0x1002, 2, 5, 100, 0, 40, 13, PLAIN_ALONE},           /* tail current */
    {0x1003, 2, 1, 50, 0, 3, 14, PLAIN_ALONE},             /* detection time */
    {0x1004, 2, 50, 99, 0, 90, 15, PLAIN_ALONE},           /* efficiency */
    {0x1005, 2, 100, 150, 0, 125, 16, PLAIN_ALONE},        /* Peukert */
    {0x1006, 2, 0, 200, 0, 10, 17, PLAIN_ALONE},           /* threshold */
    {0x1007, 2, 0, 12, 0, 3, 18, PLAIN_ALONE},             /* time-to-go delta */
    {0x1008, 2, 0, 990, 0, 500, 20, PLAIN_AT_MOST},        /* discharge floor */
    {0x1009, 2, 0, 990, 0, 900, 19, PLAIN_AT_LEAST},       /* its clear */
    {0xEEF5, 1, 1, 5, 0, 3, 21, PLAIN_ALONE},              /* scroll */
    {0xEEF7, 1, 0, 1, 0, 0, 22, PLAIN_ALONE},              /* unit */
    {0xEEFB, 2, 1, 9999, 0, 500, 23, PLAIN_ALONE},         /* shunt amps */
    {0xEEFC, 1, 0, 1, 0, 1, 24, PLAIN_ALONE},              /* buzzer */
    {0xEEFE, 1, 0, 9, 0, 5, 25, PLAIN_ALONE},              /* backlight */
};

static const struct plain_setting *find(uint16_t id)
{
    size_t from = 0, to = PLAIN_SETTINGS;

    while (from < to) {
        size_t middle = (from + to) / 2;
        if (plain_settings[middle].id == id)
            return &plain_settings[middle];
        if (plain_settings[middle].id < id)
            from = middle + 1;
        else
            to = middle;
    }
    return NULL;
}

static int in_range(const struct plain_setting *s, uint16_t number)
{
    return (s->lo <= number && number <= s->hi) || (s->zero_too && number == 0);
}

uint32_t plain_nearest(uint16_t id, uint16_t wished, uint16_t partner)
{
    const struct plain_setting *s = find(id);
    unsigned lo, hi, end, zero;

    if (!s)
        return REFUSED(7);
    lo = s->lo;
    hi = s->hi;
    zero = s->zero_too;
    if (s->kind != PLAIN_ALONE && !in_range(&plain_settings[s->partner], partner))
        return REFUSED(12);
    if (s->kind == PLAIN_AT_MOST && partner < hi)
        hi = partner;
    if (s->kind == PLAIN_AT_LEAST) {
        if (partner > lo)
            lo = partner;
        zero = zero && partner == 0;
    }
    /* What is allowed is lo..hi, and 0 if zero is set. Only a partner at 0 empties lo..hi, and then 0 is allowed. */
    if (lo > hi)
        return 0;
    end = wished < lo ? lo : wished > hi ? hi : wished;
    if (zero && wished < lo && wished <= lo - wished)
        return 0;
    return end;
}
