/* The proved code and plain C on streams made at random, compared byte for byte.
 *
 *   fuzz SECONDS SEED          streams 0, 1, 2, .. of a seed, for this many seconds
 *   fuzz SECONDS SEED STREAM   that one stream alone */
#include <stdio.h>
#include <stdlib.h>
#include <string.h>
#include <time.h>

#include "calls.h"
#include "plain_board.h"

#define MOST_BYTES 20000
#define MOST_CALLS 60000
#define MOST_ROOM (MOST_BYTES * 80)
#define GUARD 64

static const uint16_t read_only[] = {0x0100, 0x010A, 0xEEF9, 0xED8D, 0xED8F, 0xED8C, 0xEEFF, 0x0FFF};

/* ---- numbers */

static uint64_t state;

static uint64_t next(void)
{
    uint64_t z = state += 0x9E3779B97F4A7C15u;

    z = (z ^ z >> 30) * 0xBF58476D1CE4E5B9u;
    z = (z ^ z >> 27) * 0x94D049BB133111EBu;
    return z ^ z >> 31;
}

static uint32_t any(uint32_t below) { return (uint32_t)(next() >> 32) % below; }

static int one_in(uint32_t n) { return any(n) == 0; }

/* ---- a stream */

static struct stream {
    uint8_t bytes[MOST_BYTES];
    size_t n;
    uint32_t sizes[MOST_CALLS];
    size_t calls;
    uint16_t product, version;
    uint8_t serial[40];
    size_t serial_len;
    int64_t voltage, current, fine, consumed, charge;
    size_t room, into_room;
    uint8_t fill; /* what the lent buffers hold before */
} given;

static uint16_t last[PLAIN_SETTINGS]; /* the numbers sent last, near which pairs are tried */

static void put(uint8_t byte)
{
    if (given.n < MOST_BYTES)
        given.bytes[given.n++] = byte;
}

/* A frame with any number of data bytes, its sum right. text has room for 5 + 2 * count bytes. */
static size_t frame(uint8_t *text, unsigned command, const uint8_t *data, size_t count)
{
    static const char digits[] = "0123456789ABCDEF";
    unsigned sum = command;
    size_t n = 0;

    text[n++] = ':';
    text[n++] = (uint8_t)digits[command & 15];
    for (size_t i = 0; i <= count; i++) {
        unsigned byte = i < count ? data[i] : (0x55u - sum) & 0xFF;
        sum += byte;
        text[n++] = (uint8_t)digits[byte >> 4];
        text[n++] = (uint8_t)digits[byte & 15];
    }
    text[n++] = '\n';
    return n;
}

/* Damages a frame in one place; text has room for one byte more. */
static size_t damage(uint8_t *text, size_t n)
{
    static const uint8_t odd[] = {'a', 'f', 'G', '/', '@', ' ', '\r', 0, 0xFF, ':', '\n', '0', 'F'};
    size_t at = any((uint32_t)n);

    switch (any(8)) {
    case 0: /* another digit, so the sum is wrong */
        text[1 + any((uint32_t)n - 2)] = (uint8_t)("0123456789ABCDEF"[any(16)]);
        return n;
    case 1:
        text[at] = odd[any(sizeof odd)];
        return n;
    case 2:
        text[at] = (uint8_t)any(256);
        return n;
    case 3: /* one byte more */
        memmove(text + at + 1, text + at, n - at);
        text[at] = odd[any(sizeof odd)];
        return n + 1;
    case 4: /* one byte less */
        memmove(text + at, text + at + 1, n - at - 1);
        return n - 1;
    case 5: /* half a frame */
        return at;
    case 6: /* a carriage return before the newline */
        text[n] = '\n';
        text[n - 1] = '\r';
        return n + 1;
    default: /* no newline */
        return n - 1;
    }
}

static void put_frame(unsigned command, const uint8_t *data, size_t count)
{
    uint8_t text[512];
    size_t n = frame(text, command, data, count);

    if (one_in(12))
        n = damage(text, n);
    for (size_t i = 0; i < n; i++)
        put(text[i]);
}

static uint16_t any_id(void)
{
    static const uint16_t tops[] = {0x0000, 0xFFFF, 0x1234, 0x0102, 0x034D, 0x100A};
    uint16_t id = one_in(4) ? read_only[any(8)] : plain_settings[any(PLAIN_SETTINGS)].id;

    switch (any(24)) {
    case 0:
        return (uint16_t)(id + 1);
    case 1:
        return (uint16_t)(id - 1);
    case 2:
        return (uint16_t)(id << 8 | id >> 8);
    case 3:
        return one_in(2) ? (uint16_t)next() : tops[any(6)];
    default:
        return id;
    }
}

/* A number for a setting: at and around the ends of its range, its partner's number, and what lies half way to 0. */
static uint16_t any_number(size_t place)
{
    const struct plain_setting *s = &plain_settings[place];
    uint16_t by = (uint16_t)(any(3) - 1);

    switch (any(10)) {
    case 0:
        return (uint16_t)(s->lo + by);
    case 1:
        return (uint16_t)(s->hi + by);
    case 2:
    case 3:
        return (uint16_t)(last[s->partner] + by);
    case 4:
        return (uint16_t)(one_in(2) ? 0 : last[place]);
    case 5:
        return (uint16_t)((one_in(2) ? s->lo : last[s->partner]) / 2 + by);
    case 6:
        return (uint16_t)next();
    default:
        return (uint16_t)(s->lo + any(1u + s->hi - s->lo));
    }
}

static void put_set(void)
{
    size_t place = one_in(3) ? any(PLAIN_SETTINGS) : (size_t)(one_in(2) ? any(10) : 19 + any(2));
    const struct plain_setting *s = &plain_settings[place];
    uint8_t data[40];
    uint16_t id = one_in(8) ? any_id() : s->id, n = any_number(place);
    size_t width = one_in(10) ? any(5) : one_in(60) ? any(33) : s->width;

    for (size_t i = 0; i < sizeof data; i++)
        data[i] = (uint8_t)next();
    data[0] = (uint8_t)id;
    data[1] = (uint8_t)(id >> 8);
    data[2] = (uint8_t)(one_in(40) ? any(256) : 0);
    data[3] = (uint8_t)n;
    data[4] = (uint8_t)(n >> 8);
    if (s->lo <= n && n <= s->hi)
        last[place] = n;
    put_frame(8, data, one_in(60) ? any(3) : 3 + width);
}

static void put_get(uint16_t id)
{
    uint8_t data[40] = {(uint8_t)id, (uint8_t)(id >> 8), 0};

    if (one_in(40))
        data[2] = (uint8_t)next();
    put_frame(7, data, one_in(40) ? any(7) : 3);
}

/* any command with any data: the lengths around 35 bytes, 73 characters, among them */
static void put_other(void)
{
    static const uint8_t known[] = {1, 3, 4, 6, 6, 0xA};
    uint8_t data[64];
    size_t count = 0;

    for (size_t i = 0; i < sizeof data; i++)
        data[i] = (uint8_t)next();
    if (one_in(4))
        count = one_in(2) ? any(4) : 33 + any(5);
    put_frame(one_in(3) ? any(16) : known[any(sizeof known)], data, count);
}

/* a number of digits and an end, around 73 and far beyond */
static void put_long(void)
{
    size_t count = one_in(8) ? any(900) : 70 + any(9);

    put(':');
    while (count--)
        put((uint8_t)("0123456789ABCDEF"[any(16)]));
    put(one_in(3) ? ':' : '\n');
}

static void put_noise(void)
{
    static const uint8_t likely[] = ":\n:\n0123456789ABCDEFabcdef\r\t ";
    size_t count = one_in(8) ? any(120) : any(12);
    int wild = one_in(2);

    while (count--)
        put(wild ? (uint8_t)next() : likely[any(sizeof likely)]);
}

static void put_colons(void)
{
    for (size_t count = 1 + any(4); count; count--)
        put(':');
    if (one_in(2))
        put('\n');
}

static void put_item(void)
{
    uint32_t kind = any(100);

    if (kind < 45)
        put_set();
    else if (kind < 70)
        put_get(any_id());
    else if (kind < 85)
        put_other();
    else if (kind < 90)
        put_long();
    else if (kind < 95)
        put_noise();
    else if (kind < 98)
        put_colons();
    else
        put('\n');
}

/* The whole table and every read-only value, asked for without damage: so tables and readings are compared as well. */
static void put_read_back(void)
{
    uint8_t text[16], data[3] = {0};

    given.bytes[given.n++] = '\n';
    for (size_t i = 0; i < PLAIN_SETTINGS + 8; i++) {
        uint16_t id = i < PLAIN_SETTINGS ? plain_settings[i].id : read_only[i - PLAIN_SETTINGS];
        data[0] = (uint8_t)id;
        data[1] = (uint8_t)(id >> 8);
        size_t n = frame(text, 7, data, 3);
        memcpy(given.bytes + given.n, text, n);
        given.n += n;
    }
}

/* ---- cutting, identity, readings, room */

static uint32_t any_size(uint32_t style)
{
    switch (style) {
    case 0:
        return UINT32_MAX;
    case 1:
        return 1;
    case 2:
        return any(4);
    case 3:
        return any(20);
    case 4:
        return 16;
    case 5:
        return any(200);
    default:
        return any_size(any(6));
    }
}

static void cut(void)
{
    struct plain_line line = {0};
    uint8_t data[PLAIN_MOST_DATA];
    uint32_t style = any(9), said, size;
    size_t ends = 0, random = any((uint32_t)given.n + 50), at = 0;

    /* sizes at random, and then all that is left */
    for (given.calls = 0; at < given.n && given.calls < MOST_CALLS - 2; given.calls++) {
        size = given.sizes[given.calls] = given.calls < random ? any_size(style) : UINT32_MAX;
        at += plain_hear(&line, given.bytes + at, size < given.n - at ? size : given.n - at, data, &said);
        ends += said != PLAIN_NOTHING;
    }
    given.sizes[given.calls++] = any_size(6);
    if (one_in(30)) /* the calls run out before */
        given.calls = any((uint32_t)given.calls);
    given.room = 75 * (ends + 1);
    if (one_in(12))
        given.room = any(one_in(2) ? 200 : (uint32_t)given.room);
    given.into_room = one_in(20) ? any(80) : 35 + any(3);
}

static int64_t any_reading(int64_t low, int64_t high)
{
    switch (any(12)) {
    case 0:
        return low;
    case 1:
        return high;
    case 2:
        return one_in(6) ? low - 1 : 0;
    case 3:
        return one_in(6) ? high + 1 : -1 < low ? low : -1;
    case 4:
        return one_in(20) ? (int64_t)next() : low;
    default:
        return low + (int64_t)(next() % (uint64_t)(high - low + 1));
    }
}

static void name_board(void)
{
    given.product = (uint16_t)next();
    given.version = (uint16_t)next();
    given.serial_len = one_in(30) ? any(41) : one_in(4) ? 31 + any(2) : any(33);
    for (size_t i = 0; i < sizeof given.serial; i++)
        given.serial[i] = (uint8_t)(0x20 + any(0x5F));
    if (one_in(30) && given.serial_len)
        given.serial[any((uint32_t)given.serial_len)] = (uint8_t)(one_in(2) ? 0x7F : one_in(2) ? 0x1F : any(256));
    given.voltage = any_reading(INT16_MIN, INT16_MAX);
    given.current = any_reading(INT16_MIN, INT16_MAX);
    given.fine = any_reading(INT32_MIN, INT32_MAX);
    given.consumed = any_reading(INT32_MIN, INT32_MAX);
    given.charge = any_reading(0, UINT16_MAX);
}

static void make_stream(uint64_t seed, uint64_t number)
{
    size_t length;

    state = seed * 0x9E3779B97F4A7C15u ^ number * 0xD1342543DE82EF95u;
    for (size_t i = 0; i < PLAIN_SETTINGS; i++)
        last[i] = plain_settings[i].factory;
    length = one_in(10) ? any(50) : one_in(8) ? any(8000) : any(1000);
    given.n = 0;
    while (given.n < length)
        put_item();
    put_read_back();
    cut();
    name_board();
    given.fill = (uint8_t)next();
}

/* ---- both sides */

enum { PROVED, PLAIN, SIDES };

static const char *const sides[] = {"Rattle", "plain C"};
static uint8_t *lent[SIDES];
static uint64_t answer[SIDES];

static int board_differs(void)
{
    const struct stream *g = &given;

    for (int i = 0; i < SIDES; i++) {
        memset(lent[i], g->fill, g->room + GUARD);
        answer[i] = (i == PROVED ? reedsatchel_bench_board : plain_board)(g->product, g->version, g->serial, g->serial_len, g->voltage,
                                                                          g->current, g->fine, g->consumed, g->charge, g->bytes, g->n,
                                                                          g->sizes, g->calls, lent[i], g->room);
    }
    return answer[PROVED] != answer[PLAIN] || memcmp(lent[PROVED], lent[PLAIN], g->room + GUARD);
}

static int stream_differs(void)
{
    const struct stream *g = &given;

    for (int i = 0; i < SIDES; i++) {
        memset(lent[i], g->fill, g->into_room + GUARD);
        answer[i] = (i == PROVED ? reedsatchel_bench_stream : plain_stream)(g->bytes, g->n, g->sizes, g->calls, lent[i], g->into_room);
    }
    return answer[PROVED] != answer[PLAIN] || memcmp(lent[PROVED], lent[PLAIN], g->into_room + GUARD);
}

static void show(const char *what, const uint8_t *bytes, size_t n)
{
    printf("%s, %llu bytes:\n", what, (unsigned long long)n);
    for (size_t i = 0; i < n; i++)
        if (bytes[i] == '\n')
            printf("\\n\n");
        else if (bytes[i] == '\\')
            printf("\\\\");
        else if (bytes[i] >= 0x20 && bytes[i] <= 0x7E)
            putchar(bytes[i]);
        else
            printf("\\x%02X", bytes[i]);
    putchar('\n');
}

static uint64_t tries, refusals[13];

/* The three firmware calls, a few times for each stream. */
static int calls_differ(void)
{
    uint8_t data[64], text[200];
    uint16_t id = any_id(), wished, partner;
    size_t count = any(one_in(3) ? 64 : 36), room = one_in(4) ? any(90) : 75, n, place = any(PLAIN_SETTINGS);
    uint32_t a, b;
    unsigned command = any(one_in(4) ? 256 : 16);

    for (size_t i = 0; i < sizeof data; i++)
        data[i] = (uint8_t)next();
    memset(lent[PROVED], given.fill, 200);
    memset(lent[PLAIN], given.fill, 200);
    a = reedsatchel_write_frame((uint8_t)command, data, count, lent[PROVED], room);
    b = plain_write_frame((uint8_t)command, data, count, lent[PLAIN], room);
    refusals[b >> 16]++;
    tries++;
    if (a != b || memcmp(lent[PROVED], lent[PLAIN], 200)) {
        printf("frame writing: command %u, %u data bytes, room %u: %08X, %08X\n", command, (unsigned)count, (unsigned)room, a, b);
        return 1;
    }
    n = frame(text, command, data, count);
    if (one_in(3))
        n = damage(text, n);
    room = one_in(8) ? any(40) : 35;
    a = reedsatchel_read_frame(text, n, lent[PROVED], room);
    b = plain_read_frame(text, n, lent[PLAIN], room);
    refusals[b >> 16]++;
    tries++;
    if (a != b || memcmp(lent[PROVED], lent[PLAIN], 200)) {
        printf("frame reading: room %u: %08X, %08X; ", (unsigned)room, a, b);
        show("the frame", text, n);
        return 1;
    }
    if (!one_in(8))
        id = plain_settings[place].id;
    wished = any_number(place);
    partner = one_in(8) ? (uint16_t)next() : any_number(plain_settings[place].partner);
    a = reedsatchel_nearest(id, wished, partner);
    b = plain_nearest(id, wished, partner);
    refusals[b >> 16]++;
    tries++;
    if (a != b) {
        printf("nearest: id %04X, wished %u, partner %u: %08X, %08X\n", id, wished, partner, a, b);
        return 1;
    }
    return 0;
}

/* ---- what is said */

static uint64_t streams, bytes;

static void take_out(size_t at, size_t n)
{
    memmove(given.bytes + at, given.bytes + at + n, given.n - at - n);
    given.n -= n;
}

/* Leaves out of the stream what is not needed for a difference. */
static void shrink(int (*differs)(void))
{
    static struct stream before;

    for (size_t part = given.n / 2; part; part /= 2)
        for (size_t at = 0; at + part <= given.n;) {
            before = given;
            take_out(at, part);
            if (differs())
                continue;
            given = before;
            at += part;
        }
    differs();
}

static void tell(const char *what, uint64_t seed, uint64_t number, int (*differs)(void), size_t room)
{
    struct plain_counts counts = plain_counts;
    size_t at = 0;

    printf("DIFFERENCE, %s: seed %llu, stream %llu\n", what, (unsigned long long)seed, (unsigned long long)number);
    show("the stream", given.bytes, given.n);
    shrink(differs);
    plain_counts = counts; /* what was tried to shorten the stream does not count */
    show("what of it is enough", given.bytes, given.n);
    while (at < room + GUARD && lent[PROVED][at] == lent[PLAIN][at])
        at++;
    for (int i = 0; i < SIDES; i++) {
        printf("%s answers %llu; ", sides[i], (unsigned long long)answer[i]);
        show("its buffer", lent[i], answer[i] < room && differs == board_differs ? answer[i] : room);
    }
    if (at < room + GUARD)
        printf("first differing byte: %llu (%02X, %02X)\n", (unsigned long long)at, lent[PROVED][at], lent[PLAIN][at]);
    printf("product %04X, version %04X, readings %lld %lld %lld %lld %lld, room %llu; ", given.product, given.version,
           (long long)given.voltage, (long long)given.current, (long long)given.fine, (long long)given.consumed, (long long)given.charge,
           (unsigned long long)room);
    show("serial", given.serial, given.serial_len);
    printf("sizes:");
    for (size_t i = 0; i < given.calls && i < 400; i++)
        printf(given.sizes[i] == UINT32_MAX ? " all" : " %u", given.sizes[i]);
    printf("\n");
}

static uint64_t frames(void)
{
    uint64_t sum = 0;

    for (size_t i = 1; i < PLAIN_OUTCOMES; i++)
        sum += i == 11 ? 0 : plain_counts.outcome[i];
    return sum;
}

/* the least of some counts, and a word where it is none */
static void least(const char *what, const uint64_t *counts, size_t n)
{
    uint64_t min = counts[0];

    for (size_t i = 1; i < n; i++)
        if (counts[i] < min)
            min = counts[i];
    printf("  %s: each of %u at least %llu times%s\n", what, (unsigned)n, (unsigned long long)min, min ? "" : " (NOT ALL REACHED)");
}

static void show_counts(void)
{
    const struct plain_counts *c = &plain_counts;

    printf("calls on boards: %llu no frame, %llu answered, %llu restarted, %llu ignored; refused", (unsigned long long)c->outcome[0],
           (unsigned long long)c->outcome[PLAIN_ANSWERED], (unsigned long long)c->outcome[PLAIN_RESTARTED],
           (unsigned long long)c->outcome[PLAIN_IGNORED]);
    for (unsigned i = 1; i <= 11; i++)
        printf(" %u: %llu%s", i, (unsigned long long)c->outcome[i], i < 11 ? "," : "\n");
    least("outcomes 1 to 11", c->outcome + 1, 11);
    printf("good frames by command:");
    for (unsigned i = 0; i < 16; i++)
        printf(" %X: %llu%s", i, (unsigned long long)c->command[i], i < 15 ? "," : "\n");
    least("commands", c->command, 16);
    least("settings, Gets", c->got, PLAIN_SETTINGS);
    least("settings, Sets stored", c->stored, PLAIN_SETTINGS);
    least("settings, Sets refused 10", c->nearest, PLAIN_SETTINGS);
    least("settings, Sets refused 9", c->wide, PLAIN_SETTINGS);
    least("read-only ids, Gets", c->read_only, 8);
    printf("nearest number 0 beside a range: %llu; starts refused 12: %llu; readings refused 12: %llu\n", (unsigned long long)c->zero,
           (unsigned long long)c->start, (unsigned long long)c->store);
    printf("the stream alone: %llu frames; refused", (unsigned long long)c->heard[0]);
    for (unsigned i = 1; i <= 4; i++)
        printf(" %u: %llu%s", i, (unsigned long long)c->heard[i], i < 4 ? "," : "\n");
    printf("firmware calls: %llu, of them refused", (unsigned long long)tries);
    for (unsigned i = 1; i <= 12; i++)
        if (refusals[i])
            printf(" %u: %llu", i, (unsigned long long)refusals[i]);
    printf("\n");
}

static void show_sum(const char *end)
{
    printf("%llu streams, %llu bytes, %llu frames%s\n", (unsigned long long)streams, (unsigned long long)bytes,
           (unsigned long long)frames(), end);
    fflush(stdout);
}

static int try_stream(uint64_t seed, uint64_t number)
{
    make_stream(seed, number);
    streams++;
    bytes += given.n;
    if (board_differs())
        tell("board", seed, number, board_differs, given.room);
    else if (stream_differs())
        tell("stream", seed, number, stream_differs, given.into_room);
    else if (calls_differ())
        printf("DIFFERENCE, firmware call: seed %llu, stream %llu\n", (unsigned long long)seed, (unsigned long long)number);
    else
        return 0;
    show_sum(", 1 difference");
    return 1;
}

static double now(void)
{
    struct timespec t;

    clock_gettime(CLOCK_MONOTONIC, &t);
    return (double)t.tv_sec + (double)t.tv_nsec * 1e-9;
}

int main(int count, char **words)
{
    double began = now(), told = began, seconds;
    uint64_t seed;

    for (int i = 0; i < SIDES; i++)
        if (!(lent[i] = malloc(MOST_ROOM + GUARD))) {
            printf("fuzz: no memory\n");
            return 2;
        }
    if (count < 3)
        return 2;
    seconds = (double)strtoull(words[1], NULL, 10);
    seed = strtoull(words[2], NULL, 10);
    printf("seed %llu\n", (unsigned long long)seed);
    if (count > 3) {
        if (try_stream(seed, strtoull(words[3], NULL, 10)))
            return 1;
    } else {
        for (uint64_t k = 0; !k || now() - began < seconds; k++) {
            if (try_stream(seed, k))
                return 1;
            if (now() - told >= 10) {
                told = now();
                printf("%.0f s: ", told - began);
                show_sum("");
            }
        }
    }
    show_counts();
    show_sum(", 0 differences");
    return 0;
}
