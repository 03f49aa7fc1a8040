/* Holds the three calls of libfirmware.a against the frames in print, against the edge of every refusal, and against plain.c on random
 * input, and looks that no byte changes which the calls do not own. `test [SEED]`; the last line has the counts.
 *
 * The archive has code for x86-64 alone. On another processor this file is compiled for x86-64 too and run by an emulator, and the C
 * library's headers there are those of the other processor. So it includes only the compiler's own two, and declares by hand what it
 * uses of the C library, with the numbers that Linux has on x86-64. */
#include <stddef.h>
#include <stdint.h>

#include "plain.h"
#include "reedsatchel.h"

int printf(const char *format, ...);
int memcmp(const void *a, const void *b, size_t size);
void *memcpy(void *to, const void *from, size_t size);
void *memset(void *to, int byte, size_t size);
size_t strlen(const char *text);
void *mmap(void *at, size_t size, int protection, int flags, int file, long offset);
int mprotect(void *at, size_t size, int protection);
void (*signal(int number, void (*handler)(int)))(int);
void exit(int status);

#define NO_ACCESS 0
#define READ_ONLY 1
#define READ_WRITE 3
#define PRIVATE_AND_ANONYMOUS 0x22
#define BUS_ERROR 7
#define SEGMENTATION_FAULT 11

/* ---- memory with an edge */

/* The largest page of a machine that an emulator may run on, so that the edges hold there too. */
#define PAGE ((size_t)65536)
#define GUARD 64

/* Memory between two pages that must not be touched. */
struct zone {
    uint8_t *from, *to;
};

static struct zone lent_zone, read_zone;

static struct zone make_zone(void)
{
    uint8_t *at = mmap(NULL, 4 * PAGE, NO_ACCESS, PRIVATE_AND_ANONYMOUS, -1, 0);
    struct zone zone;

    zone.from = (uint8_t *)(((uintptr_t)at + 2 * PAGE - 1) / PAGE * PAGE);
    zone.to = zone.from + PAGE;
    if (at == (uint8_t *)-1 || mprotect(zone.from, PAGE, READ_WRITE) != 0) {
        printf("firmware: no memory for the test\n");
        exit(2);
    }
    return zone;
}

/* Where a buffer lies: its last byte is the zone's last, or its first is the zone's first. Guard bytes are on its other side. */
enum side { AT_END, AT_START };

static uint8_t *place(struct zone zone, size_t size, enum side side)
{
    return side == AT_END ? zone.to - size : zone.from;
}

static uint8_t *guard(uint8_t *buffer, size_t size, enum side side)
{
    return side == AT_END ? buffer - GUARD : buffer + size;
}

static int is_filled(const uint8_t *at, size_t size, uint8_t fill)
{
    return size == 0 || (at[0] == fill && memcmp(at, at + 1, size - 1) == 0);
}

/* ---- what is run now, and what came of it */

enum call { WRITE, READ, NEAREST };

static const char *const call_name[] = {"write_frame", "read_frame", "nearest"};

/* An input of any of the three. A writer's data and a reader's frame are `bytes`. */
struct input {
    enum call call;
    uint8_t command;
    const uint8_t *bytes;
    size_t count, room;
    uint16_t id, wished, partner;
};

static struct input now;
static unsigned long checks, failed;

static void show(void)
{
    printf("    %s: ", call_name[now.call]);
    if (now.call == NEAREST) {
        printf("id %04X, wished %u, partner %u\n", now.id, now.wished, now.partner);
        return;
    }
    if (now.call == WRITE)
        printf("command %02X, ", now.command);
    printf("room %lu, %lu bytes:", (unsigned long)now.room, (unsigned long)now.count);
    for (size_t i = 0; i < now.count; i++)
        printf(" %02X", now.bytes[i]);
    printf("\n");
}

/* Counts a check; the first one that fails is shown. */
static void check(int good, const char *what, uint32_t got, uint32_t due)
{
    checks++;
    if (good)
        return;
    if (failed++ == 0) {
        printf("FAILED: %s; answered %08X, due %08X\n", what, got, due);
        show();
    }
}

static int finish(void)
{
    printf("firmware: %lu checks, %lu failed\n", checks, failed);
    return failed != 0;
}

/* A byte beyond a buffer was touched, or one in a sealed input written. The fault is in the call itself, so printing is safe here. */
static void touched(int number)
{
    (void)number;
    checks++;
    if (failed++ == 0) {
        printf("FAILED: a byte outside the buffers was read or written, or one of the input written\n");
        show();
    }
    exit(finish());
}

/* ---- one call, with every byte around it looked at */

/* Set while the bytes that are read are in a page that cannot be written: too slow for every call. */
static int sealed;

static void run(struct input input, enum side side, uint8_t fill, uint32_t due, const uint8_t *front, size_t front_size)
{
    uint8_t *bytes = place(read_zone, input.count, side), *lent = place(lent_zone, input.room, side);
    uint8_t *bytes_guard = guard(bytes, input.count, side), *lent_guard = guard(lent, input.room, side);
    uint32_t got;

    now = input;
    memset(bytes_guard, fill, GUARD);
    memcpy(bytes, input.bytes, input.count);
    memset(lent_guard, fill, GUARD);
    memset(lent, fill, input.room);
    if (sealed)
        mprotect(read_zone.from, PAGE, READ_ONLY);
    got = input.call == WRITE ? reedsatchel_write_frame(input.command, bytes, input.count, lent, input.room)
                              : reedsatchel_read_frame(bytes, input.count, lent, input.room);
    if (sealed)
        mprotect(read_zone.from, PAGE, READ_WRITE);

    if (got != due)
        check(0, "another answer", got, due);
    else if (memcmp(lent, front, front_size) != 0)
        check(0, "other bytes in the lent buffer", got, due);
    else if (!is_filled(lent + front_size, input.room - front_size, fill))
        check(0, "a byte of the lent buffer changed after the answer's", got, due);
    else if (!is_filled(lent_guard, GUARD, fill))
        check(0, "a byte beside the lent buffer changed", got, due);
    else if (memcmp(bytes, input.bytes, input.count) != 0 || !is_filled(bytes_guard, GUARD, fill))
        check(0, "a byte of the input changed, or beside it", got, due);
    else
        check(1, NULL, got, due);
}

static void run_nearest(uint16_t id, uint16_t wished, uint16_t partner, uint32_t due)
{
    uint32_t got;

    now.call = NEAREST;
    now.id = id;
    now.wished = wished;
    now.partner = partner;
    got = reedsatchel_nearest(id, wished, partner);
    check(got == due, "another answer", got, due);
}

static struct input a_write(uint8_t command, const uint8_t *bytes, size_t count, size_t room)
{
    struct input input = {WRITE, command, bytes, count, room, 0, 0, 0};
    return input;
}

static struct input a_read(const uint8_t *frame, size_t length, size_t room)
{
    struct input input = {READ, 0, frame, length, room, 0, 0, 0};
    return input;
}

/* Both sides of the memory, and two fills: a byte written that equals one fill differs from the other. */
static void run_thoroughly(struct input input, uint32_t due, const uint8_t *front, size_t front_size)
{
    sealed = 1;
    for (int way = 0; way < 4; way++)
        run(input, way & 1 ? AT_START : AT_END, way & 2 ? 0x00 : 0xE7, due, front, front_size);
    sealed = 0;
}

static void refused(struct input input, unsigned number)
{
    run_thoroughly(input, (uint32_t)number << 16, input.bytes, 0);
}

/* ---- what plain.c says: the answer, and the bytes that fill the front */

static uint32_t plain(struct input input, uint8_t *front, size_t *front_size)
{
    uint32_t due;

    if (input.call == WRITE) {
        due = plain_write_frame(input.command, input.bytes, input.count, front, input.room);
        *front_size = due >> 16 ? 0 : due & 0xFFFF;
    } else {
        due = plain_read_frame(input.bytes, input.count, front, input.room);
        *front_size = due >> 16 ? 0 : due & 0xFF;
    }
    return due;
}

static uint32_t run_as_plain(struct input input, enum side side, uint8_t fill)
{
    uint8_t front[REEDSATCHEL_FRAME_ROOM];
    size_t front_size;
    uint32_t due = plain(input, front, &front_size);

    run(input, side, fill, due, front, front_size);
    return due;
}

/* ---- frames in print */

#define BYTES(text) ((const uint8_t *)(text))

/* The good frames of documents 000, 001, 002 and 01, mended where the text has lost a colon or has a blank too many. */
static const char *const printed[] = {
    /* 000, left column, then right */
    ":154", ":5FF7FD2", ":352", ":451", ":1F0A3C1", ":70201004B", ":702010000FF120139", ":64F", ":7F0ED0071", ":7F0ED00F4017C",
    ":8F0ED0064000C", ":8F0ED00F4017B", ":2000152", ":3020050", ":2AAAAFF", ":A0102000543",
    /* 001 */
    ":501440B", ":101440F", ":181A330", ":70010003E", ":7001000C80076", ":8001000F40148", ":8001004010038", ":7001000F40149",
    /* 002 */
    ":51641F9", ":11641FD", ":1000351", ":7F0ED009600DB", ":253", ":4AAAAFD",
    /* 01, where it differs from the others */
    ":800100000003D", ":30250",
    /* 73 characters: the Get reply with a serial of 32 bytes */
    ":70A01004142434445464748494A4B4C4D4E4F505152535455565758595A30313233343535",
};

/* Lines that are no frame, and the number that each is refused with. */
static const struct {
    const char *line;
    unsigned number;
} spoilt[] = {
    /* in print: a check the wrong way round, a sum wrong on purpose, a digit short; lost colons and a blank */
    {":30300F4\n", 4}, {":452\n", 4}, {":80010000003D\n", 3}, {"7F0ED00F4017C\n", 2}, {"2AAAAFF\n", 2}, {":3 52\n", 2}, {"451\n", 2},
    /* the ends: nothing, one byte, no colon, no newline, bytes after it */
    {"", 2}, {":", 2}, {"\n", 2}, {"1", 2}, {"::", 2}, {"\n\n", 2}, {"\n:", 2}, {"154\n", 2}, {":154", 2}, {":154\n\n", 2}, {" :154\n", 2},
    {":154\n ", 2}, {":154\n:", 2}, {":154\n:154\n", 2}, {":154\r", 2},
    /* characters that are no digit: a second colon, a newline, a carriage return, lower case, the neighbours of the digits */
    {"::\n", 2}, {"::154\n", 2}, {":1:54\n", 2}, {":154:\n", 2}, {":1\n54\n", 2}, {":154\r\n", 2}, {":\r\n", 2}, {":70010003e\n", 2},
    {":a0102000543\n", 2}, {":1/4\n", 2}, {":1@4\n", 2}, {":1G4\n", 2}, {":1`4\n", 2}, {":1g4\n", 2}, {":1 4\n", 2}, {":1\3774\n", 2},
    {":x\n", 2}, {":xx\n", 2}, {":154x\n", 2},
    /* the count: none, one, two, four, six */
    {":\n", 3}, {":1\n", 3}, {":15\n", 3}, {":1540\n", 3}, {":7F0ED0\n", 3}, {":7F0ED00710\n", 3},
    /* the sum: one too low, one too high, the check's digits exchanged, the command left out of it */
    {":153\n", 4}, {":155\n", 4}, {":145\n", 4}, {":355\n", 4}, {":000\n", 4}, {":FFF\n", 4},
};

static uint8_t hex(char digit)
{
    return (uint8_t)(digit <= '9' ? digit - '0' : digit - 'A' + 10);
}

/* A frame in print is read as its digits say, and written back byte for byte. */
static void one_printed(const char *text)
{
    uint8_t line[REEDSATCHEL_FRAME_ROOM], data[REEDSATCHEL_MOST_DATA];
    size_t length = strlen(text) + 1, count = (length - 5) / 2;
    uint8_t command = hex(text[1]);
    static const size_t read_rooms[] = {35, 36, 75, 200}, write_rooms[] = {75, 76, 300};

    memcpy(line, text, length - 1);
    line[length - 1] = '\n';
    for (size_t i = 0; i < count; i++)
        data[i] = (uint8_t)(16 * hex(text[2 + 2 * i]) + hex(text[3 + 2 * i]));
    for (size_t i = 0; i < sizeof read_rooms / sizeof *read_rooms; i++)
        run_thoroughly(a_read(line, length, read_rooms[i]), (uint32_t)(256u * command + count), data, count);
    for (size_t i = 0; i < sizeof write_rooms / sizeof *write_rooms; i++)
        run_thoroughly(a_write(command, data, count, write_rooms[i]), (uint32_t)length, line, length);
    refused(a_read(line, length, 34), 11);
    refused(a_read(line, length, 0), 11);
    refused(a_write(command, data, count, 74), 11);
    refused(a_write(command, data, count, 0), 11);

    /* a check one too high or too low */
    for (int off = -1; off <= 1; off += 2) {
        uint8_t sum = (uint8_t)(16 * hex(text[length - 3]) + hex(text[length - 2]) + off);
        line[length - 3] = (uint8_t)"0123456789ABCDEF"[sum / 16];
        line[length - 2] = (uint8_t)"0123456789ABCDEF"[sum % 16];
        refused(a_read(line, length, 35), 4);
    }
}

static void frames_in_print(void)
{
    for (size_t i = 0; i < sizeof printed / sizeof *printed; i++)
        one_printed(printed[i]);
    for (size_t i = 0; i < sizeof spoilt / sizeof *spoilt; i++) {
        size_t length = strlen(spoilt[i].line);
        refused(a_read(BYTES(spoilt[i].line), length, 35), spoilt[i].number);
        refused(a_read(BYTES(spoilt[i].line), length, 200), spoilt[i].number);
        refused(a_read(BYTES(spoilt[i].line), length, 34), 11);
        refused(a_read(BYTES(spoilt[i].line), length, 0), 11);
    }
}

/* ---- edges of the reader and the writer */

/* A line of `count` equal characters between colon and newline, and then without the newline or the colon. */
static void line_of(uint8_t character, size_t count, unsigned number)
{
    static uint8_t line[PAGE];

    memset(line, character, sizeof line);
    line[0] = ':';
    line[count + 1] = '\n';
    refused(a_read(line, count + 2, 35), number);
    refused(a_read(line, count + 2, 34), 11);
    refused(a_read(line, count + 1, 35), 2);
    if (character != ':')
        refused(a_read(line + 1, count + 1, 35), 2);
}

static void edges_of_frames(void)
{
    static const size_t long_counts[] = {74, 75, 76, 100, 200, 255, 256, 257, 329, 1000, 30000};
    static const uint8_t commands_over[] = {16, 17, 31, 128, 255};
    static const size_t counts_over[] = {36, 37, 75, 100, 255, 256, 291, 5000};
    static uint8_t bytes[5000];

    /* 73 characters are not too long, 74 are, digits or not: 1 comes before 2, 3 and 4 */
    for (size_t count = 0; count <= 73; count++) {
        line_of('x', count, count == 0 ? 3 : 2);
        line_of('0', count, count < 3 || count % 2 == 0 ? 3 : 4);
    }
    for (size_t i = 0; i < sizeof long_counts / sizeof *long_counts; i++) {
        line_of('0', long_counts[i], 1);
        line_of('x', long_counts[i], 1);
        line_of(':', long_counts[i], 1);
    }

    /* every command with every count of data, and the last room that is too short and the first that is not */
    for (size_t i = 0; i < sizeof bytes; i++)
        bytes[i] = (uint8_t)(i * 73 + (i >> 3));
    for (uint8_t command = 0; command <= 15; command++)
        for (size_t count = 0; count <= 35; count++) {
            uint8_t frame[REEDSATCHEL_FRAME_ROOM];
            size_t length = plain_write_frame(command, bytes + command, count, frame, sizeof frame);
            run_thoroughly(a_write(command, bytes + command, count, 75), (uint32_t)(5 + 2 * count), frame, length);
            run_thoroughly(a_read(frame, length, 35), (uint32_t)(256u * command + count), bytes + command, count);
            refused(a_write(command, bytes + command, count, 74), 11);
            refused(a_read(frame, length, 34), 11);
        }

    /* 12: a nibble over 15, over 35 data bytes, both; and 11 before each */
    for (size_t i = 0; i < sizeof commands_over; i++)
        for (size_t count = 0; count <= 36; count += 6) {
            refused(a_write(commands_over[i], bytes, count, 75), 12);
            refused(a_write(commands_over[i], bytes, count, 74), 11);
        }
    for (size_t i = 0; i < sizeof counts_over / sizeof *counts_over; i++)
        for (unsigned command = 0; command <= 16; command++) {
            refused(a_write((uint8_t)command, bytes, counts_over[i], 75), 12);
            refused(a_write((uint8_t)command, bytes, counts_over[i], 300), 12);
            refused(a_write((uint8_t)command, bytes, counts_over[i], 74), 11);
        }

    /* every room up to 80 */
    for (size_t room = 0; room <= 80; room++) {
        run_as_plain(a_write(1, bytes, 2, room), AT_END, 0x5A);
        run_as_plain(a_write(16, bytes, 36, room), AT_END, 0x5A);
        run_as_plain(a_read(BYTES(":154\n"), 5, room), AT_END, 0x5A);
        run_as_plain(a_read(BYTES("154\n"), 4, room), AT_END, 0x5A);
    }
}

/* Every byte in every place of some frames, and every two characters as a check. */
static void every_byte_in_every_place(void)
{
    static const char *const frames[] = {":154", ":7001000C80076", ":A0102000543"};
    uint8_t line[REEDSATCHEL_FRAME_ROOM];

    for (size_t f = 0; f < sizeof frames / sizeof *frames; f++) {
        size_t length = strlen(frames[f]) + 1;
        memcpy(line, frames[f], length - 1);
        line[length - 1] = '\n';
        for (size_t i = 0; i < length; i++) {
            uint8_t old = line[i];
            for (unsigned byte = 0; byte < 256; byte++) {
                line[i] = (uint8_t)byte;
                run_as_plain(a_read(line, length, 35), byte & 1 ? AT_START : AT_END, (uint8_t)~byte);
            }
            line[i] = old;
        }
    }
    memcpy(line, ":1..\n", 5);
    for (unsigned two = 0; two < 65536; two++) {
        line[2] = (uint8_t)(two >> 8);
        line[3] = (uint8_t)two;
        run_as_plain(a_read(line, 5, 35), AT_END, 0xE7);
    }
}

/* ---- the nearest number */

static int in_range(const struct plain_setting *setting, unsigned number)
{
    return (setting->lo <= number && number <= setting->hi) || (setting->zero_too && number == 0);
}

static int is_allowed(const struct plain_setting *setting, unsigned number, unsigned partner)
{
    if (!in_range(setting, number))
        return 0;
    return setting->kind == PLAIN_ALONE || (setting->kind == PLAIN_AT_MOST ? number <= partner : number >= partner);
}

/* Looks for the nearest allowed number among all, for every wished number: one walk up notes the last allowed number that was passed,
 * one walk down the next; the nearer of the two is due, the lower on a tie. Holds the archive and plain.c against it. */
static void search(const struct plain_setting *setting, uint16_t partner)
{
    static int below[65536];
    int last = -1;

    for (int number = 0; number < 65536; number++) {
        if (is_allowed(setting, (unsigned)number, partner))
            last = number;
        below[number] = last;
    }
    last = -1;
    for (int wished = 65535; wished >= 0; wished--) {
        uint32_t other = plain_nearest(setting->id, (uint16_t)wished, partner);
        int due;
        if (is_allowed(setting, (unsigned)wished, partner))
            last = wished;
        if (last < 0 || (below[wished] >= 0 && wished - below[wished] <= last - wished))
            due = below[wished];
        else
            due = last;
        run_nearest(setting->id, (uint16_t)wished, partner, (uint32_t)due);
        check(other == (uint32_t)due, "plain.c has another answer", other, (uint32_t)due);
    }
}

static void worked_numbers(void)
{
    static const struct {
        uint16_t id, wished, partner;
        uint32_t due;
    } worked[] = {
        /* document 01: 032D beside 032C at 0 and at 30000; capacity at and past its ends */
        {0x032D, 20000, 0, 0}, {0x032D, 8700, 30000, 0}, {0x032D, 8701, 30000, 17400}, {0x032D, 20000, 30000, 20000},
        {0x1000, 0, 0, 1}, {0x1000, 1, 0, 1}, {0x1000, 9999, 0, 9999}, {0x1000, 10000, 0, 9999}, {0x1000, 65535, 65535, 9999},
        /* a one-byte setting and a wished number of two bytes */
        {0xEEF5, 300, 65535, 5}, {0x0400, 65535, 0, 1},
        /* low pairs: first at most second; high pairs: first at least second */
        {0x0320, 120, 110, 110}, {0x0321, 90, 100, 100}, {0x0322, 130, 140, 140}, {0x0323, 160, 150, 150}, {0x1008, 990, 900, 900},
        /* 0 is allowed for 032A beside any partner, for 032B beside 0 alone */
        {0x032A, 8700, 17400, 0}, {0x032A, 8701, 17400, 17400}, {0x032B, 0, 17400, 17400}, {0x032B, 8700, 0, 0}, {0x032B, 8701, 0, 17400},
        {0x032C, 0, 0, 0}, {0x032C, 0, 17400, 17400}, {0x032A, 65535, 0, 0}, {0x032C, 65535, 0, 37200},
        /* 7 before 12; 12 in the gap of a partner's range and past its ends, whatever is wished */
        {0x0324, 0, 0, 7u << 16}, {0x0324, 0, 65535, 7u << 16}, {0x2003, 0, 65535, 7u << 16}, {0x0000, 0, 0, 7u << 16},
        {0x032D, 0, 1, 12u << 16}, {0x032D, 0, 17399, 12u << 16}, {0x032D, 0, 37201, 12u << 16}, {0x0320, 0, 951, 12u << 16},
        {0x0329, 0, 991, 12u << 16}, {0x1009, 0, 65535, 12u << 16},
    };

    for (size_t i = 0; i < sizeof worked / sizeof *worked; i++)
        run_nearest(worked[i].id, worked[i].wished, worked[i].partner, worked[i].due);
}

/* Every number as an id: 7 for all but the settings, whatever else is handed in. */
static void every_id(void)
{
    size_t next = 0;

    for (unsigned id = 0; id < 65536; id++) {
        if (next < PLAIN_SETTINGS && plain_settings[next].id == id) {
            next++;
            continue;
        }
        run_nearest((uint16_t)id, 100, 0, 7u << 16);
        run_nearest((uint16_t)id, (uint16_t)~id, 65535, 7u << 16);
    }
    check(next == PLAIN_SETTINGS, "the table of plain.c is not in the order of the ids", (uint32_t)next, PLAIN_SETTINGS);
}

/* Every partner's number: 12 exactly outside its own range, and no matter what without a partner. */
static void every_partner(const struct plain_setting *setting)
{
    for (unsigned partner = 0; partner < 65536; partner++) {
        if (setting->kind != PLAIN_ALONE && !in_range(&plain_settings[setting->partner], partner))
            run_nearest(setting->id, (uint16_t)(partner * 3), (uint16_t)partner, 12u << 16);
        else
            run_nearest(setting->id, setting->factory, (uint16_t)partner,
                        plain_nearest(setting->id, setting->factory, (uint16_t)partner));
    }
}

static void nearest_numbers(void)
{
    worked_numbers();
    every_id();
    for (size_t i = 0; i < PLAIN_SETTINGS; i++) {
        const struct plain_setting *setting = &plain_settings[i], *other = &plain_settings[setting->partner];
        every_partner(setting);
        if (setting->kind == PLAIN_ALONE) {
            search(setting, 0);
            continue;
        }
        search(setting, other->lo);
        search(setting, (uint16_t)((other->lo + other->hi) / 2));
        search(setting, other->hi);
        if (other->zero_too)
            search(setting, 0);
    }
}

/* ---- random input, against plain.c */

#define WRITES 250000
#define READS 550000
#define NEARESTS 400000
#define LONGEST 320

static uint64_t state;

/* splitmix64 */
static uint64_t draw(void)
{
    uint64_t x = state += 0x9E3779B97F4A7C15u;

    x = (x ^ (x >> 30)) * 0xBF58476D1CE4E5B9u;
    x = (x ^ (x >> 27)) * 0x94D049BB133111EBu;
    return x ^ (x >> 31);
}

/* a number under n */
static size_t under(size_t n)
{
    return (size_t)((draw() >> 32) * n >> 32);
}

/* Room that is often at the limit, mostly enough. */
static size_t some_room(size_t limit)
{
    switch (under(12)) {
    case 0: return limit - 1;
    case 1: return under(limit);
    case 2: return limit + 1;
    case 3: return limit + under(200);
    default: return limit;
    }
}

static uint8_t some_digit(void)
{
    return (uint8_t)"0123456789ABCDEF"[under(16)];
}

static uint8_t some_byte(void)
{
    static const char telling[] = ":\n\r/@Gafg` \t\0\200\377";

    switch (under(4)) {
    case 0: return (uint8_t)draw();
    case 1: return (uint8_t)telling[under(sizeof telling - 1)];
    default: return some_digit();
    }
}

static size_t some_frame(uint8_t *line)
{
    uint8_t data[REEDSATCHEL_MOST_DATA];
    size_t count = under(6) == 0 ? REEDSATCHEL_MOST_DATA : under(REEDSATCHEL_MOST_DATA + 1);

    for (size_t i = 0; i < count; i++)
        data[i] = (uint8_t)draw();
    return plain_write_frame((uint8_t)under(16), data, count, line, LONGEST);
}

/* Colon, `count` digits, newline; with a right sum where the count lets it have one and `right` says so. */
static size_t some_digits(uint8_t *line, size_t count, int right)
{
    unsigned sum;

    line[0] = ':';
    for (size_t i = 1; i <= count; i++)
        line[i] = some_digit();
    line[count + 1] = '\n';
    if (right && count >= 3 && count % 2 == 1) {
        sum = hex((char)line[1]);
        for (size_t i = 2; i < count - 1; i += 2)
            sum += 16u * hex((char)line[i]) + hex((char)line[i + 1]);
        line[count - 1] = (uint8_t)"0123456789ABCDEF"[(0x55 - sum) >> 4 & 0xF];
        line[count] = (uint8_t)"0123456789ABCDEF"[(0x55 - sum) & 0xF];
    }
    return count + 2;
}

/* A line for the reader: good, damaged in a byte, of digits, of bytes, short or long. */
static size_t some_line(uint8_t *line)
{
    size_t length, at;

    switch (under(10)) {
    case 0:
    case 1:
        return some_frame(line);
    case 2: /* a byte is another */
        length = some_frame(line);
        line[under(length)] = some_byte();
        return length;
    case 3: /* a bit is another */
        length = some_frame(line);
        line[under(length)] ^= (uint8_t)(1u << under(8));
        return length;
    case 4: /* a byte too many */
        length = some_frame(line);
        at = under(length + 1);
        for (size_t i = length; i > at; i--)
            line[i] = line[i - 1];
        line[at] = some_byte();
        return length + 1;
    case 5: /* a byte too few */
        length = some_frame(line);
        for (size_t i = under(length); i + 1 < length; i++)
            line[i] = line[i + 1];
        return length - 1;
    case 6:
        return some_digits(line, under(8), 1);
    case 7: /* about the longest */
        return some_digits(line, 68 + under(10), under(4) != 0);
    case 8: /* over it, or far over */
        length = some_digits(line, under(LONGEST - 2), 1);
        if (under(2) == 0)
            line[under(length)] = some_byte();
        return length;
    default: /* any bytes, enclosed or not */
        length = under(90);
        for (size_t i = 0; i < length; i++)
            line[i] = some_byte();
        if (length > 0 && under(4) != 0)
            line[0] = ':';
        if (length > 0 && under(4) != 0)
            line[length - 1] = '\n';
        return length;
    }
}

/* Numbers that are often at the edge of something: an end of a range, the middle of the gap, the partner's number. */
static uint16_t some_number(const struct plain_setting *setting, uint16_t partner)
{
    uint16_t near;

    switch (under(6)) {
    case 0: near = setting->lo; break;
    case 1: near = setting->hi; break;
    case 2: near = setting->lo / 2; break;
    case 3: near = partner; break;
    case 4: return (uint16_t)under((size_t)setting->hi + 2);
    default: return (uint16_t)draw();
    }
    return (uint16_t)(near + under(7) - 3);
}

/* The outcomes that each call has. */
static const unsigned outcome_due[3][6] = {{0, 11, 12}, {0, 11, 1, 2, 3, 4}, {0, 7, 12}};
static const size_t outcomes[3] = {3, 6, 3};

static unsigned long outcome[3][16];

static void count_outcome(enum call call, uint32_t due)
{
    outcome[call][due >> 16 & 0xF]++;
}

static void random_writes(void)
{
    uint8_t bytes[LONGEST];

    for (size_t n = 0; n < WRITES; n++) {
        uint8_t command = (uint8_t)(under(8) ? under(16) : under(2) ? 16 : draw());
        size_t count = under(8) ? under(36) : under(2) ? 35 + under(3) : under(LONGEST);
        size_t room = some_room(REEDSATCHEL_FRAME_ROOM);
        for (size_t i = 0; i < count; i++)
            bytes[i] = (uint8_t)draw();
        count_outcome(WRITE, run_as_plain(a_write(command, bytes, count, room), under(2) ? AT_START : AT_END, (uint8_t)draw()));
    }
}

static void random_reads(void)
{
    uint8_t line[LONGEST];

    for (size_t n = 0; n < READS; n++) {
        size_t length = some_line(line), room = some_room(REEDSATCHEL_DATA_ROOM);
        count_outcome(READ, run_as_plain(a_read(line, length, room), under(2) ? AT_START : AT_END, (uint8_t)draw()));
    }
}

static void random_nearests(void)
{
    for (size_t n = 0; n < NEARESTS; n++) {
        const struct plain_setting *setting = &plain_settings[under(PLAIN_SETTINGS)];
        uint16_t partner = some_number(&plain_settings[setting->partner], 0), wished = some_number(setting, partner);
        uint16_t id = (uint16_t)(under(10) ? setting->id : under(2) ? setting->id + under(9) - 4 : draw());
        uint32_t due = plain_nearest(id, wished, partner);
        run_nearest(id, wished, partner, due);
        count_outcome(NEAREST, due);
    }
}

/* How often each outcome was due; one that never was is a fault of this test. */
static void show_outcomes(void)
{
    for (int call = WRITE; call <= NEAREST; call++) {
        printf("random %s:", call_name[call]);
        for (size_t i = 0; i < outcomes[call]; i++) {
            unsigned number = outcome_due[call][i];
            if (number == 0)
                printf(" good %lu", outcome[call][number]);
            else
                printf(", refused %u %lu", number, outcome[call][number]);
            if (outcome[call][number] == 0) {
                failed++;
                printf(" (FAILED: never reached)");
            }
        }
        printf("\n");
    }
}

/* A decimal number of at most 18 digits. */
static int read_seed(const char *text)
{
    size_t length = strlen(text);

    if (length == 0 || length > 18)
        return 0;
    state = 0;
    for (size_t i = 0; i < length; i++) {
        if (text[i] < '0' || text[i] > '9')
            return 0;
        state = 10 * state + (uint64_t)(text[i] - '0');
    }
    return 1;
}

int main(int argc, char **argv)
{
    unsigned long before;

    state = 20260101;
    if (argc > 2 || (argc == 2 && !read_seed(argv[1]))) {
        printf("firmware: the test takes one argument at most, the seed: a decimal number of up to 18 digits\n");
        return 2;
    }
    printf("seed %lu\n", (unsigned long)state);
    lent_zone = make_zone();
    read_zone = make_zone();
    signal(SEGMENTATION_FAULT, touched);
    signal(BUS_ERROR, touched);

    frames_in_print();
    printf("frames in print, read and written back, and lines that are no frame: %lu checks\n", checks);
    before = checks;
    edges_of_frames();
    every_byte_in_every_place();
    printf("edges of reading and writing: %lu checks\n", checks - before);
    before = checks;
    nearest_numbers();
    printf("nearest numbers, against a plain search: %lu checks\n", checks - before);
    random_writes();
    random_reads();
    random_nearests();
    show_outcomes();
    return finish();
}
