/* See plain_board.h. */
#include <string.h>

#include "plain_board.h"

#define REFUSED(number) ((uint32_t)(number) << 16)

#ifdef PLAIN_COUNT
struct plain_counts plain_counts;
#define COUNT(what) (plain_counts.what++)
#else
#define COUNT(what) ((void)0)
#endif

enum { PING = 1, APP_VERSION = 3, PRODUCT_ID = 4, RESTART = 6, GET = 7, SET = 8, ASYNC = 10 };
enum { DONE = 1, UNKNOWN = 3, PONG = 5 };
enum { GOOD = 0, UNKNOWN_ID = 1, NOT_SUPPORTED = 2, PARAMETER = 4 };

/* ---- the stream */

/* The first newline or colon, or the end. */
static const uint8_t *frame_end(const uint8_t *at, const uint8_t *end)
{
    while (at < end && *at != '\n' && *at != ':')
        at++;
    return at;
}

/* A colon broke the frame and has begun the next. */
static uint32_t broken(struct plain_line *line, size_t chars)
{
    line->frame[0] = ':';
    line->len = 1;
    return REFUSED(chars > PLAIN_MOST_CHARS ? 1 : 2);
}

/* The part of a frame that a piece brings, the frame having begun in an earlier one. */
static size_t hear_on(struct plain_line *line, const uint8_t *piece, size_t n, uint8_t *into, uint32_t *said)
{
    const uint8_t *at = piece, *end = piece + n;
    size_t len = line->len;

    for (; at < end && *at != '\n' && *at != ':'; at++)
        if (len < PLAIN_MOST_CHARS + 2)
            line->frame[len++] = *at;
    line->len = len;
    if (at == end)
        return n;
    if (*at == ':') {
        *said = broken(line, len - 1);
    } else {
        line->frame[len] = '\n';
        *said = plain_read_frame(line->frame, len + 1, into, PLAIN_MOST_DATA);
        line->len = 0;
    }
    return (size_t)(at + 1 - piece);
}

size_t plain_hear(struct plain_line *line, const uint8_t *piece, size_t n, uint8_t *into, uint32_t *said)
{
    const uint8_t *colon, *at, *end = piece + n;
    size_t chars;

    *said = PLAIN_NOTHING;
    if (line->len)
        return hear_on(line, piece, n, into, said);
    colon = memchr(piece, ':', n);
    if (!colon)
        return n;
    at = frame_end(colon + 1, end);
    chars = (size_t)(at - colon) - 1;
    if (at == end) {
        if (chars > PLAIN_MOST_CHARS + 1)
            chars = PLAIN_MOST_CHARS + 1;
        memcpy(line->frame, colon, chars + 1);
        line->len = chars + 1;
        return n;
    }
    /* a frame that is whole in the piece is read there */
    *said = *at == ':' ? broken(line, chars) : plain_read_frame(colon, chars + 2, into, PLAIN_MOST_DATA);
    return (size_t)(at + 1 - piece);
}

/* ---- the board */

unsigned plain_start(struct plain_board *board, uint16_t product, uint16_t version, const uint8_t *serial, size_t serial_len)
{
    int fits = serial_len <= PLAIN_MOST_SERIAL;

    memset(board, 0, sizeof *board);
    for (size_t i = 0; i < PLAIN_SETTINGS; i++)
        board->numbers[i] = plain_settings[i].factory;
    for (size_t i = 0; fits && i < serial_len; i++)
        fits = serial[i] >= 0x20 && serial[i] <= 0x7E;
    if (!fits) {
        COUNT(start);
        return 12;
    }
    board->product = product;
    board->version = version;
    board->serial_len = (uint8_t)serial_len;
    if (serial_len)
        memcpy(board->serial, serial, serial_len);
    return 0;
}

unsigned plain_store(struct plain_board *board, int64_t voltage, int64_t current, int64_t fine, int64_t consumed, int64_t charge)
{
    if (voltage < INT16_MIN || voltage > INT16_MAX || current < INT16_MIN || current > INT16_MAX || fine < INT32_MIN || fine > INT32_MAX
        || consumed < INT32_MIN || consumed > INT32_MAX || charge < 0 || charge > UINT16_MAX) {
        COUNT(store);
        return 12;
    }
    board->voltage = (int16_t)voltage;
    board->current = (int16_t)current;
    board->fine = (int32_t)fine;
    board->consumed = (int32_t)consumed;
    board->charge = (uint16_t)charge;
    return 0;
}

static uint8_t *put(uint8_t *at, uint32_t number, unsigned width)
{
    for (; width; width--, number >>= 8)
        *at++ = (uint8_t)number;
    return at;
}

static size_t send(uint8_t command, const uint8_t *data, const uint8_t *end, uint8_t *out)
{
    return plain_write_frame(command, data, (size_t)(end - data), out, PLAIN_REPLY_ROOM);
}

static size_t send_error(uint8_t *out)
{
    memcpy(out, ":4AAAAFD\n", 9);
    return 9;
}

/* an id and a flag; the value goes after them */
static uint8_t *say(uint8_t *data, uint16_t id, uint8_t flag)
{
    data = put(data, id, 2);
    *data++ = flag;
    return data;
}

/* The place of a setting in the table, or PLAIN_SETTINGS. */
static size_t place_of(uint16_t id)
{
    size_t from = 0, to = PLAIN_SETTINGS;

    while (from < to) {
        size_t middle = (from + to) / 2;
        if (plain_settings[middle].id < id)
            from = middle + 1;
        else
            to = middle;
    }
    return from < PLAIN_SETTINGS && plain_settings[from].id == id ? from : PLAIN_SETTINGS;
}

/* Puts the value of a read-only id, and returns its end; NULL for another id. */
static uint8_t *put_read_only(const struct plain_board *board, uint16_t id, uint8_t *at)
{
    switch (id) {
    case 0x0100:
        *at++ = 0;
        at = put(at, board->product, 2);
        *at++ = 0xFF;
        return at;
    case 0x010A:
        memcpy(at, board->serial, PLAIN_MOST_SERIAL);
        at += board->serial_len;
        if (board->serial_len < PLAIN_MOST_SERIAL)
            *at++ = 0;
        return at;
    case 0xEEF9:
        return put(at, board->version, 2);
    case 0xED8D:
        return put(at, (uint16_t)board->voltage, 2);
    case 0xED8F:
        return put(at, (uint16_t)board->current, 2);
    case 0xED8C:
        return put(at, (uint32_t)board->fine, 4);
    case 0xEEFF:
        return put(at, (uint32_t)board->consumed, 4);
    case 0x0FFF:
        return put(at, board->charge, 2);
    default:
        return NULL;
    }
}

static int allowed(const struct plain_setting *s, uint16_t number, uint16_t partner)
{
    if ((number < s->lo || number > s->hi) && !(s->zero_too && number == 0))
        return 0;
    switch (s->kind) {
    case PLAIN_AT_MOST:
        return number <= partner;
    case PLAIN_AT_LEAST:
        return number >= partner;
    default:
        return 1;
    }
}

#ifdef PLAIN_COUNT
static void count_read_only(uint16_t id)
{
    static const uint16_t ids[] = {0x0100, 0x010A, 0xEEF9, 0xED8D, 0xED8F, 0xED8C, 0xEEFF, 0x0FFF};

    for (size_t i = 0; i < 8; i++)
        if (ids[i] == id)
            COUNT(read_only[i]);
}
#else
#define count_read_only(id) ((void)0)
#endif

static unsigned get(struct plain_board *board, const uint8_t *data, size_t count, uint8_t *out, size_t *len)
{
    uint8_t reply[PLAIN_MOST_DATA], *at, *end;
    uint16_t id;
    size_t place;

    if (count != 3 || data[2] != 0) {
        *len = send_error(out);
        return 6;
    }
    id = (uint16_t)(data[0] | data[1] << 8);
    at = say(reply, id, GOOD);
    place = place_of(id);
    if (place < PLAIN_SETTINGS) {
        COUNT(got[place]);
        end = put(at, board->numbers[place], plain_settings[place].width);
    } else {
        end = put_read_only(board, id, at);
        count_read_only(id);
    }
    if (!end) {
        reply[2] = UNKNOWN_ID;
        *len = send(GET, reply, at, out);
        return 7;
    }
    *len = send(GET, reply, end, out);
    return PLAIN_ANSWERED;
}

/* A Set of a setting: 9, 10, or the number is stored. */
static unsigned set_setting(struct plain_board *board, size_t place, const uint8_t *value, size_t width, uint8_t *out, size_t *len)
{
    const struct plain_setting *s = &plain_settings[place];
    uint8_t reply[PLAIN_MOST_DATA], *at, flag = PARAMETER;
    uint16_t number, partner, answer;
    unsigned outcome;

    if (width != s->width) {
        COUNT(wide[place]);
        answer = board->numbers[place];
        outcome = 9;
    } else {
        number = (uint16_t)(value[0] | (width == 2 ? value[1] << 8 : 0));
        partner = board->numbers[s->partner];
        if (allowed(s, number, partner)) {
            COUNT(stored[place]);
            board->numbers[place] = answer = number;
            flag = GOOD;
            outcome = PLAIN_ANSWERED;
        } else {
            answer = (uint16_t)plain_nearest(s->id, number, partner);
            COUNT(nearest[place]);
            if (s->zero_too && answer == 0)
                COUNT(zero);
            outcome = 10;
        }
    }
    at = say(reply, s->id, flag);
    *len = send(SET, reply, put(at, answer, s->width), out);
    return outcome;
}

static unsigned set(struct plain_board *board, const uint8_t *data, size_t count, uint8_t *out, size_t *len)
{
    uint8_t reply[PLAIN_MOST_DATA], *at;
    uint16_t id;
    size_t place;
    int known;

    if (count < 3 || data[2] != 0) {
        *len = send_error(out);
        return 6;
    }
    id = (uint16_t)(data[0] | data[1] << 8);
    place = place_of(id);
    if (place < PLAIN_SETTINGS)
        return set_setting(board, place, data + 3, count - 3, out, len);
    at = say(reply, id, NOT_SUPPORTED);
    known = put_read_only(board, id, at) != NULL;
    if (!known)
        reply[2] = UNKNOWN_ID;
    *len = send(SET, reply, at, out);
    return known ? 8 : 7;
}

/* Ping, App version and Product id: a response with a number. */
static unsigned tell(uint8_t response, uint16_t number, size_t count, uint8_t *out, size_t *len)
{
    uint8_t reply[2];

    if (count) {
        *len = send_error(out);
        return 6;
    }
    *len = send(response, reply, put(reply, number, 2), out);
    return PLAIN_ANSWERED;
}

static unsigned restart(struct plain_board *board, size_t count, uint8_t *out, size_t *len)
{
    if (count) {
        *len = send_error(out);
        return 6;
    }
    board->voltage = board->current = 0;
    board->fine = board->consumed = 0;
    board->charge = 0;
    return PLAIN_RESTARTED;
}

static unsigned frame_answer(struct plain_board *board, uint8_t command, const uint8_t *data, size_t count, uint8_t *out, size_t *len)
{
    COUNT(command[command]);
    switch (command) {
    case PING:
        return tell(PONG, board->version, count, out, len);
    case APP_VERSION:
        return tell(DONE, board->version, count, out, len);
    case PRODUCT_ID:
        return tell(DONE, board->product, count, out, len);
    case RESTART:
        return restart(board, count, out, len);
    case GET:
        return get(board, data, count, out, len);
    case SET:
        return set(board, data, count, out, len);
    case ASYNC:
        return PLAIN_IGNORED;
    default:
        *len = send(UNKNOWN, &command, &command + 1, out);
        return 5;
    }
}

struct plain_answer plain_answer(struct plain_board *board, const uint8_t *piece, size_t n, uint8_t *out, size_t room)
{
    struct plain_answer a = {PLAIN_NO_FRAME, 0, 0};
    uint8_t data[PLAIN_MOST_DATA];
    uint32_t said;

    if (room < PLAIN_REPLY_ROOM) {
        a.outcome = 11;
    } else {
        a.taken = plain_hear(&board->line, piece, n, data, &said);
        if (said == PLAIN_NOTHING) {
            a.outcome = PLAIN_NO_FRAME;
        } else if (said >> 16) {
            a.outcome = said >> 16;
            a.len = send_error(out);
        } else {
            a.outcome = frame_answer(board, (uint8_t)(said >> 8), data, said & 0xFF, out, &a.len);
        }
    }
    COUNT(outcome[a.outcome]);
    return a;
}

/* ---- whole runs */

static size_t least(size_t a, size_t b) { return a < b ? a : b; }

uint64_t plain_stream(const uint8_t *bytes, size_t n, const uint32_t *sizes, size_t calls, uint8_t *into, size_t room)
{
    struct plain_line line = {0};
    uint64_t good = 0;
    uint32_t said;
    size_t at = 0;

    if (room < PLAIN_MOST_DATA)
        return 0;
    for (size_t k = 0; k < calls; k++) {
        at += plain_hear(&line, bytes + at, least(sizes[k], n - at), into, &said);
        good += said < REFUSED(1);
#ifdef PLAIN_COUNT
        if (said != PLAIN_NOTHING)
            COUNT(heard[said >> 16]);
#endif
    }
    return good;
}

uint64_t plain_board(uint16_t product, uint16_t version, const uint8_t *serial, size_t serial_len, int64_t voltage, int64_t current,
                     int64_t fine, int64_t consumed, int64_t charge, const uint8_t *bytes, size_t n, const uint32_t *sizes, size_t calls,
                     uint8_t *out, size_t room)
{
    struct plain_board board;
    size_t at = 0, len = 0;

    plain_start(&board, product, version, serial, serial_len);
    plain_store(&board, voltage, current, fine, consumed, charge);
    for (size_t k = 0; k < calls; k++) {
        struct plain_answer a = plain_answer(&board, bytes + at, least(sizes[k], n - at), out + len, room - len);
        at += a.taken;
        len += a.len;
    }
    return len;
}
