/* The speed of the proved code against plain C: the same input and the same buffers for both, in turns.
 *
 *   bench             the table
 *   bench quick       one short round, without the largest size
 *   bench rows        the rows' names
 *   bench one R S K N row R at size S, side K (0 Rattle, 1 plain C), N times and nothing else: for counting instructions */
#include <stdio.h>
#include <stdlib.h>
#include <string.h>
#include <time.h>

#include "calls.h"
#include "plain_board.h"

enum { RATTLE, PLAIN, SIDES };
enum kind { WRITING, READING, STREAM, BOARD };

#define WHOLE UINT32_MAX

static const struct row {
    const char *name;
    enum kind kind;
    uint32_t cut; /* data bytes of a frame, or bytes of a piece */
} rows[] = {
    {"frame writing, 5 data bytes", WRITING, 5},
    {"frame writing, 35 data bytes", WRITING, 35},
    {"frame reading, 5 data bytes", READING, 5},
    {"frame reading, 35 data bytes", READING, 35},
    {"stream, one piece", STREAM, WHOLE},
    {"stream, pieces of 4096", STREAM, 4096},
    {"stream, pieces of 16", STREAM, 16},
    {"stream, pieces of 1", STREAM, 1},
    {"board, one piece", BOARD, WHOLE},
    {"board, pieces of 1", BOARD, 1},
};
#define ROWS (sizeof rows / sizeof *rows)

static const struct {
    const char *name;
    size_t bytes;
} tried[] = {{"1 KB", 1024}, {"100 KB", 100 * 1024}, {"10 MB", 10 * 1024 * 1024}};
#define TRIED (sizeof tried / sizeof *tried)

static void stop(const char *why, const char *row, const char *size)
{
    printf("bench: %s: %s, %s\n", why, row, size);
    exit(1);
}

static void *room_for(size_t bytes)
{
    void *p = malloc(bytes);

    if (!p) {
        printf("bench: no memory\n");
        exit(2);
    }
    return p;
}

/* ---- numbers that look random and are the same in every run */

static uint64_t state;

static uint32_t any(uint32_t below)
{
    state ^= state << 13;
    state ^= state >> 7;
    state ^= state << 17;
    return (uint32_t)((state >> 32) % below);
}

/* ---- input */

static const uint16_t read_only[] = {0x0100, 0x010A, 0xEEF9, 0xED8D, 0xED8F, 0xED8C, 0xEEFF, 0x0FFF};

/* a frame with its data; into has room for 75 bytes */
static size_t frame(uint8_t *into, uint8_t command, const uint8_t *data, size_t count)
{
    return plain_write_frame(command, data, count, into, 75);
}

/* One of three damages: a digit changed, a character that is no digit, or no newline, so that the next colon breaks the frame. */
static size_t damaged(uint8_t *text, size_t len)
{
    uint8_t *digit = text + 1 + any((uint32_t)len - 2);

    switch (any(3)) {
    case 0:
        *digit = *digit == '0' ? '1' : '0';
        return len;
    case 1:
        *digit = 'a';
        return len;
    default:
        return len - 1;
    }
}

/* What a box hears: replies and Async frames, now and then a damaged one or noise. */
static size_t heard_text(uint8_t *text)
{
    uint8_t data[35];
    uint32_t kind = any(100);
    size_t noise = 0;

    for (size_t i = 0; i < sizeof data; i++)
        data[i] = (uint8_t)any(256);
    if (kind < 60)
        return frame(text, (uint8_t)(7 + any(2)), data, 5);
    if (kind < 72)
        return frame(text, (uint8_t)(7 + any(2)), data, 4);
    if (kind < 82)
        return frame(text, 0xA, data, 7);
    if (kind < 86)
        return frame(text, 7, data, 35);
    if (kind < 92)
        return frame(text, 5, data, 2);
    if (kind < 97)
        return damaged(text, frame(text, 7, data, 5));
    for (size_t k = 1 + any(40); k; k--)
        text[noise++] = (uint8_t)(' ' + any(26));
    return noise;
}

/* A number for the setting at a place: accepted by a board that holds these numbers, or refused. */
static uint16_t number_for(const uint16_t *numbers, size_t place, int accepted)
{
    const struct plain_setting *s = &plain_settings[place];

    for (;;) {
        uint16_t n = (uint16_t)(accepted ? s->lo + any(1u + s->hi - s->lo) : any(s->width == 1 ? 256 : 65536));
        uint16_t nearest = (uint16_t)plain_nearest(s->id, n, numbers[s->partner]);
        if (accepted)
            return nearest;
        if (nearest != n)
            return n;
    }
}

/* What a board is asked. numbers are those that it then holds. */
static size_t asked_text(uint8_t *text, uint16_t *numbers)
{
    uint8_t data[35] = {0};
    uint32_t kind = any(100);
    size_t place = any(PLAIN_SETTINGS);
    uint16_t id = plain_settings[place].id, n;

    if (kind == 99)
        return frame(text, 1, data, 0);
    if (kind >= 40 && kind < 48)
        id = read_only[any(8)];
    if (kind == 98)
        id = 0x0800;
    data[0] = (uint8_t)id;
    data[1] = (uint8_t)(id >> 8);
    if (kind < 48 || kind == 98)
        return frame(text, 7, data, 3);
    if (kind == 97)
        return frame(text, 8, data, 6);
    n = number_for(numbers, place, kind < 88);
    data[3] = (uint8_t)n;
    data[4] = (uint8_t)(n >> 8);
    if (kind == 96)
        return damaged(text, frame(text, 8, data, 5));
    if (kind < 88)
        numbers[place] = n;
    return frame(text, 8, data, 3u + plain_settings[place].width);
}

static const char *const mixes[] = {
    "stream: of 100 items 72 Get and Set replies (4 or 5 data bytes), 10 Async (7), 4 serials (35), 6 short answers (2), 5 damaged, 3 noise",
    "board: of 100 frames 40 Gets of settings, 8 of read-only ids, 40 Sets that are accepted, 8 refused 10, 1 refused 9, 1 refused 7,",
    "       1 Ping, 1 damaged Set",
};

/* A row at a size: the input, its cutting, and the lent buffer. */
struct work {
    const struct row *row;
    uint8_t *in, *out, *wanted;
    size_t n, room;
    uint32_t *cuts; /* the length of each frame that is written or read, or what each call is handed at most */
    size_t calls;
};

static void cut_frames(struct work *w, size_t bytes)
{
    uint8_t text[75], data[35];
    size_t part;

    w->n = w->calls = 0;
    while (w->n < bytes) {
        part = w->row->cut < bytes - w->n ? w->row->cut : bytes - w->n;
        for (size_t i = 0; i < part; i++)
            data[i] = (uint8_t)any(256);
        if (w->row->kind == WRITING) {
            memcpy(w->in + w->n, data, part);
        } else {
            part = frame(text, (uint8_t)any(16), data, w->row->cut);
            if (part > bytes - w->n)
                return;
            memcpy(w->in + w->n, text, part);
        }
        w->n += part;
        w->cuts[w->calls++] = (uint32_t)part;
    }
}

static void cut_stream(struct work *w, size_t bytes)
{
    uint16_t numbers[PLAIN_SETTINGS];
    uint8_t text[75], data[PLAIN_MOST_DATA];
    struct plain_line line = {0};
    uint32_t said;
    size_t at, part;

    for (size_t i = 0; i < PLAIN_SETTINGS; i++)
        numbers[i] = plain_settings[i].factory;
    for (w->n = 0; w->n < bytes; w->n += part) {
        part = w->row->kind == BOARD ? asked_text(text, numbers) : heard_text(text);
        if (part > bytes - w->n)
            part = bytes - w->n;
        memcpy(w->in + w->n, text, part);
    }
    /* as many calls as it takes */
    for (at = w->calls = 0; at < w->n; w->cuts[w->calls++] = w->row->cut) {
        part = w->row->cut < w->n - at ? w->row->cut : w->n - at;
        at += plain_hear(&line, w->in + at, part, data, &said);
    }
}

static void prepare(struct work *w, const struct row *row, size_t bytes)
{
    state = 88172645463325252u;
    w->row = row;
    w->in = room_for(bytes);
    w->cuts = room_for((bytes + 1) * sizeof *w->cuts);
    if (row->kind == STREAM || row->kind == BOARD)
        cut_stream(w, bytes);
    else
        cut_frames(w, bytes);
    /* a written frame of five data bytes is three times as long, and every call is lent 75 bytes at least */
    w->room = row->kind == STREAM ? PLAIN_MOST_DATA : 4 * bytes + 4096;
    w->out = room_for(w->room);
    w->wanted = room_for(w->room);
}

static void drop(struct work *w)
{
    free(w->in);
    free(w->cuts);
    free(w->out);
    free(w->wanted);
}

/* ---- the work, for either side */

static uint64_t write_all(const struct work *w, uint32_t (*write)(uint8_t, const uint8_t *, size_t, uint8_t *, size_t))
{
    uint64_t sum = 0;
    size_t at = 0, to = 0;

    for (size_t k = 0; k < w->calls; k++) {
        uint32_t r = write((uint8_t)(k & 15), w->in + at, w->cuts[k], w->out + to, w->room - to);
        at += w->cuts[k];
        to += r & 0xFFFF;
        sum += r;
    }
    return sum;
}

static uint64_t read_all(const struct work *w, uint32_t (*read)(const uint8_t *, size_t, uint8_t *, size_t))
{
    uint64_t sum = 0;
    size_t at = 0, to = 0;

    for (size_t k = 0; k < w->calls; k++) {
        uint32_t r = read(w->in + at, w->cuts[k], w->out + to, w->room - to);
        at += w->cuts[k];
        to += r & 0xFF;
        sum += r;
    }
    return sum;
}

static uint64_t run(const struct work *w, int side)
{
    static const uint8_t serial[] = "HQ1328Y6TF7";
    const size_t len = sizeof serial - 1;

    switch (w->row->kind) {
    case WRITING:
        return write_all(w, side == RATTLE ? reedsatchel_write_frame : plain_write_frame);
    case READING:
        return read_all(w, side == RATTLE ? reedsatchel_read_frame : plain_read_frame);
    case STREAM:
        return (side == RATTLE ? reedsatchel_bench_stream : plain_stream)(w->in, w->n, w->cuts, w->calls, w->out, w->room);
    default:
        return (side == RATTLE ? reedsatchel_bench_board : plain_board)(0xA381, 0x4401, serial, len, 1254, -53, -5312, -119, 8711, w->in,
                                                                        w->n, w->cuts, w->calls, w->out, w->room);
    }
}

/* ---- measuring */

static double now(void)
{
    struct timespec t;

    clock_gettime(CLOCK_MONOTONIC, &t);
    return (double)t.tv_sec + (double)t.tv_nsec * 1e-9;
}

struct figure {
    double best;    /* seconds for one run of the input, in the best turn */
    uint64_t times; /* runs in a turn */
};

#define TURN 0.005

/* One turn: long enough for the clock, short enough that other programs do not always fall into it. */
static double turn(const struct work *w, int side, struct figure *f, uint64_t wanted, const char *size)
{
    double began, took;
    uint64_t wrong;

    for (;;) {
        wrong = 0;
        began = now();
        for (uint64_t i = 0; i < f->times; i++)
            wrong |= run(w, side) ^ wanted;
        took = now() - began;
        if (wrong)
            stop("STOPPED, the two sides differ", w->row->name, size);
        if (took >= TURN)
            break;
        f->times = took < TURN / 16 ? f->times * 8 : (uint64_t)((double)f->times * TURN / took * 1.2) + 1;
    }
    if (f->best == 0 || took / (double)f->times < f->best)
        f->best = took / (double)f->times;
    return took;
}

/* Both sides in turns, each for at least `least` seconds; the lent buffer afterwards is compared with what is wanted, as every answer is. */
static double measure(const struct work *w, struct figure *f, double least, uint64_t wanted, const char *size)
{
    double spent[SIDES] = {0, 0};

    do
        for (int side = 0; side < SIDES; side++) {
            spent[side] += turn(w, side, &f[side], wanted, size);
            if (memcmp(w->out, w->wanted, w->room))
                stop("STOPPED, the two sides differ", w->row->name, size);
        }
    while (spent[RATTLE] < least || spent[PLAIN] < least);
    return spent[RATTLE] + spent[PLAIN];
}

static void one_line(const struct row *row, const char *size, size_t bytes, int rounds, double least)
{
    struct figure f[SIDES] = {{0, 1}, {0, 1}};
    double ns[SIDES], spent = 0;
    uint64_t wanted;
    struct work w;

    prepare(&w, row, bytes);
    memset(w.out, 0xA5, w.room);
    wanted = run(&w, PLAIN);
    memcpy(w.wanted, w.out, w.room);
    memset(w.out, 0xA5, w.room);
    if (run(&w, RATTLE) != wanted || memcmp(w.out, w.wanted, w.room))
        stop("STOPPED, the two sides differ", row->name, size);
    /* three rounds are enough where one takes long */
    for (int k = 0; k < rounds && !(k >= 3 && spent > 10); k++)
        spent += measure(&w, f, least, wanted, size);
    for (int i = 0; i < SIDES; i++)
        ns[i] = f[i].best * 1e9 / (double)w.n;
    printf("%-30s %7s %9.2f %9.2f %9.0f %9.0f %8.2f\n", row->name, size, ns[RATTLE], ns[PLAIN], 1e3 / ns[RATTLE], 1e3 / ns[PLAIN],
           ns[RATTLE] / ns[PLAIN]);
    fflush(stdout);
    drop(&w);
}

static void table(int rounds, double least, size_t sizes)
{
    printf("Rattle : plain C, the same input and the same buffers for both, in turns of %.0f ms or one run;\n"
           "%d rounds of %.0f ms or more for each side, and the best turn counts.\n", TURN * 1e3, rounds, least * 1e3);
    printf("Lent buffers are not cleared between runs. Both sides gave the same answers and bytes in every round, or this would have stopped.\n");
    for (size_t i = 0; i < sizeof mixes / sizeof *mixes; i++)
        printf("%s\n", mixes[i]);
    printf("\n%-30s %7s %9s %9s %9s %9s %8s\n", "", "input", "Rattle", "C", "Rattle", "C", "Rattle");
    printf("%-30s %7s %9s %9s %9s %9s %8s\n", "", "", "ns/byte", "ns/byte", "MB/s", "MB/s", ": C");
    for (size_t r = 0; r < ROWS; r++)
        for (size_t s = 0; s < sizes; s++)
            one_line(&rows[r], tried[s].name, tried[s].bytes, rounds, least);
}

static int one(char **words)
{
    size_t row = (size_t)strtoull(words[0], NULL, 10), size = (size_t)strtoull(words[1], NULL, 10);
    int side = (int)strtoull(words[2], NULL, 10);
    unsigned long long times = strtoull(words[3], NULL, 10);
    uint64_t sum = 0;
    struct work w;

    if (row >= ROWS || size >= TRIED || side >= SIDES)
        return 2;
    prepare(&w, &rows[row], tried[size].bytes);
    while (times--)
        sum += run(&w, side);
    printf("%s, %s: %llu\n", rows[row].name, tried[size].name, (unsigned long long)sum);
    drop(&w);
    return 0;
}

int main(int count, char **words)
{
    if (count == 6 && !strcmp(words[1], "one"))
        return one(words + 2);
    if (count == 2 && !strcmp(words[1], "rows")) {
        for (size_t r = 0; r < ROWS; r++)
            printf("%s\n", rows[r].name);
        return 0;
    }
    if (count == 2 && !strcmp(words[1], "quick")) {
        table(1, 0.01, TRIED - 1);
        return 0;
    }
    if (count != 1) {
        printf("bench: no such argument\n");
        return 2;
    }
    table(7, 0.1, TRIED);
    return 0;
}
