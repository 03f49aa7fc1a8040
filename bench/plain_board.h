/* The stream and the board in plain C, straight from document 01, as firmware would be written: state by pointer, no test of the state
 * itself. Nothing here is proved; it is what the timings and the fuzz run hold the proved code against. */
#ifndef REEDSATCHEL_PLAIN_BOARD_H
#define REEDSATCHEL_PLAIN_BOARD_H

#include "plain.h"

#define PLAIN_MOST_DATA 35
#define PLAIN_MOST_CHARS 73
#define PLAIN_REPLY_ROOM 75
#define PLAIN_MOST_SERIAL 32

/* The unfinished frame of a line: no byte outside a frame, else its colon and the characters after it. 74 characters say "over 73", so
 * later ones are dropped. The last place is for the newline. */
struct plain_line {
    size_t len;
    uint8_t frame[PLAIN_MOST_CHARS + 3];
};

struct plain_board {
    uint16_t product, version;
    uint8_t serial_len, serial[PLAIN_MOST_SERIAL];
    int16_t voltage, current;
    int32_t fine, consumed;
    uint16_t charge;
    uint16_t numbers[PLAIN_SETTINGS];
    struct plain_line line;
};

/* What became of a piece: one of these, or a refusal's number. */
enum { PLAIN_NO_FRAME = 0, PLAIN_ANSWERED = 16, PLAIN_RESTARTED, PLAIN_IGNORED, PLAIN_OUTCOMES };

struct plain_answer {
    unsigned outcome;
    size_t len, taken;
};

/* said by plain_hear where no frame ended; otherwise it says what plain_read_frame answers */
#define PLAIN_NOTHING UINT32_MAX

/* Reads on up to the first byte that ends a frame, and returns how many bytes it took. into has 35 bytes. */
size_t plain_hear(struct plain_line *line, const uint8_t *piece, size_t n, uint8_t *into, uint32_t *said);

/* Both return 0, or 12 and then: product and version 0, no serial; or the readings as they were. */
unsigned plain_start(struct plain_board *board, uint16_t product, uint16_t version, const uint8_t *serial, size_t serial_len);
unsigned plain_store(struct plain_board *board, int64_t voltage, int64_t current, int64_t fine, int64_t consumed, int64_t charge);

struct plain_answer plain_answer(struct plain_board *board, const uint8_t *piece, size_t n, uint8_t *out, size_t room);

/* The same as reedsatchel_bench_stream and reedsatchel_bench_board. */
uint64_t plain_stream(const uint8_t *bytes, size_t n, const uint32_t *sizes, size_t calls, uint8_t *into, size_t room);
uint64_t plain_board(uint16_t product, uint16_t version, const uint8_t *serial, size_t serial_len, int64_t voltage, int64_t current,
                     int64_t fine, int64_t consumed, int64_t charge, const uint8_t *bytes, size_t n, const uint32_t *sizes, size_t calls,
                     uint8_t *out, size_t room);

#ifdef PLAIN_COUNT
/* What has been reached since the program began. Only the fuzz run counts; the timed code does not. */
struct plain_counts {
    uint64_t outcome[PLAIN_OUTCOMES]; /* of calls on a board */
    uint64_t command[16];             /* good frames of each command, on a board */
    uint64_t got[PLAIN_SETTINGS], stored[PLAIN_SETTINGS], nearest[PLAIN_SETTINGS], wide[PLAIN_SETTINGS]; /* by setting */
    uint64_t zero;                    /* 10 with the nearest number 0 where 0 is allowed besides a range */
    uint64_t read_only[8];            /* Gets of each */
    uint64_t start, store;            /* refused 12 */
    uint64_t heard[5];                /* the stream: frames read well, refusals 1 to 4 */
};
extern struct plain_counts plain_counts;
#endif

#endif
