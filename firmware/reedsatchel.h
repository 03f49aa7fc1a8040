/* Reedsatchel for a board's own C or C++ program: a VE.Direct HEX frame read, a frame written, and the nearest number that a setting
 * allows. The functions are those of libfirmware.a, proved for all input; this header only declares them.
 *
 * A frame is a colon, the command as one digit, 0 to 35 data bytes as two digits each, a check byte as two digits, and a newline
 * (byte 10). Digits are 0 to 9 and A to F, upper case alone. Command, data bytes and check byte sum to 0x55, modulo 256.
 *
 * What the caller owes, and no call can look at: no pointer is null, not even beside a length of 0; each points at as many bytes as
 * the length beside it says; and a lent buffer does not overlap the bytes that are read. Then any bytes and any numbers may be handed
 * in, and every call ends. No proof speaks of the compiled archive itself: on x86-64 firmware/test looks that it holds no data that
 * changes and asks for memcpy alone, so that it keeps nothing between calls, takes no heap, and may be used from several threads.
 *
 * Every call answers with one number. Its high half is the number of the refusal, 0 where there is none; its low half is the answer, 0
 * under a refusal. The functions at the end take it apart. Under a refusal no byte of a lent buffer changes. Otherwise the frame, or
 * the data, fill the front of the buffer, and the rest keeps its bytes. */
#ifndef REEDSATCHEL_H
#define REEDSATCHEL_H

#include <stddef.h>
#include <stdint.h>

#ifdef __cplusplus
extern "C" {
#endif

/* The most data bytes that a frame has, and with them the most characters between its colon and its newline. */
#define REEDSATCHEL_MOST_DATA 35
#define REEDSATCHEL_MOST_CHARACTERS 73

/* The room that must be lent, always, also for a shorter frame or fewer data. */
#define REEDSATCHEL_FRAME_ROOM 75 /* to write a frame */
#define REEDSATCHEL_DATA_ROOM 35  /* to read one */

/* The numbers of the refusals. */
enum reedsatchel_refusal_number {
    REEDSATCHEL_GOOD = 0,         /* no refusal */
    REEDSATCHEL_TOO_LONG = 1,     /* over 73 characters between colon and newline */
    REEDSATCHEL_NO_DIGIT = 2,     /* one of them is no digit; or the slice is not from a colon to a newline */
    REEDSATCHEL_BAD_COUNT = 3,    /* under 3 of them, or an even count */
    REEDSATCHEL_BAD_SUM = 4,      /* the sum is not 0x55 */
    REEDSATCHEL_NO_SETTING = 7,   /* the id is not one of the settings */
    REEDSATCHEL_SHORT_BUFFER = 11, /* the lent buffer is too short */
    REEDSATCHEL_NOT_ALLOWED = 12  /* a number handed in is not allowed */
};

/* Writes the frame of a command and its data bytes to the front of out, colon and newline included.
 * Answers its length: reedsatchel_frame_length.
 * Refuses, in this order: 11 if room is under 75; 12 if command is over 15 or count over 35. */
uint32_t reedsatchel_write_frame(uint8_t command, const uint8_t *bytes, size_t count, uint8_t *out, size_t room);

/* Reads one whole frame, first byte the colon, last byte the newline, and puts its data bytes at the front of into.
 * Answers the command and how many data bytes there are: reedsatchel_command, reedsatchel_data_count.
 * Refuses, in this order: 11 if room is under 35; 2 if length is under 2, or no colon is first, or no newline last; then of the
 * characters between these two: 1 if there are over 73; 2 if one is no digit, and a colon, a newline, a carriage return or a lower-case
 * letter is none; 3 if there are under 3, or an even count; 4 if the sum is not 0x55.
 * What is read is byte for byte what the writer makes of the same command and data. */
uint32_t reedsatchel_read_frame(const uint8_t *frame, size_t length, uint8_t *into, size_t room);

/* Finds the allowed number nearest to the wished one, for the setting with this id, while the other setting of its pair holds the
 * number partner. Allowed is what is in the setting's own range and agrees with partner: a low alarm is at most its clear, a high alarm
 * at least its clear. Of two equally near it is the smaller; there always is one; a wished number that is allowed is its own nearest.
 * Answers that number: reedsatchel_number.
 * Refuses, in this order: 7 if the id is no setting; 12 if partner is outside the range of the other setting. A setting that is in no
 * pair has no use for partner, and any number will do. */
uint32_t reedsatchel_nearest(uint16_t id, uint16_t wished, uint16_t partner);

/* The number of the refusal, 0 if there is none: of any result. */
static inline unsigned reedsatchel_refusal(uint32_t result)
{
    return (unsigned)(result >> 16);
}

/* How many bytes the written frame has; 0 under a refusal, so that there is nothing to send. */
static inline size_t reedsatchel_frame_length(uint32_t written)
{
    return (size_t)(written & 0xFFFFu);
}

/* The command of the frame that was read; 0 under a refusal, which is a command too: look at the refusal first. */
static inline uint8_t reedsatchel_command(uint32_t read)
{
    return (uint8_t)(read >> 8 & 0xFFu);
}

/* How many data bytes the frame that was read has; 0 under a refusal. */
static inline size_t reedsatchel_data_count(uint32_t read)
{
    return (size_t)(read & 0xFFu);
}

/* The nearest allowed number; 0 under a refusal, which may be a number too: look at the refusal first. */
static inline uint16_t reedsatchel_number(uint32_t nearest)
{
    return (uint16_t)(nearest & 0xFFFFu);
}

#ifdef __cplusplus
}
#endif

#endif
