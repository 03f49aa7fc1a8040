/* A board's receive loop: bytes come off the serial line one by one, and a reply goes out when a frame has ended. This board knows the
 * command Ping alone; a real one goes on from `answer` with the others. */
#include "reedsatchel.h"

/* One character more than a frame may have is kept of it, and what follows is dropped. So the line stays too long, the reader itself
 * says so at the line's end, and no length of line needs more memory. */
#define MOST_HELD (REEDSATCHEL_MOST_CHARACTERS + 1)

static uint8_t line[1 + MOST_HELD + 1]; /* colon, characters, and the byte that ends it */
static size_t held;                     /* how much of it is filled; 0 is outside a frame */

static size_t reply_with(uint8_t code, const uint8_t *data, size_t count, uint8_t *reply)
{
    return reedsatchel_frame_length(reedsatchel_write_frame(code, data, count, reply, REEDSATCHEL_FRAME_ROOM));
}

/* Writes the reply to a line, by what the reader said of it; its length, or 0 where none is sent. */
static size_t answer(uint32_t read, uint8_t *reply)
{
    static const uint8_t error[2] = {0xAA, 0xAA}, version[2] = {0x01, 0x44}; /* 0x4401, low byte first */
    uint8_t command = reedsatchel_command(read);

    if (reedsatchel_refusal(read) != REEDSATCHEL_GOOD)
        return reply_with(4, error, 2, reply);
    if (command == 0xA)
        return 0; /* Async is never answered */
    if (command != 1)
        return reply_with(3, &command, 1, reply); /* unknown here */
    if (reedsatchel_data_count(read) != 0)
        return reply_with(4, error, 2, reply); /* a Ping has no data */
    return reply_with(5, version, 2, reply);
}

/* Takes one byte of the serial line; the length of the reply to send now, or 0. */
static size_t receive(uint8_t byte, uint8_t *reply)
{
    uint8_t data[REEDSATCHEL_DATA_ROOM];
    uint32_t read;

    if (held == 0 && byte != ':')
        return 0; /* between frames */
    if (held == 0 || (byte != '\n' && byte != ':')) {
        if (held < 1 + MOST_HELD)
            line[held++] = byte;
        return 0;
    }
    /* A colon ends the frame too, as a broken one: with no newline last the reader refuses it, 2. (Over 73 characters and then a colon
     * is 1 by the paper. The reply is the same, so the loop does not tell them apart.) That colon begins the next frame. */
    line[held++] = byte;
    read = reedsatchel_read_frame(line, held, data, sizeof data);
    held = byte == ':'; /* line[0] is a colon already */
    return answer(read, reply);
}

/* From here on a program takes the board's place: it feeds lines to the loop and prints the replies. The two functions of the C library
 * are declared by hand, so that it compiles where there are no headers for this processor. */
int printf(const char *format, ...);
int putchar(int byte);

#define TEN "0123456789"
#define SEVENTY TEN TEN TEN TEN TEN TEN TEN

int main(void)
{
    static const struct { const char *what, *bytes; } lines[] = {
        {"a Ping", ":154\n"},
        {"noise, then a Ping", "\r\nV\t12800\r\n154\n:154\n"},
        {"two Pings in a row", ":154\n:154\n"},
        {"half a Ping", ":1"},
        {"the other half", "54\n"},
        {"another command", ":253\n"},
        {"an Async", ":A0102000543\n"},
        {"a Ping with data", ":10054\n"},
        {"a wrong sum", ":155\n"},
        {"lower case", ":70010003e\n"},
        {"a carriage return before the newline", ":154\r\n"},
        {"a colon alone", ":\n"},
        {"a frame broken by the colon of a Ping", ":8001000F4:154\n"},
        {"two colons, then a Ping", "::154\n"},
        {"a frame of 73 characters", ":7" SEVENTY "DF\n"},
        {"74 characters", ":" SEVENTY "0123\n"},
        {"140 characters, then a Ping", ":" SEVENTY SEVENTY "\n:154\n"},
        {"140 characters broken by the colon of a Ping", ":" SEVENTY SEVENTY ":154\n"},
    };
    uint8_t reply[REEDSATCHEL_FRAME_ROOM];

    for (size_t i = 0; i < sizeof lines / sizeof *lines; i++) {
        printf("%s\n", lines[i].what);
        for (const char *at = lines[i].bytes; *at; at++) {
            size_t length = receive((uint8_t)*at, reply);
            if (length > 0)
                printf("    ");
            for (size_t k = 0; k < length; k++)
                putchar(reply[k]);
        }
    }
    return 0;
}
