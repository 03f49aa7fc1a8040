/* The three firmware calls a second time, in plain C straight from document 01. Nothing here is proved, and nothing here shares a line
 * with the proved library: it is what the test and the timings hold that library against. Results are packed as in reedsatchel.h. */
#ifndef REEDSATCHEL_PLAIN_H
#define REEDSATCHEL_PLAIN_H

#include <stddef.h>
#include <stdint.h>

#ifdef __cplusplus
extern "C" {
#endif

/* What a pair asks of a setting's number: nothing, at most the partner's, at least the partner's. */
enum plain_kind { PLAIN_ALONE, PLAIN_AT_MOST, PLAIN_AT_LEAST };

struct plain_setting {
    uint16_t id;
    uint8_t width;    /* bytes of a value on the wire */
    uint16_t lo, hi;  /* the range, both ends in it */
    uint8_t zero_too; /* 0 is in range besides: "disabled" */
    uint16_t factory;
    uint8_t partner;  /* place of the other one of the pair; its own place where there is none */
    uint8_t kind;     /* an enum plain_kind */
};

#define PLAIN_SETTINGS 26

/* by ascending id */
extern const struct plain_setting plain_settings[PLAIN_SETTINGS];

uint32_t plain_write_frame(uint8_t command, const uint8_t *bytes, size_t count, uint8_t *out, size_t room);
uint32_t plain_read_frame(const uint8_t *frame, size_t length, uint8_t *into, size_t room);
uint32_t plain_nearest(uint16_t id, uint16_t wished, uint16_t partner);

#ifdef __cplusplus
}
#endif

#endif
