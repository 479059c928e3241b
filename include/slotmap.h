/* The slot map as bytes, for a host in C99 or C++ on x86-64 Linux.
 *
 * An image is 136 bytes that hold which of 1,024 slots are used. The host keeps it where it likes, at any
 * address, and lends it to each call. The calls keep nothing between them. docs/C-HOST.md tells the rest:
 * how to link, the layout of an image, and what a pointer has to be.
 *
 * Each call answers one number. 0 or more is its result. Less than 0 is a refusal, and then the call has
 * changed no byte. tests/c-host holds this file to the sources.
 */
#ifndef SLOTMAP_H
#define SLOTMAP_H

#include <stddef.h>
#include <stdint.h>

#ifdef __cplusplus
extern "C" {
#endif

/* How many bytes an image has. It is the `length` of each call, and it is also the version: an image of
 * another layout has another length. */
#define SLOTMAP_IMAGE_SIZE 136

/* How many slots a map has: 0 to 1023. */
#define SLOTMAP_SLOTS 1024

/* Why a call was refused, as the call answers it. */
enum slotmap_refusal {
    SLOTMAP_UNSOUND = -1,             /* the image's summary is at odds with its words */
    SLOTMAP_NO_ENTRIES = -2,          /* the call names no slot: n is 0 */
    SLOTMAP_ALIGNMENT_TOO_GREAT = -3, /* a is 10 or more */
    SLOTMAP_PAST_THE_END = -4,        /* the slots would end past slot 1023 */
    SLOTMAP_ALREADY_FREE = -5,        /* a slot to be freed is free already */
    SLOTMAP_NO_ROOM = -7,             /* no start fits */
    SLOTMAP_NO_IMAGE = -16            /* a length or a tag is wrong: these bytes are no image */
};

/* Takes n slots side by side: the lowest start that is a multiple of 2 to the power of a, from which on n slots
 * are free. Answers the start.
 * Refused, the first that holds: NO_IMAGE, UNSOUND, NO_ENTRIES, ALIGNMENT_TOO_GREAT, PAST_THE_END (n is over
 * 1024), NO_ROOM. */
int32_t slotmap_take(uint8_t *image, size_t length, size_t n, size_t a);

/* Frees the n slots from `start` on, each of which must be used. Answers 0.
 * Refused, the first that holds: NO_IMAGE, UNSOUND, NO_ENTRIES, PAST_THE_END, ALREADY_FREE. */
int32_t slotmap_free(uint8_t *image, size_t length, size_t start, size_t n);

/* Answers how many slots are used, and changes nothing. So it is also the way to ask whether bytes are a sound
 * image.
 * Refused, the first that holds: NO_IMAGE, UNSOUND. */
int32_t slotmap_used(const uint8_t *image, size_t length);

/* The image of the map whose slots are all free:
 *     uint8_t image[SLOTMAP_IMAGE_SIZE] = SLOTMAP_IMAGE_EMPTY;
 */
#define SLOTMAP_IMAGE_EMPTY {32, 128, 0, SLOTMAP_128_ZEROS, 33, 2, 0, 0, 0}
#define SLOTMAP_128_ZEROS SLOTMAP_32_ZEROS, SLOTMAP_32_ZEROS, SLOTMAP_32_ZEROS, SLOTMAP_32_ZEROS
#define SLOTMAP_32_ZEROS SLOTMAP_8_ZEROS, SLOTMAP_8_ZEROS, SLOTMAP_8_ZEROS, SLOTMAP_8_ZEROS
#define SLOTMAP_8_ZEROS 0, 0, 0, 0, 0, 0, 0, 0

/* An answer in words: why it is a refusal, or that it is none. Never null; the text lives as long as the program. */
static inline const char *slotmap_why(int32_t answer) {
    switch (answer) {
    case SLOTMAP_UNSOUND:
        return "the summary is at odds with the words";
    case SLOTMAP_NO_ENTRIES:
        return "no slot is named";
    case SLOTMAP_ALIGNMENT_TOO_GREAT:
        return "the alignment is too great";
    case SLOTMAP_PAST_THE_END:
        return "the slots would end past the last one";
    case SLOTMAP_ALREADY_FREE:
        return "a named slot is free already";
    case SLOTMAP_NO_ROOM:
        return "no free run fits";
    case SLOTMAP_NO_IMAGE:
        return "these bytes are no image";
    default:
        return answer >= 0 && answer <= SLOTMAP_SLOTS ? "not refused" : "no call answers this number";
    }
}

#ifdef __cplusplus
}
#endif

#endif
