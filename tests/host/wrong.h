/* The three calls as the test makes them. Where `wrong` is RIGHT they are the library's. Any other value makes them
 * those of a library that is wrong in one way, and the test has to notice it. */
#ifndef WRONG_H
#define WRONG_H

#include "model.h"
#include "slotmap.h"

/* Each way to be wrong, with the words that the test's complaint has to hold. */
#define WAYS(way) \
    way(RIGHT, "is the library's", "") \
    way(NEXT_SLOT, "a take answers the slot after the start", "the answer is") \
    way(NEXT_FIT, "a take passes the lowest start over", "the answer is") \
    way(UNALIGNED_START, "a take disregards the alignment", "the answer is") \
    way(COUNTS_FREED, "a free answers how many slots it freed", "the answer is") \
    way(USED_OFF, "used is one too low when all slots are used", "the answer is") \
    way(POSITIVE, "a refusal is not negated", "the answer is") \
    way(OTHER_ORDER, "the alignment is judged before the number of slots", "the answer is") \
    way(CUT_NUMBERS, "numbers are cut to 32 bits", "the answer is") \
    way(WRAPPED_END, "an end that passes 2^64 is let through", "the answer is") \
    way(ANY_LENGTH, "a wrong length is let through", "the answer is") \
    way(ANY_TAG, "a wrong tag of the second field is let through", "the answer is") \
    way(ANY_HIGH_BYTE, "the high byte of a field's length is not looked at", "the answer is") \
    way(ANY_SUMMARY, "a summary at odds is put right and let through", "the answer is") \
    way(NEEDS_ALIGNMENT, "an image that is not at a multiple of 8 is refused", "the answer is") \
    way(ONE_SLOT_MORE, "a take marks one slot more", "of the image") \
    way(OLD_SUMMARY, "a take leaves the summary as it was", "of the image") \
    way(REFUSED_WRITES, "a refused call writes", "of the image") \
    way(USED_WRITES, "used writes", "of the image") \
    way(WRITES_BEFORE, "a byte before the image is written", "before the image") \
    way(WRITES_PAST, "a byte past the image is written", "past the image") \
    way(READS_BEFORE, "a byte before the image is read", "outside the image") \
    way(READS_PAST, "a byte past the image is read", "outside the image") \
    way(READS_FIRST, "the image is read before its length is judged", "outside the image")

#define WAY_NAME(name, what, noticed) name,
enum way { WAYS(WAY_NAME) WAY_COUNT };
#undef WAY_NAME

#define WAY_WORDS(name, what, noticed) {what, noticed},
static const struct {
    const char *what, *noticed;
} ways[] = {WAYS(WAY_WORDS)};
#undef WAY_WORDS

static enum way wrong = RIGHT;

static int32_t library(uint8_t *image, size_t length, struct call call) {
    if (call.kind == TAKE) return slotmap_take(image, length, call.x, call.y);
    if (call.kind == FREE) return slotmap_free(image, length, call.x, call.y);
    return slotmap_used(image, length);
}

static void read_byte(const volatile uint8_t *byte) { (void)*byte; }

/* What a wrong library does before it answers. */
static void before(uint8_t *image, size_t *length, struct call *call) {
    struct model model;
    uint8_t right[SIZE];
    if (wrong == READS_FIRST) read_byte(image);
    if (wrong == ANY_LENGTH) *length = SIZE;
    if (wrong == UNALIGNED_START && call->kind == TAKE && call->y < 10) call->y = 0;
    if (wrong == CUT_NUMBERS) {
        call->x = (uint32_t)call->x;
        call->y = (uint32_t)call->y;
    }
    if (*length != SIZE) return;
    if (wrong == READS_BEFORE) read_byte(image - 1);
    if (wrong == READS_PAST) read_byte(image + SIZE);
    if (wrong == ANY_SUMMARY && model_read(&model, image, SIZE) == -1) {
        for (size_t i = 0; i < SLOTS; i++) model.used[i] = image[3 + i / 8] >> i % 8 & 1;
        model_write(&model, right);
        memcpy(image, right, SIZE);
    }
}

/* What it does after a call that is accepted. */
static int32_t accepted(uint8_t *image, const uint8_t *old, struct call call, int32_t answer) {
    size_t past = (size_t)answer + call.x;
    int32_t next;
    if (wrong == USED_OFF && call.kind == USED) return answer == SLOTS ? answer - 1 : answer;
    if (wrong == USED_WRITES && call.kind == USED) image[3] ^= 1;
    if (wrong == WRITES_BEFORE) image[-1] ^= 1;
    if (wrong == WRITES_PAST) image[SIZE] ^= 1;
    if (wrong == COUNTS_FREED && call.kind == FREE) return (int32_t)call.y;
    if (call.kind != TAKE) return answer;
    if (wrong == NEXT_SLOT) return answer + 1;
    if (wrong == ONE_SLOT_MORE && past < SLOTS) image[3 + past / 8] |= (uint8_t)(1 << past % 8);
    if (wrong == OLD_SUMMARY) memcpy(image + 134, old + 134, 2);
    if (wrong == NEXT_FIT && (next = library(image, SIZE, call)) >= 0) {
        slotmap_free(image, SIZE, (size_t)answer, call.x);
        return next;
    }
    return answer;
}

/* What it does after a call that is refused. */
static int32_t refused(uint8_t *image, size_t length, struct call call, int32_t answer) {
    if (wrong == REFUSED_WRITES && length == SIZE) image[100] ^= 1;
    if (wrong == POSITIVE) return -answer;
    if (wrong == OTHER_ORDER && call.kind == TAKE && answer == -2 && call.y >= 10) return -3;
    if (wrong == WRAPPED_END && call.kind == FREE && answer == -4 && call.x + call.y < call.x) return 0;
    return answer;
}

static int32_t ask(uint8_t *image, size_t length, struct call call) {
    uint8_t old[SIZE] = {0};
    if (wrong == RIGHT) return library(image, length, call);
    if (wrong == NEEDS_ALIGNMENT && (uintptr_t)image % 8 != 0) return -16;
    before(image, &length, &call);
    if (length == SIZE) memcpy(old, image, SIZE);
    /* what is not looked at is put right for the call, and then put back */
    size_t passed = wrong == ANY_TAG ? 131 : 133;
    int passes = length == SIZE && (wrong == ANY_TAG || wrong == ANY_HIGH_BYTE);
    if (passes) image[passed] = wrong == ANY_TAG ? 33 : 0;
    int32_t answer = library(image, length, call);
    if (passes) image[passed] = old[passed];
    return answer < 0 ? refused(image, length, call, answer) : accepted(image, old, call, answer);
}

#endif
