/* What each call on an image has to answer, and which bytes it has to leave, worked out slot by slot. This shares
 * nothing with the library: it takes neither numbers nor code from slotmap.h. */
#ifndef MODEL_H
#define MODEL_H

#include <stddef.h>
#include <stdint.h>
#include <string.h>

enum { SLOTS = 1024, SIZE = 136 };
enum kind { TAKE, FREE, USED, KINDS };

/* A call and its two numbers: of a take n and a, of a free the start and n, of used none. */
struct call {
    enum kind kind;
    size_t x, y;
};

/* One byte for each slot: 1 if it is used. */
struct model {
    uint8_t used[SLOTS];
};

static int is_free(const struct model *model, size_t start, size_t n) {
    if (start + n > SLOTS) return 0;
    for (size_t i = 0; i < n; i++) {
        if (model->used[start + i]) return 0;
    }
    return 1;
}

static int32_t model_take(struct model *model, size_t n, size_t a) {
    if (n == 0) return -2;
    if (a >= 10) return -3;
    if (n > SLOTS) return -4;
    for (size_t start = 0; start < SLOTS; start++) {
        if (start % ((size_t)1 << a) != 0 || !is_free(model, start, n)) continue;
        memset(model->used + start, 1, n);
        return (int32_t)start;
    }
    return -7;
}

static int32_t model_free(struct model *model, size_t start, size_t n) {
    if (n == 0) return -2;
    if (start > SLOTS || n > SLOTS - start) return -4;
    for (size_t i = 0; i < n; i++) {
        if (!model->used[start + i]) return -5;
    }
    memset(model->used + start, 0, n);
    return 0;
}

static int32_t model_used(const struct model *model) {
    int32_t count = 0;
    for (size_t i = 0; i < SLOTS; i++) count += model->used[i];
    return count;
}

/* The answer to a call on this map. The map is changed where the call is not refused. */
static int32_t model_answer(struct model *model, struct call call) {
    if (call.kind == TAKE) return model_take(model, call.x, call.y);
    if (call.kind == FREE) return model_free(model, call.x, call.y);
    return model_used(model);
}

/* The image of this map, from its slots. */
static void model_write(const struct model *model, uint8_t *image) {
    memset(image, 0, SIZE);
    image[0] = 32;
    image[1] = 128;
    image[131] = 33;
    image[132] = 2;
    for (size_t slot = 0; slot < SLOTS; slot++) {
        if (!model->used[slot]) continue;
        image[3 + slot / 8] |= (uint8_t)(1 << slot % 8);
        image[134 + slot / 512] |= (uint8_t)(1 << slot / 64 % 8);
    }
}

/* The map of these bytes, by its words. Answers 0, or the refusal if they are no sound image. */
static int32_t model_read(struct model *model, const uint8_t *bytes, size_t length) {
    if (length != SIZE) return -16;
    if (bytes[0] != 32 || bytes[1] + 256 * bytes[2] != 128) return -16;
    if (bytes[131] != 33 || bytes[132] + 256 * bytes[133] != 2) return -16;
    for (size_t i = 0; i < 16; i++) {
        uint64_t word = 0;
        for (size_t k = 8; k > 0; k--) word = word * 256 + bytes[2 + 8 * i + k];
        for (size_t k = 0; k < 64; k++) model->used[64 * i + k] = word >> k & 1;
        int marked = (bytes[134] + 256 * bytes[135]) >> i & 1;
        if (marked != (word != 0)) return -1;
    }
    return 0;
}

#endif
