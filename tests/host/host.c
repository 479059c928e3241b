/* host                makes the calls, prints a tally
 * host --wrong K      makes them as a library would that is wrong in way K: this has to be noticed
 * host --wrongs       prints the ways: K, what is wrong, the words of the complaint that are due
 * host --empty        prints the bytes of SLOTMAP_IMAGE_EMPTY
 *
 * The test of slotmap_take, slotmap_free and slotmap_used. After each call the answer, every byte of the image and
 * the bytes on both sides of it are held to the model. At the first difference it says which call it was, what came
 * and what was expected, and the status is 1. So it is where an answer of some kind never came. */
#define _DEFAULT_SOURCE

#include "model.h"
#include "slotmap.h"
#include "wrong.h"

#include <signal.h>
#include <stdio.h>
#include <stdlib.h>
#include <string.h>
#include <sys/mman.h>

#define COUNT(row) (sizeof(row) / sizeof((row)[0]))
enum { GUARD = 64, PAST = 512, ALIGNMENTS = 16, SPACE = GUARD + ALIGNMENTS + SIZE + PAST, PAGE = 65536, STEP = 50000 };

/* An image, and the bytes around it that are watched. */
struct place {
    uint8_t *low, *image;
    size_t size;
};

static const char *const names[KINDS] = {"slotmap_take", "slotmap_free", "slotmap_used"};
static const char *part = "";
static struct place at;
static size_t given_length;
static struct call given;
/* How often each call was answered in each way: 0 is not refused, k is refusal k. */
static long tally[KINDS][17], aligned[KINDS][ALIGNMENTS], calls, damaged, lengths;

static struct call call_of(enum kind kind, size_t x, size_t y) {
    struct call call = {kind, x, y};
    return call;
}

/* ---- a call, held to what is expected */

static void differs(void) {
    printf("host: call %ld, %s: %s(image, %zu", calls + 1, part, names[given.kind], given_length);
    if (given.kind != USED) printf(", %zu, %zu", given.x, given.y);
    printf("), the image %d bytes past a multiple of %d\n", (int)((uintptr_t)at.image % ALIGNMENTS), ALIGNMENTS);
}

static void byte_differs(size_t i, int came, int due) {
    size_t image = (size_t)(at.image - at.low), end = image + SIZE < at.size ? image + SIZE : at.size;
    differs();
    if (i < image) printf("host: byte %zu before the image", image - i);
    else if (i >= end) printf("host: byte %zu past the image", i - end);
    else printf("host: byte %zu of the image", i - image);
    printf(" is %d, and %d was expected\n", came, due);
    exit(1);
}

/* The fault comes from a call and not from printf, so printing is safe here. */
static void fault(int number) {
    (void)number;
    differs();
    printf("host: memory outside the image was read or written\n");
    exit(1);
}

static void note(int32_t answer) {
    tally[given.kind][answer < 0 ? -answer : 0]++;
    aligned[given.kind][(uintptr_t)at.image % ALIGNMENTS]++;
    if (++calls % STEP == 0) fprintf(stderr, "  host: %ld calls\n", calls);
}

/* Makes the call. Only the image may change, to `left`; where there is none, nothing may. */
static void hold(size_t length, struct call call, int32_t due, const uint8_t *left) {
    static uint8_t expected[SPACE];
    memcpy(expected, at.low, at.size);
    if (left != NULL) memcpy(expected + (at.image - at.low), left, SIZE);
    given_length = length;
    given = call;
    int32_t came = ask(at.image, length, call);
    if (came != due) {
        differs();
        printf("host: the answer is %d, and %d was expected\n", (int)came, (int)due);
        exit(1);
    }
    for (size_t i = 0; i < at.size; i++) {
        if (at.low[i] != expected[i]) byte_differs(i, at.low[i], expected[i]);
    }
    note(due);
}

static void hold_to_model(struct model *model, struct call call) {
    uint8_t left[SIZE];
    int32_t due = model_answer(model, call);
    model_write(model, left);
    hold(SIZE, call, due, left);
}

/* Holds the call to what the model reads from the bytes that are there. */
static void hold_to_bytes(struct call call) {
    struct model model;
    int32_t refusal = model_read(&model, at.image, SIZE);
    if (refusal < 0) hold(SIZE, call, refusal, NULL);
    else hold_to_model(&model, call);
}

/* Puts the image between guard bytes, at this alignment. */
static void lay(const uint8_t *image, size_t alignment) {
    static uint8_t space[SPACE];
    for (size_t i = 0; i < SPACE; i++) space[i] = (uint8_t)(0xA5 ^ i);
    at.low = space;
    at.size = SPACE;
    at.image = space + GUARD;
    while ((uintptr_t)at.image % ALIGNMENTS != alignment) at.image++;
    memcpy(at.image, image, SIZE);
}

static void lay_map(const struct model *model, size_t alignment) {
    uint8_t image[SIZE];
    model_write(model, image);
    lay(image, alignment);
}

/* ---- maps and numbers */

static uint64_t dice;

static size_t below(size_t limit) {
    dice = dice * 6364136223846793005u + 1442695040888963407u;
    return (size_t)(dice >> 33) % limit;
}

/* How many slots of a thousand are used, or a pattern. */
enum { ALTERNATE = -1, RUNS = -2, ALL_BUT_ONE = -3 };
static const int maps[] = {0, 100, 500, 900, 1000, ALTERNATE, RUNS, ALL_BUT_ONE};

static void fill(struct model *model, int map) {
    int value = 1;
    size_t left = 0, hole = below(SLOTS);
    for (size_t i = 0; i < SLOTS; i++) {
        if (map == RUNS && left == 0) {
            value = !value;
            left = 1 + below(90);
        }
        left--;
        if (map == ALTERNATE) value = i % 2 == hole % 2;
        if (map == ALL_BUT_ONE) value = i != hole;
        if (map >= 0) value = below(1000) < (size_t)map;
        model->used[i] = (uint8_t)value;
    }
}

static const size_t edges[] = {
    0, 1, 2, 9, 10, 11, 63, 64, 65, 127, 511, 512, 1022, 1023, 1024, 1025, 2048, 65536, 0x7FFFFFFF, 0x80000000, 0xFFFFFFFF,
    0x100000000, 0x100000001, SIZE_MAX / 2, SIZE_MAX / 2 + 1, SIZE_MAX - 1023, SIZE_MAX - 1, SIZE_MAX,
};

static size_t edge(void) { return edges[below(COUNT(edges))]; }

static struct call some_take(void) {
    static const size_t limits[] = {1, 4, 16, 70, 300, SLOTS};
    static const size_t exponents[] = {0, 0, 0, 0, 1, 2, 3, 6, 9};
    size_t n = 1 + below(limits[below(COUNT(limits))]);
    return call_of(TAKE, n, exponents[below(COUNT(exponents))]);
}

/* Mostly a part of a used run, now and then one slot more, or any slots. */
static struct call some_free(const struct model *model) {
    size_t start = below(SLOTS), run = 0, kind = below(8);
    while (start < SLOTS && !model->used[start]) start++;
    while (start + run < SLOTS && model->used[start + run]) run++;
    if (kind == 0 || run == 0) {
        start = below(SLOTS + 2);
        return call_of(FREE, start, 1 + below(4));
    }
    return call_of(FREE, start, kind == 1 ? run + 1 : kind < 4 ? run : 1 + below(run));
}

static struct call some_call(const struct model *model) {
    size_t kind = below(20), x = edge(), y = edge();
    if (kind < 2) return call_of(USED, 0, 0);
    if (kind == 2) return call_of(TAKE, x, y);
    if (kind == 3) return call_of(TAKE, 1 + below(SLOTS), y);
    if (kind == 4) return call_of(FREE, x, y);
    if (kind == 5) return call_of(FREE, below(SLOTS), y);
    return kind < 13 ? some_take() : some_free(model);
}

/* ---- the parts of the test */

/* Long series, each on the image that the calls before have left. */
static void test_series(void) {
    part = "series of calls";
    struct model model;
    for (size_t seed = 0; seed < 4; seed++) {
        for (size_t map = 0; map < COUNT(maps); map++) {
            for (size_t alignment = 0; alignment < ALIGNMENTS; alignment++) {
                dice = 1000 * seed + 100 * map + alignment;
                fill(&model, maps[map]);
                lay_map(&model, alignment);
                for (int i = 0; i < 250; i++) hold_to_model(&model, some_call(&model));
            }
        }
    }
}

/* Each pair of numbers at the edges, on each kind of map. */
static void test_edges(void) {
    part = "numbers at the edges";
    struct model model;
    for (size_t map = 0; map < COUNT(maps); map++) {
        fill(&model, maps[map]);
        for (size_t x = 0; x < COUNT(edges); x++) {
            for (size_t y = 0; y < COUNT(edges) + 10; y++) {
                struct model left = model;
                size_t number = y < 10 ? y : edges[y - 10];
                lay_map(&model, x % ALIGNMENTS);
                hold_to_model(&left, call_of(TAKE, edges[x], number));
                left = model;
                lay_map(&model, y % ALIGNMENTS);
                hold_to_model(&left, call_of(FREE, edges[x], number));
            }
        }
    }
}

/* Each byte of a good image, changed in several ways. */
static void test_damaged(void) {
    part = "damaged images";
    static const uint8_t changes[] = {1, 2, 4, 8, 16, 32, 64, 128, 255, 0x5A};
    struct model model;
    uint8_t image[SIZE];
    for (size_t map = 0; map < COUNT(maps); map++) {
        fill(&model, maps[map]);
        model_write(&model, image);
        for (size_t byte = 0; byte < SIZE; byte++) {
            for (size_t i = 0; i < COUNT(changes); i++) {
                const struct call asked[] = {
                    call_of(TAKE, 1, 0),    call_of(TAKE, 70, 3),     call_of(TAKE, 0, 10), call_of(FREE, 8 * byte, 1),
                    some_free(&model),      call_of(FREE, SLOTS, 1), call_of(USED, 0, 0),
                };
                image[byte] ^= changes[i];
                for (size_t k = 0; k < COUNT(asked); k++) {
                    lay(image, byte % ALIGNMENTS);
                    hold_to_bytes(asked[k]);
                }
                image[byte] ^= changes[i];
                damaged++;
            }
        }
    }
}

static const enum kind kinds[] = {TAKE, FREE, USED};

/* Every length up to 200 but the right one, and some that are right in their low bytes alone. */
static void test_lengths(void) {
    part = "wrong lengths";
    static const size_t long_ones[] = {SIZE + 256, SIZE + 65536, SIZE + 0x100000000, SIZE_MAX / 2};
    struct model model;
    for (size_t i = 0; i < 201 + COUNT(long_ones); i++) {
        size_t length = i < 201 ? i : long_ones[i - 201];
        if (length == SIZE) continue;
        lengths++;
        for (size_t map = 0; map < COUNT(maps); map++) {
            fill(&model, maps[map]);
            lay_map(&model, i % ALIGNMENTS);
            for (size_t k = 0; k < KINDS; k++) hold(length, call_of(kinds[k], map % 3, 1), -16, NULL);
        }
    }
}

/* The first fault decides. Here the expected numbers are written down, and not the model's. */
static void test_order(void) {
    part = "which fault comes first";
    static const struct {
        int used_of_thousand;
        const char *damage; /* t: a wrong tag; s: a summary at odds; l: a wrong length; o: the fields in the other order */
        enum kind kind;
        size_t x, y;
        int32_t due;
    } rows[] = {
        {0, "tsl", TAKE, 0, 10, -16},      {0, "ts", TAKE, 0, 10, -16},         {0, "t", TAKE, 0, 10, -16},
        {0, "l", TAKE, 0, 10, -16},        {0, "sl", FREE, 2000, 0, -16},       {0, "ts", FREE, 2000, 0, -16},
        {0, "ts", USED, 0, 0, -16},        {0, "sl", USED, 0, 0, -16},          {0, "o", TAKE, 1, 0, -16},
        {1000, "o", FREE, 0, 1, -16},      {500, "o", USED, 0, 0, -16},         {0, "s", TAKE, 0, 10, -1},
        {1000, "s", TAKE, 1, 0, -1},       {0, "s", FREE, 2000, 0, -1},         {0, "s", FREE, 0, 1, -1},
        {0, "s", USED, 0, 0, -1},          {0, "", TAKE, 0, 10, -2},            {1000, "", TAKE, 0, 0, -2},
        {0, "", TAKE, 1025, 10, -3},       {1000, "", TAKE, 1, 10, -3},         {0, "", TAKE, SIZE_MAX, SIZE_MAX, -3},
        {1000, "", TAKE, 1025, 9, -4},     {0, "", TAKE, SIZE_MAX, 0, -4},      {1000, "", TAKE, 1024, 9, -7},
        {1000, "", TAKE, 1, 0, -7},        {0, "", FREE, SIZE_MAX, 0, -2},      {1000, "", FREE, 1024, 0, -2},
        {0, "", FREE, 1024, 1, -4},        {0, "", FREE, 1025, 1, -4},          {0, "", FREE, 1, SIZE_MAX, -4},
        {1000, "", FREE, SIZE_MAX, 1, -4}, {1000, "", FREE, 1, SIZE_MAX, -4},   {1000, "", FREE, 1, 1024, -4},
        {0, "", FREE, 0, 1024, -5},        {0, "", FREE, 1023, 1, -5},
    };
    struct model model;
    uint8_t image[SIZE], other[SIZE];
    for (size_t i = 0; i < COUNT(rows); i++) {
        fill(&model, rows[i].used_of_thousand);
        model_write(&model, image);
        if (strchr(rows[i].damage, 't')) image[131] = 32;
        if (strchr(rows[i].damage, 's')) image[135] ^= 128;
        if (strchr(rows[i].damage, 'o')) {
            memcpy(other, image + 131, 5);
            memcpy(other + 5, image, 131);
            memcpy(image, other, SIZE);
        }
        lay(image, i % ALIGNMENTS);
        hold(strchr(rows[i].damage, 'l') ? SIZE - 1 : SIZE, call_of(rows[i].kind, rows[i].x, rows[i].y), rows[i].due, NULL);
    }
}

/* An image between pages that nobody may read: first at the end of the memory, then at its beginning. */
static void test_pages(void) {
    part = "images between pages that cannot be read";
    struct model model;
    uint8_t image[SIZE];
    uint8_t *memory = (uint8_t *)mmap(NULL, 3 * PAGE, PROT_NONE, MAP_PRIVATE | MAP_ANONYMOUS, -1, 0);
    if (memory == (uint8_t *)MAP_FAILED || mprotect(memory + PAGE, PAGE, PROT_READ | PROT_WRITE) != 0) {
        printf("host: the system gives no pages\n");
        exit(1);
    }
    at.size = SPACE;
    for (size_t map = 0; map < COUNT(maps); map++) {
        fill(&model, maps[map]);
        model_write(&model, image);
        for (size_t length = 0; length <= SIZE; length++) {
            at.low = memory + 2 * PAGE - SPACE;
            at.image = memory + 2 * PAGE - length;
            memcpy(at.image, image, length);
            for (size_t k = 0; k < KINDS; k++) {
                if (length < SIZE) hold(length, call_of(kinds[k], map % 3, 1), -16, NULL);
                else hold_to_bytes(call_of(kinds[k], 1, 1));
            }
        }
        at.low = at.image = memory + PAGE;
        memcpy(at.image, image, SIZE);
        for (size_t k = 0; k < KINDS; k++) hold_to_bytes(call_of(kinds[k], 1, 1));
    }
}

/* What the header says of itself: each refusal has words of its own, and no other number has them. */
static void test_header(void) {
    static const int32_t refusals[] = {
        SLOTMAP_UNSOUND,      SLOTMAP_NO_ENTRIES, SLOTMAP_ALIGNMENT_TOO_GREAT, SLOTMAP_PAST_THE_END,
        SLOTMAP_ALREADY_FREE, SLOTMAP_NO_ROOM,    SLOTMAP_NO_IMAGE,
    };
    const char *none = slotmap_why(0), *stray = slotmap_why(-6);
    int right = SLOTMAP_IMAGE_SIZE == SIZE && SLOTMAP_SLOTS == SLOTS && strcmp(none, stray) != 0;
    for (int32_t answer = -2000; answer <= 2000; answer++) {
        size_t found = COUNT(refusals);
        for (size_t i = 0; i < COUNT(refusals); i++) {
            if (refusals[i] == answer) found = i;
        }
        const char *why = slotmap_why(answer);
        if (found == COUNT(refusals)) right &= strcmp(why, answer >= 0 && answer <= SLOTS ? none : stray) == 0;
        else right &= strcmp(why, none) != 0 && strcmp(why, stray) != 0 && *why != 0;
        for (size_t i = 0; i < COUNT(refusals) && found < COUNT(refusals); i++) {
            right &= i == found || strcmp(why, slotmap_why(refusals[i])) != 0;
        }
    }
    if (!right) {
        printf("host: slotmap.h: a size is wrong, or slotmap_why has not words of its own for each refusal alone\n");
        exit(1);
    }
}

/* ---- the tally */

static int print_tally(void) {
    static const int refusals[KINDS][7] = {{0, 16, 1, 2, 3, 4, 7}, {0, 16, 1, 2, 4, 5, -1}, {0, 16, 1, -1, -1, -1, -1}};
    int status = 0;
    printf("%ld calls; %ld damaged images, %ld wrong lengths, %d alignments\n", calls, damaged, lengths, ALIGNMENTS);
    for (int kind = 0; kind < KINDS; kind++) {
        printf("%s: done %ld", names[kind], tally[kind][0]);
        for (int i = 0; i < 7 && refusals[kind][i] >= 0; i++) {
            long count = tally[kind][refusals[kind][i]];
            if (refusals[kind][i] > 0) printf(", refused %d: %ld", refusals[kind][i], count);
            if (count == 0) status = 1;
        }
        printf("\n");
        for (int i = 0; i < ALIGNMENTS; i++) {
            if (aligned[kind][i] == 0) status = 1;
        }
    }
    if (status != 0) printf("host: some answer never came, or some alignment\n");
    return status;
}

static void print_empty(void) {
    uint8_t image[SLOTMAP_IMAGE_SIZE] = SLOTMAP_IMAGE_EMPTY;
    for (size_t i = 0; i < sizeof image; i++) printf(i == 0 ? "%d" : " %d", image[i]);
    printf("\n");
}

int main(int count, char **words) {
    if (count == 2 && strcmp(words[1], "--empty") == 0) {
        print_empty();
        return 0;
    }
    if (count == 2 && strcmp(words[1], "--wrongs") == 0) {
        for (int i = 1; i < WAY_COUNT; i++) printf("%d\t%s\t%s\n", i, ways[i].what, ways[i].noticed);
        return 0;
    }
    int way = count == 3 && strcmp(words[1], "--wrong") == 0 ? atoi(words[2]) : RIGHT;
    if ((count > 1 && way <= RIGHT) || way >= WAY_COUNT) {
        printf("host: usage: host [--wrong K | --wrongs | --empty]\n");
        return 2;
    }
    wrong = (enum way)way;
    signal(SIGSEGV, fault);
    signal(SIGBUS, fault);
    test_header();
    test_order();
    test_series();
    test_edges();
    test_damaged();
    test_lengths();
    test_pages();
    return print_tally();
}
