/* A supervisor in miniature, to start from. It gives each group of workers a run of slots and frees the run when
 * the group ends. A list of events stands for what a real one is told by the system. It also keeps the map over
 * a restart. docs/C-HOST.md says how to build it; examples/host.stdout is what it prints. */
#include "slotmap.h"

#include <stdio.h>
#include <stdlib.h>
#include <string.h>

enum state { IDLE, WAITING, RUNNING, NEVER };

struct group {
    const char *name;
    size_t workers;   /* how many slots it needs */
    size_t alignment; /* its first slot is a multiple of 2 to the power of this */
    enum state state;
    size_t start; /* its first slot, while it is running */
};

static struct group groups[] = {
    {"web", 16, 4, IDLE, 0},    {"backup", 3, 2, IDLE, 0},   {"batch", 900, 0, IDLE, 0},
    {"index", 200, 6, IDLE, 0}, {"fleet", 2000, 0, IDLE, 0},
};
enum { WEB, BACKUP, BATCH, INDEX, FLEET, GROUPS };

enum kind { START, END, RESTART };
static const struct event {
    enum kind kind;
    int group;
} events[] = {
    {START, WEB}, {START, BACKUP}, {START, BATCH}, {START, INDEX}, {START, FLEET}, {END, BACKUP},
    {RESTART, 0}, {START, BACKUP}, {END, BATCH},   {END, WEB},     {END, INDEX},   {END, BACKUP},
};

/* The whole map is these bytes. */
static uint8_t map[SLOTMAP_IMAGE_SIZE] = SLOTMAP_IMAGE_EMPTY;

/* The map, or what this program knows of it, is wrong. Then no slot may be given out any more. */
static void stop(const char *what, int32_t answer) {
    printf("stopped: %s: %s (%d)\n", what, slotmap_why(answer), (int)answer);
    exit(1);
}

static void start(struct group *group) {
    int32_t answer = slotmap_take(map, sizeof map, group->workers, group->alignment);
    switch (answer) {
    case SLOTMAP_NO_ROOM: /* later it may fit */
        printf("%s waits: %s\n", group->name, slotmap_why(answer));
        group->state = WAITING;
        return;
    case SLOTMAP_NO_ENTRIES: /* what it asks for never fits */
    case SLOTMAP_ALIGNMENT_TOO_GREAT:
    case SLOTMAP_PAST_THE_END:
        printf("%s can never start: %s\n", group->name, slotmap_why(answer));
        group->state = NEVER;
        return;
    default:
        if (answer < 0) stop(group->name, answer);
        group->state = RUNNING;
        group->start = (size_t)answer;
        printf("%s runs in slots %zu to %zu\n", group->name, group->start, group->start + group->workers - 1);
    }
}

/* Frees the slots of a group that has ended, once. Slots have no owner: a second free could hit another group
 * that has got them since. So the group is not running any more from here on. */
static void end(struct group *group) {
    if (group->state != RUNNING) return;
    int32_t answer = slotmap_free(map, sizeof map, group->start, group->workers);
    if (answer < 0) stop(group->name, answer);
    group->state = IDLE;
    printf("%s has ended\n", group->name);
    for (int i = 0; i < GROUPS; i++) {
        if (groups[i].state == WAITING) start(&groups[i]);
    }
}

/* Goes on with an image that comes from outside, if it is sound and holds as many slots as the groups do. */
static int taken_over(const uint8_t *bytes, size_t length) {
    size_t workers = 0;
    for (int i = 0; i < GROUPS; i++) {
        if (groups[i].state == RUNNING) workers += groups[i].workers;
    }
    int32_t used = slotmap_used(bytes, length);
    if (used < 0) {
        printf("  not taken over: %s\n", slotmap_why(used));
        return 0;
    }
    if ((size_t)used != workers) {
        printf("  not taken over: %d slots are used, the groups have %zu\n", (int)used, workers);
        return 0;
    }
    memcpy(map, bytes, sizeof map);
    printf("  taken over: %d slots are used\n", (int)used);
    return 1;
}

/* Keeps the image, loses the map, and goes on from what was kept. `kept` stands for a file. */
static void restart(void) {
    uint8_t kept[SLOTMAP_IMAGE_SIZE], damaged[SLOTMAP_IMAGE_SIZE];
    memcpy(kept, map, sizeof kept);
    memset(map, 0, sizeof map);
    memcpy(damaged, kept, sizeof damaged);
    damaged[SLOTMAP_IMAGE_SIZE - 1] ^= 1; /* a bit of the summary */
    printf("restart, from an image that is cut short:\n");
    if (taken_over(kept, sizeof kept - 1)) exit(1);
    printf("restart, from an image with a changed bit:\n");
    if (taken_over(damaged, sizeof damaged)) exit(1);
    printf("restart, from the image that was kept:\n");
    if (!taken_over(kept, sizeof kept)) exit(1);
}

int main(void) {
    for (size_t i = 0; i < sizeof events / sizeof events[0]; i++) {
        struct group *group = &groups[events[i].group];
        if (events[i].kind == START) start(group);
        if (events[i].kind == END) end(group);
        if (events[i].kind == RESTART) restart();
    }
    int32_t used = slotmap_used(map, sizeof map);
    if (used < 0) stop("the map at the end", used);
    printf("at the end %d slots are used\n", (int)used);
    return used != 0;
}
