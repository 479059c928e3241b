// Carries out the calls that come on standard input, each a `struct call`, and writes a `struct left` for
// each to standard output. tools/measure builds it for x86-64, where it counts the instructions of
// carry_out, and for the machine itself, where the rounds are timed. It needs no header.
typedef unsigned long number;

number slots_takes(number *words, number n, number a, number times);
number slots_takes_in_place(number *words, number n, number a, number times);
number orig_takes(number *words, number n, number a, number times);
number slots_frees(number *words, const number *starts, number count, number n);
number slots_frees_in_place(number *words, const number *starts, number count, number n);
number orig_frees(number *words, const number *starts, number count, number n);
number third_takes(number *words, number n, number a, number times);
number orig_third_takes(number *words, number n, number a, number times);
number third_frees(number *words, const number *starts, number count, number n);
number orig_third_frees(number *words, const number *starts, number count, number n);
number word_takes(number *words, number n, number a, number times);
number orig_word_takes(number *words, number n, number a, number times);
number word_frees(number *words, const number *starts, number count, number n);
number orig_word_frees(number *words, const number *starts, number count, number n);
int slotmap_take(unsigned char *image, number length, number n, number a);
int slotmap_free(unsigned char *image, number length, number start, number n);
int slotmap_used(const unsigned char *image, number length);
number gaps_free(const number *words, unsigned short *list, number length, number times);
number gaps_used(const number *words, unsigned short *list, number length, number times);
void gaps_longest(const number *words, number *found, number times);

struct time { long seconds, nanoseconds; };
int clock_gettime(int clock, struct time *);
long read(int, void *, number);
long write(int, const void *, number);

// `count` takes of n slots at a multiple of 2^a, or frees of n slots from so many starts, on a map of `size` words: what is
// left are its words, and how many slots are used. Or so many listings of a map of sixteen words in a buffer of `size`,
// where 256 words are 1,024 numbers of 16 bits: what is left is the buffer, and how many runs there are.
struct call { number way, n, a, count, rounds, size, words[256], starts[24]; };
struct left { number used, nanoseconds, words[256]; };

// The same on an image: sixteen words into one, the calls that a host in C makes, and the words out again.
static unsigned char image[136] = {32, 128, [131] = 33, 2};

static void into_image(const number *words) {
    image[134] = image[135] = 0;
    for (number i = 0; i < 16; i++) {
        for (number j = 0; j < 8; j++) image[3 + 8 * i + j] = (unsigned char)(words[i] >> 8 * j);
        image[134 + i / 8] |= (unsigned char)((words[i] != 0) << i % 8);
    }
}

static number out_of_image(number *words) {
    for (number i = 0; i < 16; i++) {
        words[i] = 0;
        for (number j = 0; j < 8; j++) words[i] |= (number)image[3 + 8 * i + j] << 8 * j;
    }
    return (number)slotmap_used(image, sizeof image);
}

static number image_takes(number *words, number n, number a, number times) {
    into_image(words);
    for (number i = 0; i < times; i++) slotmap_take(image, sizeof image, n, a);
    return out_of_image(words);
}

static number image_frees(number *words, const number *starts, number count, number n) {
    into_image(words);
    for (number i = 0; i < count; i++) slotmap_free(image, sizeof image, starts[i], n);
    return out_of_image(words);
}

// The longest free run is two numbers of the buffer, and no number beside them.
static number longest(const number *words, number *found, number times) {
    gaps_longest(words, found, times);
    return 0;
}

__attribute__((noinline)) void carry_out(struct call *call, struct left *left) {
    unsigned short *list = (unsigned short *)left->words;
    switch (call->way) {
    case 0: left->used = slots_takes(left->words, call->n, call->a, call->count); break;
    case 1: left->used = slots_takes_in_place(left->words, call->n, call->a, call->count); break;
    case 2: left->used = orig_takes(left->words, call->n, call->a, call->count); break;
    case 3: left->used = slots_frees(left->words, call->starts, call->count, call->n); break;
    case 4: left->used = slots_frees_in_place(left->words, call->starts, call->count, call->n); break;
    case 5: left->used = orig_frees(left->words, call->starts, call->count, call->n); break;
    case 6: left->used = third_takes(left->words, call->n, call->a, call->count); break;
    case 7: left->used = orig_third_takes(left->words, call->n, call->a, call->count); break;
    case 8: left->used = third_frees(left->words, call->starts, call->count, call->n); break;
    case 9: left->used = orig_third_frees(left->words, call->starts, call->count, call->n); break;
    case 10: left->used = word_takes(left->words, call->n, call->a, call->count); break;
    case 11: left->used = orig_word_takes(left->words, call->n, call->a, call->count); break;
    case 12: left->used = word_frees(left->words, call->starts, call->count, call->n); break;
    case 13: left->used = orig_word_frees(left->words, call->starts, call->count, call->n); break;
    case 14: left->used = image_takes(left->words, call->n, call->a, call->count); break;
    case 15: left->used = orig_takes(left->words, call->n, call->a, call->count); break;
    case 16: left->used = image_frees(left->words, call->starts, call->count, call->n); break;
    case 17: left->used = orig_frees(left->words, call->starts, call->count, call->n); break;
    case 18: left->used = gaps_free(call->words, list, 1024, call->count); break;
    case 19: left->used = gaps_used(call->words, list, 1024, call->count); break;
    default: left->used = longest(call->words, left->words, call->count);
    }
}

// Clock 3 is the processor time of this thread.
static number now(void) {
    struct time time;
    clock_gettime(3, &time);
    return time.seconds * 1000000000ul + time.nanoseconds;
}

// Each round starts from the call's own words.
static void carry_out_rounds(struct call *call, struct left *left) {
    number began = now();
    for (number round = 0; round < call->rounds; round++) {
        for (number i = 0; i < call->size; i++) left->words[i] = call->words[i];
        carry_out(call, left);
    }
    left->nanoseconds = now() - began;
}

int main(void) {
    struct call call;
    struct left left;
    while (read(0, &call, sizeof call) == sizeof call) {
        carry_out_rounds(&call, &left);
        if (write(1, &left, sizeof left) != sizeof left) return 1;
    }
    return 0;
}
