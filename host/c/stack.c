/* How much stack each function takes, under an image with 512 profile entries: stack IMAGE TEXT
 *
 * IMAGE is an image without a profile; the calls get its ranges with 512 entries. Each call runs in a thread that first
 * paints its own stack below itself; the lowest byte that lost its paint tells how deep the call wrote. It is run in two
 * paints: on the image and the text; without room in what is lent; on a text that ends ill-formed; and, where the call
 * checks the image, on one whose last entry is bad. Prints for each call the most that it took, and last the counts.
 * Counting and listing tokens pass up to 16 KB, since on a long text they keep what they know of its characters; the text
 * is repeated until it is one. The others pass below 4 KB, the bytes of a profile's record: so none holds a copy of one.
 * For gcc; link with `-z now`, or the dynamic linker counts too.
 */
#define _POSIX_C_SOURCE 200809L
#include <pthread.h>
#include <stdio.h>
#include <stdlib.h>
#include <string.h>

#include "luffinarc.h"

#define STACK (256 * 1024)
#define MOST 4095
#define MOST_LONG 16384
/* Bytes of the thread's own that are not painted: what takes less isn't told apart. */
#define SLACK 256

enum { WORDS = 4 * 65536, ENTRY_WORDS = LUFFINARC_CHANGED_ENTRY_WORDS * LUFFINARC_MAX_CHANGED_ENTRIES };

static uint8_t stack[STACK] __attribute__((aligned(4096)));
static uint8_t given[LUFFINARC_MAX_IMAGE], image[LUFFINARC_MAX_IMAGE], out[LUFFINARC_MAX_IMAGE];
static uint8_t text[65537];
static size_t given_len, image_len, text_len;
static size_t out_room = LUFFINARC_MAX_IMAGE, room = WORDS, entry_room = ENTRY_WORDS;
static uint32_t points[LUFFINARC_MAX_ENTRIES], roles[LUFFINARC_MAX_ENTRIES];
static uint32_t all_points[LUFFINARC_MAX_ENTRIES], all_roles[LUFFINARC_MAX_ENTRIES];
static uint32_t range_words[LUFFINARC_RANGE_WORDS * LUFFINARC_MAX_RANGES], words[WORDS], entries[ENTRY_WORDS];
static size_t range_len;
static uint64_t answer[LUFFINARC_ANSWER];

static uint32_t check(void) { return luffinarc_check(image, image_len, points, roles, answer); }
static uint32_t read_image(void) { return luffinarc_read(image, image_len, words, room, points, roles, answer); }
static uint32_t write_image(void)
{
    return luffinarc_write(1, range_words, range_len, all_points, all_roles, LUFFINARC_MAX_ENTRIES, out, out_room, answer);
}
static uint32_t lookup(void) { return luffinarc_lookup(image, image_len, 0x0F0B, answer); }
static uint32_t pair(void) { return luffinarc_pair(image, image_len, image, image_len, answer); }
static uint32_t list_changes(void)
{
    return luffinarc_changes(given, given_len, image, image_len, words, room, entries, entry_room, answer);
}
static uint32_t count(void) { return luffinarc_count(image, image_len, text, text_len, answer); }
static uint32_t list(void) { return luffinarc_list(image, image_len, text, text_len, words, room, answer); }
static uint32_t token(void) { return luffinarc_token(image, image_len, text, text_len, 0, answer); }
static uint32_t hashtags(void) { return luffinarc_hashtags(image, image_len, text, text_len, words, room, answer); }
static uint32_t part(void) { return luffinarc_part(text, text_len, 0, text_len, answer); }
static uint32_t lookup_known(void) { return luffinarc_lookup_checked(image, image_len, 0x0F0B, answer); }
static uint32_t count_known(void) { return luffinarc_count_checked(image, image_len, text, text_len, answer); }
static uint32_t list_known(void)
{
    return luffinarc_list_checked(image, image_len, text, text_len, words, room, answer);
}
static uint32_t token_known(void) { return luffinarc_token_checked(image, image_len, text, text_len, 0, answer); }
static uint32_t hashtags_known(void)
{
    return luffinarc_hashtags_checked(image, image_len, text, text_len, words, room, answer);
}

static const struct {
    const char *name;
    uint32_t (*call)(void);
    int known; /* the image must be an accepted one */
    size_t most;
} CALLS[] = {
    {"check", check, 0, MOST}, {"read", read_image, 0, MOST}, {"write", write_image, 0, MOST},
    {"lookup", lookup, 0, MOST}, {"pair", pair, 0, MOST}, {"changes", list_changes, 0, MOST},
    {"count", count, 0, MOST_LONG}, {"list", list, 0, MOST_LONG}, {"token", token, 0, MOST},
    {"hashtags", hashtags, 0, MOST}, {"part", part, 0, MOST}, {"lookup_checked", lookup_known, 1, MOST},
    {"count_checked", count_known, 1, MOST_LONG}, {"list_checked", list_known, 1, MOST_LONG},
    {"token_checked", token_known, 1, MOST}, {"hashtags_checked", hashtags_known, 1, MOST},
};
enum { COUNT = sizeof CALLS / sizeof CALLS[0] };

/* A call, the colour of the paint, and what it gave and took. */
struct run {
    uint32_t (*call)(void);
    int paint;
    uint32_t result;
    size_t taken;
};

static void fail(const char *what)
{
    fprintf(stderr, "%s\n", what);
    exit(2);
}

static void *run(void *argument)
{
    struct run *r = argument;
    uint8_t here = 0;
    size_t top = (uintptr_t)&here - (uintptr_t)stack, at = 0;
    if (top <= SLACK || top > STACK)
        fail("the thread runs on another stack");
    memset(stack, r->paint, top - SLACK);
    r->result = r->call();
    while (at < top - SLACK && stack[at] == r->paint)
        at++;
    r->taken = top - at;
    return NULL;
}

/* Runs a call on a stack of its own; what it took counts if it is the most. Gives its result. */
static uint32_t measure(uint32_t (*call)(void), size_t *most)
{
    static const int PAINTS[] = {0xA5, 0x3C};
    struct run r = {call, 0, 0, 0};
    for (int i = 0; i < 2; i++) {
        pthread_attr_t attributes;
        pthread_t thread;
        r.paint = PAINTS[i];
        if (pthread_attr_init(&attributes) != 0 || pthread_attr_setstack(&attributes, stack, STACK) != 0 ||
            pthread_create(&thread, &attributes, run, &r) != 0 || pthread_join(thread, NULL) != 0)
            fail("no thread");
        *most = r.taken > *most ? r.taken : *most;
    }
    return r.result;
}

static size_t read_file(const char *name, uint8_t *bytes, size_t most)
{
    FILE *file = fopen(name, "rb");
    if (file == NULL) {
        perror(name);
        exit(2);
    }
    size_t len = fread(bytes, 1, most, file);
    fclose(file);
    return len;
}

/* The image: the ranges of the given one, and 512 hashtag entries. */
static void make_image(void)
{
    if (luffinarc_read(given, given_len, range_words, sizeof range_words / 4, points, roles, answer) != 0)
        fail("the image is refused");
    range_len = LUFFINARC_RANGE_WORDS * (size_t)answer[1];
    for (uint32_t i = 0; i < LUFFINARC_MAX_ENTRIES; i++) {
        all_points[i] = 0x4E00 + 2 * i;
        all_roles[i] = LUFFINARC_ROLE_HASHTAG;
    }
    if (write_image() != 0)
        fail("the image with entries isn't written");
    image_len = (size_t)answer[0];
    memcpy(image, out, image_len);
}

int main(int argc, char **argv)
{
    int passed = 0, failed = 0;
    size_t taken[COUNT] = {0};
    int accepted[COUNT];
    if (argc != 3)
        return 2;
    given_len = read_file(argv[1], given, sizeof given);
    text_len = read_file(argv[2], text, sizeof text - 1);
    if (text_len == 0)
        fail("the text is empty");
    while (2 * text_len < sizeof text) {
        memcpy(text + text_len, text, text_len);
        text_len *= 2;
    }
    make_image();
    for (size_t i = 0; i < COUNT; i++)
        accepted[i] = measure(CALLS[i].call, &taken[i]) == 0;
    out_room = room = entry_room = 0;
    for (size_t i = 0; i < COUNT; i++)
        measure(CALLS[i].call, &taken[i]);
    text[text_len++] = 0xFF;
    for (size_t i = 0; i < COUNT; i++)
        measure(CALLS[i].call, &taken[i]);
    image[image_len - 4] = 0;
    for (size_t i = 0; i < COUNT; i++)
        if (!CALLS[i].known)
            measure(CALLS[i].call, &taken[i]);
    for (size_t i = 0; i < COUNT; i++) {
        int right = accepted[i] && taken[i] <= CALLS[i].most;
        printf("%s: at most %zu bytes of stack%s\n", CALLS[i].name, taken[i], right ? "" : ", FAILED");
        passed += right;
        failed += !right;
    }
    printf("%d passed, %d failed\n", passed, failed);
    return failed != 0;
}
