/* Calls each function from C, with null pointers for empty slices among them, and compares what comes back: calls M M2
 *
 * The arguments are the files of the small images of docs/CASES.md. Prints a line for each check that fails, and last
 * the counts.
 */
#include <stdio.h>
#include <string.h>

#include "check.h"
#include "luffinarc.h"

/* The version word of both images. */
#define VERSION 1048576

static uint64_t answer[LUFFINARC_ANSWER];
static uint32_t points[LUFFINARC_MAX_ENTRIES], roles[LUFFINARC_MAX_ENTRIES];

/* Whether the answer is these numbers; afterwards it is none that a call gives. */
static int gave(uint64_t a, uint64_t b, uint64_t c)
{
    int same = answer[0] == a && answer[1] == b && answer[2] == c && answer[3] == 0;
    memset(answer, 0xA5, sizeof answer);
    return same;
}

static size_t read_file(const char *name, uint8_t *bytes, size_t most)
{
    FILE *file = fopen(name, "rb");
    if (file == NULL) {
        perror(name);
        return 0;
    }
    size_t len = fread(bytes, 1, most, file);
    fclose(file);
    return len;
}

/* Every slice may be null where it is empty. */
static void empty_slices(const uint8_t *m, size_t m_len)
{
    uint8_t out[32];
    CHECK(luffinarc_check(NULL, 0, points, roles, answer) == LUFFINARC_LENGTH && gave(0, 0, 0));
    CHECK(luffinarc_read(NULL, 0, NULL, 0, points, roles, answer) == LUFFINARC_LENGTH && gave(0, 0, 0));
    CHECK(luffinarc_read(m, m_len, NULL, 0, points, roles, answer) == LUFFINARC_ROOM && gave(5, 0, 0));
    CHECK(luffinarc_write(1, NULL, 0, points, roles, 0, NULL, 0, answer) == LUFFINARC_BUFFER && gave(32, 0, 0));
    CHECK(luffinarc_write(1, NULL, 0, points, roles, 0, out, 32, answer) == 0 && gave(32, 0, 0));
    CHECK(luffinarc_check(out, 32, points, roles, answer) == 0 && gave(1, 0, 0));
    CHECK(luffinarc_lookup(NULL, 0, 0x20, answer) == LUFFINARC_LENGTH && gave(0, 0, 0));
    CHECK(luffinarc_pair(NULL, 0, NULL, 0, answer) == LUFFINARC_LENGTH && gave(0, 0, 1));
    CHECK(luffinarc_pair(m, m_len, NULL, 0, answer) == LUFFINARC_LENGTH && gave(0, 0, 2));
    CHECK(luffinarc_changes(NULL, 0, NULL, 0, NULL, 0, NULL, 0, answer) == LUFFINARC_LENGTH && gave(0, 0, 1));
    CHECK(luffinarc_changes(m, m_len, NULL, 0, NULL, 0, NULL, 0, answer) == LUFFINARC_LENGTH && gave(0, 0, 2));
    CHECK(luffinarc_changes(m, m_len, m, m_len, NULL, 0, NULL, 0, answer) == 0 && gave(0, 0, 0));
    CHECK(luffinarc_count(NULL, 0, NULL, 0, answer) == LUFFINARC_LENGTH && gave(0, 0, 0));
    CHECK(luffinarc_count(m, m_len, NULL, 0, answer) == 0 && gave(0, 0, 0));
    CHECK(luffinarc_list(m, m_len, NULL, 0, NULL, 0, answer) == 0 && gave(0, 0, 0));
    CHECK(luffinarc_token(m, m_len, NULL, 0, 0, answer) == LUFFINARC_DONE && gave(0, 0, 0));
    CHECK(luffinarc_token(m, m_len, NULL, 0, 1, answer) == LUFFINARC_SHAPE && gave(0, 0, 0));
    CHECK(luffinarc_hashtags(NULL, 0, NULL, 0, NULL, 0, answer) == LUFFINARC_LENGTH && gave(0, 0, 0));
    CHECK(luffinarc_hashtags(m, m_len, NULL, 0, NULL, 0, answer) == 0 && gave(0, 0, 0));
    CHECK(luffinarc_hashtags_checked(m, m_len, NULL, 0, NULL, 0, answer) == 0 && gave(0, 0, 0));
    CHECK(luffinarc_part(NULL, 0, 0, 0, answer) == 0 && gave(0, 0, 0));
    CHECK(luffinarc_part(NULL, 0, 0, 1, answer) == LUFFINARC_SHAPE && gave(0, 0, 0));
}

/* The calls on images, and those on an image that was checked. */
static void images(const uint8_t *m, size_t m_len, const uint8_t *m2, size_t m2_len)
{
    static const uint32_t ranges[] = {
        0x20, 0x20, LUFFINARC_CLASS_WHITE,    0x2E, 0x2E, LUFFINARC_CLASS_SYNTAX,
        0x30, 0x39, LUFFINARC_CLASS_NONSTART, 0x41, 0x5A, LUFFINARC_CLASS_START,
        0x61, 0x7A, LUFFINARC_CLASS_START,
    };
    uint32_t words[16];
    uint8_t out[101];
    words[15] = 7;
    CHECK(luffinarc_check(m, m_len, points, roles, answer) == 0 && gave(VERSION, 5, 1));
    CHECK(points[0] == 0x2E && roles[0] == LUFFINARC_ROLE_MEDIAL);
    CHECK(points[1] == 0 && roles[LUFFINARC_MAX_ENTRIES - 1] == 0);
    CHECK(luffinarc_read(m, m_len, words, 16, points, roles, answer) == 0 && gave(VERSION, 5, 1));
    CHECK(memcmp(words, ranges, sizeof ranges) == 0 && words[15] == 7);
    memset(out, 7, sizeof out);
    CHECK(luffinarc_write(VERSION, ranges, 15, points, roles, 1, out, 99, answer) == LUFFINARC_BUFFER && gave(100, 0, 0));
    CHECK(out[0] == 7);
    CHECK(luffinarc_write(VERSION, ranges, 15, points, roles, 1, out, 101, answer) == 0 && gave(100, 0, 0));
    CHECK(memcmp(out, m, m_len) == 0 && out[100] == 7);
    CHECK(luffinarc_write(1, ranges, 14, points, roles, 1, out, 101, answer) == LUFFINARC_SHAPE && gave(0, 0, 0));
    CHECK(luffinarc_lookup(m, m_len, 0x20, answer) == 0 && gave(LUFFINARC_CLASS_WHITE, 3, 0));
    CHECK(luffinarc_lookup(m, m_len, 0xD800, answer) == LUFFINARC_NOT_SCALAR && gave(0xD800, 0, 0));
    CHECK(luffinarc_lookup_checked(m, m_len, 0x7A, answer) == 0 && gave(LUFFINARC_CLASS_START, 2, 0));
    CHECK(luffinarc_pair(m, m_len, m2, m2_len, answer) == 0 && gave(0, 0, 0));
    CHECK(luffinarc_pair(m2, m2_len, m, m_len, answer) == LUFFINARC_CHANGE && gave(0xE9, 0, 0));
}

/* As many profile entries as an image may have: written, read, looked up, compared, in a text; and one more. */
static void entries(void)
{
    enum { MOST = LUFFINARC_MAX_ENTRIES, BYTES = 32 + 8 * MOST };
    enum { CHANGED = LUFFINARC_MAX_CHANGED_ENTRIES, ROOM = CHANGED * LUFFINARC_CHANGED_ENTRY_WORDS };
    static uint8_t image[BYTES], other[BYTES];
    static uint32_t list[ROOM];
    static const uint8_t text[] = "\xD7\xBF" "%";
    for (uint32_t i = 0; i < MOST; i++) {
        points[i] = 0x400 + i, roles[i] = LUFFINARC_ROLE_START;
    }
    CHECK(luffinarc_write(1, NULL, 0, points, roles, MOST + 1, image, BYTES, answer) == LUFFINARC_HEADER && gave(0, 0, 0));
    CHECK(luffinarc_write(1, NULL, 0, points, roles, MOST, image, 4127, answer) == LUFFINARC_BUFFER && gave(4128, 0, 0));
    CHECK(luffinarc_write(1, NULL, 0, points, roles, MOST, image, BYTES, answer) == 0 && gave(BYTES, 0, 0));
    for (uint32_t i = 0; i < MOST; i++) {
        points[i] += MOST;
    }
    CHECK(luffinarc_write(1, NULL, 0, points, roles, MOST, other, BYTES, answer) == 0 && gave(BYTES, 0, 0));
    CHECK(luffinarc_check(image, BYTES, points, roles, answer) == 0 && gave(1, 0, MOST));
    CHECK(points[MOST - 1] == 0x400 + MOST - 1 && roles[MOST - 1] == LUFFINARC_ROLE_START);
    CHECK(luffinarc_lookup(image, BYTES, 0x400 + MOST - 1, answer) == 0 && gave(LUFFINARC_CLASS_START, 0, 0));
    CHECK(luffinarc_lookup(image, BYTES, 0x400 + MOST, answer) == 0 && gave(LUFFINARC_CLASS_UNASSIGNED, 0, 0));
    CHECK(luffinarc_count(image, BYTES, text, 2, answer) == 0 && gave(1, 0, 0));
    CHECK(luffinarc_count(image, BYTES, text, 3, answer) == LUFFINARC_CHARACTERS && gave(2, 0, 0));
    CHECK(luffinarc_pair(image, BYTES, other, BYTES, answer) == LUFFINARC_PROFILES && gave(0, 0, 0));
    CHECK(luffinarc_changes(image, BYTES, other, BYTES, NULL, 0, list, ROOM - 1, answer) == LUFFINARC_ROOM);
    CHECK(gave(CHANGED, 0, 0) && list[0] == 0);
    CHECK(luffinarc_changes(image, BYTES, other, BYTES, NULL, 0, list, ROOM, answer) == 0 && gave(0, CHANGED, 0));
    CHECK(list[0] == 0x400 && list[ROOM - 3] == 0x400 + CHANGED - 1);
}

/* What changed between M and M2, between M2 and M, and between M and an image of two entries. */
static void changes(const uint8_t *m, size_t m_len, const uint8_t *m2, size_t m2_len)
{
    static const uint32_t added[] = {0xE9, 0xE9, LUFFINARC_CLASS_UNASSIGNED, LUFFINARC_CLASS_START};
    static const uint32_t removed[] = {0xE9, 0xE9, LUFFINARC_CLASS_START, LUFFINARC_CLASS_UNASSIGNED};
    static const uint32_t of_entries[] = {
        0x2D, 0, LUFFINARC_ROLE_MEDIAL, 0x2E, LUFFINARC_ROLE_MEDIAL, LUFFINARC_ROLE_OTHER,
    };
    uint32_t runs[21], entries[7];
    uint8_t other[48];
    memset(runs, 0xFF, sizeof runs);
    memset(entries, 0xFF, sizeof entries);
    CHECK(luffinarc_changes(m, m_len, m2, m2_len, runs, 3, entries, 0, answer) == LUFFINARC_ROOM && gave(1, 0, 0));
    CHECK(runs[0] == UINT32_MAX);
    CHECK(luffinarc_changes(m, m_len, m2, m2_len, runs, 5, NULL, 0, answer) == 0 && gave(1, 0, 0));
    CHECK(memcmp(runs, added, sizeof added) == 0 && runs[4] == UINT32_MAX);
    CHECK(luffinarc_changes(m2, m2_len, m, m_len, runs, 4, entries, 7, answer) == 0 && gave(1, 0, 0));
    CHECK(memcmp(runs, removed, sizeof removed) == 0 && entries[0] == UINT32_MAX);
    points[0] = 0x2D, roles[0] = LUFFINARC_ROLE_MEDIAL;
    points[1] = 0x2E, roles[1] = LUFFINARC_ROLE_OTHER;
    CHECK(luffinarc_write(1, NULL, 0, points, roles, 2, other, 48, answer) == 0 && gave(48, 0, 0));
    memset(runs, 0xFF, sizeof runs);
    CHECK(luffinarc_changes(m, m_len, other, 48, runs, 19, entries, 0, answer) == LUFFINARC_ROOM && gave(5, 0, 0));
    CHECK(luffinarc_changes(m, m_len, other, 48, runs, 20, entries, 5, answer) == LUFFINARC_ROOM && gave(2, 0, 0));
    CHECK(runs[0] == UINT32_MAX && entries[0] == UINT32_MAX);
    CHECK(luffinarc_changes(m, m_len, other, 48, runs, 21, entries, 7, answer) == 0 && gave(5, 2, 0));
    CHECK(runs[0] == 0x20 && runs[18] == LUFFINARC_CLASS_START && runs[19] == 0 && runs[20] == UINT32_MAX);
    CHECK(memcmp(entries, of_entries, sizeof of_entries) == 0 && entries[6] == UINT32_MAX);
}

/* The calls on tokens, with an image checked in each call and once before. */
static void tokens(const uint8_t *m, size_t m_len)
{
    static const uint8_t text[] = {'a', 'b', '.', 'c', '1', ' ', '.'};
    static const uint32_t list[] = {
        LUFFINARC_KIND_IDENTIFIER, 0, 5, 1, LUFFINARC_KIND_BLANK, 5, 6, 1, LUFFINARC_KIND_SYNTAX, 6, 7, 1,
    };
    uint32_t words[13];
    memset(words, 0xFF, sizeof words);
    CHECK(luffinarc_check(m, m_len, points, roles, answer) == 0 && gave(VERSION, 5, 1));
    CHECK(luffinarc_count(m, m_len, text, 7, answer) == 0 && gave(3, 0, 0));
    CHECK(luffinarc_count_checked(m, m_len, text, 7, answer) == 0 && gave(3, 0, 0));
    CHECK(luffinarc_list(m, m_len, text, 7, words, 11, answer) == LUFFINARC_ROOM && gave(3, 0, 0));
    CHECK(words[0] == UINT32_MAX);
    CHECK(luffinarc_list(m, m_len, text, 7, words, 13, answer) == 0 && gave(3, 0, 0));
    CHECK(memcmp(words, list, sizeof list) == 0 && words[12] == UINT32_MAX);
    memset(words, 0xFF, sizeof words);
    CHECK(luffinarc_list_checked(m, m_len, text, 7, words, 12, answer) == 0 && gave(3, 0, 0));
    CHECK(memcmp(words, list, sizeof list) == 0 && words[12] == UINT32_MAX);
    CHECK(luffinarc_token(m, m_len, text, 7, 5, answer) == 0 && gave(LUFFINARC_KIND_BLANK, 5, 6));
    CHECK(luffinarc_token(m, m_len, text, 7, 4, answer) == LUFFINARC_CHARACTERS && gave(4, 0, 0));
    CHECK(luffinarc_token_checked(m, m_len, text, 7, 7, answer) == LUFFINARC_DONE && gave(0, 0, 0));
    CHECK(luffinarc_part(text, 7, 2, 5, answer) == 0 && gave(2, 3, 0));
    CHECK(luffinarc_part(text, 7, 5, 2, answer) == LUFFINARC_SHAPE && gave(0, 0, 0));
}

/* Writes M with 5F as part of hashtags to `out`, of 108 bytes. */
static void write_tagged(const uint8_t *m, size_t m_len, uint8_t *out)
{
    uint32_t words[15];
    CHECK(luffinarc_read(m, m_len, words, 15, points, roles, answer) == 0 && gave(VERSION, 5, 1));
    points[1] = 0x5F, roles[1] = LUFFINARC_ROLE_HASHTAG;
    CHECK(luffinarc_write(VERSION, words, 15, points, roles, 2, out, 108, answer) == 0 && gave(108, 0, 0));
    roles[1] = LUFFINARC_ROLE_HASHTAG + 1;
    CHECK(luffinarc_write(VERSION, words, 15, points, roles, 2, out, 108, answer) == LUFFINARC_ENTRY && gave(1, 0, 0));
}

/* Hashtags, with each sign, with an image checked in each call and once before. */
static void hashtags(const uint8_t *m, size_t m_len)
{
    static const uint8_t text[] = "%##a_ b#c\n\xEF\xBC\x83" "1.\xEF\xB9\x9Fz", bad[] = "#a\xE2\x82#b";
    static const uint32_t list[] = {
        LUFFINARC_KIND_HASHTAG, 2, 5, 1, LUFFINARC_KIND_HASHTAG, 10, 14, 2, LUFFINARC_KIND_HASHTAG, 15, 19, 2,
    };
    uint32_t words[13];
    uint8_t p[108];
    memset(words, 0xFF, sizeof words);
    write_tagged(m, m_len, p);
    CHECK(luffinarc_check(p, 108, points, roles, answer) == 0 && gave(VERSION, 5, 2));
    CHECK(points[1] == 0x5F && roles[1] == LUFFINARC_ROLE_HASHTAG);
    CHECK(luffinarc_hashtags(p, 108, text, 19, words, 11, answer) == LUFFINARC_ROOM && gave(3, 0, 0));
    CHECK(luffinarc_hashtags_checked(p, 108, text, 19, NULL, 0, answer) == LUFFINARC_ROOM && gave(3, 0, 0));
    CHECK(luffinarc_hashtags(p, 108, bad, 6, words, 13, answer) == LUFFINARC_ILL_FORMED && gave(2, 2, 0));
    CHECK(luffinarc_hashtags(p, 107, text, 19, words, 13, answer) == LUFFINARC_LENGTH && gave(0, 0, 0));
    CHECK(words[0] == UINT32_MAX);
    CHECK(luffinarc_hashtags(p, 108, text, 19, words, 13, answer) == 0 && gave(3, 0, 0));
    CHECK(memcmp(words, list, sizeof list) == 0 && words[12] == UINT32_MAX);
    memset(words, 0xFF, sizeof words);
    CHECK(luffinarc_hashtags_checked(p, 108, text, 19, words, 12, answer) == 0 && gave(3, 0, 0));
    CHECK(memcmp(words, list, sizeof list) == 0 && words[12] == UINT32_MAX);
    CHECK(luffinarc_lookup(p, 108, 0x5F, answer) == 0 && gave(LUFFINARC_CLASS_UNASSIGNED, 3, 0));
    CHECK(luffinarc_count(p, 108, text, 19, answer) == LUFFINARC_CHARACTERS && gave(0, 0, 0));
}

/* Lines: CR LF ends one, so does LS, and CR LF is not parted by the token that begins at its LF. */
static void lines(void)
{
    static const uint32_t ranges[] = {
        0x0A, 0x0A, LUFFINARC_CLASS_SYNTAX, 0x0D, 0x0D, LUFFINARC_CLASS_WHITE,
        0x61, 0x7A, LUFFINARC_CLASS_START,  0x2028, 0x2028, LUFFINARC_CLASS_NONSTART,
    };
    static const uint8_t text[] = "a\r\nb\xE2\x80\xA8" "c\r";
    static const uint32_t list[] = {
        LUFFINARC_KIND_IDENTIFIER, 0, 1, 1, LUFFINARC_KIND_LINE_END, 1, 2, 1, LUFFINARC_KIND_SYNTAX, 2, 3, 1,
        LUFFINARC_KIND_IDENTIFIER, 3, 8, 2, LUFFINARC_KIND_LINE_END, 8, 9, 3,
    };
    uint32_t words[5 * LUFFINARC_TOKEN_WORDS];
    uint8_t image[80];
    CHECK(luffinarc_write(1, ranges, 12, points, roles, 0, image, 80, answer) == 0 && gave(80, 0, 0));
    CHECK(luffinarc_list(image, 80, text, 9, words, 19, answer) == LUFFINARC_ROOM && gave(5, 0, 0));
    CHECK(luffinarc_list(image, 80, text, 9, words, 20, answer) == 0 && gave(5, 0, 0));
    CHECK(memcmp(words, list, sizeof list) == 0);
    CHECK(luffinarc_token(image, 80, text, 9, 3, answer) == 0 && gave(LUFFINARC_KIND_IDENTIFIER, 3, 8));
}

/* Marks: a list with all kinds of white space, a mark that parts a name, and what comes before and after refusal 14. */
static void marks(void)
{
    static const uint32_t ranges[] = {
        0x0A, 0x0A, LUFFINARC_CLASS_WHITE, 0x20, 0x20, LUFFINARC_CLASS_WHITE,
        0x2E, 0x2E, LUFFINARC_CLASS_SYNTAX, 0x61, 0x7A, LUFFINARC_CLASS_START,
        0x200E, 0x200F, LUFFINARC_CLASS_WHITE,
    };
    static const uint8_t text[] = " \n\xE2\x80\x8F" "a.\xE2\x80\x8E\xE2\x80\x8F" "b%";
    static const uint32_t list[] = {
        LUFFINARC_KIND_BLANK, 0, 1, 1, LUFFINARC_KIND_LINE_END, 1, 2, 1, LUFFINARC_KIND_MARK, 2, 5, 2,
        LUFFINARC_KIND_IDENTIFIER, 5, 6, 2, LUFFINARC_KIND_SYNTAX, 6, 7, 2, LUFFINARC_KIND_MARK, 7, 13, 2,
        LUFFINARC_KIND_IDENTIFIER, 13, 14, 2,
    };
    uint32_t words[7 * LUFFINARC_RECORD_WORDS];
    uint8_t plain[92], medial[100];
    points[0] = 0x2E, roles[0] = LUFFINARC_ROLE_MEDIAL;
    CHECK(luffinarc_write(1, ranges, 15, points, roles, 0, plain, 92, answer) == 0 && gave(92, 0, 0));
    CHECK(luffinarc_write(1, ranges, 15, points, roles, 1, medial, 100, answer) == 0 && gave(100, 0, 0));
    CHECK(luffinarc_count(plain, 92, text, 14, answer) == 0 && gave(7, 0, 0));
    CHECK(luffinarc_list(plain, 92, text, 14, words, 28, answer) == 0 && gave(7, 0, 0));
    CHECK(memcmp(words, list, sizeof list) == 0);
    memset(words, 0xFF, sizeof words);
    CHECK(luffinarc_count(medial, 100, text, 14, answer) == LUFFINARC_MARK && gave(7, 0, 0));
    CHECK(luffinarc_count_checked(medial, 100, text, 14, answer) == LUFFINARC_MARK && gave(7, 0, 0));
    CHECK(luffinarc_list(medial, 100, text, 14, words, 28, answer) == LUFFINARC_MARK && gave(7, 0, 0));
    CHECK(luffinarc_list_checked(medial, 100, text, 14, NULL, 0, answer) == LUFFINARC_MARK && gave(7, 0, 0));
    CHECK(luffinarc_count(medial, 100, text, 15, answer) == LUFFINARC_CHARACTERS && gave(14, 0, 0));
    CHECK(luffinarc_count(medial, 100, text, 12, answer) == LUFFINARC_ILL_FORMED && gave(10, 2, 0));
    CHECK(words[0] == UINT32_MAX);
    CHECK(luffinarc_list(medial, 100, text, 13, words, 20, answer) == LUFFINARC_ROOM && gave(6, 0, 0));
    CHECK(luffinarc_token(medial, 100, text, 14, 7, answer) == 0 && gave(LUFFINARC_KIND_MARK, 7, 13));
    CHECK(luffinarc_token_checked(medial, 100, text, 14, 10, answer) == 0 && gave(LUFFINARC_KIND_MARK, 10, 13));
}

/* Ill-formed texts: the place, and the length of the maximal subpart there. */
static void ill_formed(const uint8_t *m, size_t m_len)
{
    static const uint8_t text[] = {'a', 0xF0, 0x9F, 0x98, 'a'}, surrogate[] = {0xED, 0xA0, 0x80}, sign[] = {0xC3, 0xA9};
    uint32_t words[6];
    memset(words, 0xFF, sizeof words);
    CHECK(luffinarc_count(m, m_len, text, 5, answer) == LUFFINARC_ILL_FORMED && gave(1, 3, 0));
    CHECK(luffinarc_count(m, m_len, text, 4, answer) == LUFFINARC_ILL_FORMED && gave(1, 3, 0));
    CHECK(luffinarc_count(m, m_len, text, 3, answer) == LUFFINARC_ILL_FORMED && gave(1, 2, 0));
    CHECK(luffinarc_count_checked(m, m_len, text, 2, answer) == LUFFINARC_ILL_FORMED && gave(1, 1, 0));
    CHECK(luffinarc_count(m, m_len, surrogate, 3, answer) == LUFFINARC_ILL_FORMED && gave(0, 1, 0));
    CHECK(luffinarc_list(m, m_len, text, 5, words, 6, answer) == LUFFINARC_ILL_FORMED && gave(1, 3, 0));
    CHECK(luffinarc_list_checked(m, m_len, text, 3, words, 6, answer) == LUFFINARC_ILL_FORMED && gave(1, 2, 0));
    CHECK(words[0] == UINT32_MAX);
    CHECK(luffinarc_token(m, m_len, text, 5, 0, answer) == 0 && gave(LUFFINARC_KIND_IDENTIFIER, 0, 1));
    CHECK(luffinarc_token(m, m_len, text, 5, 1, answer) == LUFFINARC_ILL_FORMED && gave(1, 3, 0));
    CHECK(luffinarc_token_checked(m, m_len, text, 5, 2, answer) == LUFFINARC_ILL_FORMED && gave(2, 1, 0));
    CHECK(luffinarc_token(m, m_len, sign, 2, 1, answer) == LUFFINARC_ILL_FORMED && gave(1, 1, 0));
    CHECK(luffinarc_count(m, m_len, sign, 2, answer) == LUFFINARC_CHARACTERS && gave(0, 0, 0));
}

int main(int argc, char **argv)
{
    uint8_t m[200], m2[200];
    if (argc != 3) {
        fprintf(stderr, "usage: calls M M2\n");
        return 2;
    }
    size_t m_len = read_file(argv[1], m, sizeof m), m2_len = read_file(argv[2], m2, sizeof m2);
    CHECK(m_len == 100 && m2_len == 112);
    empty_slices(m, m_len);
    images(m, m_len, m2, m2_len);
    entries();
    changes(m, m_len, m2, m2_len);
    tokens(m, m_len);
    hashtags(m, m_len);
    lines();
    marks();
    ill_formed(m, m_len);
    return finish();
}
