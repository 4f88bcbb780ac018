/* Names and texts of results, and versions, as the header gives them. It compiles as C and as C++.
 *
 * Prints a line for each check that fails, and last the counts.
 */
#include <stdio.h>
#include <string.h>

#include "check.h"
#include "luffinarc.h"

static int named(uint32_t number, const char *name, const char *text)
{
    return strcmp(luffinarc_refusal_name(number), name) == 0 && strcmp(luffinarc_refusal_text(number), text) == 0;
}

/* The results of calls. */
static void calls(void)
{
    uint64_t answer[LUFFINARC_ANSWER];
    CHECK(named(luffinarc_part(NULL, 0, 0, 0, answer), "none", "no refusal"));
    CHECK(named(luffinarc_part(NULL, 0, 0, 1, answer), "Shape", "a list, a place or a start does not fit"));
    CHECK(named(luffinarc_count(NULL, 0, NULL, 0, answer), "Length", "the image has a wrong length"));
}

/* Every result has a name and a text of its own, and no other number has one. */
static void results(void)
{
    const char *none = "no result has this number";
    CHECK(named(0, "none", "no refusal"));
    CHECK(named(LUFFINARC_LENGTH, "Length", "the image has a wrong length"));
    CHECK(named(LUFFINARC_ILL_FORMED, "IllFormed", "ill-formed UTF-8"));
    CHECK(named(LUFFINARC_MARK, "Mark", "a direction mark parts a token"));
    CHECK(named(LUFFINARC_DONE, "Done", "the place is the text's end"));
    CHECK(named(UINT32_MAX, "unknown", none));
    for (uint32_t i = 0; i < 1000; i++) {
        int known = i <= LUFFINARC_MARK || i == LUFFINARC_DONE;
        CHECK(known != named(i, "unknown", none));
        for (uint32_t j = 0; known && j < i; j++) {
            CHECK(strcmp(luffinarc_refusal_name(i), luffinarc_refusal_name(j)) != 0);
            CHECK(strcmp(luffinarc_refusal_text(i), luffinarc_refusal_text(j)) != 0);
        }
    }
}

/* The library's version, and the version words of images. */
static void versions(void)
{
    static const uint32_t words[] = {0, 255, 256, 65535, 65536, 983296, 1048576, UINT32_MAX};
    char text[40];
    snprintf(text, sizeof text, "%d.%d.%d", LUFFINARC_VERSION_MAJOR, LUFFINARC_VERSION_MINOR, LUFFINARC_VERSION_PATCH);
    CHECK(strcmp(text, LUFFINARC_VERSION) == 0);
    CHECK(LUFFINARC_UNICODE_VERSION(16, 0, 0) == 1048576 && LUFFINARC_UNICODE_VERSION(15, 1, 0) == 983296);
    CHECK(LUFFINARC_UNICODE_VERSION(65535, 255, 255) == UINT32_MAX);
    for (size_t i = 0; i < sizeof words / sizeof *words; i++) {
        uint64_t answer = words[i]; /* as luffinarc_check gives it */
        uint32_t a = LUFFINARC_UNICODE_MAJOR(answer), b = LUFFINARC_UNICODE_MINOR(answer), c = LUFFINARC_UNICODE_UPDATE(answer);
        CHECK(a == words[i] / 65536 && b == words[i] / 256 % 256 && c == words[i] % 256);
        CHECK(LUFFINARC_UNICODE_VERSION(a, b, c) == words[i]);
    }
}

int main(void)
{
    calls();
    results();
    versions();
    return finish();
}
