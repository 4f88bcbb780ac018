/* A reader of tokens that re2c makes: an automaton over bytes, with the classes that the script `re2c` prints of an
 * image. It knows no profile. The text has a NUL after its last byte, which the library doesn't ask for. The list is
 * written as the text is read, so words have been written where a refusal comes later. */
#include <stddef.h>
#include <stdint.h>

enum { IDENTIFIER = 1, SYNTAX = 2, BLANK = 3, LINE_END = 4, MARK = 5 };

/* The number of the refusal, below 0, where no token begins at a place: 6 if what is left is ill-formed, else 7. */
static __attribute__((cold, noinline)) int64_t refusal(const uint8_t *at, const uint8_t *end)
{
    while (at < end) {
        uint8_t lead = *at;
        int length = lead < 0x80 ? 1 : lead < 0xC2 ? 0 : lead < 0xE0 ? 2 : lead < 0xF0 ? 3 : lead < 0xF5 ? 4 : 0;
        if (length == 0 || end - at < length)
            return -6;
        if ((lead == 0xE0 && at[1] < 0xA0) || (lead == 0xED && at[1] > 0x9F) || (lead == 0xF0 && at[1] < 0x90) ||
            (lead == 0xF4 && at[1] > 0x8F))
            return -6;
        for (int i = 1; i < length; i++)
            if (at[i] >> 6 != 2)
                return -6;
        at += length;
    }
    return -7;
}

/* The number of line ends in a token of them; CR LF is one. */
static __attribute__((noinline)) uint32_t line_ends(const uint8_t *at, const uint8_t *end)
{
    uint32_t ends = 0;
    while (at < end) {
        ends += *at != '\r' || at + 1 == end || at[1] != '\n';
        at += *at < 0x80 ? 1 : *at < 0xE0 ? 2 : 3;
    }
    return ends;
}

/* A token is counted, or its record is written. */
#define TAKE(kind)                                                                                                     \
    do {                                                                                                               \
        if (list) {                                                                                                    \
            words[0] = kind;                                                                                           \
            words[1] = (uint32_t)(start - text);                                                                       \
            words[2] = (uint32_t)(at - text);                                                                          \
            words[3] = line;                                                                                           \
            words += 4;                                                                                                \
        }                                                                                                              \
        count++;                                                                                                       \
    } while (0)

/* The number of tokens, or the number of a refusal, below 0. Marks right after an identifier part a token if another
 * begins right after them. */
static inline __attribute__((always_inline)) int64_t tokens(const uint8_t *text, size_t len, uint32_t *words, int list)
{
    const uint8_t *at = text, *end = text + len, *start, *back, *name = NULL, *after_marks = NULL;
    int64_t count = 0;
    uint32_t line = 1;
    int parted = 0;
    for (;;) {
        start = at;
        /*!re2c
            !include "classes.re";
            re2c:define:YYCTYPE = "uint8_t";
            re2c:define:YYCURSOR = at;
            re2c:define:YYMARKER = back;
            re2c:yyfill:enable = 0;

            start continue* {
                TAKE(IDENTIFIER);
                parted |= start == after_marks;
                name = at;
                continue;
            }
            syntax { TAKE(SYNTAX); continue; }
            blank+ { TAKE(BLANK); continue; }
            line_end+ {
                TAKE(LINE_END);
                if (list)
                    line += at - start == 1 ? 1 : line_ends(start, at);
                continue;
            }
            mark+ {
                TAKE(MARK);
                if (start == name)
                    after_marks = at;
                continue;
            }
            [\x00] {
                if (start == end)
                    return parted ? -14 : count;
                return refusal(start, end);
            }
            * { return refusal(start, end); }
        */
    }
}

int64_t re2c_count(const uint8_t *text, size_t len)
{
    return tokens(text, len, NULL, 0);
}

/* The words have room for a token at each byte. */
int64_t re2c_list(const uint8_t *text, size_t len, uint32_t *words)
{
    return tokens(text, len, words, 1);
}
