/* A reader of tokens over ICU: its UTF-8 macros and its property lookups. Its medials are signs of ASCII. */
#include <stdint.h>
#include <string.h>

#include <unicode/uchar.h>
#include <unicode/utf8.h>

enum { IDENTIFIER = 1, SYNTAX = 2, BLANK = 3, LINE_END = 4, MARK = 5 };

/* The kind of a code point that is white space. */
static uint32_t white_kind(UChar32 c)
{
    if (('\n' <= c && c <= '\r') || c == 0x85 || c == 0x2028 || c == 0x2029)
        return LINE_END;
    return c == 0x200E || c == 0x200F ? MARK : BLANK;
}

/* The kind of the token that a code point begins, 0 for none. */
static uint32_t kind_of(UChar32 c)
{
    if (u_hasBinaryProperty(c, UCHAR_XID_START))
        return IDENTIFIER;
    if (u_hasBinaryProperty(c, UCHAR_PATTERN_WHITE_SPACE))
        return white_kind(c);
    return u_hasBinaryProperty(c, UCHAR_PATTERN_SYNTAX) ? SYNTAX : 0;
}

/* Whether a token of this kind, which is no syntax, goes on with a code point. */
static int goes_on(UChar32 c, uint32_t kind)
{
    if (kind == IDENTIFIER)
        return u_hasBinaryProperty(c, UCHAR_XID_CONTINUE);
    return white_kind(c) == kind && (kind != BLANK || u_hasBinaryProperty(c, UCHAR_PATTERN_WHITE_SPACE));
}

static int is_medial(UChar32 c, const char *medials)
{
    return 0 < c && c < 0x80 && strchr(medials, c) != NULL;
}

/* The number of line ends in a token of them; CR LF is one. */
static uint32_t line_ends(const uint8_t *text, int32_t at, int32_t end)
{
    uint32_t ends = 0;
    while (at < end) {
        UChar32 c;
        U8_NEXT(text, at, end, c);
        ends += c != '\r' || at == end || text[at] != '\n';
    }
    return ends;
}

/* Whether marks from a byte to before another part a token; the last identifier before them ends at `name`. */
static int parts(const uint8_t *text, int32_t name, int32_t at, int32_t end, int32_t len, const char *medials)
{
    UChar32 c;
    if (name < 0 || end == len)
        return 0;
    U8_NEXT(text, end, len, c);
    if (name < at)
        return name + 1 == at && is_medial(text[name], medials) && u_hasBinaryProperty(c, UCHAR_XID_START);
    if (u_hasBinaryProperty(c, UCHAR_XID_START))
        return 1;
    if (!is_medial(c, medials) || end == len)
        return 0;
    U8_NEXT(text, end, len, c);
    return u_hasBinaryProperty(c, UCHAR_XID_CONTINUE);
}

/* The end of a token of this kind, whose first code point ends at a byte; -1 where the text is ill-formed. */
static int32_t end_of(const uint8_t *text, int32_t at, int32_t len, uint32_t kind, const char *medials)
{
    int32_t next = at;
    while (kind != SYNTAX && at < len) {
        UChar32 c;
        U8_NEXT(text, next, len, c);
        if (c >= 0 && !goes_on(c, kind)) {
            if (kind != IDENTIFIER || next == len || !is_medial(c, medials))
                break;
            U8_NEXT(text, next, len, c);
            if (c >= 0 && !goes_on(c, kind))
                break;
        }
        if (c < 0)
            return -1;
        at = next;
    }
    return at;
}

/* Reads the tokens of a text and writes their records, if there are words to write them to. The result is their
 * number, or -1 where the text is ill-formed, or refused for its characters or a mark. */
int64_t icu_tokens(const uint8_t *text, int32_t len, const char *medials, uint32_t *words)
{
    int64_t count = 0;
    int32_t at = 0, name = -1;
    int parted = 0;
    uint32_t line = 1;
    while (at < len) {
        int32_t start = at, next = at;
        UChar32 c;
        U8_NEXT(text, next, len, c);
        uint32_t kind = c < 0 ? 0 : kind_of(c);
        if (kind == 0)
            return -1;
        at = end_of(text, next, len, kind, medials);
        if (at < 0)
            return -1;
        if (kind == IDENTIFIER)
            name = at;
        else if (kind == MARK && !parted)
            parted = parts(text, name, start, at, len, medials);
        if (words != NULL) {
            words[4 * count] = kind;
            words[4 * count + 1] = (uint32_t)start;
            words[4 * count + 2] = (uint32_t)at;
            words[4 * count + 3] = line;
            if (kind == LINE_END)
                line += line_ends(text, start, at);
        }
        count++;
    }
    return parted ? -1 : count;
}
