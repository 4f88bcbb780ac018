/* Luffinarc: class images, tokens and hashtags by Unicode Standard Annex #31.
 *
 * The functions are those of the static library target/staticlib/libluffinarc.a, which `host/library` makes.
 * They are proved to answer as their definitions say, for all images, texts and numbers (those whose name ends in
 * `_checked`: for all images that luffinarc_check accepts); they use no heap, keep no state, and may be called from
 * several threads at once. Counting and listing tokens take up to 16 KB of stack, the others less than 4 KB.
 *
 * Result. 0: no refusal. 1 to 14: the number of the refusal (enum luffinarc_refusal). luffinarc_token may also give
 * LUFFINARC_DONE. The first refusal in number order that applies is given, save where a function says otherwise.
 *
 * Answer. Each function writes all four numbers of `answer`. After the result 0 they are the values that the function
 * documents, and zeros past them. After a refusal answer[0] and answer[1] are what it carries, with 0 for what it does
 * not, and the rest is 0 (luffinarc_pair and luffinarc_changes alone tell at answer[2] which image they refuse).
 *
 * Arguments. A slice is a pointer and its number of elements. A pointer may be null where its number is 0, and only
 * there. `points` and `roles` are arrays of LUFFINARC_MAX_ENTRIES numbers, never null, and so is `answer`, of 4. All
 * LUFFINARC_MAX_ENTRIES may be written: compile callers anew where this header has another limit (64 before 512). Words
 * and answers are aligned as their type asks; images and texts may stand anywhere. What a function writes must not
 * overlap with anything else that it is given.
 *
 * A refused call changes no byte or word that was lent, `answer` apart. Every call leaves what it is lent to read.
 *
 * The header is C99 and C++11. luffinarc_refusal_name and luffinarc_refusal_text stand in it, all else in the library.
 */
#ifndef LUFFINARC_H
#define LUFFINARC_H

#include <stddef.h>
#include <stdint.h>

#ifdef __cplusplus
extern "C" {
#endif

/* The version of the library: three numbers, and the text "MAJOR.MINOR.PATCH". */
#define LUFFINARC_VERSION_MAJOR 0
#define LUFFINARC_VERSION_MINOR 8
#define LUFFINARC_VERSION_PATCH 2
#define LUFFINARC_VERSION "0.8.2"

/* The version word of an image built from Unicode a.b.c, and the three numbers of a word. b and c are at most 255, a at
 * most 65535; all are of type uint32_t. */
#define LUFFINARC_UNICODE_VERSION(a, b, c) ((uint32_t)(a) * 65536u + (uint32_t)(b) * 256u + (uint32_t)(c))
#define LUFFINARC_UNICODE_MAJOR(word) ((uint32_t)(word) >> 16)
#define LUFFINARC_UNICODE_MINOR(word) (((uint32_t)(word) >> 8) & 255u)
#define LUFFINARC_UNICODE_UPDATE(word) ((uint32_t)(word) & 255u)

/* Limits: ranges and profile entries of an image, its bytes, and the bytes of a text. */
#define LUFFINARC_MAX_RANGES 4096
#define LUFFINARC_MAX_ENTRIES 512
#define LUFFINARC_MAX_IMAGE 53280
#define LUFFINARC_MAX_TEXT 1048576

/* The most runs and changed entries that luffinarc_changes lists. */
#define LUFFINARC_MAX_RUNS 16383
#define LUFFINARC_MAX_CHANGED_ENTRIES 1024

/* The words of a range (first, last, class), and of a record in a list of tokens or of hashtags (kind, start byte, end
 * byte, line). LUFFINARC_TOKEN_WORDS is an older name of the latter. */
#define LUFFINARC_RANGE_WORDS 3
#define LUFFINARC_RECORD_WORDS 4
#define LUFFINARC_TOKEN_WORDS LUFFINARC_RECORD_WORDS

/* The words of a run (first, last, older class, newer class) and of a changed entry (code point, older role, newer
 * role). */
#define LUFFINARC_RUN_WORDS 4
#define LUFFINARC_CHANGED_ENTRY_WORDS 3

/* The numbers of an answer. */
#define LUFFINARC_ANSWER 4

/* luffinarc_token: the place is the text's end. */
#define LUFFINARC_DONE 255

/* The refusals. 3, 4, 6 to 10, 12 and 14 carry a number, at answer[0]; 6 alone carries a second, at answer[1].
 *
 * That second number is the length of the maximal subpart at the place (the Unicode Standard, section 3.9, D93b): the
 * most bytes from there on that some well-formed sequence begins with, or else 1. So it is 1, 2 or 3, and place + length
 * is at most the text's length.
 */
enum luffinarc_refusal {
    LUFFINARC_LENGTH = 1,      /* the image is too short or too long, or not of the header's total length */
    LUFFINARC_HEADER = 2,      /* a word of the image's header is wrong, or a count is above its limit */
    LUFFINARC_RANGE = 3,       /* a range is bad; the index of the first bad one */
    LUFFINARC_ENTRY = 4,       /* a profile entry is bad; the index of the first bad one */
    LUFFINARC_TEXT_LENGTH = 5, /* the text is too long */
    LUFFINARC_ILL_FORMED = 6,  /* no well-formed UTF-8 sequence begins at this byte place, the first such; the length
                                * of the maximal subpart there */
    LUFFINARC_CHARACTERS = 7,  /* no token begins at this byte place, after the longest run of tokens */
    LUFFINARC_ROOM = 8,        /* more room is needed; the number of records */
    LUFFINARC_NOT_SCALAR = 9,  /* the number is no scalar value */
    LUFFINARC_CHANGE = 10,     /* a forbidden change; the smallest code point with one */
    LUFFINARC_PROFILES = 11,   /* the profile sections are unequal */
    LUFFINARC_BUFFER = 12,     /* the buffer for an image is too short; the bytes needed */
    LUFFINARC_SHAPE = 13,      /* a list of words is no multiple of its record's words, or a place lies past the
                                * text's end, or a start after an end */
    LUFFINARC_MARK = 14        /* the direction mark at this byte place, the first such, parts a token: it stands
                                * between two tokens that are no white space, and with it taken out of the text no
                                * token would end where it stood */
};

/* The name of a result: of a refusal, that of its constant as "Length" or "IllFormed"; of 0 "none", of LUFFINARC_DONE
 * "Done", of any other number "unknown". */
static inline const char *luffinarc_refusal_name(uint32_t number)
{
    switch (number) {
    case 0: return "none";
    case LUFFINARC_LENGTH: return "Length";
    case LUFFINARC_HEADER: return "Header";
    case LUFFINARC_RANGE: return "Range";
    case LUFFINARC_ENTRY: return "Entry";
    case LUFFINARC_TEXT_LENGTH: return "TextLength";
    case LUFFINARC_ILL_FORMED: return "IllFormed";
    case LUFFINARC_CHARACTERS: return "Characters";
    case LUFFINARC_ROOM: return "Room";
    case LUFFINARC_NOT_SCALAR: return "NotScalar";
    case LUFFINARC_CHANGE: return "Change";
    case LUFFINARC_PROFILES: return "Profiles";
    case LUFFINARC_BUFFER: return "Buffer";
    case LUFFINARC_SHAPE: return "Shape";
    case LUFFINARC_MARK: return "Mark";
    case LUFFINARC_DONE: return "Done";
    default: return "unknown";
    }
}

/* What a result says, in a few words for messages, without what it carries. */
static inline const char *luffinarc_refusal_text(uint32_t number)
{
    switch (number) {
    case 0: return "no refusal";
    case LUFFINARC_LENGTH: return "the image has a wrong length";
    case LUFFINARC_HEADER: return "the image's header is wrong or a count is too large";
    case LUFFINARC_RANGE: return "a range is bad";
    case LUFFINARC_ENTRY: return "a profile entry is bad";
    case LUFFINARC_TEXT_LENGTH: return "the text is too long";
    case LUFFINARC_ILL_FORMED: return "ill-formed UTF-8";
    case LUFFINARC_CHARACTERS: return "no token begins here";
    case LUFFINARC_ROOM: return "more room is needed";
    case LUFFINARC_NOT_SCALAR: return "the number is no scalar value";
    case LUFFINARC_CHANGE: return "a code point has a class that it may not change to";
    case LUFFINARC_PROFILES: return "the images have unequal profiles";
    case LUFFINARC_BUFFER: return "a larger buffer is needed";
    case LUFFINARC_SHAPE: return "a list, a place or a start does not fit";
    case LUFFINARC_MARK: return "a direction mark parts a token";
    case LUFFINARC_DONE: return "the place is the text's end";
    default: return "no result has this number";
    }
}

/* Classes of code points. */
enum luffinarc_class {
    LUFFINARC_CLASS_UNASSIGNED = 0,
    LUFFINARC_CLASS_START = 1,
    LUFFINARC_CLASS_NONSTART = 2,
    LUFFINARC_CLASS_SYNTAX = 3,
    LUFFINARC_CLASS_WHITE = 4,
    LUFFINARC_CLASS_OTHER = 5
};

/* Roles of profile entries: the class of the code point is Start, Nonstart or Other; a medial keeps its class, and so
 * does a code point that is part of hashtags. */
enum luffinarc_role {
    LUFFINARC_ROLE_START = 1,
    LUFFINARC_ROLE_NONSTART = 2,
    LUFFINARC_ROLE_MEDIAL = 3,
    LUFFINARC_ROLE_OTHER = 4,
    LUFFINARC_ROLE_HASHTAG = 5
};

/* Kinds of tokens, and the kind in the record of a hashtag, which no token has. White space is cut into longest runs of
 * one kind: line ends are U+000A, U+000B, U+000C, U+000D, U+0085, U+2028 and U+2029 of class White, marks U+200E and
 * U+200F of class White, blanks all others of that class. */
enum luffinarc_kind {
    LUFFINARC_KIND_IDENTIFIER = 1,
    LUFFINARC_KIND_SYNTAX = 2,
    LUFFINARC_KIND_BLANK = 3,
    LUFFINARC_KIND_LINE_END = 4,
    LUFFINARC_KIND_MARK = 5,
    LUFFINARC_KIND_HASHTAG = 6
};

/* Checks an image.
 *
 * 0: answer is the version, the number of ranges and the number of profile entries, m. points and roles hold the
 * profile's code points and roles, and zeros from m on.
 * Refusals: 1 to 4. points and roles are left as they were.
 */
uint32_t luffinarc_check(const uint8_t *image, size_t image_len,
                         uint32_t *points, uint32_t *roles, uint64_t *answer);

/* Reads an image: as luffinarc_check, and the ranges go to `words`, three words each, in their order.
 *
 * 0: the words past the ranges stay as they were.
 * Refusals: 1 to 4, then 8 where words_len / 3, rounded down, is below the number of ranges. words, points and roles
 * are left as they were.
 */
uint32_t luffinarc_read(const uint8_t *image, size_t image_len,
                        uint32_t *words, size_t words_len,
                        uint32_t *points, uint32_t *roles, uint64_t *answer);

/* Writes the image of a version, of ranges, three words each, and of the first `used` entries of a profile. Entries
 * past them are not looked at.
 *
 * 0: answer[0] is the number of bytes of the image, which stands at the front of out; out is as it was past it.
 * Refusals, in this order: 13 where words_len is no multiple of 3, 2 for the counts, 3, 4, 12. out is left as it was.
 */
uint32_t luffinarc_write(uint32_t version, const uint32_t *words, size_t words_len,
                         const uint32_t *points, const uint32_t *roles, size_t used,
                         uint8_t *out, size_t out_len, uint64_t *answer);

/* Looks up the class of a number after the profile.
 *
 * 0: answer is the class and the number of ranges that the search looked at, at most 13.
 * Refusals: 1 to 4, 9.
 */
uint32_t luffinarc_lookup(const uint8_t *image, size_t image_len,
                          uint32_t number, uint64_t *answer);

/* Checks that the newer image differs from the older only by changes that Table 1 of the annex permits.
 *
 * 0: it does.
 * Refusals: 1 to 4 of the older image, with answer[2] = 1; then 1 to 4 of the newer, with answer[2] = 2; then 11, then
 * 10, with answer[2] = 0.
 */
uint32_t luffinarc_pair(const uint8_t *older, size_t older_len,
                        const uint8_t *newer, size_t newer_len, uint64_t *answer);

/* Lists what changed between two images, in rising order: every change, permitted or not (luffinarc_pair tells whether
 * all are). Versions are not compared.
 *
 * A run, four words: the first and the last of scalar values whose class in the ranges differs, and their class in the
 * older and in the newer image. It has one pair of classes, is as long as it can be, and does not go across the
 * surrogates. An entry, three words: a code point whose role in the profile differs, and its role in the older and in
 * the newer image, 0 for none.
 *
 * 0: answer is the number of runs and the number of entries; the words past each list stay as they were.
 * LUFFINARC_MAX_RUNS and LUFFINARC_MAX_CHANGED_ENTRIES records are always room enough.
 * Refusals: 1 to 4 of the older image, with answer[2] = 1; then 1 to 4 of the newer, with answer[2] = 2; then, with
 * answer[2] = 0, 8 where runs_len / 4, rounded down, is below the number of runs, with that number; else 8 where
 * entries_len / 3, rounded down, is below the number of entries, with that number. runs and entries are left as they
 * were.
 */
uint32_t luffinarc_changes(const uint8_t *older, size_t older_len,
                           const uint8_t *newer, size_t newer_len,
                           uint32_t *runs, size_t runs_len,
                           uint32_t *entries, size_t entries_len, uint64_t *answer);

/* Counts the tokens of a text.
 *
 * 0: answer[0] is their number.
 * Refusals: 1 to 4, 5, 6 with place and length, 7, 14.
 */
uint32_t luffinarc_count(const uint8_t *image, size_t image_len,
                         const uint8_t *text, size_t text_len, uint64_t *answer);

/* Writes the list of a text's tokens to `words`, LUFFINARC_RECORD_WORDS each: kind, first byte, one past the last byte,
 * line.
 *
 * Lines are counted from 1: a token's line is one more than the number of line ends whose last byte stands before its
 * first byte. U+000A, U+000B, U+000C, U+000D, U+0085, U+2028 and U+2029 each end a line, whatever their class or role,
 * and inside an identifier too; but U+000D with U+000A right after it ends one line, at the U+000A.
 *
 * 0: answer[0] is their number; the words past the list stay as they were.
 * Refusals, in this order: 1 to 4, 5, 6 with place and length, 7, 14, then 8 where words_len / LUFFINARC_RECORD_WORDS,
 * rounded down, is below the number of tokens, with that number. words is left as it was.
 */
uint32_t luffinarc_list(const uint8_t *image, size_t image_len,
                        const uint8_t *text, size_t text_len,
                        uint32_t *words, size_t words_len, uint64_t *answer);

/* Takes one token, at a byte place of a text. Nothing past the token needs to be well-formed. The answer has no line.
 *
 * 0: answer is the token's kind, its first byte, which is the place, and one past its last byte.
 * LUFFINARC_DONE: the place is the text's end; answer is zeros.
 * Refusals: 1 to 4, 5, 13 where the place is past the text's end, 6 and 7 at the place. 6 carries the place and the
 * length of the maximal subpart there, 7 the place. 14 is not given.
 */
uint32_t luffinarc_token(const uint8_t *image, size_t image_len,
                         const uint8_t *text, size_t text_len,
                         size_t place, uint64_t *answer);

/* Writes the list of a text's hashtags to `words`, LUFFINARC_RECORD_WORDS each: LUFFINARC_KIND_HASHTAG, first byte, one
 * past the last byte, line. The line is that of the sign, counted as luffinarc_list does.
 *
 * A hashtag is one of the signs U+0023, U+FE5F and U+FF03 and after it the longest run of hashtag Continue, at least
 * one, where no hashtag Continue stands right before the sign. Hashtag Continue are the code points whose class after
 * the profile is Start or Nonstart, or whose role is LUFFINARC_ROLE_HASHTAG, but none of the signs. Medials play no
 * part. No text is refused for its characters.
 *
 * 0: answer[0] is their number, which may be 0; the words past the list stay as they were.
 * Refusals: 1 to 4, 5, 6 with place and length, then 8 where words_len / LUFFINARC_RECORD_WORDS, rounded down, is below
 * the number of hashtags, with that number. words is left as it was.
 */
uint32_t luffinarc_hashtags(const uint8_t *image, size_t image_len,
                            const uint8_t *text, size_t text_len,
                            uint32_t *words, size_t words_len, uint64_t *answer);

/* Hands back a part of a text, from byte `start` to before byte `end`.
 *
 * 0: answer is the part's first byte and its number of bytes: it stands at text + answer[0].
 * Refusals: 13.
 */
uint32_t luffinarc_part(const uint8_t *text, size_t text_len,
                        size_t start, size_t end, uint64_t *answer);

/* The calls for an image that was checked once and is not checked again.
 *
 * They must be given an image that luffinarc_check or luffinarc_read accepted, whose bytes have not changed since. With
 * any other they may read outside the image, and their answer means nothing. The safe Rust type `Image` sees to this.
 *
 * Answers and refusals are those of the function without `_checked`, 1 to 4 apart. What they require is exactly what a
 * result of 0 from luffinarc_check tells (law `zero-checked`, crates/reply/proofs/CheckedLaws.antt).
 */
uint32_t luffinarc_lookup_checked(const uint8_t *image, size_t image_len,
                                  uint32_t number, uint64_t *answer);

uint32_t luffinarc_count_checked(const uint8_t *image, size_t image_len,
                                 const uint8_t *text, size_t text_len, uint64_t *answer);

uint32_t luffinarc_list_checked(const uint8_t *image, size_t image_len,
                                const uint8_t *text, size_t text_len,
                                uint32_t *words, size_t words_len, uint64_t *answer);

uint32_t luffinarc_token_checked(const uint8_t *image, size_t image_len,
                                 const uint8_t *text, size_t text_len,
                                 size_t place, uint64_t *answer);

uint32_t luffinarc_hashtags_checked(const uint8_t *image, size_t image_len,
                                    const uint8_t *text, size_t text_len,
                                    uint32_t *words, size_t words_len, uint64_t *answer);

#ifdef __cplusplus
}
#endif

#endif
