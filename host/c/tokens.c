/* Lists the tokens of a text file: tokens IMAGE TEXT
 *
 * It checks the image once, and prints the number of tokens and a line for each, with its kind, its first byte, one past
 * its last byte and its line in the text, or a line with the number of the refusal and what it carries. Standard error
 * has the refused file, the refusal's name and what it says. Exit status: 0 the tokens were listed, 1 the image or the
 * text is refused, 2 a file cannot be read or memory is short.
 */
#include <inttypes.h>
#include <stdio.h>
#include <stdlib.h>

#include "luffinarc.h"

/* The name of a file, and its bytes: at most `most` and one more, which says that there are more. */
struct bytes {
    const char *name;
    uint8_t *at;
    size_t len;
};

static int read_file(const char *name, size_t most, struct bytes *out)
{
    out->name = name;
    FILE *file = fopen(name, "rb");
    if (file == NULL) {
        perror(name);
        return 0;
    }
    out->at = malloc(most + 1);
    out->len = out->at == NULL ? 0 : fread(out->at, 1, most + 1, file);
    if (out->at == NULL || ferror(file)) {
        perror(name);
        fclose(file);
        return 0;
    }
    fclose(file);
    return 1;
}

/* Prints a refusal of a file: its number, and what it carries; its name and text go to standard error. */
static void print_refusal(const char *name, uint32_t refusal, const uint64_t *answer)
{
    fprintf(stderr, "tokens: %s: %s: %s\n", name, luffinarc_refusal_name(refusal), luffinarc_refusal_text(refusal));
    switch (refusal) {
    case LUFFINARC_RANGE:
    case LUFFINARC_ENTRY:
    case LUFFINARC_CHARACTERS:
    case LUFFINARC_MARK:
        printf("refused %" PRIu32 " %" PRIu64 "\n", refusal, answer[0]);
        break;
    case LUFFINARC_ILL_FORMED: /* the place, and the length of the maximal subpart there */
        printf("refused %" PRIu32 " %" PRIu64 " %" PRIu64 "\n", refusal, answer[0], answer[1]);
        break;
    default:
        printf("refused %" PRIu32 "\n", refusal);
    }
}

static const char *kind_name(uint32_t kind)
{
    switch (kind) {
    case LUFFINARC_KIND_IDENTIFIER:
        return "identifier";
    case LUFFINARC_KIND_SYNTAX:
        return "syntax";
    case LUFFINARC_KIND_LINE_END:
        return "lineend";
    case LUFFINARC_KIND_MARK:
        return "mark";
    default:
        return "whitespace";
    }
}

/* Lists the tokens of a text under an image. The result is the exit status. */
static int list(struct bytes image, struct bytes text)
{
    uint32_t points[LUFFINARC_MAX_ENTRIES], roles[LUFFINARC_MAX_ENTRIES];
    uint64_t answer[LUFFINARC_ANSWER];
    uint32_t refusal = luffinarc_check(image.at, image.len, points, roles, answer);
    if (refusal != 0) {
        print_refusal(image.name, refusal, answer);
        return 1;
    }
    refusal = luffinarc_count_checked(image.at, image.len, text.at, text.len, answer);
    if (refusal != 0) {
        print_refusal(text.name, refusal, answer);
        return 1;
    }
    size_t words_len = LUFFINARC_RECORD_WORDS * (size_t)answer[0];
    uint32_t *words = malloc((words_len + 1) * sizeof *words);
    if (words == NULL) {
        perror("tokens");
        return 2;
    }
    luffinarc_list_checked(image.at, image.len, text.at, text.len, words, words_len, answer);
    printf("tokens %" PRIu64 "\n", answer[0]);
    for (size_t i = 0; i < words_len; i += LUFFINARC_RECORD_WORDS)
        printf("%s %" PRIu32 " %" PRIu32 " %" PRIu32 "\n", kind_name(words[i]), words[i + 1], words[i + 2], words[i + 3]);
    free(words);
    return 0;
}

int main(int argc, char **argv)
{
    struct bytes image = {NULL, NULL, 0}, text = {NULL, NULL, 0};
    if (argc != 3) {
        fprintf(stderr, "usage: tokens IMAGE TEXT\n");
        return 2;
    }
    int status = 2;
    if (read_file(argv[1], LUFFINARC_MAX_IMAGE, &image) && read_file(argv[2], LUFFINARC_MAX_TEXT, &text))
        status = list(image, text);
    free(image.at);
    free(text.at);
    return status;
}
