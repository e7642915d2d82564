/* Formats a sheet: the file named, or standard input. The text goes to standard output.
 *
 * A sheet's file has the tab size (u32, little-endian), the text's length (u16), the text, the
 * record. Exit: 0 formatted, 1 refused, 2 the file cannot be read.
 */
#include "diverplume.h"

#include <inttypes.h>
#include <stdio.h>
#include <stdlib.h>

enum { HEAD = 6, LONGEST = HEAD + UINT16_MAX + DIVERPLUME_MAX_RECORD };

static const char *const REASONS[] = {
    [DIVERPLUME_ACCEPTED] = "accepted",
    [DIVERPLUME_TOO_LONG] = "the text or the record is too long: split the file",
    [DIVERPLUME_NOT_UTF8] = "the text is not well-formed UTF-8: save the file in UTF-8",
    [DIVERPLUME_MALFORMED] = "the record is malformed: write it again",
    [DIVERPLUME_TOO_DEEP] =
        "too many forms stand inside one another: give an inner part a declaration of its own",
    [DIVERPLUME_COMMENTS_LEFT] = "a comment would be lost: move it above a declaration",
    [DIVERPLUME_INDENT_TOO_WIDE] = "an indent is too wide: take a smaller tab size",
    [DIVERPLUME_OUTPUT_TOO_SHORT] = "the output is too short",
    [DIVERPLUME_MISSING] = "a part of the record is missing there: complete the file",
    [DIVERPLUME_IMPORT] = "an import of the record stands there: keep imports out of the file",
};

static int refuse(const diverplume_verdict *verdict)
{
    fprintf(stderr, "format: refused with %" PRIu64 " at offset %" PRIu64 ": %s\n",
            verdict->number, verdict->place, REASONS[verdict->number]);
    for (uint64_t token = 0; token < DIVERPLUME_MAX_TOKENS; token++) {
        if (diverplume_is_left(verdict, token))
            fprintf(stderr, "format: the comment is token %" PRIu64 "\n", token);
    }
    return 1;
}

/* Measures the text with the check, then writes it into an output of just its length. */
static int format(const uint8_t *text, size_t text_length,
                  const uint8_t *record, size_t record_length, uint32_t tab_size)
{
    diverplume_verdict verdict;
    diverplume_check(text, text_length, record, record_length, &verdict);
    if (verdict.number != DIVERPLUME_ACCEPTED)
        return refuse(&verdict);
    uint64_t length = diverplume_length(&verdict, tab_size);
    if (verdict.deepest * tab_size > UINT32_MAX)
        length = 0; /* diverplume_get refuses the tab size, whatever the output */
    uint8_t *output = length < SIZE_MAX ? malloc(length + 1) : NULL;
    if (output == NULL) {
        fprintf(stderr, "format: no memory for a text of %" PRIu64 " bytes\n", length);
        return 1;
    }
    diverplume_get(text, text_length, record, record_length, tab_size, output, length, &verdict);
    int status = verdict.number == DIVERPLUME_ACCEPTED ? 0 : refuse(&verdict);
    if (status == 0 && fwrite(output, 1, length, stdout) != length)
        status = 2;
    free(output);
    return status;
}

int main(int count, char **arguments)
{
    static uint8_t input[LONGEST + 1];
    FILE *file = count > 1 ? fopen(arguments[1], "rb") : stdin;
    if (file == NULL) {
        perror(arguments[1]);
        return 2;
    }
    size_t length = fread(input, 1, sizeof input, file);
    size_t text_length = length < HEAD ? 0 : input[4] | (size_t)input[5] << 8;
    if (length < HEAD + text_length || length > LONGEST) {
        fprintf(stderr, "format: the file is no sheet: it has %zu bytes\n", length);
        return 2;
    }
    uint32_t tab_size = input[0] | (uint32_t)input[1] << 8 | (uint32_t)input[2] << 16
                      | (uint32_t)input[3] << 24;
    const uint8_t *text = input + HEAD, *record = text + text_length;
    return format(text, text_length, record, length - HEAD - text_length, tab_size);
}
