/* Prints the tokens of a text: the file named, or standard input. Each has a line: its start, its
 * length, its kind, its text; a byte that is not printable is shown as an escape.
 *
 * Exit: 0 printed, 1 refused, 2 the file cannot be read.
 */
#include "diverplume.h"

#include <inttypes.h>
#include <stdio.h>

enum { COMMAND = 4 };

/* The kinds by their numbers. */
static const char *const KINDS[] = {
    "other", "comment", "...", "and", "val", "fun", "type", "eqtype", "datatype", "abstype",
    "exception", "open", "infix", "infixr", "nonfix", "do", "local", "structure", "signature",
    "functor", "include",
};

static const char *reason(uint64_t number)
{
    switch (number) {
    case DIVERPLUME_TOO_LONG:
        return "the text is too long, or has too many tokens: split the file";
    case DIVERPLUME_NOT_UTF8:
        return "no character in UTF-8 begins here: save the file in UTF-8";
    case DIVERPLUME_OPEN_COMMENT:
        return "the comment has no end: close it";
    case DIVERPLUME_NO_STRING:
        return "no string constant begins here: close it on its line, and look at its escapes";
    case DIVERPLUME_BEGINS_NO_TOKEN:
        return "no token begins with this byte: remove it";
    default:
        return "the output is too short";
    }
}

static int refuse(const uint8_t *text, const diverplume_written *answer)
{
    unsigned line = 1, column = 1;
    for (uint64_t at = 0; at < answer->place; at++) {
        column = text[at] == '\n' ? 1 : column + ((text[at] & 0xC0) != 0x80);
        line += text[at] == '\n';
    }
    fprintf(stderr, "tokens: refused with %" PRIu64 " at line %u, column %u: %s\n",
            answer->number, line, column, reason(answer->number));
    return 1;
}

static void print_text(const uint8_t *text, size_t length)
{
    for (size_t at = 0; at < length; at++) {
        if (text[at] == '\n')
            fputs("\\n", stdout);
        else if (text[at] < 32 || text[at] > 126)
            printf("\\%03u", (unsigned)text[at]);
        else
            putchar(text[at]);
    }
    putchar('\n');
}

/* The 0x05 commands: 05, kind, length (u16, little-endian). */
static void print(const uint8_t *text, const uint8_t *commands, uint64_t written)
{
    size_t start = 0;
    for (uint64_t at = 0; at < written; at += COMMAND) {
        size_t length = commands[at + 2] | (size_t)commands[at + 3] << 8;
        printf("%5zu %5zu %-9s ", start, length, KINDS[commands[at + 1]]);
        print_text(text + start, length);
        start += length;
    }
}

int main(int count, char **arguments)
{
    /* One byte more, so that a longer file is refused. */
    static uint8_t text[DIVERPLUME_MAX_TEXT + 1];
    static uint8_t commands[DIVERPLUME_MAX_SCANNED];
    FILE *file = count > 1 ? fopen(arguments[1], "rb") : stdin;
    if (file == NULL) {
        perror(arguments[1]);
        return 2;
    }
    size_t length = fread(text, 1, sizeof text, file);
    diverplume_written answer;
    diverplume_scan(text, length, commands, sizeof commands, &answer);
    if (answer.number != DIVERPLUME_ACCEPTED)
        return refuse(text, &answer);
    print(text, commands, answer.written);
    return 0;
}
