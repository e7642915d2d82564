/* Diverplume: a proved formatter for Standard ML rule files.
 *
 * The functions stand in the archive target/staticlib/libdiverplume.a, which `tools/build diverplume`
 * makes. They need nothing but memset and memcpy, keep no state and may be called from any thread; a stack of
 * 512 KiB is enough.
 *
 * A sheet is a text and a record of its tokens and syntax tree. Any bytes may be handed in. Every
 * call ends, refuses by number what it cannot take, and changes the lent output only where it
 * accepts. No pointer may be NULL, also where its length is 0; the memory of a verdict, of an
 * answer and of an output may not overlap any other that is passed.
 */
#ifndef DIVERPLUME_H
#define DIVERPLUME_H

#include <stddef.h>
#include <stdint.h>

#ifdef __cplusplus
extern "C" {
#endif

/* The limits of a sheet: bytes of text, bytes of record, tokens, forms inside one another. */
#define DIVERPLUME_MAX_TEXT 32768
#define DIVERPLUME_MAX_RECORD 65536
#define DIVERPLUME_MAX_TOKENS 4096
#define DIVERPLUME_MAX_FORMS 200

/* What stands for none in an answer of a lookup. */
#define DIVERPLUME_NONE UINT64_MAX

/* An output of this many bytes holds the tokens of any text: four bytes a token. */
#define DIVERPLUME_MAX_SCANNED (4 * DIVERPLUME_MAX_TOKENS)

/* The numbers of verdicts. For 1 to 6, 13 and 14 the sheet is at fault, for 7 to 9 what else the caller brings, for 10 to
 * 12 the text that is scanned. No call gives 5. */
enum {
    DIVERPLUME_ACCEPTED = 0,
    DIVERPLUME_TOO_LONG = 1,         /* text or record past its limit */
    DIVERPLUME_NOT_UTF8 = 2,         /* place: the first byte of the text's first broken character */
    DIVERPLUME_MALFORMED = 3,        /* place: the record's first command that does not fit */
    DIVERPLUME_TOO_DEEP = 4,         /* place: the record's form inside 200 others */
    DIVERPLUME_COMMENTS_LEFT = 6,    /* place: text offset of the first comment that would be lost */
    DIVERPLUME_INDENT_TOO_WIDE = 7,  /* deepest * tab size is over 4294967295 */
    DIVERPLUME_OUTPUT_TOO_SHORT = 8, /* the output is shorter than the text to be written */
    DIVERPLUME_NO_TOKEN = 9,         /* a lookup of a token number not below the count */
    DIVERPLUME_OPEN_COMMENT = 10,    /* place: the text's first comment without an end */
    DIVERPLUME_NO_STRING = 11,       /* place: a double quote that begins no string constant */
    DIVERPLUME_BEGINS_NO_TOKEN = 12, /* place: another byte that begins no token */
    DIVERPLUME_MISSING = 13,         /* place: the record's part that formatting needs and that is absent */
    DIVERPLUME_IMPORT = 14           /* place: the record's import, which is not formatted */
};

/* What the check or formatting says. Measures are 0 for numbers other than 0, 7 and 8. */
typedef struct diverplume_verdict {
    uint64_t number;
    uint64_t place;    /* an offset, or 0 */
    uint64_t deepest;  /* the deepest indent formed, written or not */
    uint64_t letters;  /* bytes written other than indents */
    uint64_t units;    /* the sum of the depths of all indents written */
    uint64_t left[64]; /* comments left, for number 6: bit b of word w is token 64 * w + b */
} diverplume_verdict;

/* What the lookup of a comment says. Where the comment is DIVERPLUME_NONE the keyword is too. */
typedef struct diverplume_comment {
    uint64_t number;
    uint64_t place;
    uint64_t comment; /* the comment's token number, or DIVERPLUME_NONE */
    uint64_t keyword; /* the token number of the keyword that the search passed, or DIVERPLUME_NONE */
} diverplume_comment;

/* What the lookup of a doc comment says. */
typedef struct diverplume_lookup {
    uint64_t number;
    uint64_t place;
    uint64_t found; /* the length written, or DIVERPLUME_NONE */
} diverplume_lookup;

/* What a call with an output says, where it has neither measures nor a set. Refused, it wrote 0 bytes. */
typedef struct diverplume_written {
    uint64_t number;
    uint64_t place;
    uint64_t written; /* bytes written at the output's start; the others are unchanged */
} diverplume_written;

/* Whether a sheet can be formatted: numbers 0 to 4, 6, 13 and 14. */
void diverplume_check(const uint8_t *text, size_t text_length,
                      const uint8_t *record, size_t record_length,
                      diverplume_verdict *verdict);

/* Formats a sheet: numbers 0 to 4, 6 to 8, 13 and 14. Accepted, the first diverplume_length bytes of the output are the
 * formatted text, the others are unchanged. */
void diverplume_get(const uint8_t *text, size_t text_length,
                    const uint8_t *record, size_t record_length,
                    uint32_t tab_size, uint8_t *output, size_t output_length,
                    diverplume_verdict *verdict);

/* The comment above a token, and the keyword that the search passed on its way: numbers 0 to 4 and 9.
 * Finding none is number 0 too. The token itself is the first that the search goes over. */
void diverplume_comment_above(const uint8_t *text, size_t text_length,
                              const uint8_t *record, size_t record_length,
                              uint64_t token, diverplume_comment *answer);

/* The doc text of the comment above a token, at the output's start: numbers 0 to 4, 8 and 9. An
 * output as long as the text is long enough. */
void diverplume_doc_comment_above(const uint8_t *text, size_t text_length,
                                  const uint8_t *record, size_t record_length,
                                  uint64_t token, uint8_t *output, size_t output_length,
                                  diverplume_lookup *answer);

/* The tokens of a text, after The Definition of Standard ML, as the record starts with them: 0x05, kind, length
 * (u16, little-endian) for each, at the output's start. Numbers 0, 1 (text too long, or more than
 * DIVERPLUME_MAX_TOKENS tokens), 2, 10 to 12, and 8. An output of DIVERPLUME_MAX_SCANNED bytes is long enough. */
void diverplume_scan(const uint8_t *text, size_t text_length,
                     uint8_t *output, size_t output_length,
                     diverplume_written *answer);

/* The length of the formatted text at a tab size, for a verdict of number 0, 7 or 8. */
static inline uint64_t diverplume_length(const diverplume_verdict *verdict, uint32_t tab_size)
{
    return verdict->letters + tab_size * verdict->units;
}

/* Whether a token is a comment left. */
static inline int diverplume_is_left(const diverplume_verdict *verdict, uint64_t token)
{
    return token < DIVERPLUME_MAX_TOKENS && ((verdict->left[token / 64] >> (token % 64)) & 1) != 0;
}

#ifdef __cplusplus
}
#endif

#endif
