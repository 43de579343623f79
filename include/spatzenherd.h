/* Spatzenherd for C: WebVTT read, written and mended by functions that are proved to meet their contracts.
 *
 * Every function takes any bytes and any numbers. It hands back 0 where it accepts, else the number of the refusal, and puts the values that
 * go with the answer at the start of `values`, eight lent words, whose other words stay as they were. The file crates/c_api/src/lib.rt has
 * the promises, docs/LIBRARY.md says what each function does.
 *
 * The caller owes: a pointer is never NULL, also where the count after it is 0; it points at as much memory as is said; memory that is
 * written overlaps no other that is lent in the same call.
 */
#ifndef SPATZENHERD_H
#define SPATZENHERD_H

#include <stddef.h>
#include <stdint.h>

#ifdef __cplusplus
extern "C" {
#endif

/* The refusals. What is put into `values` stands after each sentence. */
enum spatz_refusal {
    SPATZ_ACCEPTED = 0,
    SPATZ_TOO_LONG = 1,         /* a raw file, read or made, is over 16,777,216 bytes, or a text over 50,331,648 */
    SPATZ_ROOM_TOO_SHORT = 2,   /* the text room is shorter than needed: the length needed */
    SPATZ_NOT_PLAIN = 3,        /* the text holds CR, NUL or ill-formed bytes: the first place */
    SPATZ_NO_SIGNATURE = 4,     /* the text does not begin as a WebVTT file */
    SPATZ_OVER_LIMIT = 5,       /* a time, a line number or a region's count of lines is above its limit */
    SPATZ_TABLE_TOO_SHORT = 6,  /* a list has more entries than its table: the counts needed */
    SPATZ_NO_SUCH_CUE = 7,      /* the cue number is not below the count: the count */
    SPATZ_NOT_WRITABLE = 8,     /* a list entry cannot be written: list (0 styles, 1 regions, 2 cues), index, first failing test */
    SPATZ_NO_GAP = 9,           /* the new identifier is not empty, and neither is the line before the cue */
    SPATZ_OUT_TOO_SHORT = 10    /* the output room is shorter than the file: the length needed */
};

/* The step at which the reading of a time fails: the first failing one of "collect a WebVTT timestamp", and what timing lines and tags add. */
enum spatz_step {
    SPATZ_STEP_NONE = 0,         /* none: it reads */
    SPATZ_DIGIT_MISSING = 1,     /* no digit stands where the time begins */
    SPATZ_WRONG_DIGIT_COUNT = 2, /* not two digits stand after a colon, or not three after the full stop; the place is after them */
    SPATZ_COLON_MISSING = 3,
    SPATZ_FULL_STOP_MISSING = 4,
    SPATZ_OVER_59 = 5,           /* minutes or seconds; this is the last test, so the place is where the time ends */
    SPATZ_ARROW_MISSING = 6,     /* of a timing line: the place is that of the first of the three characters that is not there */
    SPATZ_SOMETHING_AFTER = 7    /* of a tag: something stands after the time */
};

/* The words of a cue's row. A part is from a place of the text up to another; 0, 0 for none. Times are in milliseconds. The last two are the
 * cue's lines in the file: reading stores them, and every other function takes any numbers there. */
enum spatz_cue_word {
    SPATZ_CUE_ID_FROM = 0,
    SPATZ_CUE_ID_TO = 1,
    SPATZ_CUE_START = 2,
    SPATZ_CUE_END = 3,
    SPATZ_CUE_TEXT_FROM = 4,
    SPATZ_CUE_TEXT_TO = 5,
    SPATZ_CUE_VERTICAL = 6,       /* 0 horizontal, 1 rl, 2 lr */
    SPATZ_CUE_LINE = 7,           /* 0 auto, 1 from 0 on, 2 below 0 */
    SPATZ_CUE_LINE_NUMBER = 8,    /* in millionths */
    SPATZ_CUE_SNAP = 9,           /* 0 snaps to lines, 1 is a percentage */
    SPATZ_CUE_LINE_ALIGN = 10,    /* 0 start, 1 center, 2 end */
    SPATZ_CUE_POSITION = 11,      /* 0 auto, 1 not */
    SPATZ_CUE_POSITION_NUMBER = 12, /* a percentage in millionths */
    SPATZ_CUE_POSITION_ALIGN = 13,  /* 0 auto, 1 line-left, 2 center, 3 line-right */
    SPATZ_CUE_SIZE = 14,          /* a percentage in millionths */
    SPATZ_CUE_ALIGN = 15,         /* 0 start, 1 center, 2 end, 3 left, 4 right */
    SPATZ_CUE_REGION = 16,        /* 0 for none, else its index and one */
    SPATZ_CUE_FIRST_LINE = 17,    /* the number of its identifier's line, or of its timing line where it has none, from 1 */
    SPATZ_CUE_LINES = 18,         /* how many lines it has */
    SPATZ_CUE_WORDS = 19
};

/* The row of a new cue: the words 0 to 15 of a cue's row, then its region's name, a part of the text lent with it, and then two words for a
 * cue's lines, which no function looks at. */
enum spatz_new_cue_word { SPATZ_NEW_CUE_NAME_FROM = 16, SPATZ_NEW_CUE_NAME_TO = 17, SPATZ_NEW_CUE_WORDS = 20 };

/* The words of a region's row. Percentages are in millionths. */
enum spatz_region_word {
    SPATZ_REGION_ID_FROM = 0,
    SPATZ_REGION_ID_TO = 1,
    SPATZ_REGION_WIDTH = 2,
    SPATZ_REGION_LINES = 3,
    SPATZ_REGION_ANCHOR_X = 4,
    SPATZ_REGION_ANCHOR_Y = 5,
    SPATZ_REGION_VIEWPORT_X = 6,
    SPATZ_REGION_VIEWPORT_Y = 7,
    SPATZ_REGION_SCROLL = 8, /* 0 none, 1 up */
    SPATZ_REGION_WORDS = 9
};

/* The words of a style's row. */
enum spatz_style_word { SPATZ_STYLE_FROM = 0, SPATZ_STYLE_TO = 1, SPATZ_STYLE_WORDS = 2 };

/* The words of a node's row. Parts are of the room. */
enum spatz_node_word {
    SPATZ_NODE_PARENT = 0, /* 0 for the root, else its index and one */
    SPATZ_NODE_KIND = 1,   /* 0 class, 1 italic, 2 bold, 3 underline, 4 ruby, 5 ruby text, 6 voice, 7 language, 8 string, 9 timestamp */
    SPATZ_NODE_CLASSES_FROM = 2,
    SPATZ_NODE_CLASSES_TO = 3,
    SPATZ_NODE_VALUE_FROM = 4,
    SPATZ_NODE_VALUE_TO = 5,
    SPATZ_NODE_TIME = 6, /* a timestamp's milliseconds */
    SPATZ_NODE_WORDS = 7
};

/* The plain text of a raw file, at the start of `room`; three times the file's length is always enough. Accepted: the text's length. After
 * a refusal (1, 2) the room is as it was. */
uint64_t spatz_convert(const uint8_t *raw, size_t raw_length, uint8_t *room, size_t room_length, uint64_t values[8]);

/* Is a text plain: 0, or 3. */
uint64_t spatz_first_not_plain(const uint8_t *text, size_t text_length, uint64_t values[8]);

/* The lists of a plain text, as rows at the start of the tables. Accepted: the counts of cues, regions, styles. A refusal (1, 3, 4, 5, 6)
 * changes no table; 6 returns all three counts, so a first call with tables of no rows asks for them. */
uint64_t spatz_read(const uint8_t *text, size_t text_length, uint64_t (*cues)[SPATZ_CUE_WORDS], size_t cue_rows,
                    uint64_t (*regions)[SPATZ_REGION_WORDS], size_t region_rows, uint64_t (*styles)[SPATZ_STYLE_WORDS],
                    size_t style_rows, uint64_t values[8]);

/* Converting and reading in one call, which is the fastest way from a file to its lists. Accepted: the counts of cues, regions, styles, and the
 * text's length. A refusal (1, 2, 4, 5, 6) changes no table; the text is left at the start of `text` but for 1 and 2, which leave it as it was. */
uint64_t spatz_read_file(const uint8_t *raw, size_t raw_length, uint8_t *text, size_t text_length, uint64_t (*cues)[SPATZ_CUE_WORDS],
                         size_t cue_rows, uint64_t (*regions)[SPATZ_REGION_WORDS], size_t region_rows,
                         uint64_t (*styles)[SPATZ_STYLE_WORDS], size_t style_rows, uint64_t values[8]);

/* Where the identifier of a cue stands in the text, and where its text stands. Accepted: from, to. Refused by 7, or by 8 with test 1. */
uint64_t spatz_identifier(const uint8_t *text, size_t text_length, const uint64_t (*cues)[SPATZ_CUE_WORDS], size_t cue_rows,
                          size_t number, uint64_t values[8]);
uint64_t spatz_text(const uint8_t *text, size_t text_length, const uint64_t (*cues)[SPATZ_CUE_WORDS], size_t cue_rows, size_t number,
                    uint64_t values[8]);

/* The last of these regions whose identifier is this name, looked for from the last to the first. Never refused: any rows are taken, and an
 * identifier is held to the text; the name is bytes of its own. Values: 1 where one is found and 0 where none is; its index, 0 where none is;
 * how many regions were looked at. */
uint64_t spatz_find_region(const uint8_t *text, size_t text_length, const uint64_t (*regions)[SPATZ_REGION_WORDS], size_t region_rows,
                           const uint8_t *name, size_t name_length, uint64_t values[8]);

/* The timestamp that a text begins with; what stands after it is not looked at. It is refused only by 5, with no values: where it reads and its
 * hours are above 99,999. Values where it reads: SPATZ_STEP_NONE, the place where it ends, its milliseconds. Values where it does not: the step
 * that fails, and the place where the reading then stands. Places are in bytes from 0, and all bytes before one that failed are ASCII. */
uint64_t spatz_time(const uint8_t *text, size_t text_length, uint64_t values[8]);

/* The same of a text that has to be a time and nothing else, as what stands between < and > in a cue's text. */
uint64_t spatz_tag_time(const uint8_t *text, size_t text_length, uint64_t values[8]);

/* A line, lent without its line end, as a cue's timing line. Refused only by 5, with no values: where it reads, and hours or a line number in
 * its settings are above their limit. Values where it reads: SPATZ_STEP_NONE, the place where the end time ends, start, end. Values where it
 * does not: as above, from the line's start also for the end time. A block whose timing line does not read gives no cue. */
uint64_t spatz_timing_line(const uint8_t *line, size_t line_length, uint64_t values[8]);

/* The nodes of one cue's text, as rows at the start of the table, their strings at the start of `room`, which never need more bytes than
 * the text has. Accepted: rows and bytes used. A refusal (1, 3, 5, 2, 6) changes neither. A text of over 786,432 bytes takes 7 MB of stack. */
uint64_t spatz_tree(const uint8_t *text, size_t text_length, uint8_t *room, size_t room_length, uint64_t (*nodes)[SPATZ_NODE_WORDS],
                    size_t node_rows, uint64_t values[8]);

/* The file that has the lists of these rows over a text, at the start of `out`. Accepted: its length. A refusal (8, 1, 10) leaves `out` as
 * it was. */
uint64_t spatz_write(const uint8_t *text, size_t text_length, const uint64_t (*styles)[SPATZ_STYLE_WORDS], size_t style_rows,
                     const uint64_t (*regions)[SPATZ_REGION_WORDS], size_t region_rows, const uint64_t (*cues)[SPATZ_CUE_WORDS],
                     size_t cue_rows, uint8_t *out, size_t out_length, uint64_t values[8]);

/* The raw file with one cue replaced, at the start of `out`: that cue's own bytes change and nothing else, and the new file reads as the old
 * one with that cue replaced. The new cue is a row of SPATZ_NEW_CUE_WORDS words over a text; another count of words is refused by 8, test 1.
 * Accepted: the new file's length. A refusal (1, 2, 4, 5, 7, 8, 9, 1, 10) leaves `out` as it was. `scratch` holds the old file's plain
 * text from its start, but for a raw file that is too long (1) or scratch room that is too short (2), which leave it as it was. */
uint64_t spatz_replace(const uint8_t *raw, size_t raw_length, size_t number, const uint64_t *row, size_t row_words, const uint8_t *text,
                       size_t text_length, uint8_t *scratch, size_t scratch_length, uint8_t *out, size_t out_length,
                       uint64_t values[8]);

/* A raw file converted, read and written again, at the start of `out`. Accepted: its length. A refusal (1, 2, 4, 5, 6, 8, 1, 10) leaves
 * `out` as it was; text room and tables are scratch to this call. */
uint64_t spatz_rewrite(const uint8_t *raw, size_t raw_length, uint8_t *text, size_t text_length, uint64_t (*cues)[SPATZ_CUE_WORDS],
                       size_t cue_rows, uint64_t (*regions)[SPATZ_REGION_WORDS], size_t region_rows,
                       uint64_t (*styles)[SPATZ_STYLE_WORDS], size_t style_rows, uint8_t *out, size_t out_length, uint64_t values[8]);

#ifdef __cplusplus
}
#endif

#endif
