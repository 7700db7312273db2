/* Qubathimi for C and for any language that calls C: map sheets of nine scales, their frames, covers and deliveries, labels, catalogue
 * lines, official names, local numbers, holdings and shelf lists.
 *
 * `rt lib` in crates/qubathimi_c proves the functions and writes out/libqubathimi_c.a there, for x86-64 Linux; link it with a program
 * that includes this header. Of the C library it calls memcpy and memset and nothing else. It allocates nothing, needs no setting up and
 * keeps nothing between calls, so any number of them may run at once. examples/use.c shows it in use. docs/DEFINITION.md says what sheets,
 * labels and lists are; "document 01" and "document 02" are the papers that it tells of.
 *
 * The convention. Seven functions cannot refuse and have their answer as the result: qubathimi_width, _height, _rows, _columns, _first,
 * _last and _scale_of; and so has qubathimi_same_name, which is true or false. For all others:
 *  - The result is 0 where the function answers, and otherwise the number of the refusal, 1 to 27 (enum qubathimi_refusal). Where several
 *    are due, the first in the order given at the function is the one.
 *  - An answer that is one number goes to *value, and so does the count of what is laid into lent room. *value is written in every
 *    case: of a refusal it is what the refusal carries, the room needed with 10, a place in the label with 4, 5, 19, 20 and 21, a place in
 *    the delivery with 25 and 26, the missing sheet with 27, and otherwise 0. Places count from 0, so there a 0 is the first byte or the
 *    first sheet. A sheet in *value always fits the uint32_t that functions take.
 *  - An answer of several numbers goes to a pointer for each. A refusal leaves what they point to as it was.
 *  - Room is lent as a pointer and the number of places (not bytes) there. A refusal writes nothing into it, save what
 *    qubathimi_read_list and qubathimi_read_holdings have placed; places beyond an answer keep their values.
 *  - No pointer is null, not even with a length of 0, and not for an output that is not wanted: give it a place of its own. What a call
 *    writes to overlaps nothing else that the call is given.
 *  - Any numbers and any bytes may be asked.
 *
 * Sheets are named by their sheet number, 0 to 7 953 173, and scales by theirs, 1 (1:250 000) to 9 (1:500). Points, edges and windows are
 * whole millimetres, east and north, but for the three functions of "Metres", which have 64-bit floats. A sheet, a window and the area own
 * their west and north edge, not their east and south edge. */
#ifndef QUBATHIMI_H
#define QUBATHIMI_H

#include <stdbool.h>
#include <stddef.h>
#include <stdint.h>

#ifdef __cplusplus
extern "C" {
#endif

#define QUBATHIMI_LAST_SCALE 9
#define QUBATHIMI_LAST_SHEET 7953173
/* the bytes of the longest label */
#define QUBATHIMI_LONGEST_LABEL 16
/* the most sheets that a cover has, and the most sheets or holdings of a list */
#define QUBATHIMI_MOST_SHEETS 4096
/* the last holding: the last sheet with its first product */
#define QUBATHIMI_LAST_HOLDING 23859520
/* the most sheets that a municipality has */
#define QUBATHIMI_MOST_IN_MUNICIPALITY 400
/* the places of a block of neighbours, and the mark of no sheet: at a place off the grid, and for a name that no sheet has */
#define QUBATHIMI_NEIGHBOURS 9
#define QUBATHIMI_NONE UINT32_C(4294967295)
/* where a caption lies */
#define QUBATHIMI_IN_LINE 0
#define QUBATHIMI_IN_FALLBACK 1
/* the bytes of the longest official name, and what is said of the name in a line */
#define QUBATHIMI_LONGEST_OFFICIAL_NAME 14
#define QUBATHIMI_AGREES 0
#define QUBATHIMI_DIFFERS 1
#define QUBATHIMI_NOT_LISTED 2

/* Document 01, "Numbers of refusal", and document 02 for 4, 5 and those from 18 on; docs/REFUSALS.md says what to look at. */
enum qubathimi_refusal {
    QUBATHIMI_POINT_OUTSIDE = 1,   /* point outside the area */
    QUBATHIMI_NO_SCALE = 2,        /* scale not 1 to 9 */
    QUBATHIMI_NO_SHEET = 3,        /* sheet number above 7 953 173, or holding above 23 859 521 */
    QUBATHIMI_LABEL_LENGTH = 4,    /* label empty, at 0, or over 16 bytes, at 16; carries that place */
    QUBATHIMI_FIELD_RANGE = 5,     /* a label field out of range; carries where the first such field begins */
    QUBATHIMI_NO_SUCH = 6,         /* no such parent or child, step or place off the grid, offset across scales, sheet or local numbers that
                                      a municipality does not have */
    QUBATHIMI_WINDOW_ORDER = 7,    /* window with east not above west or north not above south */
    QUBATHIMI_WINDOW_OUTSIDE = 8,  /* window reaching outside the area */
    QUBATHIMI_TOO_MANY = 9,        /* more than 4 096 sheets or holdings */
    QUBATHIMI_ROOM = 10,           /* lent room too short; carries the room needed */
    QUBATHIMI_ENDS_EARLY = 11,     /* list ends early */
    QUBATHIMI_BAD_NUMBER = 12,     /* list number badly written, or a first number that tells no count of 0 to 4 096 */
    QUBATHIMI_PAST_LAST = 13,      /* list runs past the last sheet or holding */
    QUBATHIMI_MORE_BYTES = 14,     /* bytes after the list's end */
    QUBATHIMI_NOT_RISING = 15,     /* sheets or holdings to be written, or sheets of a municipality, not strictly rising */
    QUBATHIMI_NAME_FORM = 16,      /* name badly formed */
    QUBATHIMI_NAME_SCALE = 17,     /* name at scale 7, 8 or 9 */
    QUBATHIMI_NO_NUMBER = 18,      /* a value in metres that is infinite or no number */
    QUBATHIMI_STRANGE_BYTE = 19,   /* a byte of a label that is neither digit nor hyphen; carries the place of the first */
    QUBATHIMI_FIELD_FORM = 20,     /* an empty label field, or one with a leading zero; carries where the first such field begins */
    QUBATHIMI_NAMES_NO_SCALE = 21, /* a label's first number or its count of fields unknown; carries 0 */
    QUBATHIMI_NOT_250_000 = 22,    /* not a 1:250 000 sheet */
    QUBATHIMI_NO_MUNICIPALITY = 23, /* list of a municipality empty or above 400 sheets, or with a sheet that is not 1:2 000 */
    QUBATHIMI_NO_PRODUCT = 24,     /* a product that the scale does not have: above 2, or 2 at another scale than 6 and 7 */
    QUBATHIMI_NOT_OF_COVER = 25,   /* a number in a delivery that is no sheet of the cover; carries its place */
    QUBATHIMI_SEEN_BEFORE = 26,    /* a sheet that stands in a delivery before; carries the place where it stands again */
    QUBATHIMI_MISSING = 27         /* a sheet of the cover that is not delivered; carries the first in cover order */
};

/* ---- Scales. Of a number that is no scale, not 1 to 9, each of these is 0. ---- */

/* The width and the height of a sheet, in metres. */
uint32_t qubathimi_width(uint32_t scale);
uint32_t qubathimi_height(uint32_t scale);

/* The rows and the columns of the whole grid. */
uint32_t qubathimi_rows(uint32_t scale);
uint32_t qubathimi_columns(uint32_t scale);

/* The first and the last sheet number. The first of scale 1 is 0. */
uint32_t qubathimi_first(uint32_t scale);
uint32_t qubathimi_last(uint32_t scale);

/* The scale of a sheet, 1 to 9; 0 of a number that is no sheet. */
uint32_t qubathimi_scale_of(uint32_t sheet);

/* ---- Sheets, places and points ---- */

/* The scale of a sheet, and its row from the north and column from the west on the whole grid of the scale, counted from 0. A label
 * counts otherwise: at scales 1 to 3 its row is this row plus 101, and its column this column plus 1. Refusal: 3. */
uint32_t qubathimi_locate(uint32_t sheet, uint32_t *scale, uint32_t *row, uint32_t *column);

/* The sheet in a row and a column of a scale, counted from 0. Refusals: 2; 6 for a row or a column off the grid. */
uint32_t qubathimi_sheet_on(uint32_t scale, uint32_t row, uint32_t column, uint64_t *value);

/* The sheet of a scale in which the point lies, e east and n north. A point on the edge between two sheets lies in the eastern and in
 * the southern one; on the area's border, E 200 000 m and N 5 170 000 m are inside, E 800 000 m and N 4 570 000 m are outside.
 * Refusals: 2, 1. */
uint32_t qubathimi_sheet_at(uint32_t scale, int64_t e, int64_t n, uint64_t *value);

/* The edges of a sheet. Refusal: 3. */
uint32_t qubathimi_corners(uint32_t sheet, int64_t *west, int64_t *east, int64_t *south, int64_t *north);

/* ---- Metres, as 64-bit floats: `double` is IEEE 754's binary64 ---- */

/* The frame of a sheet: its west, east, south and north edge and the middle between them, east and north. Each is a whole number of metres,
 * and the float is exactly that number. Refusal: 3. */
uint32_t qubathimi_frame(uint32_t sheet, double *west, double *east, double *south, double *north, double *middle_e, double *middle_n);

/* The sheet of a scale in which the point lies, e east and n north. What counts is the exact value of each float, to the last bit: a
 * hair west of an edge is west of it, and on it is east of it; a hair north of an edge is north of it, and on it is south of it. -0.0 is 0.
 * Refusals: 2; 18 where either value is infinite or no number, whatever the other is; 1, also where a value is beyond 64-bit
 * millimetres. */
uint32_t qubathimi_sheet_at_metres(uint32_t scale, double e, double n, uint64_t *value);

/* The frame of that sheet. Refusals: 2; 18; 1. */
uint32_t qubathimi_frame_at_metres(uint32_t scale, double e, double n, double *west, double *east, double *south, double *north,
                                   double *middle_e, double *middle_n);

/* ---- Relations ---- */

/* The sheet that a sheet is a part of. Sheets of scales 1 to 3 have none. Refusals: 3, 6. */
uint32_t qubathimi_parent(uint32_t sheet, uint64_t *value);

/* Part `number` of a sheet, at a scale that is made from the sheet's own; parts are numbered from 1, row by row from the upper left.
 * Refusals: 3; 2; 6 where the scale is not made from the sheet's or has no such part. */
uint32_t qubathimi_child(uint32_t sheet, uint32_t scale, uint32_t number, uint64_t *value);

/* The sheet so many columns east and rows south of a sheet, on the grid of its scale; negative amounts go west and north. Refusals: 3;
 * 6 for a step off the grid, however large. */
uint32_t qubathimi_step(uint32_t sheet, int64_t east, int64_t south, uint64_t *value);

/* The columns east and rows south whose step leads from sheet a to sheet b. Refusals: 3, for a or for b; 6 where their scales differ. */
uint32_t qubathimi_offset(uint32_t a, uint32_t b, int64_t *east, int64_t *south);

/* The block of three rows of three around a sheet, rows from the north, each from the west, laid into `room`: the sheet itself is the
 * fifth. A place off the grid is QUBATHIMI_NONE, and so are all nine of a number that is no sheet. *value is 9. Refusal: 10. */
uint32_t qubathimi_neighbours(uint32_t sheet, uint32_t *room, size_t length, uint64_t *value);

/* The sheets of a scale that share a point with a window, laid into `room`: each once, rows from the north, each row from the west.
 * *value is their count, at most 4 096. A window's edges may lie on the area's border. Refusals: 2; 7; 8; 9; 10 with the count. */
uint32_t qubathimi_cover(uint32_t scale, int64_t west, int64_t east, int64_t south, int64_t north, uint32_t *room, size_t length,
                         uint64_t *value);

/* Whether `sheets` are the cover of a window at a scale, as a scanning firm should deliver it: each of its sheets once, in any order, and
 * nothing else. *value is the count of the cover. A delivery may have any length, also 0 and above 4 096, and any numbers. Refusals: 2; 7; 8;
 * 9; then of the first bad place 25, also for a number that is no sheet at all, or 26, with the place; then 27 with the first missing sheet,
 * rows from the north, each row from the west. examples/delivery.c checks a text of labels by it. */
uint32_t qubathimi_check_delivery(uint32_t scale, int64_t west, int64_t east, int64_t south, int64_t north, const uint32_t *sheets,
                                  size_t count, uint64_t *value);

/* ---- Labels ---- */

/* The sheet that a label names. Refusals, each with the place of the first offending byte in *value: 4; 19; 20; 21; 5. The order is by
 * kind and not by place: a strange byte is told before an empty field in front of it. An empty field begins at the hyphen or at the label's
 * end that closes it, so the place can be `length`, but never beyond it. */
uint32_t qubathimi_read_label(const uint8_t *label, size_t length, uint64_t *value);

/* How many bytes the label of a sheet has, 8 to 16. Refusal: 3. */
uint32_t qubathimi_label_length(uint32_t sheet, uint64_t *value);

/* The label of a sheet, laid into `room`, with no zero byte behind it. *value is the count of its bytes. Refusals: 3; 10. */
uint32_t qubathimi_write_label(uint32_t sheet, uint8_t *room, size_t length, uint64_t *value);

/* ---- Catalogue lines: a label, or a label, a space and a name; without the line's end ---- */

/* The sheet of a line, and whether and why it is refused: the next two do not say that. Refusals: 4; 19; 20; 21; 5, of the label and with its
 * place, which is the place in the line too; 17; 16, with 0. */
uint32_t qubathimi_read_line(const uint8_t *line, size_t length, uint64_t *value);

/* Where the parts of a line lie: the label from 0 up to *label, the name from *start up to *end. A name that is absent is empty and at
 * the line's end. The result is 0 for every line: of one that qubathimi_read_line refuses all three are 0, and *label is 0 of no
 * other. */
uint32_t qubathimi_line_parts(const uint8_t *line, size_t length, uint64_t *label, uint64_t *start, uint64_t *end);

/* Where the caption of a line lies: from *start up to *end of the line (*value is QUBATHIMI_IN_LINE) or of the fallback
 * (QUBATHIMI_IN_FALLBACK). It is the line's own name where it has one, otherwise the whole fallback, which may be any bytes. The result
 * is 0 for every line: of one that qubathimi_read_line refuses the caption is empty and at the line's start, and it is empty in the line
 * of no other. */
uint32_t qubathimi_caption(const uint8_t *line, size_t line_length, const uint8_t *fallback, size_t fallback_length, uint64_t *value,
                           uint64_t *start, uint64_t *end);

/* Whether two names are the same, whichever kind of computer each was typed on: whether their bytes are equal once a letter with the mark
 * behind it is joined into the single letter, c, s, z, C, S and Z with CC 8C into C4 8D, C5 A1, C5 BE, C4 8C, C5 A0 and C5 BD, and c and
 * C with CC 81 into C4 87 and C4 86. Nothing else is joined, and nothing is written: names stay the bytes that they are. Any bytes may be
 * compared, of any lengths; nothing is refused. examples/same.c compares two catalogues by it. */
bool qubathimi_same_name(const uint8_t *a, size_t a_length, const uint8_t *b, size_t b_length);

/* ---- Official names: the fifteen of the 1:250 000 sheets, in UTF-8. Nine of the 24 sheets have none: "not listed" is an answer ---- */

/* The official name of a 1:250 000 sheet, laid into `room`, with no zero byte behind it. With the result 0, *value is the count of its
 * bytes, and it is 0 exactly where the sheet is not listed, for which no room is needed. Refusals: 3; 22 for a sheet of another scale;
 * 10. */
uint32_t qubathimi_official_name(uint32_t sheet, uint8_t *room, size_t length, uint64_t *value);

/* The sheet that has a name, whichever kind of computer it was typed on: as qubathimi_same_name compares. *value is QUBATHIMI_NONE where no
 * sheet has it. Any bytes may be asked, of any length; the result is always 0. */
uint32_t qubathimi_official_sheet(const uint8_t *name, size_t length, uint64_t *value);

/* What the list says of the name in a catalogue line. *value is QUBATHIMI_AGREES where the line has its sheet's official name, in either
 * spelling; QUBATHIMI_DIFFERS where it has any other name, also that of another sheet, or none; and QUBATHIMI_NOT_LISTED where its sheet has
 * no official name, whatever the line has. Refusals: those of qubathimi_read_line, with their places; then 22 for a sheet of another scale.
 * examples/official.c checks a catalogue by it. */
uint32_t qubathimi_official_check(const uint8_t *line, size_t length, uint64_t *value);

/* ---- Local numbers: those of a cadastral municipality's sheets, beside their labels ----
 *
 * A municipality is lent as the numbers of its 1:2 000 sheets (scale 7), 1 to 400 of them, strictly rising. These sheets have the local
 * numbers 1 to `count`, by rows of the whole grid from the north, each row from the west, which is not the order of the list where the
 * municipality lies in 1:50 000 sheets side by side. A 1:1 000 sheet has two local numbers: n, that of the 1:2 000 sheet that it is a part
 * of, and a, its own number in that sheet, 1 to 4. A 1:500 sheet has three: the two of the 1:1 000 sheet that it is a part of, and b, its
 * own number in that one, 1 to 4. Those that are absent are 0. Each of the two functions leads back to what the other was asked. The list is
 * looked at first: 23 where it has no sheet or more than 400; then its first faulty place, 3 for no sheet, 23 for a sheet of another scale,
 * 15 for one that is not above the one before. examples/local.c numbers a municipality by these functions. */

/* The sheet that has the local numbers n, a and b: a 1:2 000 sheet where a and b are 0, a 1:1 000 sheet where b is 0, and otherwise a 1:500
 * sheet. Refusals: 23, 3 and 15 of the list; 6 where no sheet of the municipality has them, so for n 0 or above `count`, for a or b above
 * 4, and for b without a. */
uint32_t qubathimi_local_to_sheet(const uint32_t *municipality, size_t count, uint32_t n, uint32_t a, uint32_t b, uint64_t *value);

/* The local numbers of a sheet. Refusals: 23, 3 and 15 of the list; 3; 6 for a sheet that is not of the municipality, and for every sheet
 * of the scales 1 to 6. */
uint32_t qubathimi_sheet_to_local(const uint32_t *municipality, size_t count, uint32_t sheet, uint32_t *n, uint32_t *a, uint32_t *b);

/* ---- Shelf lists ---- */

/* How many bytes the list of a set of sheets has. Refusals: 9; then of the first faulty place 3 or 15, 3 before 15. */
uint32_t qubathimi_list_length(const uint32_t *sheets, size_t count, uint64_t *value);

/* The list of a set of strictly rising sheets, laid into `room`; the empty set is one byte, 0. *value is the count of its bytes.
 * Refusals: 9; then of the first faulty place 3 or 15, 3 before 15; 10. */
uint32_t qubathimi_write_list(const uint32_t *sheets, size_t count, uint8_t *room, size_t length, uint64_t *value);

/* The set of a list of sheets, laid into `room` from its first place on. *placed is written in every case: how many sheets were placed,
 * also with 11 to 14, and they stay. *value is that count too where the list is read whole. Refusals: of the count 11 or 12; 12 for a
 * count over 4 096; 10 with the count; of each entry 11, 12 or 13; 14. */
uint32_t qubathimi_read_list(const uint8_t *list, size_t length, uint32_t *room, size_t room_length, uint64_t *placed,
                             uint64_t *value);

/* ---- Holdings: a sheet with a product. Product 0 leaves it unstated, 1 is the first product of the scale, and 2 the second, which only
 * scales 6 and 7 have: at 1:5 000 HOK5 and DOF5, at 1:2 000 KP2000 and DOF2. Their number is three times the sheet number plus the
 * product. ---- */

/* The number of a sheet with a product. Refusals: 3; 24. */
uint32_t qubathimi_holding(uint32_t sheet, uint32_t product, uint64_t *value);

/* The sheet and the product of a holding. Refusals: 3 above 23 859 521; 24. */
uint32_t qubathimi_holding_parts(uint32_t holding, uint32_t *sheet, uint32_t *product);

/* How many bytes the list of a set of holdings has. Refusals: 9; then of the first faulty place 3, 24 or 15, in that order. */
uint32_t qubathimi_holdings_length(const uint32_t *holdings, size_t count, uint64_t *value);

/* The list of a set of strictly rising holdings, laid into `room`; the empty set is two bytes, 80 40. *value is the count of its bytes.
 * qubathimi_read_list refuses such a list with 12. Refusals: 9; then of the first faulty place 3, 24 or 15, in that order; 10. */
uint32_t qubathimi_write_holdings(const uint32_t *holdings, size_t count, uint8_t *room, size_t length, uint64_t *value);

/* The set of a list of either kind, laid into `room` as holdings: a list of sheets gives each with product 0. *placed and *value are as
 * in qubathimi_read_list. Refusals: of the first number 11 or 12; 12 where it is neither 0 to 4 096, a list of sheets, nor 8 192 to
 * 12 288, one of holdings; 10 with the count, without the 8 192; of each entry 11, 12, 13 above the last sheet in the one and above
 * 23 859 521 in the other, or 24; 14. */
uint32_t qubathimi_read_holdings(const uint8_t *list, size_t length, uint32_t *room, size_t room_length, uint64_t *placed,
                                 uint64_t *value);

#ifdef __cplusplus
}
#endif

#endif
