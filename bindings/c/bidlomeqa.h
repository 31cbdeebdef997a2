/*
 * The static library libexports.a, which `rt lib` in crates/exports makes: reading and writing BFLYT panes.
 *
 * A slice crosses as a pointer and a count of elements. The pointer is never NULL and is aligned for its element, also where the count is 0. Slices
 * that are written (without const) overlap no other. A call asks for nothing more: any numbers are answered, and nothing outside the slices is
 * touched. Each call returns one of the numbers END to FILLED below and, but for SHORT_ANSWER, puts ANSWER_WORDS words into `answer` (bidlomeqa_filled puts
 * its words into `filled`); the comment of the number says what they are. A record is RECORD_WORDS words. A refused call changes nothing but `answer` (or `filled`).
 *
 * A read lends four lists: quads (8 floats a quad), units (UTF-16), lines (offset and width a line, 2 floats) and frames (material and flip a frame),
 * of at least QUADS_NEED, UNITS_NEED, LINES_NEED and FRAMES_NEED numbers. Floats cross as their 32 bits. A write takes its counts from the lengths
 * of the lists, and looks only at those that its kind has. So the lists of a read are not handed to a write at their full length: bidlomeqa_filled tells
 * how many numbers of each the read filled.
 */
#ifndef BIDLOMEQA_H
#define BIDLOMEQA_H

#include <stddef.h>
#include <stdint.h>

#ifdef __cplusplus
extern "C" {
#endif

/* ---- made from layout.rt by tools/c_header.py */
/* The flat layout of a record, its answers, and nothing else: this file is the one place that defines them. The Rust crate includes it as it stands, */
/* and the C header is made from it. A record is RECORD_WORDS words of 64 bits, one a field; what a word stays below is said beside it. Words that a write */
/* does not look at may be any number. */

/* ---- the base, in every record */

/* 0 pan1, 1 pic1, 2 txt1, 3 wnd1, 4 ali1 */
#define BIDLOMEQA_KIND 0

/* eight words, 0 or 1, in the order of PaneFlags */
#define BIDLOMEQA_PANE_FLAGS 1

/* x and y, then the parent's x and y: below 3 each */
#define BIDLOMEQA_POSITION 9

/* below 256 */
#define BIDLOMEQA_ALPHA 13

/* three words, 0 or 1 */
#define BIDLOMEQA_FLAG_EX 14

/* below 256; a write refuses those above 31 */
#define BIDLOMEQA_RESERVE0 17

/* how many of the next words are the name; a write refuses more than 24 */
#define BIDLOMEQA_NAME_COUNT 18

/* 24 bytes, below 256 each, zeros after the count */
#define BIDLOMEQA_NAME 19

/* how many of the next words are the user name; a write refuses more than 8 */
#define BIDLOMEQA_USER_COUNT 43

/* 8 bytes, below 256 each, zeros after the count */
#define BIDLOMEQA_USER 44

/* x, y, z: the bits of a float in this word and every word of a float, below 2^32 */
#define BIDLOMEQA_TRANSLATION 52

/* x, y, z */
#define BIDLOMEQA_ROTATION 55

/* x, y */
#define BIDLOMEQA_SCALE 58

/* width, height */
#define BIDLOMEQA_SIZE 60

/* Where the words of the kind begin. Words after those of the kind keep their contents in a read, and are not looked at by a write. */
#define BIDLOMEQA_OWN 62

/* ---- pic1 */

/* four corners of r, g, b, a, below 256 each: top left, top right, bottom left, bottom right */
#define BIDLOMEQA_PICTURE_COLORS 62

/* below 2^16 */
#define BIDLOMEQA_PICTURE_MATERIAL 78

/* the count of a read, below 256; a write does not look at it, and takes its count from the lent list */
#define BIDLOMEQA_PICTURE_QUADS 79

/* 0 or 1 */
#define BIDLOMEQA_SHAPE_PRESENT 80

/* below 2^32; 0 where it is absent */
#define BIDLOMEQA_SHAPE_INDEX 81

/* ---- txt1 */

/* below 2^16 */
#define BIDLOMEQA_TEXT_BUFFER_SIZE 62

/* below 2^16 */
#define BIDLOMEQA_TEXT_LENGTH 63

/* below 2^16 */
#define BIDLOMEQA_TEXT_MATERIAL 64

/* below 2^16 */
#define BIDLOMEQA_FONT 65

/* horizontal, vertical: below 3 each */
#define BIDLOMEQA_ORIGIN 66

/* below 4 */
#define BIDLOMEQA_TEXT_ALIGNMENT 68

/* fourteen words, 0 or 1, in the order of TextPaneFlags */
#define BIDLOMEQA_TEXT_FLAGS 69

/* 0 size, 1 scale */
#define BIDLOMEQA_MEASURE_KIND 83

/* two floats */
#define BIDLOMEQA_MEASURE 84

/* a float */
#define BIDLOMEQA_ITALIC_TILT 86

/* r, g, b, a */
#define BIDLOMEQA_FONT_TOP_COLOR 87

/* r, g, b, a */
#define BIDLOMEQA_FONT_BOTTOM_COLOR 91

/* a float */
#define BIDLOMEQA_CHARACTER_SPACE 95

/* a float */
#define BIDLOMEQA_LINE_SPACE 96

/* x, y */
#define BIDLOMEQA_SHADOW_TRANSLATION 97

/* x, y */
#define BIDLOMEQA_SHADOW_SIZE 99

/* r, g, b, a */
#define BIDLOMEQA_SHADOW_TOP_COLOR 101

/* r, g, b, a */
#define BIDLOMEQA_SHADOW_BOTTOM_COLOR 105

/* a float */
#define BIDLOMEQA_SHADOW_ITALIC_TILT 109

/* 0 or 1 */
#define BIDLOMEQA_TEXT_PRESENT 110

/* 0 or 1 */
#define BIDLOMEQA_LABEL_PRESENT 111

/* where the label stands in the strip that was read; 0 where it is absent; a write does not look at it */
#define BIDLOMEQA_LABEL_PLACE 112

/* how many bytes it has without its NUL; 0 where it is absent; a write does not look at it */
#define BIDLOMEQA_LABEL_LENGTH 113

/* 0 or 1 */
#define BIDLOMEQA_LINES_PRESENT 114

/* the count of a read, below 256, and 0 where the table is absent; a write does not look at it, and takes its count from the lent list */
#define BIDLOMEQA_LINES_COUNT 115

/* ---- wnd1 */

/* left, right, top, bottom: the 16 bits of an i16, below 2^16 */
#define BIDLOMEQA_INFLATION 62

/* left, right, top, bottom: likewise */
#define BIDLOMEQA_FRAME_SIZE 66

/* left corner material, vertex colour for all: 0 or 1 */
#define BIDLOMEQA_WINDOW_FLAGS 70

/* below 3 */
#define BIDLOMEQA_WINDOW_KIND 72

/* 0 or 1 */
#define BIDLOMEQA_NOT_DRAW_CONTENT 73

/* the count of a read, below 256; a write does not look at it, and takes its count from the lent list */
#define BIDLOMEQA_FRAMES_COUNT 74

/* four corners of r, g, b, a */
#define BIDLOMEQA_CONTENT_COLORS 75

/* below 2^16 */
#define BIDLOMEQA_CONTENT_MATERIAL 91

/* the count of a read, below 256; a write does not look at it, and takes its count from the lent list */
#define BIDLOMEQA_CONTENT_QUADS 92

/* ---- ali1 */

/* below 2^32 */
#define BIDLOMEQA_DIRECTION 62

/* a float */
#define BIDLOMEQA_DEFAULT_MARGIN 63

/* 0 or 1 */
#define BIDLOMEQA_IS_ALIGN_LAST_PANE 64

/* 0 or 1 */
#define BIDLOMEQA_IS_VERTICAL_ALIGNMENT 65

/* How many words a record has. */
#define BIDLOMEQA_RECORD_WORDS 116

/* ---- the byte order of a call: how a number of two or four bytes stands in the bytes */

/* The lowest byte first. */
#define BIDLOMEQA_LITTLE 0u

/* The highest byte first. */
#define BIDLOMEQA_BIG 1u

/* ---- what a call returns, and what it puts into the answer's words */

/* No section is left. The answer's words: 0, 0, 0. */
#define BIDLOMEQA_END 0u

/* A section of another kind. The next section's place, 0, 0. */
#define BIDLOMEQA_PASSED 1u

/* A pane, which the record's words hold. The place after the body, the next section's place (0 of a body call), the reach: */
/* the first place past all bytes that the read of the body looked at. */
#define BIDLOMEQA_PANE 2u

/* Written. The end place, 0, 0. */
#define BIDLOMEQA_WRITTEN 3u

/* Refused. The number, document 01's or one that document 02 adds, figure a, figure b. */
#define BIDLOMEQA_REFUSED 4u

/* The record's words are fewer than RECORD_WORDS: RECORD_WORDS, 0, 0. Nothing was read or written. */
#define BIDLOMEQA_SHORT_RECORD 5u

/* A word of the record is not below its bound: the index of the first such word, 0, 0. Nothing was read or written. */
#define BIDLOMEQA_BAD_WORD 6u

/* The answer's words are fewer than ANSWER_WORDS, or those for the counts fewer than FILLED_WORDS. Nothing was read or written. */
#define BIDLOMEQA_SHORT_ANSWER 7u

/* A label, or a caption from the strip: 0, its place, its length. A caption from the lent one: 1, 0, its length. */
#define BIDLOMEQA_PART 8u

/* The byte order is neither LITTLE nor BIG: its number, 0, 0. Nothing was read or written. */
#define BIDLOMEQA_BAD_ORDER 9u

/* How many numbers of the quads, the units, the lines and the frames a record counts: four words. */
#define BIDLOMEQA_FILLED 10u

/* How many words an answer has. */
#define BIDLOMEQA_ANSWER_WORDS 3

/* How many words the counts of the four lists have. */
#define BIDLOMEQA_FILLED_WORDS 4
/* ---- end of what is made */

/* how long the lists of a section read are at least */
#define BIDLOMEQA_QUADS_NEED 2040
#define BIDLOMEQA_UNITS_NEED 32767
#define BIDLOMEQA_LINES_NEED 510
#define BIDLOMEQA_FRAMES_NEED 510

/*
 * `order` is LITTLE or BIG: how numbers of two or four bytes stand in `data` and `out`. Letters, names, labels, colours and single bytes have no order.
 * The order is never guessed from the bytes: a .bflyt file tells it by the mark in its header, which is no part of a strip (bytes FF FE little, FE FF big).
 * The words of a record and the four lists are plain numbers of the machine, in either order.
 *
 * SHORT_ANSWER is looked for first, then BAD_ORDER, then SHORT_RECORD, then BAD_WORD, and then what docs/REFUSALS.md lists.
 */

/*
 * The reach, the third word of the answer PANE, is the first place past all bytes that the read of the body looked at. It is never before the place
 * after the body, and never past `data_length`. Of a section read it is never past the next section's place: a pane that looks further is refused by 19,
 * with its reach and the section's end as the figures, so the bytes of its section decide a pane. A body read knows of no section and is never refused
 * by 19. The reach is for a caller that keeps only part of a page in memory:
 * - All bytes that the read looked at lie from the section's place (of a body call: from `place` - 8) up to the reach. Other data that is no shorter and
 *   has the same bytes there gives the same answer, record, lists and label, unless it is too long for a call (refusal 1).
 * - Data that is cut below the reach is refused. The one exception is a section read of data that is cut right at `place`, which answers END.
 * - Data that is cut right at the reach may still be refused: the section's size must not pass the end of `data`, and nor must a place that is sought with
 *   nothing to read there, that of a text with no units or of a table with no frames, which may lie past the section too. So hand in as many bytes as the
 *   page has. Those that do not lie in that part may have any value, but must be memory that can be read.
 */

/* Reads the section at `place`: END, PASSED, PANE, REFUSED, SHORT_RECORD, BAD_ORDER or SHORT_ANSWER. */
uint64_t bidlomeqa_read_section(
    uint64_t order, const uint8_t *data, size_t data_length, size_t place,
    uint32_t *quads, size_t quads_length, uint16_t *units, size_t units_length,
    uint32_t *lines, size_t lines_length, uint16_t *frames, size_t frames_length,
    uint64_t *record, size_t record_length, uint64_t *answer, size_t answer_length);

/* Reads a body of the kind at `place`: PANE, REFUSED, SHORT_RECORD, BAD_WORD (no such kind), BAD_ORDER or SHORT_ANSWER. */
uint64_t bidlomeqa_read_body(
    uint64_t order, uint64_t kind, const uint8_t *data, size_t data_length, size_t place,
    uint32_t *quads, size_t quads_length, uint16_t *units, size_t units_length,
    uint32_t *lines, size_t lines_length, uint16_t *frames, size_t frames_length,
    uint64_t *record, size_t record_length, uint64_t *answer, size_t answer_length);

/* Writes the record as a section at `place` of `out`: WRITTEN, REFUSED, SHORT_RECORD, BAD_WORD, BAD_ORDER or SHORT_ANSWER. */
uint64_t bidlomeqa_write_section(
    uint64_t order, const uint64_t *record, size_t record_length,
    const uint32_t *quads, size_t quads_length, const uint16_t *units, size_t units_length,
    const uint32_t *lines, size_t lines_length, const uint16_t *frames, size_t frames_length,
    const uint8_t *label, size_t label_length, uint8_t *out, size_t out_length, size_t place,
    uint64_t *answer, size_t answer_length);

/* Writes the record's body at `place` of `out`, likewise. */
uint64_t bidlomeqa_write_body(
    uint64_t order, const uint64_t *record, size_t record_length,
    const uint32_t *quads, size_t quads_length, const uint16_t *units, size_t units_length,
    const uint32_t *lines, size_t lines_length, const uint16_t *frames, size_t frames_length,
    const uint8_t *label, size_t label_length, uint8_t *out, size_t out_length, size_t place,
    uint64_t *answer, size_t answer_length);

/* Where the label of a record that was read stands in the strip: PART, SHORT_RECORD, BAD_WORD or SHORT_ANSWER. */
uint64_t bidlomeqa_label(
    const uint8_t *data, size_t data_length, const uint64_t *record, size_t record_length,
    uint64_t *answer, size_t answer_length);

/* The label if there is one, otherwise the lent caption: PART, SHORT_RECORD, BAD_WORD or SHORT_ANSWER. */
uint64_t bidlomeqa_caption(
    const uint8_t *strip, size_t strip_length, const uint64_t *record, size_t record_length,
    const uint8_t *lent, size_t lent_length, uint64_t *answer, size_t answer_length);

/*
 * How many numbers of each list the record counts: FILLED, SHORT_RECORD, BAD_WORD (of a word that counts: the kind, a count, TEXT_LENGTH, TEXT_PRESENT,
 * LINES_PRESENT) or SHORT_ANSWER (`filled` has fewer than FILLED_WORDS words). With FILLED the words of `filled` are the numbers of quads, units, lines
 * and frames: the read of the record filled the first so many of each list. Hand lists of these lengths to a write. They are never above QUADS_NEED,
 * UNITS_NEED, LINES_NEED and FRAMES_NEED. With SHORT_RECORD and BAD_WORD the first ANSWER_WORDS words of `filled` are those of the answer.
 */
uint64_t bidlomeqa_filled(const uint64_t *record, size_t record_length, uint64_t *filled, size_t filled_length);

#ifdef __cplusplus
}
#endif

#endif
