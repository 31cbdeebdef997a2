/*
 * Reads a strip of one alignment pane, moves the pane and writes it back over itself, with as many numbers of each list as the read filled. From the
 * top of the repository, once `rt lib` in crates/exports has made the library:
 *   cc -Wall -Werror bindings/c/example.c -L crates/exports/out -lexports -o /tmp/example && /tmp/example
 */
#include "bidlomeqa.h"

#include <stdio.h>
#include <string.h>

static uint32_t quads[BIDLOMEQA_QUADS_NEED];
static uint16_t units[BIDLOMEQA_UNITS_NEED];
static uint32_t lines[BIDLOMEQA_LINES_NEED];
static uint16_t frames[BIDLOMEQA_FRAMES_NEED];
static uint64_t record[BIDLOMEQA_RECORD_WORDS];
static uint64_t answer[BIDLOMEQA_ANSWER_WORDS];
static uint64_t filled[BIDLOMEQA_FILLED_WORDS];
static const uint8_t no_label[1];

static uint64_t read_section(const uint8_t *strip, size_t length, size_t place)
{
    return bidlomeqa_read_section(
        BIDLOMEQA_LITTLE, strip, length, place, quads, BIDLOMEQA_QUADS_NEED, units, BIDLOMEQA_UNITS_NEED, lines, BIDLOMEQA_LINES_NEED,
        frames, BIDLOMEQA_FRAMES_NEED, record, BIDLOMEQA_RECORD_WORDS, answer, BIDLOMEQA_ANSWER_WORDS);
}

int main(void)
{
    uint8_t strip[96] = "ali1";
    strip[4] = 96;
    memcpy(strip + 12, "Menu", 4);

    uint64_t code = read_section(strip, sizeof strip, 0);
    printf("read: %d, body ends at %d, next section at %d, reach %d\n", (int)code, (int)answer[0], (int)answer[1], (int)answer[2]);
    if (code != BIDLOMEQA_PANE || record[BIDLOMEQA_KIND] != 4)
        return 1;

    code = bidlomeqa_filled(record, BIDLOMEQA_RECORD_WORDS, filled, BIDLOMEQA_FILLED_WORDS);
    if (code != BIDLOMEQA_FILLED)
        return 1;

    record[BIDLOMEQA_TRANSLATION] = 0x3F800000; /* x = 1.0 */
    code = bidlomeqa_write_section(
        BIDLOMEQA_LITTLE, record, BIDLOMEQA_RECORD_WORDS, quads, filled[0], units, filled[1], lines, filled[2], frames, filled[3],
        no_label, 0, strip, sizeof strip, 0, answer, BIDLOMEQA_ANSWER_WORDS);
    printf("written: %d, ends at %d\n", (int)code, (int)answer[0]);
    if (code != BIDLOMEQA_WRITTEN || strip[8 + 36 + 3] != 0x3F)
        return 1;

    code = read_section(strip, sizeof strip, 96);
    printf("at the end: %d\n", (int)code);
    if (code != BIDLOMEQA_END)
        return 1;

    code = read_section(strip, 40, 0);
    printf("cut short: %d, number %d, figures %d %d\n", (int)code, (int)answer[0], (int)answer[1], (int)answer[2]);
    return code == BIDLOMEQA_REFUSED && answer[0] == 8 ? 0 : 1;
}
