/*
 * Document 02's waveform (L11), through skid.h: the example to the byte and back, and each refusal. Exit 1 if a figure
 * is not document 02's.
 */
#include <inttypes.h>
#include <stdio.h>
#include <string.h>

#include "skid.h"

static int failures;
static uint64_t reply[SKID_WAVE_WORDS];

/* The three words of a reply. */
static void replied(const char *what, uint64_t kind, uint64_t a, uint64_t b) {
    if (reply[SKID_WAVE_KIND] != kind || reply[1] != a || reply[2] != b) {
        printf("%s: %" PRIu64 " %" PRIu64 " %" PRIu64 ", BUT NOT %" PRIu64 " %" PRIu64 " %" PRIu64 "\n", what, reply[0],
               reply[1], reply[2], kind, a, b);
        failures++;
    }
    memset(reply, 0xa5, sizeof reply);
}

static void holds(const char *what, int truth) {
    if (!truth) {
        printf("%s: NOT SO\n", what);
        failures++;
    }
}

static const char example[] = "$timescale 1 ns $end\n$scope module t $end\n"
                              "$var wire 1 ! c0 $end\n$var wire 1 \" c1 $end\n"
                              "$upscope $end\n$enddefinitions $end\n#0\n0!\n0\"\n#1\n1!\n";
#define SIZE (sizeof example - 1)

static const uint32_t history[3] = {SKID_STEP_TAKE, 0, 7};
static uint8_t text[SIZE + 2];
static uint32_t long_script[3 * (SKID_MAX_STEPS + 1)];

int main(void) {
    uint32_t script[5] = {8, 8, 8, 8, 8};

    memset(text, 7, sizeof text);
    skid_write_dump(0, history, 2, text, sizeof text, reply);
    replied("a script of two words, before no cells", SKID_WAVE_REFUSED, SKID_BAD_SCRIPT, 0);
    skid_write_dump(0, long_script, 3 * (SKID_MAX_STEPS + 1), text, sizeof text, reply);
    replied("32,769 steps", SKID_WAVE_REFUSED, SKID_BAD_SCRIPT, 0);
    skid_write_dump(0, NULL, 0, NULL, 0, reply);
    replied("no cells", SKID_WAVE_TOO_WIDE, 0, 0);
    skid_write_dump(SKID_MAX_WAVE_CELLS + 1, history, 3, text, sizeof text, reply);
    replied("95 cells", SKID_WAVE_TOO_WIDE, 0, 0);
    skid_write_dump(2, history, 3, text, SIZE - 1, reply);
    replied("one byte too few", SKID_WAVE_NO_ROOM, 0, 0);
    holds("nothing written", text[0] == 7 && text[SIZE - 2] == 7);

    skid_write_dump(2, history, 3, text, sizeof text, reply);
    replied("the example", SKID_WAVE_DONE, SIZE, 0);
    holds("the example, to the byte", memcmp(text, example, SIZE) == 0);
    holds("the bytes behind it left alone", text[SIZE] == 7 && text[SIZE + 1] == 7);

    skid_read_dump(text, SIZE - 1, NULL, 0, reply);
    replied("the last line without its line feed, before no room", SKID_WAVE_BAD_LINE, 11, 0);
    skid_read_dump(NULL, 0, script, 5, reply);
    replied("no text", SKID_WAVE_BAD_LINE, 1, 0);
    skid_read_dump(text, SIZE, script, 2, reply);
    replied("two words", SKID_WAVE_NO_ROOM, 0, 0);
    holds("no word written", script[0] == 8 && script[1] == 8);
    skid_read_dump(text, SIZE, script, 5, reply);
    replied("the example, read back", SKID_WAVE_DONE, 2, 1);
    holds("its words", script[0] == SKID_STEP_TAKE && script[1] == 0 && script[2] == 0);
    holds("the words behind them left alone", script[3] == 8 && script[4] == 8);

    if (failures != 0) {
        printf("waveform in C: %d failed\n", failures);
        return 1;
    }
    printf("waveform in C: passed\n");
    return 0;
}
