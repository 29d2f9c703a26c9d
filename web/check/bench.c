/* The native half of web/bench: for each work the least and the first time, in ns a tick or a line, one row each. */
#define _POSIX_C_SOURCE 199309L
#include "deskboard.h"
#include <stdio.h>
#include <string.h>
#include <time.h>

struct work {
    const char *name;
    size_t bytes_len;
    uint8_t bytes[256];
};
#include "works.h"

static uint8_t memory[DESKBOARD_MEMORY_512K];
static uint32_t board[DESKBOARD_BOARD_WORDS], frame[DESKBOARD_FRAME_WORDS], settings[DESKBOARD_SETTINGS_WORDS], report[DESKBOARD_RUN_WORDS];
static uint16_t line[DESKBOARD_LINE_PIXELS];

static double now(void)
{
    struct timespec t;
    clock_gettime(CLOCK_MONOTONIC, &t);
    return (double)t.tv_sec * 1e9 + (double)t.tv_nsec;
}

static void point(uint32_t offset)
{
    for (int i = 0; i < 3; i++)
        deskboard_write(DESKBOARD_LENT(board), offset + (uint32_t)i, (uint8_t)(LIST_AT >> (8 * i)));
}

static void begin(const struct work *w)
{
    for (size_t i = 0; i < sizeof memory; i++)
        memory[i] = (uint8_t)(i * 37 + (i >> 9));
    deskboard_new(DESKBOARD_LENT(board));
    deskboard_install(DESKBOARD_LENT(memory), w->bytes, w->bytes_len, LIST_AT);
    point(DESKBOARD_WRITE_BL_ADR0);
    point(DESKBOARD_WRITE_XDL_ADR0);
    deskboard_write(DESKBOARD_LENT(board), DESKBOARD_WRITE_VIDEO_CONTROL, DESKBOARD_XDL_ENABLED);
}

/* Ticks, or lines. */
static double run_list(void)
{
    double ticks = 0;
    for (int k = 0; k < AGAIN; k++) {
        deskboard_write(DESKBOARD_LENT(board), DESKBOARD_WRITE_BLITTER_START, 1);
        deskboard_run(DESKBOARD_LENT(board), DESKBOARD_LENT(memory), DESKBOARD_BUDGET, DESKBOARD_LENT(report));
        ticks += report[DESKBOARD_REPORT_TICKS];
    }
    return ticks;
}

static double run_frame(void)
{
    for (int again = 0; again < AGAIN; again++) {
        deskboard_start(DESKBOARD_LENT(board), DESKBOARD_LENT(frame));
        for (unsigned k = 0; k < DESKBOARD_LINES; k++) {
            deskboard_next_line(DESKBOARD_LENT(frame), DESKBOARD_LENT(memory), DESKBOARD_LENT(settings));
            deskboard_draw(DESKBOARD_LENT(board), DESKBOARD_LENT(settings), DESKBOARD_LENT(memory), DESKBOARD_LENT(line), DESKBOARD_LENT(report));
        }
    }
    return AGAIN * DESKBOARD_LINES;
}

static void measure(const struct work *w, double run(void))
{
    double least = 0, first = 0;
    begin(w);
    for (int k = 0; k < SAMPLES; k++) {
        double from = now(), done = run(), each = (now() - from) / done;
        if (k == 0) first = each;
        if (k == 0 || each < least) least = each;
    }
    printf("%s\t%.3f\t%.3f\n", w->name, least, first);
}

int main(void)
{
    for (size_t i = 0; i < sizeof lists / sizeof *lists; i++) measure(&lists[i], run_list);
    for (size_t i = 0; i < sizeof frames / sizeof *frames; i++) measure(&frames[i], run_frame);
    return 0;
}
