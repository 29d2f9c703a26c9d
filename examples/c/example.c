/* The desk board from C: a fill by the blitter, then a plan compiled, installed and shown, and its first line drawn.
 *
 * From any folder, examples/c/run of this repository builds the archive for this machine (tools/archive: minutes the first time), then
 * this program, and runs it. It prints
 *
 *   fill: 5 ticks, 25 accesses, byte 5A
 *   line: 22 bytes, mode 2, address 2000, step 320, record 200
 *   drawn: 320 pixels: 346 346 346 346 and 65535
 */
#include <stdio.h>
#include "deskboard.h"

static uint32_t board[DESKBOARD_BOARD_WORDS], frame[DESKBOARD_FRAME_WORDS], line[DESKBOARD_SETTINGS_WORDS];
static uint8_t mem[DESKBOARD_MEMORY_16K];
static uint16_t pixels[DESKBOARD_LINE_PIXELS];

/* Writes the three bytes of an address register, from its first offset on. */
static uint32_t write_address(uint32_t offset, uint32_t address)
{
    uint32_t refused = 0;
    for (uint32_t i = 0; i < 3 && refused == 0; i++)
        refused = deskboard_write(DESKBOARD_LENT(board), offset + i, (uint8_t)(address >> 8 * i));
    return refused;
}

/* A fill: with an AND mask of 0 the source is not read, and each byte is the XOR mask. All other bytes of the block are 0. */
static uint32_t fill(void)
{
    static const uint8_t block[DESKBOARD_BLOCK_BYTES] = {
        [DESKBOARD_BLOCK_DEST_ADR1] = 0x20, /* destination 2000h */
        [DESKBOARD_BLOCK_DEST_STEP_X] = 1,
        [DESKBOARD_BLOCK_WIDTH0] = 3, /* 4 columns, 1 row */
        [DESKBOARD_BLOCK_XOR_MASK] = 0x5A,
    };
    uint32_t report[DESKBOARD_RUN_WORDS];
    uint32_t refused = deskboard_install(DESKBOARD_LENT(mem), DESKBOARD_LENT(block), 0x100);
    if (refused == 0)
        refused = write_address(DESKBOARD_WRITE_BL_ADR0, 0x100);
    if (refused == 0)
        refused = deskboard_write(DESKBOARD_LENT(board), DESKBOARD_WRITE_BLITTER_START, 1);
    if (refused == 0)
        refused = deskboard_run(DESKBOARD_LENT(board), DESKBOARD_LENT(mem), 1000, DESKBOARD_LENT(report));
    if (refused == 0)
        printf("fill: %u ticks, %u accesses, byte %02X\n", (unsigned)report[DESKBOARD_REPORT_TICKS],
               (unsigned)report[DESKBOARD_REPORT_ACCESSES], mem[0x2003]);
    return refused;
}

/* One full band of one SR line, where the fill is, and its first line. */
static uint32_t show(void)
{
    static const uint8_t plan[] = {
        23, 0, 1, 0, 1, 2, 0x00, 0x20, 0x00, 0x40, 0x01, 0, 0, 0, 0, 0, 0, 0, 0, 0, 0, 0, 8, 1, 1, 1, 255,
    };
    uint8_t list[DESKBOARD_LIST_BYTES];
    uint32_t report[DESKBOARD_COMPILE_WORDS];
    uint32_t refused = deskboard_compile(DESKBOARD_LENT(plan), DESKBOARD_LENT(list), DESKBOARD_LENT(report));
    if (refused == 0)
        refused = deskboard_install(DESKBOARD_LENT(mem), list, report[DESKBOARD_REPORT_BYTES], 0x200);
    if (refused == 0)
        refused = write_address(DESKBOARD_WRITE_XDL_ADR0, 0x200);
    if (refused == 0)
        refused = deskboard_write(DESKBOARD_LENT(board), DESKBOARD_WRITE_VIDEO_CONTROL, 1); /* the list is switched on */
    if (refused == 0)
        refused = deskboard_start(DESKBOARD_LENT(board), DESKBOARD_LENT(frame));
    if (refused == 0)
        refused = deskboard_next_line(DESKBOARD_LENT(frame), DESKBOARD_LENT(mem), DESKBOARD_LENT(line));
    if (refused == 0)
        printf("line: %u bytes, mode %u, address %X, step %u, record %X\n", (unsigned)report[DESKBOARD_REPORT_BYTES],
               (unsigned)line[DESKBOARD_LINE_MODE], (unsigned)line[DESKBOARD_LINE_ADDRESS], (unsigned)line[DESKBOARD_LINE_STEP],
               (unsigned)line[DESKBOARD_LINE_RECORD]);
    return refused;
}

/* The line as pixels: palette 1, colour 5A, four times, and then colour 0, which is transparent. */
static uint32_t draw(void)
{
    uint32_t report[DESKBOARD_DRAW_WORDS];
    uint32_t refused = deskboard_draw(DESKBOARD_LENT(board), DESKBOARD_LENT(line), DESKBOARD_LENT(mem), DESKBOARD_LENT(pixels), DESKBOARD_LENT(report));
    if (refused == 0)
        printf("drawn: %u pixels: %u %u %u %u and %u\n", (unsigned)report[DESKBOARD_REPORT_PIXELS], pixels[0], pixels[1], pixels[2], pixels[3], pixels[4]);
    return refused;
}

int main(void)
{
    uint32_t refused = deskboard_new(DESKBOARD_LENT(board));
    if (refused == 0)
        refused = fill();
    if (refused == 0)
        refused = show();
    if (refused == 0)
        refused = draw();
    if (refused != 0)
        printf("refused %u item %u\n", (unsigned)DESKBOARD_NUMBER(refused), (unsigned)DESKBOARD_ITEM(refused));
    return refused != 0;
}
