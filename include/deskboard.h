/* The desk board for C and Rust callers: a model of the VBXE card, FX core 1.24.
 *
 * Every call returns 0 where it was done, else the number of its refusal plus 256 times the item. The numbers are those
 * of the refusal sheet (docs/HELP.md), enum deskboard_refusal. Only deskboard_compile has an item other than 0. The number
 * is `answer & 255`, the item `answer >> 8`. A refused call changes nothing that was lent to it: no byte of memory or output,
 * no entry of a line, no word of a state, no word of a report. Each call below lists its refusals in the order in which they are tested.
 *
 * States are lent as words, one 32-bit word a field, in the order of the enums below. A longer buffer will do: words past
 * the last stay as they are. A state's buffer that is shorter than the state is refusal 15, also where it is only written to. A
 * word that is out of its field's type (a byte above 255, a switch that is neither 0 nor 1, a 16-bit field above 65,535)
 * makes the state unsound: refusal 15 as well. A report that is too short is refusal 13, tested last; so are settings that a call
 * writes to.
 * "At least" below says the shortest buffers with which a call is not refused for their length.
 *
 * Later change requests may add words to a board, a frame or a line's settings, and refusals to the sheet. A word may then
 * have another place. So name words and sizes by the enums and macros below, never by a number of your own, and compile
 * again with the header that stands beside the archive.
 *
 * The caller answers for what is lent: a buffer has as many words or bytes as its length says, words and pixels are aligned, and buffers
 * that are lent to one call must not overlap. A length counts words of a buffer of words, entries of a line, and bytes of a buffer of bytes. Null
 * with length 0 is an empty buffer; nothing is read or written through it. A call keeps no pointer and has no state of its
 * own. So calls can run in several threads at once, each on its own buffers; what a call only reads (const) may be shared.
 *
 * Link with the archive that `tools/archive` writes: target/archive/libcapi.a. It is for x86-64 Linux. It asks for one symbol, memset,
 * which a C library has; a program without one must bring its own. examples/c has a program.
 */
#ifndef DESKBOARD_H
#define DESKBOARD_H

#include <stddef.h>
#include <stdint.h>

#ifdef __cplusplus
extern "C" {
#endif

/* The number and the item of an answer. */
#define DESKBOARD_NUMBER(answer) ((answer) & 255u)
#define DESKBOARD_ITEM(answer) ((answer) >> 8)

/* An array and its length, as the calls take them: deskboard_new(DESKBOARD_LENT(board)). It is for arrays, not for pointers. */
#define DESKBOARD_LENT(array) (array), sizeof(array) / sizeof((array)[0])

/* The refusal sheet. Numbers 12 and 16 are unused. */
enum deskboard_refusal {
    DESKBOARD_DONE = 0,
    DESKBOARD_REFUSED_BOARD = 1,      /* memory has none of the six lengths */
    DESKBOARD_REFUSED_BUDGET = 2,     /* more than DESKBOARD_BUDGET ticks asked for */
    DESKBOARD_REFUSED_REGISTER = 3,   /* an offset outside 0x40 to 0x5F */
    DESKBOARD_REFUSED_FRAME_OVER = 4, /* a line asked for after the 240th */
    DESKBOARD_REFUSED_PLAN_CUT = 5,   /* an item's header or body is cut */
    DESKBOARD_REFUSED_NO_BAND = 6,    /* a plan of no bytes */
    DESKBOARD_REFUSED_KIND = 7,       /* an item's kind is neither 1 nor 2 */
    DESKBOARD_REFUSED_LENGTH = 8,     /* an item's length is not its kind's */
    DESKBOARD_REFUSED_FIELD = 9,      /* a field of an item is out of its range */
    DESKBOARD_REFUSED_FIRST = 10,     /* the first item is a running-on one */
    DESKBOARD_REFUSED_LINES = 11,     /* more than 240 lines */
    DESKBOARD_REFUSED_ROOM = 13,      /* an output or a report too short, or settings that are written to; or too many bytes to install */
    DESKBOARD_REFUSED_ADDRESS = 14,   /* an address above 524,287 */
    DESKBOARD_REFUSED_STATE = 15,     /* unsound: a board, a frame or settings that are read; or a buffer too short for it */
    DESKBOARD_REFUSED_SHORT = 17      /* a lent line with fewer entries than the drawn line has pixels */
};

/* The six lengths that video memory may have, in bytes. */
enum deskboard_memory {
    DESKBOARD_MEMORY_16K = 16384,
    DESKBOARD_MEMORY_32K = 32768,
    DESKBOARD_MEMORY_64K = 65536,
    DESKBOARD_MEMORY_128K = 131072,
    DESKBOARD_MEMORY_256K = 262144,
    DESKBOARD_MEMORY_512K = 524288
};

/* The most ticks of a run, the lines of a frame, and the bytes of the longest list: room for every plan. */
#define DESKBOARD_BUDGET 1000000u
#define DESKBOARD_LINES 240u
#define DESKBOARD_LIST_BYTES 5280u

/* A board is 35 words:
 *   0 VIDEO_CONTROL   1 XDL_ADR   2 BL_ADR   3..6 P0..P3
 *   7 IRQE (0, 1)     8 IRQF (0, 1)
 *   9 list address   10 flags (0 idle, 1 BCB_LOAD, 2 BUSY)   11 collision code
 *  12..32 the 21 bytes of the block, as the manual orders them
 *  33 row            34 column
 */
#define DESKBOARD_BOARD_WORDS 35u
#define DESKBOARD_BOARD_BLOCK 12u /* the first of 21: board[DESKBOARD_BOARD_BLOCK + DESKBOARD_BLOCK_ZOOM] is the zoom byte */
enum deskboard_board_word {
    DESKBOARD_BOARD_VIDEO_CONTROL = 0,
    DESKBOARD_BOARD_XDL_ADR = 1,
    DESKBOARD_BOARD_BL_ADR = 2,
    DESKBOARD_BOARD_P0 = 3,
    DESKBOARD_BOARD_P1 = 4,
    DESKBOARD_BOARD_P2 = 5,
    DESKBOARD_BOARD_P3 = 6,
    DESKBOARD_BOARD_IRQE = 7,
    DESKBOARD_BOARD_IRQF = 8,
    DESKBOARD_BOARD_LIST = 9,
    DESKBOARD_BOARD_FLAGS = 10,
    DESKBOARD_BOARD_CODE = 11,
    DESKBOARD_BOARD_ROW = 33,
    DESKBOARD_BOARD_COLUMN = 34
};

/* What the flags are. */
enum deskboard_flags { DESKBOARD_IDLE = 0, DESKBOARD_BCB_LOAD = 1, DESKBOARD_BUSY = 2 };

/* The bytes of a block, from its first: in a blitter list, and in a board behind DESKBOARD_BOARD_BLOCK. */
#define DESKBOARD_BLOCK_BYTES 21u
enum deskboard_block_byte {
    DESKBOARD_BLOCK_SOURCE_ADR0 = 0,
    DESKBOARD_BLOCK_SOURCE_ADR1 = 1,
    DESKBOARD_BLOCK_SOURCE_ADR2 = 2,
    DESKBOARD_BLOCK_SOURCE_STEP_Y0 = 3,
    DESKBOARD_BLOCK_SOURCE_STEP_Y1 = 4,
    DESKBOARD_BLOCK_SOURCE_STEP_X = 5,
    DESKBOARD_BLOCK_DEST_ADR0 = 6,
    DESKBOARD_BLOCK_DEST_ADR1 = 7,
    DESKBOARD_BLOCK_DEST_ADR2 = 8,
    DESKBOARD_BLOCK_DEST_STEP_Y0 = 9,
    DESKBOARD_BLOCK_DEST_STEP_Y1 = 10,
    DESKBOARD_BLOCK_DEST_STEP_X = 11,
    DESKBOARD_BLOCK_WIDTH0 = 12,
    DESKBOARD_BLOCK_WIDTH1 = 13,
    DESKBOARD_BLOCK_HEIGHT = 14,
    DESKBOARD_BLOCK_AND_MASK = 15,
    DESKBOARD_BLOCK_XOR_MASK = 16,
    DESKBOARD_BLOCK_COLLISION_MASK = 17,
    DESKBOARD_BLOCK_ZOOM = 18,
    DESKBOARD_BLOCK_PATTERN = 19,
    DESKBOARD_BLOCK_CONTROL = 20 /* bits 0 to 2 the mode, bit 3 NEXT */
};

/* The settings of a line are 20 words:
 *   0 mode (0 off, 1 text, 2 SR, 3 HR, 4 LR)   1 overlay address   2 overlay step
 *   3 hscroll   4 vscroll   5 font   6 text counter
 *   7 map on (0, 1)   8 map address   9 map step   10 map hscroll   11 map vscroll
 *  12 field width    13 field height  14 field counter
 *     In text the text counter is the line of the character row that is shown, 0 to 7; a record that resets it (TMON alone, or OVADR)
 *     puts it to vscroll. With the map on the field counter is the line of a field, from 0; a record that resets it (MAPADR or MAPPAR)
 *     puts it to map vscroll modulo the field height. Else a counter is held.
 *  15 width          16 overlay palette   17 playfield palette   18 priority
 *  19 record: the address of the record last read for the line, or DESKBOARD_NO_RECORD where none has been read in the frame.
 *     A record's address is that of its first control byte, 0 to 524,287, whatever the length of memory is.
 */
#define DESKBOARD_NO_RECORD 524288u
#define DESKBOARD_SETTINGS_WORDS 20u
enum deskboard_settings_word {
    DESKBOARD_LINE_MODE = 0,
    DESKBOARD_LINE_ADDRESS = 1,
    DESKBOARD_LINE_STEP = 2,
    DESKBOARD_LINE_HSCROLL = 3,
    DESKBOARD_LINE_VSCROLL = 4,
    DESKBOARD_LINE_FONT = 5,
    DESKBOARD_LINE_TEXT_COUNTER = 6,
    DESKBOARD_LINE_MAP_ON = 7,
    DESKBOARD_LINE_MAP_ADDRESS = 8,
    DESKBOARD_LINE_MAP_STEP = 9,
    DESKBOARD_LINE_MAP_HSCROLL = 10,
    DESKBOARD_LINE_MAP_VSCROLL = 11,
    DESKBOARD_LINE_FIELD_WIDTH = 12,
    DESKBOARD_LINE_FIELD_HEIGHT = 13,
    DESKBOARD_LINE_FIELD_COUNTER = 14,
    DESKBOARD_LINE_WIDTH = 15,
    DESKBOARD_LINE_OVERLAY_PALETTE = 16,
    DESKBOARD_LINE_PLAYFIELD_PALETTE = 17,
    DESKBOARD_LINE_PRIORITY = 18,
    DESKBOARD_LINE_RECORD = 19
};

/* What the mode and the width of a line are. */
enum deskboard_mode {
    DESKBOARD_MODE_OFF = 0,
    DESKBOARD_MODE_TEXT = 1,
    DESKBOARD_MODE_SR = 2,
    DESKBOARD_MODE_HR = 3,
    DESKBOARD_MODE_LR = 4
};
enum deskboard_width { DESKBOARD_NARROW = 0, DESKBOARD_NORMAL = 1, DESKBOARD_WIDE = 2 };

/* A frame is 25 words: 0..19 its settings, 20 list position, 21 repeat, 22 line, 23 ended (0, 1), 24 on (0, 1). */
#define DESKBOARD_FRAME_WORDS 25u
#define DESKBOARD_FRAME_SETTINGS 0u /* the first of 20: frame[DESKBOARD_FRAME_SETTINGS + DESKBOARD_LINE_MODE] is the mode */
enum deskboard_frame_word {
    DESKBOARD_FRAME_POSITION = 20,
    DESKBOARD_FRAME_REPEAT = 21,
    DESKBOARD_FRAME_LINE = 22,
    DESKBOARD_FRAME_ENDED = 23,
    DESKBOARD_FRAME_ON = 24
};

/* The registers, by their offsets. What is written and what is read at one offset has its own name. Writes to other offsets
 * from 0x40 to 0x5F do nothing; reads of others give 255, but for 0x4A, 0x5E and 0x5F, which give 0. */
enum deskboard_register {
    DESKBOARD_WRITE_VIDEO_CONTROL = 0x40, /* the bits of enum deskboard_video */
    DESKBOARD_WRITE_XDL_ADR0 = 0x41,      /* low byte first */
    DESKBOARD_WRITE_XDL_ADR1 = 0x42,
    DESKBOARD_WRITE_XDL_ADR2 = 0x43,
    DESKBOARD_WRITE_BL_ADR0 = 0x50, /* low byte first */
    DESKBOARD_WRITE_BL_ADR1 = 0x51,
    DESKBOARD_WRITE_BL_ADR2 = 0x52,
    DESKBOARD_WRITE_BLITTER_START = 0x53, /* bit 0: 1 starts, 0 stops */
    DESKBOARD_WRITE_IRQ_CONTROL = 0x54,   /* IRQE from bit 0; IRQF is cleared */
    DESKBOARD_WRITE_P0 = 0x55,
    DESKBOARD_WRITE_P1 = 0x56,
    DESKBOARD_WRITE_P2 = 0x57,
    DESKBOARD_WRITE_P3 = 0x58,
    DESKBOARD_READ_CORE_VERSION = 0x40,   /* 0x10 */
    DESKBOARD_READ_MINOR_REVISION = 0x41, /* 0x24 */
    DESKBOARD_READ_COLLISION_CODE = 0x50,
    DESKBOARD_READ_BLITTER_BUSY = 0x53, /* the flags */
    DESKBOARD_READ_IRQ_STATUS = 0x54    /* IRQF */
};

/* The bits of VIDEO_CONTROL: the display list is switched on; no overlay colour is transparent; colours 15, 31, .. 255 are transparent
 * too, unless no_trans is set. Bit 1, xcolor, does nothing here. */
enum deskboard_video { DESKBOARD_XDL_ENABLED = 1, DESKBOARD_NO_TRANS = 4, DESKBOARD_TRANS15 = 8 };

/* The pixels of a drawn line, by mode and width (narrow, normal, wide): SR 256, 320, 336; LR 128, 160, 168; HR and text 512, 640, 672; off
 * none. A line of DESKBOARD_LINE_PIXELS entries has room for each. A pixel is the overlay palette times 256 plus the colour, or
 * DESKBOARD_TRANSPARENT. */
#define DESKBOARD_LINE_PIXELS 672u
#define DESKBOARD_TRANSPARENT 65535u

/* The words of a report: of a read, of a tick or a run, of a drawing, and of a compile. */
#define DESKBOARD_READ_WORDS 1u
#define DESKBOARD_RUN_WORDS 2u
#define DESKBOARD_DRAW_WORDS 1u
#define DESKBOARD_COMPILE_WORDS 1u
enum deskboard_report_word {
    DESKBOARD_REPORT_VALUE = 0,    /* of a read */
    DESKBOARD_REPORT_TICKS = 0,    /* of a tick or a run */
    DESKBOARD_REPORT_ACCESSES = 1, /* of a tick or a run */
    DESKBOARD_REPORT_PIXELS = 0,   /* of a drawing */
    DESKBOARD_REPORT_BYTES = 0     /* of a compile */
};

/* A new board: refusal 15. At least 35 words, whatever they hold. */
uint32_t deskboard_new(uint32_t *board, size_t board_len);

/* Writes a register, offsets 0x40 to 0x5F: refusals 15, 3. At least 35 words. */
uint32_t deskboard_write(uint32_t *board, size_t board_len, uint32_t offset, uint8_t value);

/* Reads one: refusals 15, 3, 13. The value goes to report[0]. At least 35 words, and a report of 1. */
uint32_t deskboard_read(const uint32_t *board, size_t board_len, uint32_t offset, uint32_t *report, size_t report_len);

/* RESET: refusal 15. At least 35 words. */
uint32_t deskboard_reset(uint32_t *board, size_t board_len);

/* One tick: refusals 1, 15, 13. report[0] is ticks done, report[1] accesses made. At least 35 words, a report of 2, and memory of
 * one of the six lengths. An idle board does 0 ticks. */
uint32_t deskboard_tick(uint32_t *board, size_t board_len, uint8_t *mem, size_t mem_len, uint32_t *report, size_t report_len);

/* A run: refusals 1, 15, 2, 13. Its report and its buffers are those of a tick. A block takes a tick for its load and one for
 * each of its destination bytes. A list is idle after exactly the sum of these, in as many runs as you like, if only its last block
 * has NEXT clear, no destination falls on the list modulo L, and nothing else is written between the runs. */
uint32_t deskboard_run(uint32_t *board, size_t board_len, uint8_t *mem, size_t mem_len, uint32_t budget, uint32_t *report, size_t report_len);

/* Frame start: refusal 15. Makes a frame from a board. At least 35 words of a board, and 25 of a frame, whatever these hold. */
uint32_t deskboard_start(const uint32_t *board, size_t board_len, uint32_t *frame, size_t frame_len);

/* The next line: refusals 1, 15, 4, 13. The frame goes on, and the line's settings go to settings[0..19]. At least 25 words of
 * a frame and 20 of settings, and memory of one of the six lengths. */
uint32_t deskboard_next_line(uint32_t *frame, size_t frame_len, const uint8_t *mem, size_t mem_len, uint32_t *settings, size_t settings_len);

/* Draws a line: refusals 1, 15, 17, 13. The number of pixels goes to report[0], the pixels to line[0..], leftmost first; entries past
 * them stay. The settings are those of deskboard_next_line, or your own. They are tested as a state: 15 where they are unsound, also in a
 * word of the map, though the map is not drawn. Of the board no_trans and trans15 count, as they are now; the list need not be switched on. At least 35
 * words of a board and 20 of settings, memory of one of the six lengths, a line of as many entries as it has pixels, and a report of 1.
 * In text the line's font line is the text counter; hscroll shifts text alone, by 0 to 7 pixels to the left, and then one character more is shown. */
uint32_t deskboard_draw(const uint32_t *board, size_t board_len, const uint32_t *settings, size_t settings_len, const uint8_t *mem, size_t mem_len,
                        uint16_t *line, size_t line_len, uint32_t *report, size_t report_len);

/* Compiles a plan: refusals 6, 5, 7 to 11, 13. The number of bytes goes to report[0]. 5 and 7 to 11 come with the
 * item's number from 0; of these the order is item by item, as on the sheet. At least a report of 1, and an output of as many
 * bytes as the list has: 22 for each full band and 8 for each running-on item.
 * 13: the output or the report is too short. It does not say how much is missing, and nothing is written: lend 5,280 bytes,
 * DESKBOARD_LIST_BYTES, which no list exceeds, and report[0] says how many of them are the list. The bytes behind it stay. */
uint32_t deskboard_compile(const uint8_t *plan, size_t plan_len, uint8_t *out, size_t out_len, uint32_t *report, size_t report_len);

/* Installs bytes at an address of video memory, from 0 to 524,287: refusals 1, 14, 13. 13: more than 5,280 bytes. Memory has one of
 * the six lengths. A list of 0 bytes is taken and changes nothing. Any bytes will do: a display list, a list of blocks, a picture. */
uint32_t deskboard_install(uint8_t *mem, size_t mem_len, const uint8_t *list, size_t list_len, uint32_t address);

#ifdef __cplusplus
}
#endif

#endif
