/*
 * A layout engine that asks a supplier's program how wide a row of boxes is.
 *
 * The program is one of the DEC PDP-10. The engine packs its words into a core of its own, says in
 * a record where the program starts and how many steps it may do, and runs it a thousand steps at a
 * time until it stops, which it does by a monitor call when the width is ready.
 *
 *   cc -std=c11 -Wall -Wextra -Werror -I include examples/layout_engine.c libka10.a -o layout_engine
 */
#include <inttypes.h>
#include <stdio.h>
#include <string.h>

#include "ka10.h"

enum {
    CORE_WORDS = 1024,            /* one block */
    CORE_BYTES = CORE_WORDS / 2 * 9,
    RECORD_BYTES = 160,
    REPLY_BYTES = 24,
    PC = 16,                      /* numbers of a record */
    FLAGS = 17,
    COUNT = 18,
    ALLOWANCE = 19,
    USER = 010000,                /* the flag that every record has */
    START = 0100,                 /* user addresses of the program and of its data */
    WIDTHS = 0200,
    TOTAL = 0202
};

/* Number k of these bytes, highest byte first. */
static uint64_t get_number(const uint8_t *bytes, int k)
{
    uint64_t n = 0;
    for (int i = 0; i < 8; i++)
        n = n << 8 | bytes[8 * k + i];
    return n;
}

static void put_number(uint8_t *bytes, int k, uint64_t n)
{
    for (int i = 7; i >= 0; i--, n >>= 8)
        bytes[8 * k + i] = (uint8_t)n;
}

/* Word a of a packed core: 36 bits from bit 36 * a on. */
static uint64_t get_word(const uint8_t *core, size_t a)
{
    const uint8_t *p = core + a / 2 * 9;
    uint64_t w = 0;
    if (a % 2 == 0) {
        for (int i = 0; i < 4; i++)
            w = w << 8 | p[i];
        return w << 4 | p[4] >> 4;
    }
    w = p[4] & 0x0f;
    for (int i = 5; i < 9; i++)
        w = w << 8 | p[i];
    return w;
}

static void put_word(uint8_t *core, size_t a, uint64_t w)
{
    uint8_t *p = core + a / 2 * 9;
    if (a % 2 == 0) {
        p[4] = (uint8_t)((w & 0x0f) << 4 | (p[4] & 0x0f));
        for (int i = 3; i >= 0; i--)
            p[i] = (uint8_t)(w >> (28 - 8 * i));
    } else {
        p[4] = (uint8_t)((p[4] & 0xf0) | (w >> 32));
        for (int i = 5; i < 9; i++)
            p[i] = (uint8_t)(w >> (64 - 8 * i));
    }
}

/* An instruction: its code, its accumulator and its address. */
static uint64_t instruction(uint64_t code, uint64_t accumulator, uint64_t address)
{
    return code << 27 | accumulator << 23 | address;
}

int main(void)
{
    static uint8_t core[CORE_BYTES];
    uint8_t record[RECORD_BYTES], reply[REPLY_BYTES];

    put_word(core, START, instruction(0200, 1, WIDTHS));         /* MOVE 1, the first width */
    put_word(core, START + 1, instruction(0270, 1, WIDTHS + 1)); /* ADD 1, the second */
    put_word(core, START + 2, instruction(0202, 1, TOTAL));      /* MOVEM 1, the total */
    put_word(core, START + 3, instruction(0047, 0, 012));        /* a monitor call: done */
    put_word(core, WIDTHS, 320);
    put_word(core, WIDTHS + 1, 480);

    memset(record, 0, sizeof record);
    put_number(record, PC, START);
    put_number(record, FLAGS, USER);
    put_number(record, ALLOWANCE, 100000);

    uint64_t stop;
    do {
        uint32_t refusal = ka10_run(core, sizeof core, 0, 1, 1000, record, sizeof record, reply, sizeof reply);
        if (refusal != 0) {
            printf("refused: %" PRIu32 "\n", refusal);
            return 1;
        }
        stop = get_number(reply, 1);
        printf("steps %" PRIu64 ", stop %" PRIu64 ", word %012" PRIo64 ", PC %06" PRIo64 "\n",
               get_number(reply, 0), stop, get_number(reply, 2), get_number(record, PC));
    } while (stop == 0);

    printf("%" PRIu64 " steps in all, width %" PRIu64 "\n", get_number(record, COUNT), get_word(core, TOTAL));
    return stop == 1 ? 0 : 1;
}
