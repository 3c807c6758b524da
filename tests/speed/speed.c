/*
 * How fast ka10_run is: a loop of MOVE, ADD, MOVEM, IOR and SOJG, 100 calls of 1,000,000 steps each.
 * Prints the steps, the processor's seconds and the steps per second.
 */
#include "ka10.h"

#include <inttypes.h>
#include <stdio.h>
#include <string.h>
#include <time.h>

enum { CALLS = 100, BLOCK_BYTES = 4608, RECORD_BYTES = 160, REPLY_BYTES = 24 };

static uint8_t core[BLOCK_BYTES];
static uint8_t record[RECORD_BYTES];
static uint8_t reply[REPLY_BYTES];

/* Word a of the core: the first of a pair has its low four bits in the byte that the two share. */
static void put_word(unsigned a, uint64_t w)
{
    uint8_t *p = core + a / 2 * 9;
    if (a % 2 == 0) {
        for (int i = 0; i < 4; i++)
            p[i] = (uint8_t)(w >> (28 - 8 * i));
        p[4] = (uint8_t)((w & 15) << 4 | (p[4] & 15));
    } else {
        p[4] = (uint8_t)((p[4] & 240) | w >> 32);
        for (int i = 0; i < 4; i++)
            p[5 + i] = (uint8_t)(w >> (24 - 8 * i));
    }
}

static void put_number(unsigned k, uint64_t n)
{
    for (int i = 0; i < 8; i++)
        record[8 * k + i] = (uint8_t)(n >> (56 - 8 * i));
}

static uint64_t number(const uint8_t *bytes)
{
    uint64_t n = 0;
    for (int i = 0; i < 8; i++)
        n = n << 8 | bytes[i];
    return n;
}

int main(void)
{
    put_word(0100, UINT64_C(0200040000200)); /* MOVE 1,200 */
    put_word(0101, UINT64_C(0270040000201)); /* ADD 1,201 */
    put_word(0102, UINT64_C(0202040000202)); /* MOVEM 1,202 */
    put_word(0103, UINT64_C(0434040000203)); /* IOR 1,203 */
    put_word(0104, UINT64_C(0367100000100)); /* SOJG 2,100 */
    put_word(0201, 1);
    put_word(0203, 7);
    put_number(2, UINT64_C(0377777777777)); /* the count in accumulator 2 */
    put_number(16, 0100);                   /* PC */
    put_number(17, 0010000);                /* flags: User */
    put_number(19, UINT64_C(1000000000000)); /* allowance */

    uint64_t steps = 0;
    clock_t start = clock();
    for (int i = 0; i < CALLS; i++) {
        if (ka10_run(core, sizeof core, 0, 1, 1000000, record, sizeof record, reply, sizeof reply) != 0)
            return 1;
        steps += number(reply);
    }
    double seconds = (double)(clock() - start) / CLOCKS_PER_SEC;
    printf("%" PRIu64 " steps, %.2f s, %.0f million steps a second\n", steps, seconds, (double)steps / seconds / 1e6);
    return 0;
}
