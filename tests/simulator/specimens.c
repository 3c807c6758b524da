/*
 * Checks the simulator of the DEC PDP-10 with the KA10 processor on cases worked out by hand.
 *
 * Every case runs in the middle of a larger core, and every run is followed by a look at the
 * bytes it may not touch. Prints one line with the number of checks; exit status 1 at a failure.
 */
#include "simulator.h"

#include <stdbool.h>
#include <stdio.h>
#include <string.h>

/* ---------------------------------------------------------------- the place under test */

/* W(a,b) is the word a,,b; both halves are written in octal digits without a leading 0. */
#define W(l, r) ((uint64_t)0##l << 18 | (uint64_t)0##r)

enum { CORE_BLOCKS = 5, BASE = 1, LEFT_OVER = 5, BLOCK_BYTES = 4608 };
enum { CORE_BYTES = CORE_BLOCKS * BLOCK_BYTES + LEFT_OVER };
enum { START = 0100, NEXT = 0101, SKIPPED = 0102, HERE = 0200 };

enum {
    OVERFLOW = 0400000,
    CARRY_0 = 0200000,
    CARRY_1 = 0100000,
    FLOATING_OVERFLOW = 0040000,
    BYTE_INTERRUPT = 0020000,
    USER = 0010000,
    FLOATING_UNDERFLOW = 0000100,
    NO_DIVIDE = 0000040,
    BOTH_CARRIES = CARRY_0 | CARRY_1,
    ALL_FLAGS = 0770140
};

static uint8_t core[CORE_BYTES];
static uint64_t blocks;
static uint64_t acc[16], pc, flags, count, allowance; /* what the record holds */
static uint64_t steps_done, stop, stop_word;          /* what the reply holds */

static unsigned long checks, failures;

static void check(const char *name, const char *what, uint64_t got, uint64_t want)
{
    checks++;
    if (got == want)
        return;
    failures++;
    printf("%s: %s is %06llo,,%06llo instead of %06llo,,%06llo\n", name, what,
           (unsigned long long)(got >> 18), (unsigned long long)(got & 0777777),
           (unsigned long long)(want >> 18), (unsigned long long)(want & 0777777));
}

/* User words start as zeros; all else in the core has a pattern that must last. */
static void begin(uint64_t size)
{
    size_t a;

    blocks = size;
    memset(core, 0xA5, sizeof core);
    memset(acc, 0, sizeof acc);
    for (a = 16; a < 1024 * blocks; a++)
        simulator_set_core_word(core, 1024 * BASE + a, 0);
    pc = START;
    flags = USER;
    count = 0;
    allowance = 1000000;
}

static void set(uint64_t address, uint64_t word)
{
    if (address < 16)
        acc[address] = word;
    else
        simulator_set_core_word(core, 1024 * BASE + address, word);
}

static uint64_t get(uint64_t address)
{
    return address < 16 ? acc[address] : simulator_core_word(core, 1024 * BASE + address);
}

static bool surroundings_are_whole(void)
{
    size_t first = BASE * BLOCK_BYTES + 16 / 2 * 9;
    size_t end = (BASE + blocks) * BLOCK_BYTES;
    size_t k;

    for (k = 0; k < CORE_BYTES; k++)
        if ((k < first || k >= end) && core[k] != 0xA5)
            return false;
    return true;
}

static void put_record(uint8_t *record)
{
    size_t k;

    for (k = 0; k < 16; k++)
        simulator_set_number(record, k, acc[k]);
    simulator_set_number(record, 16, pc);
    simulator_set_number(record, 17, flags);
    simulator_set_number(record, 18, count);
    simulator_set_number(record, 19, allowance);
}

static void take_record(const uint8_t *record)
{
    size_t k;

    for (k = 0; k < 16; k++)
        acc[k] = simulator_number(record, k);
    pc = simulator_number(record, 16);
    flags = simulator_number(record, 17);
    count = simulator_number(record, 18);
    allowance = simulator_number(record, 19);
}

static void go(const char *name, uint64_t steps)
{
    uint8_t record[160], reply[24];
    uint64_t old_count = count, old_allowance = allowance;

    put_record(record);
    memset(reply, 0, sizeof reply);
    check(name, "result",
          simulator_run(core, sizeof core, BASE, blocks, steps, record, sizeof record, reply,
                        sizeof reply),
          0);
    take_record(record);
    steps_done = simulator_number(reply, 0);
    stop = simulator_number(reply, 1);
    stop_word = simulator_number(reply, 2);
    check(name, "growth of the count", count - old_count, steps_done);
    check(name, "allowance", allowance, old_allowance);
    check(name, "surroundings whole", surroundings_are_whole(), true);
}

static void check_end(const char *name, uint64_t done, uint64_t why, uint64_t word)
{
    check(name, "steps done", steps_done, done);
    check(name, "stop", stop, why);
    check(name, "word", stop_word, word);
}

/* ---------------------------------------------------------------- instruction words */

static uint64_t ins(uint64_t code, uint64_t a, uint64_t e)
{
    return code << 27 | a << 23 | e;
}

#define INDIRECT ((uint64_t)1 << 22)

static uint64_t indexed(uint64_t x)
{
    return x << 18;
}

/* ---------------------------------------------------------------- one instruction */

/* A is 3, so A+1 is 4. The instruction stands at 100, and "memory" is the word at 200. */
struct one {
    const char *name;
    uint64_t code, e;
    uint64_t ac, next, memory;             /* before */
    uint64_t ac_after, next_after, memory_after;
    uint64_t flags_after;                  /* beside User */
    uint64_t pc_after;
};

static void check_one(const struct one *t)
{
    begin(1);
    set(3, t->ac);
    set(4, t->next);
    set(HERE, t->memory);
    set(START, ins(t->code, 3, t->e));
    go(t->name, 1);
    check_end(t->name, 1, 0, 0);
    check(t->name, "A", get(3), t->ac_after);
    check(t->name, "A+1", get(4), t->next_after);
    check(t->name, "memory", get(HERE), t->memory_after);
    check(t->name, "flags", flags, USER | t->flags_after);
    check(t->name, "PC", pc, t->pc_after);
    check(t->name, "instruction", get(START), ins(t->code, 3, t->e));
}

static void check_all(const struct one *table, size_t rows)
{
    size_t k;

    for (k = 0; k < rows; k++)
        check_one(&table[k]);
}

#define CHECK_ALL(table) check_all(table, sizeof table / sizeof table[0])

#define MINUS_1 W(777777, 777777)
#define MINUS_2 W(777777, 777776)
#define MINUS_3 W(777777, 777775)
#define MINUS_7 W(777777, 777771)
#define LOWEST W(400000, 0)
#define HIGHEST W(377777, 777777)

static const struct one moves[] = {
    {"MOVE", 0200, HERE, 1, 2, W(123456, 654321), W(123456, 654321), 2, W(123456, 654321), 0, NEXT},
    {"MOVEI", 0201, 0654321, MINUS_1, 2, 3, W(0, 654321), 2, 3, 0, NEXT},
    {"MOVEM", 0202, HERE, W(1, 2), 2, 3, W(1, 2), 2, W(1, 2), 0, NEXT},
    {"MOVES", 0203, HERE, 1, 2, W(1, 2), W(1, 2), 2, W(1, 2), 0, NEXT},
    {"MOVS", 0204, HERE, 1, 2, W(123456, 654321), W(654321, 123456), 2, W(123456, 654321), 0, NEXT},
    {"MOVSI", 0205, 0123456, 1, 2, 3, W(123456, 0), 2, 3, 0, NEXT},
    {"MOVSM", 0206, HERE, W(1, 2), 2, 3, W(1, 2), 2, W(2, 1), 0, NEXT},
    {"MOVSS", 0207, HERE, 0, 2, W(1, 2), W(2, 1), 2, W(2, 1), 0, NEXT},
    {"MOVN of 0", 0210, HERE, 5, 2, 0, 0, 2, 0, BOTH_CARRIES, NEXT},
    {"MOVN of 1", 0210, HERE, 5, 2, 1, MINUS_1, 2, 1, 0, NEXT},
    {"MOVN of -1", 0210, HERE, 5, 2, MINUS_1, 1, 2, MINUS_1, 0, NEXT},
    {"MOVN of lowest", 0210, HERE, 5, 2, LOWEST, LOWEST, 2, LOWEST, OVERFLOW | CARRY_1, NEXT},
    {"MOVN of highest", 0210, HERE, 5, 2, HIGHEST, W(400000, 1), 2, HIGHEST, 0, NEXT},
    {"MOVNI of 0", 0211, 0, 5, 2, 3, 0, 2, 3, BOTH_CARRIES, NEXT},
    {"MOVNI of 2", 0211, 2, 5, 2, 3, MINUS_2, 2, 3, 0, NEXT},
    {"MOVNM", 0212, HERE, 7, 2, 3, 7, 2, MINUS_7, 0, NEXT},
    {"MOVNS", 0213, HERE, 5, 2, 7, MINUS_7, 2, MINUS_7, 0, NEXT},
    {"MOVM of -7", 0214, HERE, 5, 2, MINUS_7, 7, 2, MINUS_7, 0, NEXT},
    {"MOVM of 7", 0214, HERE, 5, 2, 7, 7, 2, 7, 0, NEXT},
    {"MOVM of 0", 0214, HERE, 5, 2, 0, 0, 2, 0, 0, NEXT},
    {"MOVM of lowest", 0214, HERE, 5, 2, LOWEST, LOWEST, 2, LOWEST, OVERFLOW | CARRY_1, NEXT},
    {"MOVMI", 0215, 0777777, 5, 2, 3, W(0, 777777), 2, 3, 0, NEXT},
    {"MOVMM", 0216, HERE, MINUS_3, 2, 5, MINUS_3, 2, 3, 0, NEXT},
    {"MOVMS", 0217, HERE, 5, 2, MINUS_3, 3, 2, 3, 0, NEXT},
    {"EXCH", 0250, HERE, 1, 2, 3, 3, 2, 1, 0, NEXT},
    {"code 247", 0247, 0777777, 1, 2, 3, 1, 2, 3, 0, NEXT},
    {"code 257", 0257, 0777777, 1, 2, 3, 1, 2, 3, 0, NEXT},
};

static const struct one divisions[] = {
    {"IDIV of -7 by 2", 0230, HERE, MINUS_7, 9, 2, MINUS_3, MINUS_1, 2, 0, NEXT},
    {"IDIV of 7 by -2", 0230, HERE, 7, 9, MINUS_2, MINUS_3, 1, MINUS_2, 0, NEXT},
    {"IDIV of -7 by -2", 0230, HERE, MINUS_7, 9, MINUS_2, 3, MINUS_1, MINUS_2, 0, NEXT},
    {"IDIV of 7 by 7", 0230, HERE, 7, 9, 7, 1, 0, 7, 0, NEXT},
    {"IDIV of 3 by 7", 0230, HERE, 3, 9, 7, 0, 3, 7, 0, NEXT},
    {"IDIV by 0", 0230, HERE, 7, 9, 0, 7, 9, 0, OVERFLOW | NO_DIVIDE, NEXT},
    {"IDIV of lowest by 1", 0230, HERE, LOWEST, 9, 1, LOWEST, 9, 1, OVERFLOW | NO_DIVIDE, NEXT},
    {"IDIV of lowest by -1", 0230, HERE, LOWEST, 9, MINUS_1, LOWEST, 9, MINUS_1,
     OVERFLOW | NO_DIVIDE, NEXT},
    {"IDIV of lowest by 2", 0230, HERE, LOWEST, 9, 2, W(600000, 0), 0, 2, 0, NEXT},
    {"IDIV of lowest by lowest", 0230, HERE, LOWEST, 9, LOWEST, 1, 0, LOWEST, 0, NEXT},
    {"IDIV of highest by lowest", 0230, HERE, HIGHEST, 9, LOWEST, 0, HIGHEST, LOWEST, 0, NEXT},
    {"IDIV of highest by -1", 0230, HERE, HIGHEST, 9, MINUS_1, W(400000, 1), 0, MINUS_1, 0, NEXT},
    {"IDIVI", 0231, 3, MINUS_7, 9, 5, MINUS_2, MINUS_1, 5, 0, NEXT},
    {"IDIVI by 0", 0231, 0, 7, 9, 5, 7, 9, 5, OVERFLOW | NO_DIVIDE, NEXT},
    {"IDIVI of lowest by 1", 0231, 1, LOWEST, 9, 5, LOWEST, 9, 5, OVERFLOW | NO_DIVIDE, NEXT},
    {"IDIVM", 0232, HERE, 7, 9, 2, 7, 9, 3, 0, NEXT},
    {"IDIVM by 0", 0232, HERE, 7, 9, 0, 7, 9, 0, OVERFLOW | NO_DIVIDE, NEXT},
    {"IDIVB", 0233, HERE, 7, 9, 2, 3, 1, 3, 0, NEXT},
    {"IDIVB to E = A+1", 0233, 4, 7, 2, 5, 3, 1, 5, 0, NEXT},
    {"IDIVB to E = A", 0233, 3, 7, 2, 5, 1, 0, 5, 0, NEXT},
};

static const struct one shifts[] = {
    {"ASH left", 0240, 3, 5, 2, 0, 050, 2, 0, 0, NEXT},
    {"ASH of a negative left", 0240, 1, MINUS_3, 2, 0, W(777777, 777772), 2, 0, 0, NEXT},
    {"ASH losing a 1", 0240, 1, W(200000, 1), 2, 0, 2, 2, 0, OVERFLOW, NEXT},
    {"ASH losing a 0", 0240, 1, W(500000, 1), 2, 0, W(600000, 2), 2, 0, OVERFLOW, NEXT},
    {"ASH of lowest by 1", 0240, 1, LOWEST, 2, 0, LOWEST, 2, 0, OVERFLOW, NEXT},
    {"ASH of -1 by 35", 0240, 35, MINUS_1, 2, 0, LOWEST, 2, 0, 0, NEXT},
    {"ASH of -1 by 36", 0240, 36, MINUS_1, 2, 0, LOWEST, 2, 0, OVERFLOW, NEXT},
    {"ASH of -1 by 255", 0240, 255, MINUS_1, 2, 0, LOWEST, 2, 0, OVERFLOW, NEXT},
    {"ASH of 1 by 34", 0240, 34, 1, 2, 0, W(200000, 0), 2, 0, 0, NEXT},
    {"ASH of 1 by 35", 0240, 35, 1, 2, 0, 0, 2, 0, OVERFLOW, NEXT},
    {"ASH of 0 by 255", 0240, 255, 0, 2, 0, 0, 2, 0, 0, NEXT},
    {"ASH by 256", 0240, 256, W(200000, 1), 2, 0, W(200000, 1), 2, 0, 0, NEXT},
    {"ASH right", 0240, 0777776, 013, 2, 0, 2, 2, 0, 0, NEXT},
    {"ASH of a negative right", 0240, 0777777, MINUS_3, 2, 0, MINUS_2, 2, 0, 0, NEXT},
    {"ASH of lowest right by 35", 0240, 01000000 - 35, LOWEST, 2, 0, MINUS_1, 2, 0, 0, NEXT},
    {"ASH of highest right by 255", 0240, 01000000 - 255, HIGHEST, 2, 0, 0, 2, 0, 0, NEXT},
    {"ASH right by 256 moves nothing", 0240, 0777400, 013, 2, 0, 013, 2, 0, 0, NEXT},
    {"ASH right by 257", 0240, 01000000 - 257, 013, 2, 0, 5, 2, 0, 0, NEXT},
    {"ASH by 400000 moves nothing", 0240, 0400000, 013, 2, 0, 013, 2, 0, 0, NEXT},
    {"ASH by 377777 is 255 left", 0240, 0377777, 1, 2, 0, 0, 2, 0, OVERFLOW, NEXT},
    {"ROT of 1 by -1", 0241, 0777777, 1, 2, 0, LOWEST, 2, 0, 0, NEXT},
    {"ROT left", 0241, 3, W(500000, 1), 2, 0, 015, 2, 0, 0, NEXT},
    {"ROT by 36", 0241, 36, W(123456, 654321), 2, 0, W(123456, 654321), 2, 0, 0, NEXT},
    {"ROT by 255", 0241, 255, 1, 2, 0, 010, 2, 0, 0, NEXT},
    {"LSH left", 0242, 2, W(300000, 3), 2, 0, W(400000, 14), 2, 0, 0, NEXT},
    {"LSH right", 0242, 0777775, W(700000, 17), 2, 0, W(70000, 1), 2, 0, 0, NEXT},
    {"LSH by 36", 0242, 36, MINUS_1, 2, 0, 0, 2, 0, 0, NEXT},
    {"LSH by -36", 0242, 01000000 - 36, MINUS_1, 2, 0, 0, 2, 0, 0, NEXT},
    {"LSH by 35", 0242, 35, MINUS_1, 2, 0, LOWEST, 2, 0, 0, NEXT},
    {"ASHC by 0", 0244, 0, MINUS_1, 5, 0, MINUS_1, 5, 0, 0, NEXT},
    {"ASHC by 256", 0244, 256, 5, MINUS_1, 0, 5, MINUS_1, 0, 0, NEXT},
    {"ASHC by 777400", 0244, 0777400, 5, MINUS_1, 0, 5, MINUS_1, 0, 0, NEXT},
    {"ASHC left", 0244, 1, 1, W(200000, 1), 0, 3, 2, 0, 0, NEXT},
    {"ASHC ignores bit 0 of A+1", 0244, 1, 1, W(600000, 1), 0, 3, 2, 0, 0, NEXT},
    {"ASHC sets bit 0 of A+1", 0244, 1, MINUS_1, 1, 0, MINUS_2, W(400000, 2), 0, 0, NEXT},
    {"ASHC losing a 1", 0244, 1, W(200000, 0), 0, 0, 0, 0, 0, OVERFLOW, NEXT},
    {"ASHC of -1 by 70", 0244, 70, MINUS_1, MINUS_1, 0, LOWEST, LOWEST, 0, 0, NEXT},
    {"ASHC of -1 by 71", 0244, 71, MINUS_1, MINUS_1, 0, LOWEST, LOWEST, 0, OVERFLOW, NEXT},
    {"ASHC of 1 by 69", 0244, 69, 0, 1, 0, W(200000, 0), 0, 0, 0, NEXT},
    {"ASHC of 1 by 70", 0244, 70, 0, 1, 0, 0, 0, 0, OVERFLOW, NEXT},
    {"ASHC of bit 0 of A+1 alone", 0244, 255, 0, LOWEST, 0, 0, 0, 0, 0, NEXT},
    {"ASHC right", 0244, 0777777, 3, 5, 0, 1, W(200000, 2), 0, 0, NEXT},
    {"ASHC of a negative right", 0244, 0777777, LOWEST, 4, 0, W(600000, 0), W(400000, 2), 0, 0,
     NEXT},
    {"ASHC of lowest right by 70", 0244, 01000000 - 70, LOWEST, 0, 0, MINUS_1, MINUS_1, 0, 0, NEXT},
    {"ASHC right clears bit 0 of A+1", 0244, 0777777, 0, W(400000, 2), 0, 0, 1, 0, 0, NEXT},
    {"ROTC left", 0245, 1, LOWEST, LOWEST, 0, 1, 1, 0, 0, NEXT},
    {"ROTC right", 0245, 0777777, 1, 2, 0, 0, W(400000, 1), 0, 0, NEXT},
    {"ROTC by 36", 0245, 36, 1, 2, 0, 2, 1, 0, 0, NEXT},
    {"ROTC by 72", 0245, 72, 1, 2, 0, 1, 2, 0, 0, NEXT},
    {"LSHC left", 0246, 1, LOWEST, W(600000, 1), 0, 1, W(400000, 2), 0, 0, NEXT},
    {"LSHC right", 0246, 0777777, 3, 3, 0, 1, W(400000, 1), 0, 0, NEXT},
    {"LSHC by 36", 0246, 36, 1, MINUS_2, 0, MINUS_2, 0, 0, 0, NEXT},
    {"LSHC by 72", 0246, 72, MINUS_1, MINUS_1, 0, 0, 0, 0, 0, NEXT},
    {"JFFO of 1", 0243, HERE, 1, 9, 0, 1, 043, 0, 0, HERE},
    {"JFFO of a negative", 0243, HERE, LOWEST, 9, 0, LOWEST, 0, 0, 0, HERE},
    {"JFFO of 1,,0", 0243, HERE, W(1, 0), 9, 0, W(1, 0), 021, 0, 0, HERE},
    {"JFFO of 0", 0243, HERE, 0, 9, 0, 0, 0, 0, 0, NEXT},
};

static const struct one additions[] = {
    {"ADD of highest and 1", 0270, HERE, HIGHEST, 9, 1, LOWEST, 9, 1, OVERFLOW | CARRY_1, NEXT},
    {"ADD of -1 and -1", 0270, HERE, MINUS_1, 9, MINUS_1, MINUS_2, 9, MINUS_1, BOTH_CARRIES, NEXT},
    {"ADD of lowest and lowest", 0270, HERE, LOWEST, 9, LOWEST, 0, 9, LOWEST, OVERFLOW | CARRY_0,
     NEXT},
    {"ADD of 1 and 2", 0270, HERE, 1, 9, 2, 3, 9, 2, 0, NEXT},
    {"ADD of 1 and -2", 0270, HERE, 1, 9, MINUS_2, MINUS_1, 9, MINUS_2, 0, NEXT},
    {"ADD of 2 and -1", 0270, HERE, 2, 9, MINUS_1, 1, 9, MINUS_1, BOTH_CARRIES, NEXT},
    {"ADDI", 0271, 0777777, 1, 9, 5, W(1, 0), 9, 5, 0, NEXT},
    {"ADDM", 0272, HERE, 1, 9, 2, 1, 9, 3, 0, NEXT},
    {"ADDB", 0273, HERE, 1, 9, 2, 3, 9, 3, 0, NEXT},
    {"SUB of 0", 0274, HERE, 5, 9, 0, 5, 9, 0, BOTH_CARRIES, NEXT},
    {"SUB of 1 from 0", 0274, HERE, 0, 9, 1, MINUS_1, 9, 1, 0, NEXT},
    {"SUB of 1 from lowest", 0274, HERE, LOWEST, 9, 1, HIGHEST, 9, 1, OVERFLOW | CARRY_0, NEXT},
    {"SUB of -1 from highest", 0274, HERE, HIGHEST, 9, MINUS_1, LOWEST, 9, MINUS_1,
     OVERFLOW | CARRY_1, NEXT},
    {"SUB of lowest from lowest", 0274, HERE, LOWEST, 9, LOWEST, 0, 9, LOWEST, BOTH_CARRIES, NEXT},
    {"SUB of lowest from 0", 0274, HERE, 0, 9, LOWEST, LOWEST, 9, LOWEST, OVERFLOW | CARRY_1, NEXT},
    {"SUBI", 0275, 2, 1, 9, 5, MINUS_1, 9, 5, 0, NEXT},
    {"SUBM", 0276, HERE, 3, 9, 2, 3, 9, 1, BOTH_CARRIES, NEXT},
    {"SUBB", 0277, HERE, 3, 9, 2, 1, 9, 1, BOTH_CARRIES, NEXT},
    {"AOJ of highest", 0340, HERE, HIGHEST, 9, 5, LOWEST, 9, 5, OVERFLOW | CARRY_1, NEXT},
    {"AOJ of -1", 0340, HERE, MINUS_1, 9, 5, 0, 9, 5, BOTH_CARRIES, NEXT},
    {"SOJ of 0", 0360, HERE, 0, 9, 5, MINUS_1, 9, 5, 0, NEXT},
    {"SOJ of 1", 0360, HERE, 1, 9, 5, 0, 9, 5, BOTH_CARRIES, NEXT},
    {"SOJ of lowest", 0360, HERE, LOWEST, 9, 5, HIGHEST, 9, 5, OVERFLOW | CARRY_0, NEXT},
    {"AOS of highest", 0350, HERE, 5, 9, HIGHEST, LOWEST, 9, LOWEST, OVERFLOW | CARRY_1, NEXT},
    {"AOS of -1", 0350, HERE, 5, 9, MINUS_1, 0, 9, 0, BOTH_CARRIES, NEXT},
    {"SOS of lowest", 0370, HERE, 5, 9, LOWEST, HIGHEST, 9, HIGHEST, OVERFLOW | CARRY_0, NEXT},
    {"SOS of 0", 0370, HERE, 5, 9, 0, MINUS_1, 9, MINUS_1, 0, NEXT},
    {"AOBJP to 0", 0252, HERE, W(777776, 777777), 9, 5, 0, 9, 5, 0, HERE},
    {"AOBJP to a negative", 0252, HERE, W(777776, 1), 9, 5, W(777777, 2), 9, 5, 0, NEXT},
    {"AOBJN to a negative", 0253, HERE, W(777776, 1), 9, 5, W(777777, 2), 9, 5, 0, HERE},
    {"AOBJN to 0", 0253, HERE, W(777777, 1), 9, 5, 2, 9, 5, 0, NEXT},
    {"AOBJN past the highest", 0253, HERE, W(377777, 0), 9, 5, W(400000, 1), 9, 5, 0, HERE},
};

static const struct one calls[] = {
    {"JSP", 0265, HERE, 1, 2, 3, W(10000, 101), 2, 3, 0, HERE},
    {"JSR", 0264, HERE, 1, 2, 3, 1, 2, W(10000, 101), 0, HERE + 1},
    {"JSA", 0266, HERE, W(1, 2), 2, 3, W(200, 101), 2, W(1, 2), 0, HERE + 1},
    {"JSA with E = A", 0266, 3, W(1, 2), 2, 3, W(3, 101), 2, 3, 0, 4},
    {"JRA", 0267, 0300, W(200, 5), 2, W(3, 4), W(3, 4), 2, W(3, 4), 0, 0300},
    {"JRA from A", 0267, 0300, W(3, 5), 2, 3, W(3, 5), 2, 3, 0, 0300},
    {"PUSH", 0261, HERE, W(1, 3), 2, W(5, 6), W(2, 4), W(5, 6), W(5, 6), 0, NEXT},
    {"PUSH onto A", 0261, HERE, W(1, 2), 9, W(5, 6), W(2, 3), 9, W(5, 6), 0, NEXT},
    {"PUSHJ", 0260, 0300, W(1, 3), 2, 3, W(2, 4), W(10000, 101), 3, 0, 0300},
    {"POP", 0262, HERE, W(2, 4), W(5, 6), 3, W(1, 3), W(5, 6), W(5, 6), 0, NEXT},
    {"POP into A", 0262, 3, W(2, 4), W(5, 6), 3, W(1, 3), W(5, 6), 3, 0, NEXT},
    {"POP borrowing", 0262, HERE, W(2, 0), 9, 3, W(0, 777777), 9, 0, 0, NEXT},
    {"POPJ", 0263, 0777777, W(2, 4), W(740140, 300), 3, W(1, 3), W(740140, 300), 3, 0, 0300},
    {"POPJ from A", 0263, 0, W(2, 3), 9, 3, W(1, 2), 9, 3, 0, 3},
    {"JRST 3,", 0254, HERE, 1, 2, 3, 1, 2, 3, 0, HERE},
};

/* ---------------------------------------------------------------- groups with a system */

/* The eight conditions, as what they say of less, equal and greater. */
static const bool conditions[8][3] = {
    {false, false, false}, /* never */
    {true, false, false},  /* L */
    {false, true, false},  /* E */
    {true, true, false},   /* LE */
    {true, true, true},    /* always */
    {false, true, true},   /* GE */
    {true, false, true},   /* N */
    {false, false, true},  /* G */
};

static void check_condition(const char *name, uint64_t code, uint64_t ac, uint64_t memory,
                            bool holds, bool jumps)
{
    begin(1);
    set(3, ac);
    set(HERE, memory);
    set(START, ins(code, 3, HERE));
    go(name, 1);
    check_end(name, 1, 0, 0);
    check(name, "PC", pc, holds ? (jumps ? HERE : SKIPPED) : NEXT);
}

static void check_conditions(void)
{
    const uint64_t against_e[3] = {HERE - 1, HERE, HERE + 1};
    const uint64_t values[3] = {MINUS_1, 0, 1};
    const uint64_t before_adding[3] = {MINUS_2, MINUS_1, 0};
    const uint64_t before_taking[3] = {0, 1, 2};
    const uint64_t extremes[3] = {LOWEST, 5, HIGHEST};
    unsigned c, k;

    for (c = 0; c < 8; c++)
        for (k = 0; k < 3; k++) {
            bool holds = conditions[c][k];

            check_condition("CAI", 0300 + c, against_e[k], 0, holds, false);
            check_condition("CAM", 0310 + c, extremes[k], 5, holds, false);
            check_condition("JUMP", 0320 + c, values[k], 5, holds, true);
            check_condition("SKIP", 0330 + c, 5, values[k], holds, false);
            check("SKIP", "A", get(3), values[k]);
            check_condition("AOJ", 0340 + c, before_adding[k], 5, holds, true);
            check("AOJ", "A", get(3), values[k]);
            check_condition("AOS", 0350 + c, 5, before_adding[k], holds, false);
            check("AOS", "A", get(3), values[k]);
            check("AOS", "memory", get(HERE), values[k]);
            check_condition("SOJ", 0360 + c, before_taking[k], 5, holds, true);
            check("SOJ", "A", get(3), values[k]);
            check_condition("SOS", 0370 + c, 5, before_taking[k], holds, false);
            check("SOS", "A", get(3), values[k]);
            check("SOS", "memory", get(HERE), values[k]);
        }
    /* CAI compares with the word 0,,E: 777777 there is not -1. */
    begin(1);
    set(3, MINUS_1);
    set(START, ins(0301, 3, 0777777)); /* CAIL */
    go("CAIL", 1);
    check("CAIL", "PC", pc, SKIPPED);
}

/* Operand 0011..., accumulator 0101...: the four digits of the result are the function's values
   for (operand, accumulator) = 00, 01, 10, 11. */
struct boolean_function {
    const char *name;
    uint64_t code, values;
    bool reads;
};

static const struct boolean_function boolean_functions[16] = {
    {"SETZ", 0400, 0x0, false}, {"AND", 0404, 0x1, true},    {"ANDCA", 0410, 0x2, true},
    {"SETM", 0414, 0x3, true},  {"ANDCM", 0420, 0x4, true},  {"SETA", 0424, 0x5, false},
    {"XOR", 0430, 0x6, true},   {"IOR", 0434, 0x7, true},    {"ANDCB", 0440, 0x8, true},
    {"EQV", 0444, 0x9, true},   {"SETCA", 0450, 0xA, false}, {"ORCA", 0454, 0xB, true},
    {"SETCM", 0460, 0xC, true}, {"ORCM", 0464, 0xD, true},   {"ORCB", 0470, 0xE, true},
    {"SETO", 0474, 0xF, false},
};

static void check_boolean_mode(const struct boolean_function *f, unsigned mode)
{
    const uint64_t nine = 0x111111111, ac = 5 * nine, memory = 3 * nine;
    uint64_t result = f->values * nine;

    begin(1);
    set(3, ac);
    set(HERE, memory);
    set(START, ins(f->code + mode, 3, HERE));
    go(f->name, 1);
    check_end(f->name, 1, 0, 0);
    check(f->name, "A", get(3), mode == 2 ? ac : result);
    check(f->name, "memory", get(HERE), mode == 0 ? memory : result);
    check(f->name, "flags", flags, USER);
}

/* In immediate mode the operand is 0,,E: look at the left half with operand 0 too. */
static void check_boolean_immediate(const struct boolean_function *f)
{
    uint64_t when_00 = (f->values & 8) ? 0777777 : 0;
    uint64_t when_01 = (f->values & 4) ? 0777777 : 0;
    uint64_t when_10 = (f->values & 2) ? 0777777 : 0;
    uint64_t when_11 = (f->values & 1) ? 0777777 : 0;

    begin(1);
    set(3, W(777777, 0));
    set(START, ins(f->code + 1, 3, 0777777));
    go(f->name, 1);
    check_end(f->name, 1, 0, 0);
    check(f->name, "A", get(3), when_01 << 18 | when_10);
    begin(1);
    set(3, W(0, 777777));
    set(START, ins(f->code + 1, 3, 0777777));
    go(f->name, 1);
    check(f->name, "A", get(3), when_00 << 18 | when_11);
}

/* An illegal E stops all modes that touch it, and only those. */
static void check_boolean_illegal(const struct boolean_function *f)
{
    unsigned mode;

    for (mode = 0; mode < 4; mode++) {
        bool touches = mode >= 2 || (mode == 0 && f->reads);

        begin(1);
        set(3, 5);
        set(START, ins(f->code + mode, 3, 02000));
        go(f->name, 1);
        check_end(f->name, touches ? 0 : 1, touches ? 3 : 0, touches ? 02000 : 0);
        if (touches)
            check(f->name, "A", get(3), 5);
        check(f->name, "PC", pc, touches ? START : NEXT);
    }
}

static void check_boolean(void)
{
    unsigned k;

    for (k = 0; k < 16; k++) {
        check_boolean_mode(&boolean_functions[k], 0);
        check_boolean_mode(&boolean_functions[k], 2);
        check_boolean_mode(&boolean_functions[k], 3);
        check_boolean_immediate(&boolean_functions[k]);
        check_boolean_illegal(&boolean_functions[k]);
    }
}

/* Source 123456,,654321 (or 0,,654321 in immediate mode) onto 111111,,222222; "onto_self" is the
   source moved onto itself. */
struct half_word {
    const char *name;
    uint64_t code, moved, immediate, onto_self;
    bool keeps;
};

static const struct half_word half_words[16] = {
    {"HLL", 0500, W(123456, 222222), W(0, 222222), W(123456, 654321), true},
    {"HRL", 0504, W(654321, 222222), W(654321, 222222), W(654321, 654321), true},
    {"HLLZ", 0510, W(123456, 0), 0, W(123456, 0), false},
    {"HRLZ", 0514, W(654321, 0), W(654321, 0), W(654321, 0), false},
    {"HLLO", 0520, W(123456, 777777), W(0, 777777), W(123456, 777777), false},
    {"HRLO", 0524, W(654321, 777777), W(654321, 777777), W(654321, 777777), false},
    {"HLLE", 0530, W(123456, 0), 0, W(123456, 0), false},
    {"HRLE", 0534, W(654321, 777777), W(654321, 777777), W(654321, 777777), false},
    {"HRR", 0540, W(111111, 654321), W(111111, 654321), W(123456, 654321), true},
    {"HLR", 0544, W(111111, 123456), W(111111, 0), W(123456, 123456), true},
    {"HRRZ", 0550, W(0, 654321), W(0, 654321), W(0, 654321), false},
    {"HLRZ", 0554, W(0, 123456), 0, W(0, 123456), false},
    {"HRRO", 0560, W(777777, 654321), W(777777, 654321), W(777777, 654321), false},
    {"HLRO", 0564, W(777777, 123456), W(777777, 0), W(777777, 123456), false},
    {"HRRE", 0570, W(777777, 654321), W(777777, 654321), W(777777, 654321), false},
    {"HLRE", 0574, W(0, 123456), 0, W(0, 123456), false},
};

static void check_half_mode(const struct half_word *h, unsigned mode, uint64_t a, uint64_t e,
                            uint64_t ac, uint64_t memory, uint64_t ac_after,
                            uint64_t memory_after)
{
    begin(1);
    set(a, ac);
    set(HERE, memory);
    set(START, ins(h->code + mode, a, e));
    go(h->name, 1);
    check_end(h->name, 1, 0, 0);
    check(h->name, "A", get(a), ac_after);
    check(h->name, "memory", get(HERE), memory_after);
}

static void check_half_words(void)
{
    const uint64_t s = W(123456, 654321), d = W(111111, 222222);
    unsigned k;

    for (k = 0; k < 16; k++) {
        const struct half_word *h = &half_words[k];

        check_half_mode(h, 0, 3, HERE, d, s, h->moved, s);
        check_half_mode(h, 1, 3, 0654321, d, s, h->immediate, s);
        check_half_mode(h, 2, 3, HERE, s, d, s, h->moved);
        check_half_mode(h, 3, 3, HERE, d, s, h->moved, h->onto_self);
        check_half_mode(h, 3, 0, HERE, d, s, d, h->onto_self);
        check_half_mode(h, 0, 0, HERE, d, s, h->moved, s);
    }
    /* HLRE and HLLE of a negative half. */
    begin(1);
    set(HERE, W(400001, 5));
    set(START, ins(0574, 3, HERE));
    set(NEXT, ins(0530, 4, HERE));
    go("HLRE, HLLE", 2);
    check("HLRE", "A", get(3), W(777777, 400001));
    check("HLLE", "A", get(4), W(400001, 777777));
}

struct logical_test {
    const char *name;
    unsigned part; /* of the code: 00 TR, 01 TL, 10 TD, 11 TS */
    uint64_t mask; /* what E, or the word at 200, amounts to */
};

/* E is 200, and the word there is 70,,7. */
static const struct logical_test logical_tests[4] = {
    {"TR", 000, W(0, 200)}, {"TL", 001, W(200, 0)}, {"TD", 010, W(70, 7)}, {"TS", 011, W(7, 70)}};

static void check_logical_test(const struct logical_test *t, unsigned change, unsigned condition,
                               uint64_t ac)
{
    bool hit = ac & t->mask;
    bool skips[4] = {false, !hit, true, hit};
    uint64_t after[4] = {ac, ac & ~t->mask, ac ^ t->mask, ac | t->mask};

    begin(1);
    set(3, ac);
    set(HERE, W(70, 7));
    set(START, ins(0600 + t->part + 020 * change + 2 * condition, 3, HERE));
    go(t->name, 1);
    check_end(t->name, 1, 0, 0);
    check(t->name, "A", get(3), after[change]);
    check(t->name, "memory", get(HERE), W(70, 7));
    check(t->name, "PC", pc, skips[condition] ? SKIPPED : NEXT);
}

static void check_logical_tests(void)
{
    const uint64_t words[4] = {0, W(777777, 777777), W(777507, 777507), W(777570, 777777)};
    unsigned t, change, condition, k;

    for (t = 0; t < 4; t++)
        for (change = 0; change < 4; change++)
            for (condition = 0; condition < 4; condition++)
                for (k = 0; k < 4; k++)
                    check_logical_test(&logical_tests[t], change, condition, words[k]);
    for (t = 0; t < 4; t++) { /* TD and TS read E even where nothing depends on it */
        bool reads = t >= 2;

        begin(1);
        set(START, ins(0600 + logical_tests[t].part, 3, 0777777));
        go(logical_tests[t].name, 1);
        check_end(logical_tests[t].name, reads ? 0 : 1, reads ? 3 : 0, reads ? 0777777 : 0);
    }
}

/* ---------------------------------------------------------------- accumulators 0 and 17 */

static void check_accumulator_0(void)
{
    begin(1);
    set(0, 5);
    set(HERE, MINUS_7);
    set(START, ins(0213, 0, HERE)); /* MOVNS: A = 0 is no destination in self mode */
    set(START + 1, ins(0330, 0, HERE)); /* SKIP */
    set(START + 2, ins(0350, 0, HERE)); /* AOS */
    set(START + 3, ins(0370, 0, HERE)); /* SOS */
    go("A = 0", 4);
    check_end("A = 0", 4, 0, 0);
    check("A = 0", "accumulator 0", get(0), 5);
    check("A = 0", "memory", get(HERE), 7);
    begin(1);
    set(HERE, 9);
    set(START, ins(0200, 0, HERE)); /* MOVE: here A = 0 is an accumulator like any other */
    go("MOVE 0,", 1);
    check("MOVE 0,", "accumulator 0", get(0), 9);
}

static void check_accumulator_17(void)
{
    begin(1);
    set(017, 7);
    set(START, ins(0231, 017, 2)); /* IDIVI */
    set(NEXT, ins(0245, 017, 36)); /* ROTC */
    set(NEXT + 1, ins(0243, 017, NEXT + 2)); /* JFFO */
    go("A = 17", 1);
    check("IDIVI 17,", "quotient", get(017), 3);
    check("IDIVI 17,", "remainder", get(0), 1);
    go("A = 17", 1);
    check("ROTC 17,", "A", get(017), 1);
    check("ROTC 17,", "A+1", get(0), 3);
    go("A = 17", 1);
    check("JFFO 17,", "A+1", get(0), 043);
}

static void check_exchange_with_itself(void)
{
    begin(1);
    set(3, W(1, 2));
    set(START, ins(0250, 3, 3)); /* EXCH */
    go("EXCH with itself", 1);
    check("EXCH with itself", "A", get(3), W(1, 2));
}

/* ---------------------------------------------------------------- jumps and flags */

static void check_jump_with_flags(const char *name, uint64_t word, uint64_t before, uint64_t after,
                                  uint64_t pc_after)
{
    begin(1);
    flags = before;
    set(5, W(440100, 300));      /* an index register */
    set(HERE, W(300040, 400));   /* an address word */
    set(HERE + 1, W(20005, 1));  /* an address word that is indexed by 5; its flag is not taken */
    set(START, word);
    go(name, 1);
    check_end(name, 1, 0, 0);
    check(name, "flags", flags, after);
    check(name, "PC", pc, pc_after);
}

static void check_jumps(void)
{
    uint64_t bits;

    check_jump_with_flags("JRST", ins(0254, 0, HERE), ALL_FLAGS, ALL_FLAGS, HERE);
    check_jump_with_flags("JRST 1,", ins(0254, 1, HERE), ALL_FLAGS, ALL_FLAGS, HERE);
    check_jump_with_flags("JRST 2,", ins(0254, 2, HERE), ALL_FLAGS, ALL_FLAGS, HERE);
    check_jump_with_flags("JRST 2,(5)", ins(0254, 2, 1) | indexed(5), USER | CARRY_1,
                          USER | OVERFLOW | FLOATING_OVERFLOW | FLOATING_UNDERFLOW, 0301);
    check_jump_with_flags("JRST 2,@200", ins(0254, 2, HERE) | INDIRECT, ALL_FLAGS,
                          USER | CARRY_0 | CARRY_1 | NO_DIVIDE, 0400);
    check_jump_with_flags("JRST 3,@200", ins(0254, 3, HERE) | INDIRECT, ALL_FLAGS,
                          USER | CARRY_0 | CARRY_1 | NO_DIVIDE, 0400);
    check_jump_with_flags("JRST 2,@201 with index there", ins(0254, 2, HERE + 1) | INDIRECT,
                          ALL_FLAGS, USER | OVERFLOW | FLOATING_OVERFLOW | FLOATING_UNDERFLOW,
                          0301);
    /* The index register of an earlier level gives no flags: 200 less 300 is the rest. */
    check_jump_with_flags("JRST 2,@(5)", ins(0254, 2, 0777700) | INDIRECT | indexed(5), ALL_FLAGS,
                          USER | CARRY_0 | CARRY_1 | NO_DIVIDE, 0400);
    check_jump_with_flags("JRST,@200", ins(0254, 0, HERE) | INDIRECT, USER | CARRY_1,
                          USER | CARRY_1, 0400);
    for (bits = 4; bits < 16; bits++) {
        begin(1);
        flags = ALL_FLAGS;
        set(START, ins(0254, bits, HERE) | INDIRECT);
        set(HERE, W(0, 1234));
        go("JRST with bit 9 or 10", 1);
        check_end("JRST with bit 9 or 10", 1, 1, ins(0254, bits, 01234));
        check("JRST with bit 9 or 10", "PC", pc, NEXT);
        check("JRST with bit 9 or 10", "flags", flags, ALL_FLAGS);
    }
}

static void check_jfcl(void)
{
    const uint64_t of_bit[4] = {FLOATING_OVERFLOW, CARRY_1, CARRY_0, OVERFLOW};
    uint64_t a, on;

    for (a = 0; a < 16; a++)
        for (on = 0; on < 16; on++) {
            uint64_t selected = 0, before = USER | BYTE_INTERRUPT | NO_DIVIDE;
            unsigned k;

            for (k = 0; k < 4; k++) {
                if (a >> k & 1)
                    selected |= of_bit[k];
                if (on >> k & 1)
                    before |= of_bit[k];
            }
            check_jump_with_flags("JFCL", ins(0255, a, HERE), before, before & ~selected,
                                  (a & on) ? HERE : NEXT);
        }
}

/* PC words hold the flags as they were; only then Byte Interrupt goes off. */
static void check_saved_flags(void)
{
    begin(1);
    flags = ALL_FLAGS;
    set(START, ins(0265, 3, HERE)); /* JSP */
    go("JSP", 1);
    check("JSP", "A", get(3), W(770140, 101));
    check("JSP", "flags", flags, ALL_FLAGS & ~BYTE_INTERRUPT);
    begin(1);
    flags = ALL_FLAGS;
    set(START, ins(0264, 017, HERE)); /* JSR */
    go("JSR", 1);
    check("JSR", "memory", get(HERE), W(770140, 101));
    check("JSR", "accumulator 17", get(017), 0);
    check("JSR", "flags", flags, ALL_FLAGS & ~BYTE_INTERRUPT);
    begin(1);
    flags = ALL_FLAGS;
    set(3, W(1, 177));
    set(START, ins(0260, 3, 0300)); /* PUSHJ */
    go("PUSHJ", 1);
    check("PUSHJ", "memory", get(HERE), W(770140, 101));
    check("PUSHJ", "flags", flags, ALL_FLAGS & ~BYTE_INTERRUPT);
    begin(1);
    flags = ALL_FLAGS;
    set(START, ins(0266, 3, HERE)); /* JSA keeps it */
    go("JSA", 1);
    check("JSA", "flags", flags, ALL_FLAGS);
}

/* ---------------------------------------------------------------- pushdown lists */

static void check_pushdown_stop(const char *name, uint64_t word, uint64_t pointer,
                                uint64_t pointer_after, uint64_t why)
{
    begin(2);
    set(3, pointer);
    set(HERE, W(0, 321));
    set(START, word);
    go(name, 3); /* the words after it are 0, so stop 1 comes where 6 does not */
    check(name, "A", get(3), pointer_after);
    check(name, "stop", stop, why);
    check(name, "steps done", steps_done, why == 6 ? 1 : 2);
}

static void check_pushdown_stops(void)
{
    check_pushdown_stop("PUSH to 0", ins(0261, 3, HERE), W(777777, 1777), W(0, 2000), 6);
    check("PUSH to 0", "pushed word", get(02000), W(0, 321));
    check("PUSH to 0", "PC", pc, NEXT);
    check_pushdown_stop("PUSH to -1", ins(0261, 3, HERE), W(777776, 1777), W(777777, 2000), 1);
    check_pushdown_stop("PUSH to 1", ins(0261, 3, HERE), W(0, 1777), W(1, 2000), 1);
    check_pushdown_stop("PUSH carrying to 0", ins(0261, 3, HERE), W(777776, 777777), 0, 6);
    check_pushdown_stop("PUSHJ to 0", ins(0260, 3, 0300), W(777777, 1777), W(0, 2000), 6);
    check("PUSHJ to 0", "PC", pc, 0300);
    check("PUSHJ to 0", "pushed word", get(02000), W(10000, 101));
    check_pushdown_stop("POP to -1", ins(0262, 3, 0300), W(0, 200), W(777777, 177), 6);
    check("POP to -1", "popped word", get(0300), W(0, 321));
    check_pushdown_stop("POP to 0", ins(0262, 3, 0300), W(1, 200), W(0, 177), 1);
    check_pushdown_stop("POP borrowing to -1", ins(0262, 3, 0300), W(1, 0), W(777777, 777777), 6);
    check_pushdown_stop("POPJ to -1", ins(0263, 3, 0), W(0, 200), W(777777, 177), 6);
    check("POPJ to -1", "PC", pc, 0321);
    check_pushdown_stop("POPJ to -2", ins(0263, 3, 0), W(777777, 200), W(777776, 177), 1);
}

/* In one block the word pushed has no place, and nothing changes at all. */
static void check_pushdown_fault(void)
{
    uint8_t before[CORE_BYTES];

    begin(1);
    set(3, W(777777, 1777));
    set(HERE, 5);
    set(START, ins(0261, 3, HERE)); /* PUSH */
    memcpy(before, core, sizeof core);
    go("PUSH past the block", 1);
    check_end("PUSH past the block", 0, 3, 02000);
    check("PUSH past the block", "A", get(3), W(777777, 1777));
    check("PUSH past the block", "PC", pc, START);
    check("PUSH past the block", "flags", flags, USER);
    check("PUSH past the block", "core", (uint64_t)memcmp(before, core, sizeof core), 0);
}

/* ---------------------------------------------------------------- faults */

/* One instruction with A = 3 in one block, whose addresses are at fault. */
static void check_fault(const char *name, uint64_t word, uint64_t ac, uint64_t address)
{
    begin(1);
    flags = USER | BYTE_INTERRUPT;
    set(3, ac);
    set(4, 9);
    set(START, word);
    go(name, 1);
    check_end(name, 0, 3, address);
    check(name, "A", get(3), ac);
    check(name, "A+1", get(4), 9);
    check(name, "PC", pc, START);
    check(name, "flags", flags, USER | BYTE_INTERRUPT);
}

static void check_faults(void)
{
    unsigned c;

    check_fault("MOVE", ins(0200, 3, 02000), 1, 02000);
    check_fault("MOVEM", ins(0202, 3, 02000), 1, 02000);
    check_fault("MOVNS", ins(0213, 3, 02000), 1, 02000);
    check_fault("IDIV", ins(0230, 3, 0777777), 1, 0777777);
    check_fault("EXCH", ins(0250, 3, 02000), 1, 02000);
    check_fault("PUSH, E first", ins(0261, 3, 03000), W(0, 2000), 03000);
    check_fault("PUSH, the list second", ins(0261, 3, 01777), W(0, 2000), 02001);
    check_fault("PUSHJ", ins(0260, 3, 0300), W(0, 1777), 02000);
    check_fault("POP, the list first", ins(0262, 3, 03000), W(0, 2000), 02000);
    check_fault("POP, E second", ins(0262, 3, 03000), W(0, 1777), 03000);
    check_fault("POPJ", ins(0263, 3, 0), W(0, 777777), 0777777);
    check_fault("JSR", ins(0264, 0, 02000), 1, 02000);
    check_fault("JSA", ins(0266, 3, 02000), 1, 02000);
    check_fault("JRA", ins(0267, 3, 0), W(2000, 0), 02000);
    check_fault("ADD", ins(0270, 3, 02000), 1, 02000);
    check_fault("SUBM", ins(0276, 3, 02000), 1, 02000);
    check_fault("HRRM", ins(0542, 3, 02000), 1, 02000);
    check_fault("HRRZM", ins(0552, 3, 02000), 1, 02000);
    check_fault("XCT", ins(0256, 0, 02000), 1, 02000);
    check_fault("indirect", ins(0200, 3, 02000) | INDIRECT, 1, 02000);
    check_fault("247 indirect", ins(0247, 3, 02000) | INDIRECT, 1, 02000);
    check_fault("257 indirect", ins(0257, 3, 02000) | INDIRECT, 1, 02000);
    check_fault("monitor call indirect", ins(0051, 3, 02000) | INDIRECT, 1, 02000);
    check_fault("indexed", ins(0200, 3, 0777) | indexed(3), 01001, 02000);
    for (c = 0; c < 8; c++) { /* read even where no condition looks at the word */
        check_fault("CAM", ins(0310 + c, 3, 02000), 1, 02000);
        check_fault("SKIP", ins(0330 + c, 3, 02000), 1, 02000);
        check_fault("AOS", ins(0350 + c, 3, 02000), 1, 02000);
        check_fault("SOS", ins(0370 + c, 3, 02000), 1, 02000);
    }
}

/* Jumping anywhere is fine; the fetch that follows is not. */
static void check_fetch_fault(void)
{
    begin(1);
    set(START, ins(0254, 0, 02000)); /* JRST */
    go("JRST past the block", 2);
    check_end("JRST past the block", 1, 3, 02000);
    check("JRST past the block", "PC", pc, 02000);
    begin(1);
    pc = 01777;
    set(01777, ins(0334, 0, 5)); /* SKIPA as the last word */
    go("skip past the block", 2);
    check_end("skip past the block", 1, 3, 02001);
    begin(1);
    pc = 0777777;
    go("PC 777777", 1);
    check_end("PC 777777", 0, 3, 0777777);
    check("PC 777777", "PC", pc, 0777777);
    begin(1);
    set(START, ins(0264, 0, 01777)); /* JSR to the last word */
    go("JSR to the last word", 1);
    check("JSR to the last word", "PC", pc, 02000);
    begin(1);
    pc = 5;
    set(5, ins(0201, 6, 0123)); /* MOVEI in an accumulator */
    go("program in accumulators", 1);
    check("program in accumulators", "accumulator 6", get(6), 0123);
    check("program in accumulators", "PC", pc, 6);
}

/* ---------------------------------------------------------------- BLT */

static void check_blt(void)
{
    uint64_t k;

    begin(1);
    set(3, W(100, 101));
    set(0100, W(1, 2));
    pc = 0300;
    set(0300, ins(0251, 3, 0103));
    go("BLT filling", 1);
    for (k = 0100; k <= 0103; k++)
        check("BLT filling", "word", get(k), W(1, 2));
    check("BLT filling", "word behind", get(0104), 0);
    check("BLT filling", "A", get(3), W(100, 101));

    begin(1); /* a destination above E: one word is moved */
    set(3, W(200, 300));
    set(HERE, 7);
    set(HERE + 1, 8);
    set(START, ins(0251, 3, 0277));
    go("BLT of one word", 1);
    check("BLT of one word", "word", get(0300), 7);
    check("BLT of one word", "word behind", get(0301), 0);

    begin(1); /* loading all accumulators, A too */
    set(3, W(200, 0));
    for (k = 0; k < 16; k++)
        set(HERE + k, W(5, 0) + k);
    set(START, ins(0251, 3, 017));
    go("BLT into accumulators", 1);
    for (k = 0; k < 16; k++)
        check("BLT into accumulators", "accumulator", get(k), W(5, 0) + k);

    begin(1); /* the source leaves the block first */
    set(3, W(1776, 300));
    set(01776, 7);
    set(01777, 8);
    set(START, ins(0251, 3, 0310));
    go("BLT from past the block", 1);
    check_end("BLT from past the block", 0, 3, 02000);
    check("BLT from past the block", "word", get(0300), 7);
    check("BLT from past the block", "word", get(0301), 8);
    check("BLT from past the block", "PC", pc, START);
    check("BLT from past the block", "A", get(3), W(1776, 300));

    begin(1); /* the destination does */
    set(3, W(200, 1776));
    set(HERE, 7);
    set(HERE + 1, 8);
    set(START, ins(0251, 3, 02010));
    go("BLT to past the block", 1);
    check_end("BLT to past the block", 0, 3, 02000);
    check("BLT to past the block", "word", get(01776), 7);
    check("BLT to past the block", "word", get(01777), 8);

    begin(1); /* both at once: reads come first */
    set(3, W(3000, 2000));
    set(START, ins(0251, 3, 02010));
    go("BLT outside", 1);
    check_end("BLT outside", 0, 3, 03000);
}

/* ---------------------------------------------------------------- chains */

/* A MOVEI whose address takes `length` address words, the last one naming 1234. */
static void put_address_chain(unsigned length)
{
    unsigned k;

    begin(1);
    set(START, ins(0201, 3, HERE) | (length > 0 ? INDIRECT : 0));
    for (k = 0; k + 1 < length; k++)
        set(HERE + k, INDIRECT | (HERE + k + 1));
    set(HERE + length - 1, 01234);
}

static void check_address_chains(void)
{
    put_address_chain(64);
    go("64 address words", 1);
    check_end("64 address words", 1, 0, 0);
    check("64 address words", "A", get(3), 01234);

    put_address_chain(65);
    go("65 address words", 1);
    check_end("65 address words", 0, 4, 0);
    check("65 address words", "A", get(3), 0);
    check("65 address words", "PC", pc, START);

    put_address_chain(65); /* the 65th is not even looked at */
    set(HERE + 63, INDIRECT | 02000);
    go("65th address word outside", 1);
    check_end("65th address word outside", 0, 4, 0);

    put_address_chain(65);
    set(HERE + 62, INDIRECT | 02000);
    go("64th address word outside", 1);
    check_end("64th address word outside", 0, 3, 02000);

    begin(1);
    set(START, ins(0201, 3, HERE) | INDIRECT);
    set(HERE, INDIRECT | HERE);
    go("address word naming itself", 1);
    check_end("address word naming itself", 0, 4, 0);

    begin(1); /* each executed word has a calculation of its own */
    put_address_chain(64);
    set(START, ins(0256, 0, HERE) | INDIRECT);
    set(01234, ins(0200, 3, HERE) | INDIRECT);
    go("two chains of 64", 1);
    check_end("two chains of 64", 1, 0, 0);
    check("two chains of 64", "A", get(3), get(01234));
}

/* `length` executed words in all: XCTs and then a MOVEI. */
static void put_execute_chain(unsigned length)
{
    unsigned k;

    begin(1);
    for (k = 0; k + 1 < length; k++)
        set(START + k, ins(0256, k % 16, START + k + 1));
    set(START + length - 1, ins(0201, 3, 01234));
}

static void check_execute_chains(void)
{
    put_execute_chain(64);
    go("64 executed words", 1);
    check_end("64 executed words", 1, 0, 0);
    check("64 executed words", "A", get(3), 01234);
    check("64 executed words", "PC", pc, NEXT);

    put_execute_chain(65);
    go("65 executed words", 1);
    check_end("65 executed words", 0, 5, 0);
    check("65 executed words", "A", get(3), 0);
    check("65 executed words", "PC", pc, START);

    put_execute_chain(65);
    set(START + 63, ins(0256, 0, 02000));
    go("65th executed word outside", 1);
    check_end("65th executed word outside", 0, 5, 0);

    put_execute_chain(65);
    set(START + 62, ins(0256, 0, 02000));
    go("64th executed word outside", 1);
    check_end("64th executed word outside", 0, 3, 02000);

    put_execute_chain(65); /* but its own address is worked out */
    set(START + 63, ins(0256, 0, 02000) | INDIRECT);
    go("address of the 64th executed word", 1);
    check_end("address of the 64th executed word", 0, 3, 02000);

    put_execute_chain(64); /* a user call in the 64th place still stores */
    set(START + 63, ins(0025, 5, 04321));
    go("call as 64th executed word", 1);
    check_end("call as 64th executed word", 0, 5, 0);
    check("call as 64th executed word", "word at 40", get(040), ins(0025, 5, 04321));
    check("call as 64th executed word", "PC", pc, START);

    begin(1); /* a skip and a subroutine call under XCT go by the XCT's own place */
    set(START, ins(0256, 0, HERE));
    set(HERE, ins(0334, 0, 5)); /* SKIPA */
    set(SKIPPED, ins(0256, 0, HERE + 1));
    set(HERE + 1, ins(0265, 3, 0300)); /* JSP */
    go("XCT of SKIPA and JSP", 2);
    check("XCT of SKIPA and JSP", "A", get(3), W(10000, 103));
    check("XCT of SKIPA and JSP", "PC", pc, 0300);
}

/* ---------------------------------------------------------------- calls */

static void check_user_calls(void)
{
    uint64_t code;

    for (code = 0001; code <= 0037; code++) {
        begin(1);
        set(041, ins(0201, 3, 0123)); /* MOVEI */
        set(5, 0100);
        set(START, ins(code, 7, 0234) | indexed(5));
        go("user call", 1);
        check_end("user call", 1, 0, 0);
        check("user call", "word at 40", get(040), ins(code, 7, 0334));
        check("user call", "A of 41", get(3), 0123);
        check("user call", "PC", pc, NEXT);
    }
    begin(1); /* 41 calls itself: the last call of the 64 stays */
    set(041, ins(0002, 1, 5));
    set(START, ins(0001, 1, 6));
    go("call calling itself", 1);
    check_end("call calling itself", 0, 5, 0);
    check("call calling itself", "word at 40", get(040), ins(0002, 1, 5));
    check("call calling itself", "PC", pc, START);
    begin(1); /* a fault in 41 leaves the call */
    set(041, ins(0200, 3, 02000));
    set(START, ins(0037, 017, 0777777));
    go("fault in 41", 1);
    check_end("fault in 41", 0, 3, 02000);
    check("fault in 41", "word at 40", get(040), ins(0037, 017, 0777777));
    check("fault in 41", "PC", pc, START);
    begin(1); /* a JSR in 41 saves the place of the call */
    set(041, ins(0264, 0, 0300));
    set(START, ins(0010, 0, 0));
    go("JSR in 41", 1);
    check("JSR in 41", "word at 300", get(0300), W(10000, 101));
    check("JSR in 41", "PC", pc, 0301);
    begin(1); /* a monitor call in 41 tells of itself */
    set(041, ins(0051, 1, 0123));
    set(START, ins(0010, 0, 0));
    go("monitor call in 41", 1);
    check_end("monitor call in 41", 1, 1, ins(0051, 1, 0123));
}

static void check_stopping_code(uint64_t code, uint64_t why)
{
    begin(1);
    set(5, 0100);
    flags = ALL_FLAGS;
    set(START, ins(code, 013, 0234) | indexed(5));
    go("stopping code", 2);
    check_end("stopping code", 1, why, ins(code, 013, 0334));
    check("stopping code", "PC", pc, NEXT);
    check("stopping code", "flags", flags, ALL_FLAGS);
    check("stopping code", "word at 40", get(040), 0);
    check("stopping code", "A", get(013), 0);
}

static void check_stopping_codes(void)
{
    uint64_t code;

    check_stopping_code(0, 1);
    for (code = 0040; code <= 0077; code++)
        check_stopping_code(code, 1);
    for (code = 0700; code <= 0777; code++)
        check_stopping_code(code, 1);
    for (code = 0100; code <= 0177; code++)
        check_stopping_code(code, 2);
    for (code = 0220; code <= 0227; code++)
        check_stopping_code(code, 2);
    for (code = 0234; code <= 0237; code++)
        check_stopping_code(code, 2);
    begin(1);
    set(START, W(51040, 123));
    go("051040,,000123", 5);
    check_end("051040,,000123", 1, 1, W(51040, 123));
    begin(1); /* bits 13-17 of the call are zeros */
    set(5, 1);
    set(START, W(51065, 123));
    set(0124, W(777405, 77));
    go("051065,,000123", 5);
    check_end("051065,,000123", 1, 1, W(51040, 100));
}

/* ---------------------------------------------------------------- the call and its refusals */

static void check_packing(void)
{
    const uint8_t want[9] = {0, 0, 0, 0, 0x0F, 0xFF, 0xFF, 0xFF, 0xFF};
    uint8_t pair[9];

    memset(pair, 0x5A, sizeof pair);
    simulator_set_core_word(pair, 0, 0);
    simulator_set_core_word(pair, 1, MINUS_1);
    check("packing", "bytes", (uint64_t)memcmp(pair, want, sizeof pair), 0);
    check("packing", "first word", simulator_core_word(pair, 0), 0);
    check("packing", "second word", simulator_core_word(pair, 1), MINUS_1);
}

struct call {
    size_t core_len;
    uint64_t base, blocks, steps;
    size_t record_len, reply_len;
};

/* The program is all zeros, so an accepted call ends with a monitor call after one step. */
static void check_call(const char *name, const struct call *c, uint32_t want)
{
    uint8_t record[200], reply[40], old_record[200], old_reply[40], old_core[CORE_BYTES];

    memset(record, 0x77, sizeof record);
    memset(reply, 0x77, sizeof reply);
    put_record(record);
    memcpy(old_record, record, sizeof record);
    memcpy(old_reply, reply, sizeof reply);
    memcpy(old_core, core, sizeof core);
    check(name, "result",
          simulator_run(core, c->core_len, c->base, c->blocks, c->steps, record, c->record_len,
                        reply, c->reply_len),
          want);
    check(name, "core", (uint64_t)memcmp(core, old_core, sizeof core), 0);
    if (want != 0) {
        check(name, "record", (uint64_t)memcmp(record, old_record, sizeof record), 0);
        check(name, "reply", (uint64_t)memcmp(reply, old_reply, sizeof reply), 0);
        return;
    }
    check(name, "steps done", simulator_number(reply, 0), 1);
    check(name, "stop", simulator_number(reply, 1), 1);
    check(name, "count", simulator_number(record, 18), count + 1);
    check(name, "bytes behind the record", (uint64_t)memcmp(record + 160, old_record + 160, 40), 0);
    check(name, "bytes behind the reply", (uint64_t)memcmp(reply + 24, old_reply + 24, 16), 0);
}

static const struct call good_call = {CORE_BYTES, BASE, 1, 1, 160, 24};

static void check_argument_refusals(void)
{
    const uint64_t huge = UINT64_MAX;
    struct call c;

    begin(1);
    check_call("accepted", &good_call, 0);
#define TRY(name, field, value, want) \
    (c = good_call, c.field = (value), check_call(name, &c, want))
    TRY("empty core", core_len, 0, 1);
    TRY("one byte short", core_len, 5 * BLOCK_BYTES - 1, 1);
    TRY("a pair too many", core_len, 2 * BLOCK_BYTES + 9, 1);
    TRY("bytes left over", core_len, 2 * BLOCK_BYTES + 8, 0);
    TRY("core too short", core_len, BLOCK_BYTES + 8, 3);
    TRY("no blocks", blocks, 0, 3);
    TRY("one block too many", blocks, 5, 3);
    TRY("all blocks", blocks, 4, 0);
    TRY("base at the end", base, 5, 3);
    TRY("huge base", base, huge, 3);
    TRY("huge blocks", blocks, huge, 3);
    TRY("base and blocks beyond 64 bits", blocks, huge - BASE + 1, 3);
    TRY("short record", record_len, 159, 6);
    TRY("long record", record_len, 161, 6);
    TRY("short reply", reply_len, 23, 6);
    TRY("long reply", reply_len, 25, 6);
    TRY("no steps", steps, 0, 11);
    TRY("too many steps", steps, 1000001, 11);
    TRY("huge steps", steps, huge, 11);
    TRY("most steps", steps, 1000000, 0);
#undef TRY
    c = good_call;
    c.steps = 0;
    c.reply_len = 0;
    check_call("6 before 11", &c, 6);
    c.blocks = 0;
    check_call("3 before 6", &c, 3);
    c.core_len = 8;
    check_call("1 before 3", &c, 1);
}

static void check_record_refusals(void)
{
    unsigned bit;

    begin(1);
    acc[15] = (uint64_t)1 << 36;
    check_call("accumulator of 2^36", &good_call, 6);
    begin(1);
    acc[0] = UINT64_MAX;
    check_call("accumulator of 2^64 - 1", &good_call, 6);
    begin(1);
    pc = 01000000;
    check_call("PC of 2^18", &good_call, 6);
    begin(1);
    flags = 0;
    check_call("no flags", &good_call, 6);
    begin(1);
    flags = ALL_FLAGS;
    check_call("all flags", &good_call, 0);
    for (bit = 0; bit < 64; bit++) {
        uint64_t flag = (uint64_t)1 << bit;

        begin(1);
        flags = USER ^ flag;
        check_call("one more flag", &good_call, flag != USER && (ALL_FLAGS & flag) ? 0 : 6);
    }
    begin(1);
    count = 6;
    allowance = 5;
    check_call("count above the allowance", &good_call, 6);
    begin(1);
    count = 5;
    allowance = 5;
    check_call("nothing left", &good_call, 12);
    begin(1);
    count = 4;
    allowance = 5;
    check_call("one step left", &good_call, 0);
    begin(1);
    allowance = UINT64_C(1000000000001);
    check_call("allowance too large", &good_call, 6);
    begin(1);
    allowance = UINT64_C(1000000000000);
    count = allowance - 1;
    check_call("largest allowance", &good_call, 0);
    begin(1);
    count = UINT64_MAX;
    allowance = UINT64_MAX;
    check_call("huge count", &good_call, 6);
}

/* ---------------------------------------------------------------- all */

static void check_tables(void)
{
    CHECK_ALL(moves);
    CHECK_ALL(divisions);
    CHECK_ALL(shifts);
    CHECK_ALL(additions);
    CHECK_ALL(calls);
}

int main(void)
{
    check_packing();
    check_tables();
    check_conditions();
    check_boolean();
    check_half_words();
    check_logical_tests();
    check_accumulator_0();
    check_accumulator_17();
    check_exchange_with_itself();
    check_jumps();
    check_jfcl();
    check_saved_flags();
    check_pushdown_stops();
    check_pushdown_fault();
    check_faults();
    check_fetch_fault();
    check_blt();
    check_address_chains();
    check_execute_chains();
    check_user_calls();
    check_stopping_codes();
    check_argument_refusals();
    check_record_refusals();
    printf("simulator: %lu checks, %lu failed\n", checks, failures);
    return failures == 0 ? 0 : 1;
}
