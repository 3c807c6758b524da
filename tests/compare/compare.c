/*
 * Compares ka10_run (include/ka10.h) with the simulator in tests/simulator.
 *
 * Makes many programs for the DEC PDP-10 with the KA10 processor, runs each with both on
 * identical copies of core, record and reply, and compares the results and every byte. Some
 * programs are then run on in further calls, from what the call before left. Program number n
 * depends on n alone, so all this is repeatable, and `compare n` shows that one program.
 *
 * The kinds of program:
 *     single    one instruction, with operands and addresses at which something may go wrong
 *     straight  many instructions in a row, each on operands of that sort
 *     mixed     a place full of random instructions that jump, call and change each other
 *     chain     long chains of address words and of executed words, around their limits
 *     refusal   wrong arguments, lengths and records, one or several at once
 *     large     the largest core, or a longer one, and the highest addresses
 *     long      a loop of up to 1,000,000 steps
 *
 * Prints the first difference and exits with 1, or ends with the line
 *     compared N programs, M steps: no difference
 */
#define _POSIX_C_SOURCE 200809L /* for alarm */

#include "ka10.h"
#include "simulator.h"

#include <inttypes.h>
#include <signal.h>
#include <stdbool.h>
#include <stdio.h>
#include <stdlib.h>
#include <string.h>
#include <unistd.h>

enum { PROGRAMS = 320000 };

enum {
    BLOCK_WORDS = 1024,
    BLOCK_BYTES = 4608,
    MAXIMUM_BLOCKS = 256,
    CORE_ROOM = (MAXIMUM_BLOCKS + 2) * BLOCK_BYTES + 16,
    RECORD_BYTES = 160,
    RECORD_ROOM = 200,
    REPLY_BYTES = 24,
    REPLY_ROOM = 40
};

enum { PC = 16, FLAGS = 17, COUNT = 18, ALLOWANCE = 19, NUMBERS = 20 }; /* in a record */

#define ADDRESS UINT64_C(0777777)
#define ALL_ONES UINT64_C(0777777777777)
#define INDIRECT (UINT64_C(1) << 22)
#define USER UINT64_C(0010000)
#define LISTED_FLAGS UINT64_C(0770140)
#define MAXIMUM_STEPS UINT64_C(1000000)
#define MAXIMUM_ALLOWANCE UINT64_C(1000000000000)

/* ---------------------------------------------------------------- random numbers */

/* No expression below draws twice in an order that C leaves open, since the programs are to be
   the same whatever compiler is used. */

#define SEED UINT64_C(0x1968041000000010)

static uint64_t random_state;

/* splitmix64 */
static uint64_t draw64(void)
{
    uint64_t z = random_state += UINT64_C(0x9E3779B97F4A7C15);

    z = (z ^ z >> 30) * UINT64_C(0xBF58476D1CE4E5B9);
    z = (z ^ z >> 27) * UINT64_C(0x94D049BB133111EB);
    return z ^ z >> 31;
}

/* Below n. */
static uint64_t draw(uint64_t n)
{
    return (draw64() >> 11) % n;
}

/* True once in n times. */
static bool chance(uint64_t n)
{
    return draw(n) == 0;
}

static uint64_t seed_of(uint64_t number)
{
    return SEED + number * UINT64_C(0xD1342543DE82EF95);
}

/* ---------------------------------------------------------------- the program being made */

static struct {
    uint64_t number;
    const char *kind;
    bool tame;                    /* made to last: faults and calls are rare */
    uint64_t place, size;         /* first block and number of blocks it is built for */
    uint64_t base, blocks, steps; /* what is passed: the same, unless damaged on purpose */
    uint64_t calls;               /* how often it is run on, at most */
    size_t core_len, record_len, reply_len;
    uint64_t numbers[NUMBERS]; /* of the record */
} program;

static uint8_t original_core[CORE_ROOM];
static uint8_t original_record[RECORD_ROOM];
static uint8_t original_reply[REPLY_ROOM];

/* User addresses below this are legal. */
static uint64_t limit(void)
{
    return program.size * BLOCK_WORDS;
}

static void put(uint64_t address, uint64_t word)
{
    if (address < 16)
        program.numbers[address] = word & ALL_ONES;
    else if (address < limit())
        simulator_set_core_word(original_core, program.place * BLOCK_WORDS + address, word);
}

static uint64_t right_half_of_accumulator(uint64_t x)
{
    return program.numbers[x] & ADDRESS;
}

/* ---------------------------------------------------------------- words */

static uint64_t halves(uint64_t l, uint64_t r)
{
    return (l & ADDRESS) << 18 | (r & ADDRESS);
}

/* Numbers at which arithmetic, shifts and tests change their ways. */
static const uint64_t edges[] = {
    0, 1, 0777777777777, 0377777777777, 0400000000000, /* the chief ones stand here twice */
    0, 1, 2, 3, 7,
    0777777777777, 0777777777776, 0777777777775, 0777777777771, /* -1, -2, -3, -7 */
    0377777777777, 0377777777776,                               /* 2^35 - 1 and less */
    0400000000000, 0400000000001, 0400000000002,                /* -2^35 and more */
    0200000000000, 0600000000000, 0577777777777,
    0252525252525, 0525252525252,
    0000000777777, 0777777000000, 0000000400000, 0400000400000, 0000000377777, 0377777000000,
    0000001000001, 0777776777777, 0000001000000, 0123456654321,
};

static uint64_t edge(void)
{
    uint64_t bit = UINT64_C(1) << draw(36);

    switch (draw(12)) {
    case 0:
        return bit;
    case 1:
        return ALL_ONES ^ bit;
    case 2:
        return bit - 1;
    case 3:
        return draw64() & ALL_ONES;
    default:
        return edges[draw(sizeof edges / sizeof edges[0])];
    }
}

/* Right halves that are no addresses: shifts, masks, immediate operands. */
static uint64_t immediate(void)
{
    static const uint64_t some[] = {0,        1,        2,        0777777,  0777776,
                                    0400000,  0400001,  0377777,  0777400,  0777377,
                                    0777401,  0400,     0377,     0401,     0525252,
                                    0252525};

    switch (draw(4)) {
    case 0:
        return some[draw(sizeof some / sizeof some[0])];
    case 1: /* around the lengths of a word, two words, two magnitudes */
        return 33 + draw(42);
    case 2:
        return (0777777 - 32 - draw(42)) & ADDRESS;
    default:
        return chance(2) ? draw64() & ADDRESS : draw(80);
    }
}

/* Mostly legal, so that programs last. */
static uint64_t legal_address(void)
{
    return chance(3) ? draw(16) : draw(limit());
}

/* There is none in the largest place. */
static uint64_t illegal_address(void)
{
    return chance(2) ? limit() : limit() + draw(ADDRESS + 1 - limit());
}

static uint64_t tame_address_near(uint64_t here)
{
    if (chance(3))
        return (here + draw(10) - 3) & ADDRESS;
    if (chance(100))
        return (limit() + draw(5) - 2) & ADDRESS;
    return legal_address();
}

/* Addresses near every border there is, and near the place of the word that has them, so that
   programs change themselves and execute what they changed. */
static uint64_t wild_address_near(uint64_t here)
{
    switch (draw(20)) {
    case 0:
    case 1:
    case 2:
    case 3: /* accumulators */
        return draw(16);
    case 4:
    case 5: /* around the lowest word of core and 40, 41 */
        return 014 + draw(045);
    case 6:
    case 7:
    case 8:
    case 9:
        return (here + draw(10) - 3) & ADDRESS;
    case 10:
        return (limit() + draw(5) - 2) & ADDRESS;
    case 11:
        return chance(3) ? ADDRESS - draw(2) : draw(limit());
    case 12:
        return chance(4) ? draw64() & ADDRESS : draw(limit());
    default:
        return draw(limit());
    }
}

static uint64_t address_near(uint64_t here)
{
    return program.tame ? tame_address_near(here) : wild_address_near(here);
}

/* ---------------------------------------------------------------- instructions */

struct group {
    uint64_t first, last;
};

/* The groups are chosen alike, since the large ones would hide the small ones. */
static const struct group groups[] = {
    {0001, 0037}, /* user calls */
    {0200, 0217}, /* MOVE */
    {0230, 0233}, /* IDIV */
    {0240, 0246}, /* shifts, JFFO */
    {0240, 0247},
    {0250, 0250}, /* EXCH */
    {0251, 0251}, /* BLT */
    {0252, 0253}, /* AOBJP, AOBJN */
    {0254, 0254}, /* JRST */
    {0254, 0254},
    {0255, 0255}, /* JFCL */
    {0256, 0257}, /* XCT, nothing */
    {0260, 0263}, /* PUSHJ to POPJ */
    {0260, 0263},
    {0264, 0267}, /* JSR to JRA */
    {0270, 0277}, /* ADD, SUB */
    {0300, 0317}, /* CAI, CAM */
    {0320, 0337}, /* JUMP, SKIP */
    {0340, 0357}, /* AOJ, AOS */
    {0360, 0377}, /* SOJ, SOS */
    {0400, 0477}, /* Boolean */
    {0500, 0577}, /* half words */
    {0600, 0677}, /* tests */
};

/* Those that end a run, and so are rarer. */
static const struct group stopping_groups[] = {
    {0000, 0000}, {0040, 0077}, {0700, 0777}, {0100, 0177}, {0220, 0227}, {0234, 0237},
};

static uint64_t code_from(const struct group *table, size_t rows)
{
    const struct group *g = &table[draw(rows)];

    return g->first + draw(g->last - g->first + 1);
}

#define CODE_FROM(table) code_from(table, sizeof table / sizeof table[0])

static uint64_t instruction(uint64_t code, uint64_t a, uint64_t address)
{
    return code << 27 | a << 23 | (address & ADDRESS);
}

/* Bits 9-12 of a random instruction. Most of them would make JRST a monitor call. */
static uint64_t field_a(uint64_t code)
{
    return code == 0254 && !chance(program.tame ? 64 : 8) ? draw(4) : draw(16);
}

static uint64_t random_modifiers(void)
{
    uint64_t rarely = program.tame ? 2 : 1;
    uint64_t bits = 0;

    if (chance(4 * rarely))
        bits |= (1 + draw(15)) << 18;
    if (chance(8 * rarely))
        bits |= INDIRECT;
    return bits;
}

/* Code, A and address, in this order. */
static uint64_t random_instruction_of(uint64_t code, uint64_t here)
{
    uint64_t a = field_a(code);

    return instruction(code, a, address_near(here));
}

static uint64_t random_user_call(void)
{
    uint64_t code = 0001 + draw(037);
    uint64_t a = draw(16);

    return instruction(code, a, draw64());
}

static bool is_shift(uint64_t code)
{
    return code >= 0240 && code <= 0246 && code != 0243; /* JFFO is not */
}

static uint64_t random_instruction(uint64_t here)
{
    uint64_t code = chance(program.tame ? 500 : 48) ? CODE_FROM(stopping_groups)
                                                    : CODE_FROM(groups);
    uint64_t word = random_instruction_of(code, here);

    if (is_shift(code) || chance(program.tame ? 100 : 16))
        word = (word & ~ADDRESS) | immediate();
    return word | random_modifiers();
}

/* Flags or anything else in the upper bits, as address words and PC words have them. */
static uint64_t upper_bits(void)
{
    return draw64() & (UINT64_C(0777740) << 18);
}

/* An address word that gives `rest`, that is bits 13-35. */
static uint64_t address_word(uint64_t rest)
{
    return upper_bits() | rest;
}

static uint64_t random_address_word(uint64_t here)
{
    uint64_t bits = random_modifiers();

    return address_word(bits | address_near(here));
}

static uint64_t random_word(uint64_t here)
{
    switch (draw(program.tame ? 60 : 12)) {
    case 0:
        return edge();
    case 1:
        return random_address_word(here);
    default:
        return random_instruction(here);
    }
}

/* Left halves at which a pushdown count or an AOBJN count runs out. */
static uint64_t count_half(void)
{
    static const uint64_t some[] = {0,       1,       2,       0777777, 0777776,
                                    0777775, 0377777, 0400000, 0377776};

    return some[draw(sizeof some / sizeof some[0])];
}

static uint64_t pointer_word(void)
{
    uint64_t r = legal_address();

    if (chance(4))
        r = limit() + draw(4) - 3;
    else if (chance(8))
        r = ADDRESS - draw(2);
    return halves(count_half(), r);
}

static uint64_t transfer_word(void)
{
    uint64_t from = legal_address();

    return halves(from, chance(2) ? from + draw(8) - 3 : legal_address());
}

/* An instruction with a legal address is also a fair index register, and it does no harm when
   the program strays into the accumulators. */
static uint64_t tame_accumulator(void)
{
    uint64_t code = CODE_FROM(groups);
    uint64_t a = field_a(code);

    switch (draw(8)) {
    case 0:
        return transfer_word();
    case 1:
        return halves(a, legal_address());
    default:
        return instruction(code, a, legal_address());
    }
}

static uint64_t random_accumulator(void)
{
    switch (draw(8)) {
    case 0:
    case 1:
        return legal_address();
    case 2:
        return ALL_ONES - draw(20);
    case 3:
        return pointer_word();
    case 4:
        return transfer_word();
    case 5:
        return random_word(draw(16));
    default:
        return edge();
    }
}

/* ---------------------------------------------------------------- layouts */

enum { BACKGROUND_BLOCKS = 64 };

static uint8_t background[BACKGROUND_BLOCKS * BLOCK_BYTES];

/* Random bytes for what a program does not touch, or only by straying. */
static void make_background(void)
{
    size_t k;

    random_state = SEED;
    for (k = 0; k < sizeof background; k++)
        background[k] = (uint8_t)draw64();
}

static void copy_background(uint64_t blocks)
{
    uint64_t k;

    for (k = 0; k < blocks; k++)
        memcpy(original_core + k * BLOCK_BYTES,
               background + draw(BACKGROUND_BLOCKS) * BLOCK_BYTES, BLOCK_BYTES);
    memset(original_core + blocks * BLOCK_BYTES, (int)draw(256), 9);
}

static void set_place(uint64_t place, uint64_t size)
{
    program.place = program.base = place;
    program.size = program.blocks = size;
}

static void choose_layout(uint64_t most_blocks)
{
    uint64_t blocks = 1 + draw(most_blocks);
    uint64_t place = draw(blocks);

    set_place(place, 1 + draw(blocks - place));
    program.core_len = blocks * BLOCK_BYTES + (chance(2) ? draw(9) : 0);
    program.record_len = RECORD_BYTES;
    program.reply_len = REPLY_BYTES;
    copy_background(blocks);
}

static void choose_accumulators(void)
{
    unsigned k;

    for (k = 0; k < 16; k++)
        program.numbers[k] = program.tame && !chance(8) ? tame_accumulator() : random_accumulator();
}

static void choose_flags(void)
{
    program.numbers[FLAGS] = USER | (chance(2) ? 0 : draw64() & LISTED_FLAGS);
}

/* Now and then the run reaches the allowance exactly, or would pass it by one step. */
static void choose_count(void)
{
    uint64_t count, rest;

    switch (draw(16)) {
    case 0:
        count = MAXIMUM_ALLOWANCE - program.steps;
        rest = program.steps;
        break;
    case 1:
        count = 0;
        rest = program.steps;
        break;
    case 2:
        count = draw(UINT64_C(10000000000));
        rest = chance(8) ? program.steps - 1 : program.steps + draw(3);
        break;
    default:
        count = draw(1000000);
        rest = program.steps + draw(1000000);
        break;
    }
    program.numbers[COUNT] = count;
    program.numbers[ALLOWANCE] = count + rest;
}

static void choose_record(uint64_t steps)
{
    program.steps = steps;
    choose_accumulators();
    choose_flags();
    choose_count();
}

/* ---------------------------------------------------------------- kind: mixed programs */

/* Every word of the place is likely to be an instruction, wherever the program jumps. */
static void fill_place(void)
{
    uint64_t a;

    for (a = 16; a < limit(); a++)
        put(a, random_word(a));
    if (chance(2))
        put(041, random_instruction_of(chance(2) ? 0256 : CODE_FROM(groups), 041));
}

static void choose_start(void)
{
    switch (draw(10)) {
    case 0:
        program.numbers[PC] = draw(16);
        break;
    case 1:
        program.numbers[PC] = limit() - 1 - draw(4);
        break;
    case 2:
        program.numbers[PC] = address_near(040);
        break;
    default:
        program.numbers[PC] = draw(limit());
        break;
    }
}

static void make_mixed(void)
{
    program.kind = "mixed";
    program.tame = !chance(3);
    program.calls = 1 + draw(10);
    choose_layout(chance(4) ? 3 : 1);
    choose_record(1 + draw(60));
    fill_place();
    choose_start();
}

/* ---------------------------------------------------------------- kind: single instructions */

static uint64_t any_installed_code(void)
{
    for (;;) {
        uint64_t code = 0200 + draw(0500);

        if ((code < 0220 || code > 0227) && (code < 0234 || code > 0237))
            return code;
    }
}

static uint64_t single_code(void)
{
    switch (draw(16)) {
    case 0:
        return CODE_FROM(stopping_groups);
    case 1:
    case 2:
    case 3:
    case 4:
    case 5:
    case 6:
        return CODE_FROM(groups);
    default:
        return any_installed_code();
    }
}

static uint64_t single_a(void)
{
    static const uint64_t some[] = {0, 0, 1, 2, 016, 017, 017};

    return chance(3) ? draw(16) : some[draw(sizeof some / sizeof some[0])];
}

/* Where a single instruction's E, its list or its block may lie. */
static uint64_t single_address(uint64_t a)
{
    switch (draw(12)) {
    case 0:
    case 1:
        return a;
    case 2:
        return (a + 1) % 16;
    case 3:
        return draw(16);
    case 4:
        return 017 + draw(3);
    case 5:
        return 040 + draw(2);
    case 6:
        return limit() - 1;
    case 7:
        return (limit() + draw(3)) & ADDRESS;
    case 8:
        return ADDRESS - draw(2);
    default:
        return 0200 + draw(0100);
    }
}

/* Whether E is a number rather than an address. */
static bool takes_number(uint64_t code)
{
    bool has_modes = (code >= 0200 && code <= 0237) || (code >= 0270 && code <= 0277) ||
                     (code >= 0400 && code <= 0577);

    if (has_modes)
        return (code & 3) == 1;
    return is_shift(code) || (code >= 0300 && code <= 0307) || (code >= 0600 && !(code & 010));
}

static uint64_t single_e(uint64_t code, uint64_t a, uint64_t ac)
{
    if (code == 0251) /* BLT: around the destination */
        return chance(4) ? single_address(a) : (ac + draw(12) - 3) & ADDRESS;
    if ((code >= 0300 && code <= 0307) && chance(2)) /* CAI: around the accumulator */
        return (ac + draw(3) - 1) & ADDRESS;
    return takes_number(code) || chance(16) ? immediate() : single_address(a);
}

static uint64_t single_accumulator(uint64_t code, uint64_t a)
{
    uint64_t address = single_address(a);

    switch (code) {
    case 0251: /* BLT */
        return chance(2) ? transfer_word() : halves(address, single_address(a));
    case 0252: /* AOBJP */
    case 0253: /* AOBJN */
        return chance(2) ? halves(count_half(), ADDRESS - a % 3) : pointer_word();
    case 0260: /* PUSHJ */
    case 0261: /* PUSH */
        return halves(count_half(), address - 1);
    case 0262: /* POP */
    case 0263: /* POPJ */
        return halves(count_half(), address);
    case 0267: /* JRA */
        return halves(address, draw(limit()));
    default:
        return edge();
    }
}

/* Puts the address `e` into a word: directly, by an index register, by an address word elsewhere,
   or by an address word that is indexed. Once in a while it is lost on the way. */
static uint64_t leading_to(uint64_t e)
{
    uint64_t x = 1 + draw(15);
    uint64_t by_index = x << 18 | ((e - right_half_of_accumulator(x)) & ADDRESS);
    uint64_t elsewhere = 0300 + draw(0100);

    if (chance(40))
        return INDIRECT | illegal_address();
    switch (draw(8)) {
    case 0:
        return by_index;
    case 1:
        put(elsewhere, address_word(e));
        return INDIRECT | elsewhere;
    case 2:
        put(elsewhere, address_word(by_index));
        return INDIRECT | elsewhere;
    case 3: /* both: the address word itself is found by an index register */
        put(elsewhere, address_word(e));
        return INDIRECT | x << 18 | ((elsewhere - right_half_of_accumulator(x)) & ADDRESS);
    default:
        return e;
    }
}

static void make_single(void)
{
    uint64_t code = single_code();
    uint64_t a = single_a();
    uint64_t here, ac, e;

    program.kind = "single";
    choose_layout(chance(8) ? 3 : 1);
    choose_record(chance(200) ? MAXIMUM_STEPS : 1 + draw(3));
    ac = single_accumulator(code, a);
    put(a, ac);
    put((a + 1) % 16, edge());
    e = single_e(code, a, ac);
    if (e >= 16)
        put(e, chance(6) ? ac : edge());
    here = chance(8) ? limit() - 1 : 0100 + draw(2);
    program.numbers[PC] = here;
    if (chance(4))
        put(041, random_instruction(041));
    put(here + 1, random_instruction(here + 1));
    if (code == 0254) /* JRST has no accumulator, but functions there */
        a = field_a(code);
    put(here, instruction(code, a, 0) | leading_to(e));
}

/* ---------------------------------------------------------------- kind: straight programs */

/* Operands lie in 400 to 777, and the instructions follow one another from 100, each set of them
   loading two accumulators and then working on them. */
enum { DATA = 0400, DATA_WORDS = 0400, LINE = 0100, LINE_WORDS = 60 };

static const struct group straight_groups[] = {
    {0200, 0217}, {0230, 0233}, {0230, 0233}, {0240, 0242}, {0244, 0246}, {0244, 0244},
    {0243, 0243}, {0250, 0250}, {0252, 0253}, {0270, 0277}, {0270, 0277}, {0300, 0377},
    {0400, 0477}, {0500, 0577}, {0600, 0677}, {0255, 0255},
};

static bool may_jump(uint64_t code)
{
    uint64_t group = code & 0770;

    return code == 0243 || code == 0252 || code == 0253 || code == 0255 || group == 0320 ||
           group == 0340 || group == 0360;
}

static uint64_t data_address(void)
{
    return DATA + draw(DATA_WORDS);
}

static uint64_t straight_instruction(uint64_t here, uint64_t a)
{
    uint64_t code = CODE_FROM(straight_groups);
    uint64_t e = data_address();

    if (takes_number(code))
        e = immediate();
    else if (may_jump(code))
        e = here + 1 + draw(3);
    else if (chance(6))
        e = chance(2) ? draw(16) : (a + draw(2)) % 16;
    return instruction(code, a, e);
}

static void make_straight(void)
{
    uint64_t here = LINE;
    uint64_t k;

    program.kind = "straight";
    choose_layout(1);
    choose_record(LINE_WORDS);
    for (k = 0; k < DATA_WORDS; k++)
        put(DATA + k, edge());
    program.numbers[PC] = here;
    while (here < LINE + LINE_WORDS) {
        uint64_t a = draw(16);
        uint64_t first = data_address();
        uint64_t second = chance(4) ? first : data_address();

        if (!chance(4)) {
            put(here, instruction(0255, 017, here + 1)); /* JFCL 17,.+1 clears flags */
            here++;
        }
        put(here, instruction(0200, a, first));                 /* MOVE */
        put(here + 1, instruction(0200, (a + 1) % 16, second)); /* MOVE */
        put(here + 2, straight_instruction(here + 2, a));
        here += 3;
    }
}

/* ---------------------------------------------------------------- kind: chains */

/* Links of a chain lie apart from each other in ways of their own. Accumulators 0 to 7 may hold
   links; 10 to 17 are for indexing and must not change any more when links are made. */
enum { LONGEST_CHAIN = 72 };

struct chain {
    uint64_t length;
    uint64_t at[LONGEST_CHAIN];
};

static uint64_t chain_length(void)
{
    return chance(3) ? 1 + draw(LONGEST_CHAIN - 2) : 62 + draw(5);
}

static struct chain choose_chain(uint64_t first, uint64_t length)
{
    struct chain c;
    uint64_t stride = 1 + draw(2);
    bool backward = chance(2);
    uint64_t accumulators = chance(3) ? draw(9) : 0;
    uint64_t k;

    c.length = length;
    for (k = 0; k < length; k++)
        c.at[k] = first + stride * (backward ? length - 1 - k : k);
    for (k = 0; k < accumulators && k < length; k++)
        c.at[length - 1 - k] = k;
    return c;
}

static uint64_t link_to(uint64_t address)
{
    uint64_t x = 010 + draw(8);

    if (chance(4))
        return x << 18 | ((address - right_half_of_accumulator(x)) & ADDRESS);
    return address;
}

/* Each word of the chain names the next; the last one gives `last`. */
static void put_address_chain(const struct chain *c, uint64_t last)
{
    uint64_t k;

    for (k = 0; k + 1 < c->length; k++)
        put(c->at[k], address_word(INDIRECT | link_to(c->at[k + 1])));
    put(c->at[c->length - 1], address_word(last));
    if (chance(4)) {
        k = c->length - 1 - draw(c->length < 4 ? c->length : 4);
        put(c->at[k], address_word(INDIRECT | link_to(illegal_address())));
    }
}

static uint64_t chain_code(void)
{
    if (chance(4))
        return 0254; /* JRST, which may take its flags from the end of the chain */
    return chance(8) ? CODE_FROM(stopping_groups) : CODE_FROM(groups);
}

static void make_address_chain(void)
{
    struct chain c = choose_chain(0300, chain_length());
    uint64_t code = chain_code();
    uint64_t a = field_a(code);
    uint64_t here = 0100;

    put_address_chain(&c, link_to(chance(8) ? illegal_address() : address_near(here)));
    if (chance(6)) /* a ring has no end */
        put(c.at[c.length - 1], INDIRECT | c.at[draw(c.length)]);
    put(here, instruction(code, a, 0) | INDIRECT | link_to(c.at[0]));
    program.numbers[PC] = here;
}

/* XCT ignores A. */
static uint64_t execute_word(uint64_t rest)
{
    return instruction(0256, draw(16), 0) | rest;
}

/* An executed word that leads on: XCT, or a user call with an XCT at 41. */
static uint64_t leading_word(uint64_t next, uint64_t k, uint64_t call_at)
{
    if (k != call_at)
        return execute_word(link_to(next));
    put(041, execute_word(link_to(next)));
    return random_user_call();
}

static void make_execute_chain(void)
{
    struct chain c = choose_chain(0300, chain_length());
    uint64_t call_at = chance(3) ? draw(c.length) : c.length;
    uint64_t last = c.length - 1;
    uint64_t k;

    for (k = 0; k < last; k++)
        put(c.at[k], leading_word(c.at[k + 1], k, call_at));
    if (chance(4)) /* a call at the end; what 41 has then is another question */
        put(c.at[last], random_user_call());
    else if (chance(4))
        put(c.at[last], execute_word(link_to(illegal_address())));
    else if (chance(8))
        put(c.at[last], execute_word(INDIRECT | link_to(illegal_address())));
    else
        put(c.at[last], random_instruction(c.at[last]));
    program.numbers[PC] = c.at[0];
}

/* XCTs that each have a long address chain: the limit is one calculation's, not the step's. */
static void make_chains_in_chain(void)
{
    uint64_t here = 0100;
    uint64_t k;

    program.numbers[PC] = here;
    for (k = 0; k < 3; k++) {
        struct chain c = choose_chain(0200 + 0220 * k, 20 + draw(46));

        put_address_chain(&c, link_to(here + 1));
        put(here, execute_word(INDIRECT | link_to(c.at[0])));
        here++;
    }
    put(here, random_instruction(here));
}

/* 41 leads back to itself in all sorts of ways. */
static void make_call_ring(void)
{
    uint64_t here = 0100;

    put(here, random_user_call());
    switch (draw(4)) {
    case 0:
        put(041, random_user_call());
        break;
    case 1:
        put(041, execute_word(041));
        break;
    case 2:
        put(041, execute_word(040)); /* the call itself again */
        break;
    default:
        put(041, random_instruction(041));
        break;
    }
    program.numbers[PC] = here;
}

static void make_chain(void)
{
    program.kind = "chain";
    choose_layout(2);
    choose_record(1 + draw(3));
    switch (draw(8)) {
    case 0:
        make_call_ring();
        break;
    case 1:
        make_chains_in_chain();
        break;
    case 2:
    case 3:
    case 4:
        make_execute_chain();
        break;
    default:
        make_address_chain();
        break;
    }
}

/* ---------------------------------------------------------------- kind: refusals */

/* Numbers that are wrong in 64 bits, and tempting to cut down to fewer. */
static uint64_t too_large(void)
{
    switch (draw(6)) {
    case 0:
        return UINT64_MAX - draw(3);
    case 1:
        return UINT64_C(1) << (32 + draw(32));
    case 2: /* a small number in the low 32 bits */
        return (UINT64_C(1) << 32) * (1 + draw(4)) | (program.number & 3);
    case 3:
        return (UINT64_C(1) << 54) + draw(3); /* 1,024 times this is beyond 64 bits */
    case 4:
        return UINT64_C(1) << 63;
    default:
        return draw64() | UINT64_C(1) << 40;
    }
}

static void damage_core_length(void)
{
    static const size_t lengths[] = {0, 1, 8, 9, 17, 4599, 4600, 4607, 4617, 4626, 9215, 9225};
    size_t length = lengths[draw(sizeof lengths / sizeof lengths[0])];

    if (length < program.core_len) /* what is passed must be there */
        program.core_len = length;
}

static void damage_place(void)
{
    uint64_t in_core = program.core_len / BLOCK_BYTES;

    switch (draw(7)) {
    case 0:
        program.blocks = 0;
        break;
    case 1:
        program.base = in_core;
        break;
    case 2:
        program.blocks = in_core - program.base + 1;
        break;
    case 3:
        program.base = too_large();
        break;
    case 4:
        program.blocks = too_large();
        break;
    case 5: /* their sum is 0 or 1 in 64 bits */
        program.base = 1 + draw(3);
        program.blocks = draw(2) - program.base;
        break;
    default:
        program.base = too_large();
        program.blocks = 0 - program.base + 1;
        break;
    }
}

static void damage_lengths(void)
{
    static const size_t records[] = {0, 1, 8, 152, 159, 161, 168, 200};
    static const size_t replies[] = {0, 1, 8, 16, 23, 25, 32, 40};

    if (chance(2))
        program.record_len = records[draw(8)];
    else
        program.reply_len = replies[draw(8)];
}

static void damage_flags(void)
{
    uint64_t *flags = &program.numbers[FLAGS];

    switch (draw(3)) {
    case 0:
        *flags &= ~USER;
        break;
    case 1: /* any one bit; a listed one other than User is no damage */
        *flags ^= UINT64_C(1) << draw(chance(4) ? 64 : 18);
        break;
    default:
        *flags = draw(2) ? too_large() | USER : draw64() & 0777777;
        break;
    }
}

static void damage_count(void)
{
    uint64_t *count = &program.numbers[COUNT];
    uint64_t *allowance = &program.numbers[ALLOWANCE];

    switch (draw(6)) {
    case 0:
        *count = *allowance + 1;
        break;
    case 1:
        *allowance = MAXIMUM_ALLOWANCE + 1;
        break;
    case 2:
        *allowance = too_large();
        *count = *allowance - draw(2);
        break;
    case 3:
        *count = too_large();
        break;
    case 4: /* one step too many */
        *count = draw(1000);
        *allowance = *count + program.steps - 1;
        break;
    default: /* the count at the allowance */
        *count = *allowance = draw(2) ? MAXIMUM_ALLOWANCE : draw(1000);
        break;
    }
}

static void damage_steps(void)
{
    static const uint64_t some[] = {0, MAXIMUM_STEPS + 1, UINT64_C(0x100000001), UINT64_MAX};

    program.steps = chance(3) ? too_large() : some[draw(4)];
}

static void damage(void)
{
    switch (draw(8)) {
    case 0:
        damage_core_length();
        break;
    case 1:
        damage_place();
        break;
    case 2:
        damage_lengths();
        break;
    case 3:
        program.numbers[program.number / 16 % 16] = chance(2) ? ALL_ONES + 1 : too_large();
        break;
    case 4:
        program.numbers[PC] = chance(2) ? ADDRESS + 1 : too_large();
        break;
    case 5:
        damage_flags();
        break;
    case 6:
        damage_count();
        break;
    default:
        damage_steps();
        break;
    }
}

static void make_refusal(void)
{
    uint64_t damages;

    make_mixed();
    program.kind = "refusal";
    for (damages = draw(4); damages > 0; damages--)
        damage();
}

/* ---------------------------------------------------------------- kind: large cores */

/* Puts an instruction at PC that touches, jumps to or skips to the end of the place. In a place
   of all 2^18 words that is the highest address there is, and 0 is the one after it. */
static void aim_at_end(void)
{
    static const struct group codes[] = {
        {0250, 0251}, {0260, 0267}, {0264, 0264}, {0266, 0266},
        {0304, 0304}, {0334, 0334}, {0254, 0256}, {0243, 0243},
    };
    uint64_t code = CODE_FROM(codes);
    uint64_t a = field_a(code);
    uint64_t from = chance(2) ? count_half() : limit() - 1 - draw(4);
    uint64_t to = limit() - 1 - draw(3);
    uint64_t e = limit() - 1 - (chance(3) ? 1 : 0);

    put(a, halves(from, to));
    put(program.numbers[PC], instruction(code, a, e));
}

/* A transfer whose source goes round from the highest address to 0. */
static void aim_around(void)
{
    uint64_t a = draw(16);
    uint64_t from = ADDRESS - draw(16);
    uint64_t e = 0300 + draw(0100);

    put(a, halves(from, 0300));
    put(program.numbers[PC], instruction(0251, a, e)); /* BLT */
}

/* The largest core, or one that is longer and cut, with the place at either end of it. */
static void make_large(void)
{
    uint64_t size = chance(4) ? 1 + draw(3) : MAXIMUM_BLOCKS;
    uint64_t place = chance(2) ? 0 : MAXIMUM_BLOCKS - size;
    uint64_t k;

    program.kind = "large";
    program.tame = true;
    program.record_len = RECORD_BYTES;
    program.reply_len = REPLY_BYTES;
    program.core_len = (size_t)MAXIMUM_BLOCKS * BLOCK_BYTES;
    if (chance(2))
        program.core_len += draw(BLOCK_BYTES);
    copy_background(MAXIMUM_BLOCKS + 1);
    set_place(place, size);
    choose_record(1 + draw(20));
    program.numbers[PC] = chance(4) ? 0100 : limit() - 1 - draw(4);
    for (k = 0; k < 32; k++) {
        put(0100 + k, random_instruction(0100 + k));
        put(limit() - 1 - k, random_instruction(limit() - 1 - k));
    }
    if (chance(2))
        aim_at_end();
    else if (chance(3))
        aim_around();
    if (chance(16)) /* a place past the words that count */
        program.base++;
}

/* ---------------------------------------------------------------- kind: long runs */

/* A loop that goes on for as many steps as are asked for. */
static void make_long(void)
{
    uint64_t here = 0100;
    const uint64_t body[] = {
        instruction(0201, 5, 0777777),       /* MOVEI 5,777777 */
        instruction(0270, 1, 0200),          /* ADD 1,200 */
        instruction(0245, 1, draw(72)),      /* ROTC 1, */
        instruction(0272, 1, 0200),          /* ADDM 1,200 */
        instruction(0230, 1, 0201),          /* IDIV 1,201 */
        instruction(0430, 1, 0202),          /* XOR 1,202 */
        instruction(0260, 017, 0113),        /* PUSHJ 17,113 */
        instruction(0350, 3, 0201),          /* AOS 3,201 */
        instruction(0367, 5, 0101),          /* SOJG 5,101 */
        instruction(0254, 0, 0100),          /* JRST 100 */
        instruction(0254, 0, 0100),          /* JRST 100 */
        instruction(0244, 2, 0777770),       /* 113: ASHC 2,-10 */
        instruction(0255, 017, 0115),        /* JFCL 17,115 */
        instruction(0263, 017, 0),           /* 115: POPJ 17, */
    };
    uint64_t k;

    program.kind = "long";
    choose_layout(2);
    choose_record(MAXIMUM_STEPS - draw(2) * 250000);
    put(017, halves(0700000, 0300));
    for (k = 0; k < sizeof body / sizeof body[0]; k++)
        put(here + k, body[k]);
    for (k = 0; k < 3; k++)
        put(0200 + k, draw64());
    program.numbers[PC] = here;
}

/* ---------------------------------------------------------------- making program number n */

typedef void maker(void);

static maker *maker_of(uint64_t number)
{
    static maker *const makers[16] = {
        make_single, make_mixed,    make_chain,  make_single, make_straight, make_mixed,
        make_single, make_refusal,  make_mixed,  make_single, make_chain,    make_single,
        make_mixed,  make_straight, make_single, make_mixed,
    };

    if (number % 512 == 511)
        return make_large;
    if (number % 32768 == 30000)
        return make_long;
    return makers[number % 16];
}

static void fill_buffers(void)
{
    size_t k;

    for (k = 0; k < RECORD_ROOM; k++)
        original_record[k] = (uint8_t)(k * 7 + program.number);
    for (k = 0; k < REPLY_ROOM; k++)
        original_reply[k] = (uint8_t)(k * 5 + program.number);
    for (k = 0; k < NUMBERS; k++)
        simulator_set_number(original_record, k, program.numbers[k]);
}

static void make_program(uint64_t number)
{
    random_state = seed_of(number);
    memset(&program, 0, sizeof program);
    program.number = number;
    program.calls = 1;
    maker_of(number)();
    fill_buffers();
}

/* ---------------------------------------------------------------- running both */

/* Each buffer stands between guards, which nobody may write. The library's copies begin at all
   alignments, since it is handed mere bytes. */
enum { GUARD = 32, SLACK = 8, GUARD_BYTE = 0xC3 };

struct copies {
    uint8_t core[CORE_ROOM + 2 * GUARD + SLACK];
    uint8_t record[RECORD_ROOM + 2 * GUARD + SLACK];
    uint8_t reply[REPLY_ROOM + 2 * GUARD + SLACK];
};

struct outcome {
    uint32_t result;
    uint8_t *core, *record, *reply; /* without their guards */
};

static uint8_t *guarded_copy(uint8_t *room, size_t offset, const uint8_t *from, size_t length)
{
    uint8_t *data = room + offset + GUARD;

    memset(data - GUARD, GUARD_BYTE, GUARD);
    memcpy(data, from, length);
    memset(data + length, GUARD_BYTE, GUARD);
    return data;
}

typedef uint32_t runner(uint8_t *core, size_t core_len, uint64_t base, uint64_t blocks,
                        uint64_t steps, uint8_t *record, size_t record_len, uint8_t *reply,
                        size_t reply_len);

/* The whole room of record and reply is copied, so that what lies past the stated length is
   compared too. */
static void copy_program(struct copies *c, size_t offset, struct outcome *o)
{
    o->core = guarded_copy(c->core, offset, original_core, program.core_len);
    o->record = guarded_copy(c->record, offset, original_record, RECORD_ROOM);
    o->reply = guarded_copy(c->reply, offset, original_reply, REPLY_ROOM);
}

static void run_with(runner *run, uint64_t steps, struct outcome *o)
{
    o->result = run(o->core, program.core_len, program.base, program.blocks, steps, o->record,
                    program.record_len, o->reply, program.reply_len);
}

static uint64_t stop_of(const struct outcome *o)
{
    return simulator_number(o->reply, 1);
}

/* Makes a program that a fault ended ready to be run on, behind the word at fault. */
static void pass_fault(struct outcome *o)
{
    if (stop_of(o) >= 3 && stop_of(o) <= 5)
        simulator_set_number(o->record, PC, (simulator_number(o->record, PC) + 1) & ADDRESS);
}

static bool same_with_guards(const uint8_t *a, const uint8_t *b, size_t length)
{
    return memcmp(a - GUARD, b - GUARD, length + 2 * GUARD) == 0;
}

static bool same(const struct outcome *a, const struct outcome *b)
{
    return a->result == b->result && same_with_guards(a->core, b->core, program.core_len) &&
           same_with_guards(a->record, b->record, RECORD_ROOM) &&
           same_with_guards(a->reply, b->reply, REPLY_ROOM);
}

/* ---------------------------------------------------------------- telling of a difference */

static void print_word(uint64_t w)
{
    if (w > ALL_ONES)
        printf("%" PRIu64, w);
    else
        printf("%06" PRIo64 ",,%06" PRIo64, w >> 18, w & ADDRESS);
}

static void print_pair(const char *what, uint64_t simulated, uint64_t library)
{
    printf("first difference: %s: simulator ", what);
    print_word(simulated);
    printf(", library ");
    print_word(library);
    printf("\n");
}

/* The first number in which two records or replies differ. */
static bool tell_numbers(const uint8_t *s, const uint8_t *l, const char *const *names, size_t n)
{
    size_t k;

    for (k = 0; k < n; k++) {
        uint64_t a = simulator_number(s, k);
        uint64_t b = simulator_number(l, k);

        if (a != b) {
            print_pair(names[k], a, b);
            return true;
        }
    }
    return false;
}

static bool tell_core(const uint8_t *s, const uint8_t *l)
{
    uint64_t a;

    for (a = 0; a < program.core_len / 9 * 2; a++) {
        uint64_t x = simulator_core_word(s, a);
        uint64_t y = simulator_core_word(l, a);

        if (x != y) {
            print_pair("core word", x, y);
            printf("at core address %06" PRIo64 ", user address %06" PRIo64 "\n", a,
                   (a - program.place * BLOCK_WORDS) & ADDRESS);
            return true;
        }
    }
    return false;
}

static void tell_difference(const struct outcome *s, const struct outcome *l)
{
    static const char *const reply_names[] = {"reply, steps done", "reply, stop", "reply, word"};
    static const char *const record_names[] = {
        "accumulator 0",  "accumulator 1",  "accumulator 2",  "accumulator 3",  "accumulator 4",
        "accumulator 5",  "accumulator 6",  "accumulator 7",  "accumulator 10", "accumulator 11",
        "accumulator 12", "accumulator 13", "accumulator 14", "accumulator 15", "accumulator 16",
        "accumulator 17", "PC",             "flags",          "count",          "allowance"};

    if (s->result != l->result)
        printf("first difference: result: simulator %" PRIu32 ", library %" PRIu32 "\n",
               s->result, l->result);
    else if (!tell_numbers(s->reply, l->reply, reply_names, 3) &&
             !tell_numbers(s->record, l->record, record_names, NUMBERS) &&
             !tell_core(s->core, l->core))
        printf("first difference: a byte left over, or outside the stated lengths\n");
}

/* ---------------------------------------------------------------- showing a program */

static void show_arguments(void)
{
    size_t k;

    printf("program %" PRIu64 " (%s), seed %#" PRIx64 "\n", program.number, program.kind,
           seed_of(program.number));
    printf("core of %zu bytes, base %" PRIu64 ", blocks %" PRIu64 ", steps %" PRIu64
           ", record of %zu bytes, reply of %zu bytes\n",
           program.core_len, program.base, program.blocks, program.steps, program.record_len,
           program.reply_len);
    for (k = 0; k < 16; k++) {
        printf("%s%02zo: ", k % 4 == 0 ? "  accumulator " : "   ", k);
        print_word(program.numbers[k]);
        if (k % 4 == 3)
            printf("\n");
    }
    printf("  PC %06" PRIo64 ", flags %06" PRIo64 ", count %" PRIu64 ", allowance %" PRIu64 "\n",
           program.numbers[PC], program.numbers[FLAGS], program.numbers[COUNT],
           program.numbers[ALLOWANCE]);
}

static uint64_t word_at(const uint8_t *core, const uint8_t *record, uint64_t address)
{
    if (address < 16)
        return simulator_number(record, address);
    return simulator_core_word(core, program.place * BLOCK_WORDS + address);
}

/* One step by the simulator. False at the end of the call that it belongs to. */
static bool show_step(uint64_t k, struct outcome *o)
{
    uint64_t pc = simulator_number(o->record, PC);

    printf("  step %2" PRIu64 ": PC %06" PRIo64, k, pc);
    if (pc < limit()) {
        printf(", word ");
        print_word(word_at(o->core, o->record, pc));
    }
    run_with(simulator_run, 1, o);
    if (o->result != 0) {
        printf(", refusal %" PRIu32 "\n", o->result);
        return false;
    }
    printf(", flags after %06" PRIo64 "\n", simulator_number(o->record, FLAGS));
    if (stop_of(o) == 0)
        return true;
    printf("  stop %" PRIu64 ", word ", stop_of(o));
    print_word(simulator_number(o->reply, 2));
    printf("\n");
    return false;
}

/* The same program once more, by the simulator alone and one step at a time. */
static void show_steps(struct copies *room, uint64_t calls)
{
    enum { MOST = 80 };
    struct outcome o;
    uint64_t call, k;

    copy_program(room, 0, &o);
    for (call = 1; call <= calls; call++) {
        printf("  call %" PRIu64 "\n", call);
        for (k = 1; k <= program.steps && k <= MOST; k++)
            if (!show_step(k, &o))
                break;
        if (o.result != 0)
            return;
        pass_fault(&o);
    }
}

/* ---------------------------------------------------------------- all programs */

static struct copies of_simulator, of_library;

static struct {
    uint64_t programs, steps;
    uint64_t stops[7];    /* of accepted calls */
    uint64_t refusals[13];
} tally;

static void count_outcome(const struct outcome *o)
{
    if (o->result != 0) {
        tally.refusals[o->result % 13]++;
        return;
    }
    tally.steps += simulator_number(o->reply, 0);
    tally.stops[stop_of(o) % 7]++;
}

static void tell_all(const struct outcome *s, const struct outcome *l, uint64_t calls)
{
    tell_difference(s, l);
    printf("in call %" PRIu64 " of\n", calls);
    show_arguments();
    show_steps(&of_simulator, calls);
}

/* True if both agree. */
static bool compare_program(uint64_t number)
{
    struct outcome s, l;
    uint64_t call;

    make_program(number);
    copy_program(&of_simulator, 0, &s);
    copy_program(&of_library, number % SLACK, &l);
    for (call = 1; call <= program.calls; call++) {
        run_with(simulator_run, program.steps, &s);
        run_with(ka10_run, program.steps, &l);
        if (!same(&s, &l)) {
            tell_all(&s, &l, call);
            return false;
        }
        count_outcome(&s);
        if (s.result != 0)
            break;
        pass_fault(&s);
        pass_fault(&l);
    }
    tally.programs++;
    return true;
}

static void show_tally(void)
{
    static const unsigned refusals[] = {1, 3, 6, 11, 12};
    unsigned k;

    printf("stops:");
    for (k = 0; k < 7; k++)
        printf(" %u: %" PRIu64 "%s", k, tally.stops[k], k < 6 ? "," : "");
    printf("; refusals:");
    for (k = 0; k < 5; k++)
        printf(" %u: %" PRIu64 "%s", refusals[k], tally.refusals[refusals[k]], k < 4 ? "," : "");
    printf("\n");
}

/* A library that crashes, or does not come back, should at least tell where. */
static void on_signal(int which)
{
    printf("signal %d in program %" PRIu64 " (%s), seed %#" PRIx64 "\n", which, program.number,
           program.kind, seed_of(program.number));
    fflush(stdout);
    _Exit(1);
}

static void watch_signals(void)
{
    signal(SIGSEGV, on_signal);
    signal(SIGBUS, on_signal);
    signal(SIGABRT, on_signal);
    signal(SIGILL, on_signal);
    signal(SIGFPE, on_signal);
    signal(SIGALRM, on_signal);
}

static int compare_one(uint64_t number)
{
    if (!compare_program(number))
        return 1;
    show_arguments();
    show_steps(&of_simulator, program.calls);
    printf("no difference\n");
    return 0;
}

static int compare_all(void)
{
    enum { AT_ONCE = 1000, SECONDS = 120 };
    uint64_t number;

    for (number = 0; number < PROGRAMS; number++) {
        if (number % AT_ONCE == 0)
            alarm(SECONDS);
        if (!compare_program(number)) {
            printf("%" PRIu64 " programs and %" PRIu64 " steps before had no difference\n",
                   tally.programs, tally.steps);
            return 1;
        }
    }
    show_tally();
    printf("compared %" PRIu64 " programs, %" PRIu64 " steps: no difference\n", tally.programs,
           tally.steps);
    return 0;
}

int main(int argc, char **argv)
{
    watch_signals();
    make_background();
    return argc > 1 ? compare_one(strtoull(argv[1], NULL, 10)) : compare_all();
}
