/*
 * A user-mode simulator of the DEC PDP-10 with the KA10 processor: see simulator.h.
 *
 * It is a plain interpreter. The program's words lie in one array, indexed by user address, whose
 * first sixteen elements are the accumulators. A run copies record and core into that array, does
 * the steps there, and copies everything back.
 *
 * Constants that belong to the machine are octal, as the machine's own are.
 */
#include "simulator.h"

#include <stdbool.h>

/* ---------------------------------------------------------------- words */

typedef uint64_t Word; /* always below 2^36; bit 0 of the machine is 2^35 here */
typedef uint32_t Half; /* always below 2^18: half a word, or an address */

#define ALL_ONES UINT64_C(0777777777777)
#define SIGN UINT64_C(0400000000000)
#define MAGNITUDE UINT64_C(0377777777777)
#define HALF_ONES 0777777u
#define HALF_SIGN 0400000u

/* One more in both halves at once: what AOBJP, AOBJN, PUSH and PUSHJ add. It is one addition over
   the whole word, so a carry goes from the right half into the left one. */
#define ONE_IN_BOTH_HALVES UINT64_C(0000001000001)

static Half left(Word w)
{
    return (Half)(w >> 18);
}

static Half right(Word w)
{
    return (Half)(w & HALF_ONES);
}

static Word halves(Half l, Half r)
{
    return (Word)l << 18 | r;
}

static Word swapped(Word w)
{
    return halves(right(w), left(w));
}

static int64_t signed_value(Word w)
{
    return (w & SIGN) ? (int64_t)w - ((int64_t)1 << 36) : (int64_t)w;
}

static Word word_of(int64_t value)
{
    return (Word)value & ALL_ONES;
}

static Half plus(Half address, Half more)
{
    return (address + more) & HALF_ONES;
}

/* ---------------------------------------------------------------- the machine */

enum {
    ACCUMULATORS = 16,
    BLOCK_WORDS = 1024,
    MAXIMUM_WORDS = 262144,
    MAXIMUM_ADDRESS_WORDS = 64,  /* in one calculation of an effective address */
    MAXIMUM_EXECUTED_WORDS = 64, /* in one step */
    CALL_ADDRESS = 040,          /* where codes 001-037 store the call ... */
    CALL_HANDLER = 041           /* ... and whose word they execute */
};

enum { /* the flags are a left half */
    OVERFLOW = 0400000,
    CARRY_0 = 0200000,
    CARRY_1 = 0100000,
    FLOATING_OVERFLOW = 0040000,
    BYTE_INTERRUPT = 0020000,
    USER = 0010000,
    FLOATING_UNDERFLOW = 0000100,
    NO_DIVIDE = 0000040,
    LISTED_FLAGS = OVERFLOW | CARRY_0 | CARRY_1 | FLOATING_OVERFLOW | BYTE_INTERRUPT | USER |
                   FLOATING_UNDERFLOW | NO_DIVIDE
};

enum {
    NO_STOP = 0,
    MONITOR_CALL = 1,
    NOT_INSTALLED = 2,
    ILLEGAL_ADDRESS = 3,
    ADDRESS_CHAIN_TOO_LONG = 4,
    EXECUTE_CHAIN_TOO_LONG = 5,
    PUSHDOWN_OVERFLOW = 6
};

struct machine {
    Word user[MAXIMUM_WORDS]; /* by user address; 0 to 15 are the accumulators */
    size_t legal;             /* user addresses below this are legal */
    Half pc;
    Half flags;
    unsigned stop;
    Word stop_word;
};

/* An executed word, taken apart, with its effective address worked out. */
struct instruction {
    Word word;
    unsigned code; /* bits 0-8 */
    unsigned a;    /* bits 9-12, mostly the number of an accumulator */
    Half e;        /* the effective address E */
    bool has_flags; /* whether the calculation of E left a word to take flags from (JRST) */
    Word flags;     /* that word */
};

static void stop(struct machine *m, unsigned why, Word word)
{
    m->stop = why;
    m->stop_word = word;
}

static bool is_legal(struct machine *m, Half address)
{
    if (address < m->legal)
        return true;
    stop(m, ILLEGAL_ADDRESS, address);
    return false;
}

/* False means that the machine is stopped, and that the caller must do nothing more. */
static bool fetch(struct machine *m, Half address, Word *word)
{
    if (!is_legal(m, address))
        return false;
    *word = m->user[address];
    return true;
}

/* The same holds here. Since every instruction stores at most once, and before it changes an
   accumulator, one that fails here has written nothing. */
static bool store(struct machine *m, Half address, Word word)
{
    if (!is_legal(m, address))
        return false;
    m->user[address] = word;
    return true;
}

static Word accumulator(const struct machine *m, const struct instruction *i)
{
    return m->user[i->a];
}

static void set_accumulator(struct machine *m, const struct instruction *i, Word word)
{
    m->user[i->a] = word;
}

/* The accumulator after 17 is 0. */
static unsigned next_number(const struct instruction *i)
{
    return (i->a + 1) % ACCUMULATORS;
}

static Word next_accumulator(const struct machine *m, const struct instruction *i)
{
    return m->user[next_number(i)];
}

static void set_next_accumulator(struct machine *m, const struct instruction *i, Word word)
{
    m->user[next_number(i)] = word;
}

static void jump(struct machine *m, Half address)
{
    m->pc = address; /* its legality is a matter of the next fetch */
}

static void skip(struct machine *m)
{
    m->pc = plus(m->pc, 1);
}

/* What subroutine calls save. PC already points behind the instruction. */
static Word pc_word(const struct machine *m)
{
    return halves(m->flags, m->pc);
}

/* ---------------------------------------------------------------- modes */

/* The two lowest bits of a code are its mode wherever a group has modes. The last one is "self"
   in the moves and half words, and "both" in arithmetic and in the Boolean instructions. */
enum { BASIC = 0, IMMEDIATE = 1, MEMORY = 2, SELF = 3, BOTH = 3 };

static unsigned mode_of(const struct instruction *i)
{
    return i->code & 3;
}

/* The operand beside the accumulator, in groups with a "both" mode. */
static bool operand(struct machine *m, const struct instruction *i, Word *word)
{
    if (mode_of(i) == IMMEDIATE) {
        *word = i->e;
        return true;
    }
    return fetch(m, i->e, word);
}

/* The result goes to E in memory mode, to E and then A in both mode, and else to A. */
static bool deliver(struct machine *m, const struct instruction *i, Word result)
{
    unsigned mode = mode_of(i);

    if ((mode == MEMORY || mode == BOTH) && !store(m, i->e, result))
        return false;
    if (mode != MEMORY)
        set_accumulator(m, i, result);
    return true;
}

/* ---------------------------------------------------------------- addition */

/* x + y + carry_in, where carry_in is 0 or 1. Carry 0 is the carry out of bit 0, Carry 1 the one
   out of bit 1. They differ exactly when the signed sum does not fit; flags are only ever set. */
static Word add(struct machine *m, Word x, Word y, Word carry_in)
{
    Word sum = x + y + carry_in;
    bool carry_0 = sum > ALL_ONES;
    bool carry_1 = (x & MAGNITUDE) + (y & MAGNITUDE) + carry_in > MAGNITUDE;

    if (carry_0)
        m->flags |= CARRY_0;
    if (carry_1)
        m->flags |= CARRY_1;
    if (carry_0 != carry_1)
        m->flags |= OVERFLOW;
    return sum & ALL_ONES;
}

static Word subtract(struct machine *m, Word x, Word y)
{
    return add(m, x, ~y & ALL_ONES, 1);
}

static Word negate(struct machine *m, Word x)
{
    return add(m, ~x & ALL_ONES, 1, 0);
}

static Word increment(struct machine *m, Word x)
{
    return add(m, x, 1, 0);
}

static Word decrement(struct machine *m, Word x)
{
    return add(m, x, ALL_ONES, 0);
}

/* ---------------------------------------------------------------- 200-217 moves */

/* The word to be moved is E's, but 0,,E in immediate and the accumulator in memory mode, which
   reads nothing at E. */
static bool move_source(struct machine *m, const struct instruction *i, Word *word)
{
    switch (mode_of(i)) {
    case IMMEDIATE:
        *word = i->e;
        return true;
    case MEMORY:
        *word = accumulator(m, i);
        return true;
    default:
        return fetch(m, i->e, word);
    }
}

static Word moved_word(struct machine *m, unsigned code, Word w)
{
    switch (code & 0774) {
    case 0200: /* MOVE */
        return w;
    case 0204: /* MOVS */
        return swapped(w);
    case 0210: /* MOVN */
        return negate(m, w);
    default: /* 214 MOVM: a word that is not negative is no addition and sets no flag */
        return (w & SIGN) ? negate(m, w) : w;
    }
}

/* Self mode writes E, and A too unless A is 0. */
static void move(struct machine *m, const struct instruction *i)
{
    unsigned mode = mode_of(i);
    Word w;

    if (!move_source(m, i, &w))
        return;
    w = moved_word(m, i->code, w);
    if ((mode == MEMORY || mode == SELF) && !store(m, i->e, w))
        return;
    if (mode == BASIC || mode == IMMEDIATE || (mode == SELF && i->a != 0))
        set_accumulator(m, i, w);
}

/* ---------------------------------------------------------------- 230-233 IDIV */

/* -2^35 by 1 does not divide either: the machine divides magnitudes, and this one has no room. */
static bool divides(int64_t dividend, int64_t divisor)
{
    const int64_t lowest = -((int64_t)1 << 35);

    if (divisor == 0)
        return false;
    return !(dividend == lowest && (divisor == 1 || divisor == -1));
}

/* C divides as the machine does: the quotient is cut toward zero, and the remainder has the sign
   of the dividend. The remainder is kept only where A receives the quotient. */
static void integer_divide(struct machine *m, const struct instruction *i)
{
    Word w;
    int64_t dividend, divisor;

    if (!operand(m, i, &w))
        return;
    dividend = signed_value(accumulator(m, i));
    divisor = signed_value(w);
    if (!divides(dividend, divisor)) {
        m->flags |= OVERFLOW | NO_DIVIDE;
        return;
    }
    if (!deliver(m, i, word_of(dividend / divisor)))
        return;
    if (mode_of(i) != MEMORY)
        set_next_accumulator(m, i, word_of(dividend % divisor));
}

/* ---------------------------------------------------------------- 240-246 shifts */

/* Shifts are done place by place, as the machine does them: at most 255 places, and no special
   case for a shift that is longer than the register. */

struct pair {
    Word high, low; /* the accumulators A and A+1 */
};

typedef struct pair place_shift(struct machine *m, struct pair p);

static Word bit_if(bool on, Word bit)
{
    return on ? bit : 0;
}

/* 240 ASH: the sign stays, and a bit lost at the left that differs from it is an overflow. */
static struct pair ash_left(struct machine *m, struct pair p)
{
    Word sign = p.high & SIGN;

    if (((p.high << 1) & SIGN) != sign)
        m->flags |= OVERFLOW;
    p.high = sign | ((p.high << 1) & MAGNITUDE);
    return p;
}

static struct pair ash_right(struct machine *m, struct pair p)
{
    (void)m;
    p.high = (p.high & SIGN) | p.high >> 1;
    return p;
}

/* 241 ROT */
static struct pair rot_left(struct machine *m, struct pair p)
{
    (void)m;
    p.high = ((p.high << 1) & ALL_ONES) | p.high >> 35;
    return p;
}

static struct pair rot_right(struct machine *m, struct pair p)
{
    (void)m;
    p.high = p.high >> 1 | bit_if(p.high & 1, SIGN);
    return p;
}

/* 242 LSH */
static struct pair lsh_left(struct machine *m, struct pair p)
{
    (void)m;
    p.high = (p.high << 1) & ALL_ONES;
    return p;
}

static struct pair lsh_right(struct machine *m, struct pair p)
{
    (void)m;
    p.high >>= 1;
    return p;
}

/* 244 ASHC: 70 bits move, bits 1-35 of both words. Bit 0 of the second word takes no part; it
   becomes equal to bit 0 of the first as soon as there is a place to move. */
static struct pair ashc_left(struct machine *m, struct pair p)
{
    Word sign = p.high & SIGN;
    bool into_high = (p.low << 1) & SIGN; /* bit 1 of the second word */

    if (((p.high << 1) & SIGN) != sign)
        m->flags |= OVERFLOW;
    p.high = sign | ((p.high << 1) & MAGNITUDE) | bit_if(into_high, 1);
    p.low = sign | ((p.low << 1) & MAGNITUDE);
    return p;
}

static struct pair ashc_right(struct machine *m, struct pair p)
{
    Word sign = p.high & SIGN;
    bool into_low = p.high & 1;

    (void)m;
    p.high = sign | p.high >> 1;
    p.low = sign | bit_if(into_low, SIGN >> 1) | (p.low & MAGNITUDE) >> 1;
    return p;
}

/* 245 ROTC */
static struct pair rotc_left(struct machine *m, struct pair p)
{
    bool out_of_high = p.high & SIGN;
    bool out_of_low = p.low & SIGN;

    (void)m;
    p.high = ((p.high << 1) & ALL_ONES) | bit_if(out_of_low, 1);
    p.low = ((p.low << 1) & ALL_ONES) | bit_if(out_of_high, 1);
    return p;
}

static struct pair rotc_right(struct machine *m, struct pair p)
{
    bool out_of_high = p.high & 1;
    bool out_of_low = p.low & 1;

    (void)m;
    p.high = p.high >> 1 | bit_if(out_of_low, SIGN);
    p.low = p.low >> 1 | bit_if(out_of_high, SIGN);
    return p;
}

/* 246 LSHC */
static struct pair lshc_left(struct machine *m, struct pair p)
{
    bool out_of_low = p.low & SIGN;

    (void)m;
    p.high = ((p.high << 1) & ALL_ONES) | bit_if(out_of_low, 1);
    p.low = (p.low << 1) & ALL_ONES;
    return p;
}

static struct pair lshc_right(struct machine *m, struct pair p)
{
    bool out_of_high = p.high & 1;

    (void)m;
    p.high >>= 1;
    p.low = p.low >> 1 | bit_if(out_of_high, SIGN);
    return p;
}

/* Bit 18 of E is the direction; the number of places is the magnitude modulo 256. */
static struct pair shifted(struct machine *m, Half e, struct pair p, place_shift *to_left,
                           place_shift *to_right)
{
    bool leftward = !(e & HALF_SIGN);
    Half places = (leftward ? e : HALF_ONES + 1 - e) % 256;

    for (; places > 0; places--)
        p = leftward ? to_left(m, p) : to_right(m, p);
    return p;
}

static void shift_one(struct machine *m, const struct instruction *i, place_shift *to_left,
                      place_shift *to_right)
{
    struct pair p = {accumulator(m, i), 0};

    p = shifted(m, i->e, p, to_left, to_right);
    set_accumulator(m, i, p.high);
}

static void shift_two(struct machine *m, const struct instruction *i, place_shift *to_left,
                      place_shift *to_right)
{
    struct pair p = {accumulator(m, i), next_accumulator(m, i)};

    p = shifted(m, i->e, p, to_left, to_right);
    set_accumulator(m, i, p.high);
    set_next_accumulator(m, i, p.low);
}

/* ---------------------------------------------------------------- 243, 250-253 */

/* 243 JFFO: A+1 receives the number of zeros left of the first 1 in A, and E is the next address.
   A word without a 1 gives 0 there, and no jump. */
static void jump_if_find_first_one(struct machine *m, const struct instruction *i)
{
    Word w = accumulator(m, i);
    Word zeros = 0;

    if (w != 0) {
        while (!(w & SIGN)) {
            w <<= 1;
            zeros++;
        }
        jump(m, i->e);
    }
    set_next_accumulator(m, i, zeros);
}

/* 250 EXCH */
static void exchange(struct machine *m, const struct instruction *i)
{
    Word from_memory;

    if (!fetch(m, i->e, &from_memory))
        return;
    if (!store(m, i->e, accumulator(m, i)))
        return;
    set_accumulator(m, i, from_memory);
}

/* 251 BLT: A holds source,,destination. The addresses are taken from it once, so a word moved
   into A does not turn the transfer aside. At least one word is moved, and since E has 18 bits
   the destination cannot run past E by wrapping around. */
static void block_transfer(struct machine *m, const struct instruction *i)
{
    Half from = left(accumulator(m, i));
    Half to = right(accumulator(m, i));
    Word w;

    while (fetch(m, from, &w) && store(m, to, w)) {
        if (to >= i->e)
            return;
        from = plus(from, 1);
        to = plus(to, 1);
    }
}

/* 252 AOBJP, 253 AOBJN: no flag is set by this addition. */
static void add_one_to_both_and_jump(struct machine *m, const struct instruction *i)
{
    Word w = (accumulator(m, i) + ONE_IN_BOTH_HALVES) & ALL_ONES;
    bool negative = w & SIGN;

    set_accumulator(m, i, w);
    if (negative == (i->code == 0253))
        jump(m, i->e);
}

/* ---------------------------------------------------------------- 254 JRST, 255 JFCL */

static Word call_word(const struct instruction *i)
{
    const Word bits_0_to_12 = UINT64_C(0777740000000);

    return (i->word & bits_0_to_12) | i->e;
}

/* 254 JRST: bits 9 and 10 concern the interrupt system and halting, so they call the monitor.
   Bit 11 restores the flags, but no word can turn User off. Bit 12 only matters outside user
   mode. */
static void jump_and_restore(struct machine *m, const struct instruction *i)
{
    if (i->a & 014) {
        stop(m, MONITOR_CALL, call_word(i));
        return;
    }
    if ((i->a & 002) && i->has_flags)
        m->flags = (left(i->flags) & LISTED_FLAGS) | USER;
    jump(m, i->e);
}

/* 255 JFCL: bits 9-12 select flags. */
static void jump_on_flag_and_clear(struct machine *m, const struct instruction *i)
{
    Half selected = 0;

    if (i->a & 010)
        selected |= OVERFLOW;
    if (i->a & 004)
        selected |= CARRY_0;
    if (i->a & 002)
        selected |= CARRY_1;
    if (i->a & 001)
        selected |= FLOATING_OVERFLOW;
    if (m->flags & selected) {
        m->flags &= ~selected;
        jump(m, i->e);
    }
}

/* ---------------------------------------------------------------- 260-267 subroutines */

/* Stop 6 leaves the instruction done; it only tells that a count in the left half ran out. */
static void warn_after_push(struct machine *m, Word pointer)
{
    if (left(pointer) == 0)
        stop(m, PUSHDOWN_OVERFLOW, 0);
}

static void warn_after_pop(struct machine *m, Word pointer)
{
    if (left(pointer) == HALF_ONES)
        stop(m, PUSHDOWN_OVERFLOW, 0);
}

static Word pushed(Word pointer)
{
    return (pointer + ONE_IN_BOTH_HALVES) & ALL_ONES;
}

static Word popped(Word pointer)
{
    return (pointer - ONE_IN_BOTH_HALVES) & ALL_ONES;
}

/* 260 PUSHJ */
static void push_and_jump(struct machine *m, const struct instruction *i)
{
    Word pointer = pushed(accumulator(m, i));

    if (!store(m, right(pointer), pc_word(m)))
        return;
    set_accumulator(m, i, pointer);
    m->flags &= ~(Half)BYTE_INTERRUPT;
    jump(m, i->e);
    warn_after_push(m, pointer);
}

/* 261 PUSH */
static void push(struct machine *m, const struct instruction *i)
{
    Word pointer = pushed(accumulator(m, i));
    Word w;

    if (!fetch(m, i->e, &w) || !store(m, right(pointer), w))
        return;
    set_accumulator(m, i, pointer);
    warn_after_push(m, pointer);
}

/* 262 POP */
static void pop(struct machine *m, const struct instruction *i)
{
    Word pointer = accumulator(m, i);
    Word w;

    if (!fetch(m, right(pointer), &w) || !store(m, i->e, w))
        return;
    pointer = popped(pointer);
    set_accumulator(m, i, pointer);
    warn_after_pop(m, pointer);
}

/* 263 POPJ: only the address is taken from the word, the flags stay. */
static void pop_and_jump(struct machine *m, const struct instruction *i)
{
    Word pointer = accumulator(m, i);
    Word w;

    if (!fetch(m, right(pointer), &w))
        return;
    pointer = popped(pointer);
    set_accumulator(m, i, pointer);
    jump(m, right(w));
    warn_after_pop(m, pointer);
}

/* 264 JSR: A is ignored. */
static void jump_to_subroutine(struct machine *m, const struct instruction *i)
{
    if (!store(m, i->e, pc_word(m)))
        return;
    m->flags &= ~(Half)BYTE_INTERRUPT;
    jump(m, plus(i->e, 1));
}

/* 265 JSP */
static void jump_and_save_pc(struct machine *m, const struct instruction *i)
{
    set_accumulator(m, i, pc_word(m));
    m->flags &= ~(Half)BYTE_INTERRUPT;
    jump(m, i->e);
}

/* 266 JSA: the flags are neither saved nor changed. */
static void jump_and_save_accumulator(struct machine *m, const struct instruction *i)
{
    if (!store(m, i->e, accumulator(m, i)))
        return;
    set_accumulator(m, i, halves(i->e, m->pc));
    jump(m, plus(i->e, 1));
}

/* 267 JRA */
static void jump_and_restore_accumulator(struct machine *m, const struct instruction *i)
{
    Word w;

    if (!fetch(m, left(accumulator(m, i)), &w))
        return;
    set_accumulator(m, i, w);
    jump(m, i->e);
}

/* ---------------------------------------------------------------- 270-277 ADD, SUB */

static void add_or_subtract(struct machine *m, const struct instruction *i)
{
    Word w;
    Word ac = accumulator(m, i);

    if (!operand(m, i, &w))
        return;
    if ((i->code & 0774) == 0270)
        deliver(m, i, add(m, ac, w, 0)); /* 270 ADD */
    else
        deliver(m, i, subtract(m, ac, w)); /* 274 SUB */
}

/* ---------------------------------------------------------------- 300-377 arithmetic tests */

/* The lowest digit of these codes is the condition, on signed numbers. */
static bool condition_holds(unsigned code, Word x, Word y)
{
    int64_t a = signed_value(x);
    int64_t b = signed_value(y);

    switch (code & 7) {
    case 0: /* never */
        return false;
    case 1: /* L */
        return a < b;
    case 2: /* E */
        return a == b;
    case 3: /* LE */
        return a <= b;
    case 4: /* A, always */
        return true;
    case 5: /* GE */
        return a >= b;
    case 6: /* N */
        return a != b;
    default: /* 7 G */
        return a > b;
    }
}

static void skip_if(struct machine *m, const struct instruction *i, Word x, Word y)
{
    if (condition_holds(i->code, x, y))
        skip(m);
}

static void jump_if(struct machine *m, const struct instruction *i, Word x)
{
    if (condition_holds(i->code, x, 0))
        jump(m, i->e);
}

/* 310-317 CAM: the word is read even where the condition does not need it. */
static void compare_memory(struct machine *m, const struct instruction *i)
{
    Word w;

    if (fetch(m, i->e, &w))
        skip_if(m, i, accumulator(m, i), w);
}

/* 330-337 SKIP: likewise, and A = 0 means that no accumulator is loaded. */
static void skip_on_memory(struct machine *m, const struct instruction *i)
{
    Word w;

    if (!fetch(m, i->e, &w))
        return;
    if (i->a != 0)
        set_accumulator(m, i, w);
    skip_if(m, i, w, 0);
}

/* 350-357 AOS, 370-377 SOS */
static void change_memory_and_skip(struct machine *m, const struct instruction *i,
                                   Word (*change)(struct machine *, Word))
{
    Word w;

    if (!fetch(m, i->e, &w))
        return;
    w = change(m, w);
    if (!store(m, i->e, w))
        return;
    if (i->a != 0)
        set_accumulator(m, i, w);
    skip_if(m, i, w, 0);
}

/* 340-347 AOJ, 360-367 SOJ */
static void change_accumulator_and_jump(struct machine *m, const struct instruction *i,
                                        Word (*change)(struct machine *, Word))
{
    Word w = change(m, accumulator(m, i));

    set_accumulator(m, i, w);
    jump_if(m, i, w);
}

static void arithmetic_test(struct machine *m, const struct instruction *i)
{
    switch (i->code & 0770) {
    case 0300: /* CAI: compares with the word 0,,E, so E is never negative */
        skip_if(m, i, accumulator(m, i), i->e);
        break;
    case 0310: /* CAM */
        compare_memory(m, i);
        break;
    case 0320: /* JUMP */
        jump_if(m, i, accumulator(m, i));
        break;
    case 0330: /* SKIP */
        skip_on_memory(m, i);
        break;
    case 0340: /* AOJ */
        change_accumulator_and_jump(m, i, increment);
        break;
    case 0350: /* AOS */
        change_memory_and_skip(m, i, increment);
        break;
    case 0360: /* SOJ */
        change_accumulator_and_jump(m, i, decrement);
        break;
    default: /* 370 SOS */
        change_memory_and_skip(m, i, decrement);
        break;
    }
}

/* ---------------------------------------------------------------- 400-477 Boolean */

static Word boolean_function(unsigned code, Word x, Word ac)
{
    switch (code & 0774) {
    case 0400: /* SETZ */
        return 0;
    case 0404: /* AND */
        return x & ac;
    case 0410: /* ANDCA */
        return x & ~ac & ALL_ONES;
    case 0414: /* SETM */
        return x;
    case 0420: /* ANDCM */
        return ~x & ac & ALL_ONES;
    case 0424: /* SETA */
        return ac;
    case 0430: /* XOR */
        return x ^ ac;
    case 0434: /* IOR */
        return x | ac;
    case 0440: /* ANDCB */
        return ~x & ~ac & ALL_ONES;
    case 0444: /* EQV */
        return ~(x ^ ac) & ALL_ONES;
    case 0450: /* SETCA */
        return ~ac & ALL_ONES;
    case 0454: /* ORCA */
        return (x | ~ac) & ALL_ONES;
    case 0460: /* SETCM */
        return ~x & ALL_ONES;
    case 0464: /* ORCM */
        return (~x | ac) & ALL_ONES;
    case 0470: /* ORCB */
        return (~x | ~ac) & ALL_ONES;
    default: /* 474 SETO */
        return ALL_ONES;
    }
}

/* These four need no operand, so they read nothing at E, and an illegal E only matters to them
   where they store there. */
static bool ignores_operand(unsigned code)
{
    switch (code & 0774) {
    case 0400: /* SETZ */
    case 0424: /* SETA */
    case 0450: /* SETCA */
    case 0474: /* SETO */
        return true;
    default:
        return false;
    }
}

static void boolean(struct machine *m, const struct instruction *i)
{
    Word w = 0;

    if (!ignores_operand(i->code) && !operand(m, i, &w))
        return;
    deliver(m, i, boolean_function(i->code, w, accumulator(m, i)));
}

/* ---------------------------------------------------------------- 500-577 half words */

/* The middle digit of the code, modulo 4, says what happens to the other half. */
enum { KEEP = 0, ZEROS = 1, ONES = 2, EXTEND = 3 };

static unsigned other_half_of(unsigned code)
{
    return (code >> 3) & 3;
}

/* 500-537 move to the left half and 540-577 to the right one; codes ending in 0 to 3 take the
   half of the same side (HLL, HRR), those in 4 to 7 the opposite one (HRL, HLR). */
static Word half_moved(unsigned code, Word source, Word destination)
{
    bool to_right = code & 040;
    bool crosses = code & 004;
    bool from_right = to_right != crosses;
    Half half = from_right ? right(source) : left(source);
    Half other = to_right ? left(destination) : right(destination);

    switch (other_half_of(code)) {
    case ZEROS:
        other = 0;
        break;
    case ONES:
        other = HALF_ONES;
        break;
    case EXTEND:
        other = (half & HALF_SIGN) ? HALF_ONES : 0;
        break;
    default: /* KEEP */
        break;
    }
    return to_right ? halves(other, half) : halves(half, other);
}

/* Memory mode must read E only to keep the other half of it. */
static void half_word_to_memory(struct machine *m, const struct instruction *i)
{
    Word destination = 0;

    if (other_half_of(i->code) == KEEP && !fetch(m, i->e, &destination))
        return;
    store(m, i->e, half_moved(i->code, accumulator(m, i), destination));
}

/* Self mode has two destinations if A is not 0, and where the other half is kept each keeps its
   own. So HLLS does to A what HLL does, and HRRS what HRR does. */
static void half_word_to_self(struct machine *m, const struct instruction *i)
{
    Word source;
    Word ac = accumulator(m, i);

    if (!fetch(m, i->e, &source))
        return;
    if (!store(m, i->e, half_moved(i->code, source, source)))
        return;
    if (i->a != 0)
        set_accumulator(m, i, half_moved(i->code, source, ac));
}

static void half_word(struct machine *m, const struct instruction *i)
{
    Word source;

    switch (mode_of(i)) {
    case MEMORY:
        half_word_to_memory(m, i);
        break;
    case SELF:
        half_word_to_self(m, i);
        break;
    default: /* basic and immediate */
        if (operand(m, i, &source))
            set_accumulator(m, i, half_moved(i->code, source, accumulator(m, i)));
        break;
    }
}

/* ---------------------------------------------------------------- 600-677 logical tests */

/* TR masks the right half by E, TL the left half by E, TD by the word at E, TS by that word with
   its halves swapped. The last two always read E. */
static bool test_mask(struct machine *m, const struct instruction *i, Word *mask)
{
    Word w;

    switch (i->code & 011) {
    case 000: /* TR */
        *mask = halves(0, i->e);
        return true;
    case 001: /* TL */
        *mask = halves(i->e, 0);
        return true;
    case 010: /* TD */
        return fetch(m, i->e, mask);
    default: /* 011 TS */
        if (!fetch(m, i->e, &w))
            return false;
        *mask = swapped(w);
        return true;
    }
}

static bool test_holds(unsigned code, Word masked)
{
    switch (code & 6) {
    case 0: /* never */
        return false;
    case 2: /* E: all masked bits are 0 */
        return masked == 0;
    case 4: /* A, always */
        return true;
    default: /* 6 N: not all masked bits are 0 */
        return masked != 0;
    }
}

static Word test_changed(unsigned code, Word ac, Word mask)
{
    switch (code & 060) {
    case 000: /* TxN */
        return ac;
    case 020: /* TxZ */
        return ac & ~mask;
    case 040: /* TxC */
        return ac ^ mask;
    default: /* 060 TxO */
        return ac | mask;
    }
}

/* The skip looks at the accumulator as it was before the change. */
static void logical_test(struct machine *m, const struct instruction *i)
{
    Word mask;
    Word ac = accumulator(m, i);

    if (!test_mask(m, i, &mask))
        return;
    set_accumulator(m, i, test_changed(i->code, ac, mask));
    if (test_holds(i->code, ac & mask))
        skip(m);
}

/* ---------------------------------------------------------------- choosing the instruction */

static void perform_240_to_267(struct machine *m, const struct instruction *i)
{
    switch (i->code) {
    case 0240: /* ASH */
        shift_one(m, i, ash_left, ash_right);
        break;
    case 0241: /* ROT */
        shift_one(m, i, rot_left, rot_right);
        break;
    case 0242: /* LSH */
        shift_one(m, i, lsh_left, lsh_right);
        break;
    case 0243: /* JFFO */
        jump_if_find_first_one(m, i);
        break;
    case 0244: /* ASHC */
        shift_two(m, i, ashc_left, ashc_right);
        break;
    case 0245: /* ROTC */
        shift_two(m, i, rotc_left, rotc_right);
        break;
    case 0246: /* LSHC */
        shift_two(m, i, lshc_left, lshc_right);
        break;
    case 0250: /* EXCH */
        exchange(m, i);
        break;
    case 0251: /* BLT */
        block_transfer(m, i);
        break;
    case 0252: /* AOBJP */
    case 0253: /* AOBJN */
        add_one_to_both_and_jump(m, i);
        break;
    case 0254: /* JRST */
        jump_and_restore(m, i);
        break;
    case 0255: /* JFCL */
        jump_on_flag_and_clear(m, i);
        break;
    case 0260: /* PUSHJ */
        push_and_jump(m, i);
        break;
    case 0261: /* PUSH */
        push(m, i);
        break;
    case 0262: /* POP */
        pop(m, i);
        break;
    case 0263: /* POPJ */
        pop_and_jump(m, i);
        break;
    case 0264: /* JSR */
        jump_to_subroutine(m, i);
        break;
    case 0265: /* JSP */
        jump_and_save_pc(m, i);
        break;
    case 0266: /* JSA */
        jump_and_save_accumulator(m, i);
        break;
    case 0267: /* JRA */
        jump_and_restore_accumulator(m, i);
        break;
    default: /* 247 and 257 do nothing; 256 XCT never comes here */
        break;
    }
}

static void perform_200_to_277(struct machine *m, const struct instruction *i)
{
    if (i->code <= 0217)
        move(m, i);
    else if (i->code <= 0227) /* multiplication */
        stop(m, NOT_INSTALLED, call_word(i));
    else if (i->code <= 0233)
        integer_divide(m, i);
    else if (i->code <= 0237) /* double-length division */
        stop(m, NOT_INSTALLED, call_word(i));
    else if (i->code <= 0267)
        perform_240_to_267(m, i);
    else
        add_or_subtract(m, i);
}

/* Every code but 001-037 and 256, which only lead to another word to be executed. */
static void perform(struct machine *m, const struct instruction *i)
{
    switch (i->code & 0700) {
    case 0000: /* 000 and 040-077 */
    case 0700: /* input and output */
        stop(m, MONITOR_CALL, call_word(i));
        break;
    case 0100: /* byte and floating point instructions, and codes without any */
        stop(m, NOT_INSTALLED, call_word(i));
        break;
    case 0200:
        perform_200_to_277(m, i);
        break;
    case 0300:
        arithmetic_test(m, i);
        break;
    case 0400:
        boolean(m, i);
        break;
    case 0500:
        half_word(m, i);
        break;
    default: /* 600 */
        logical_test(m, i);
        break;
    }
}

/* ---------------------------------------------------------------- a step */

/* Works out E. Each level has an indirect bit 13, an index register in bits 14-17 (0 is none) and
   an address in bits 18-35; sums are modulo 2^18. The limit on address words is looked at before
   the address of the word that would break it. */
static bool work_out_address(struct machine *m, struct instruction *i)
{
    const Word indirect = (Word)1 << 22;
    Word level = i->word;
    unsigned fetched = 0;

    for (;;) {
        unsigned x = (level >> 18) & 017;

        i->e = right(level);
        i->has_flags = x != 0 || fetched > 0;
        i->flags = x != 0 ? m->user[x] : level;
        if (x != 0)
            i->e = plus(i->e, right(m->user[x]));
        if (!(level & indirect))
            return true;
        if (fetched == MAXIMUM_ADDRESS_WORDS) {
            stop(m, ADDRESS_CHAIN_TOO_LONG, 0);
            return false;
        }
        if (!fetch(m, i->e, &level))
            return false;
        fetched++;
    }
}

static bool is_user_call(unsigned code)
{
    return code >= 0001 && code <= 0037;
}

/* Executes the word at PC, and the words that XCT and the codes 001-037 lead to. */
static void execute(struct machine *m)
{
    struct instruction i;
    unsigned executed;

    if (!fetch(m, m->pc, &i.word))
        return;
    m->pc = plus(m->pc, 1);
    for (executed = 1;; executed++) {
        Half next;

        i.code = (unsigned)(i.word >> 27);
        i.a = (i.word >> 23) & 017;
        if (!work_out_address(m, &i))
            return;
        if (is_user_call(i.code)) {
            if (!store(m, CALL_ADDRESS, call_word(&i)))
                return;
            next = CALL_HANDLER;
        } else if (i.code == 0256) { /* XCT */
            next = i.e;
        } else {
            perform(m, &i);
            return;
        }
        if (executed == MAXIMUM_EXECUTED_WORDS) {
            stop(m, EXECUTE_CHAIN_TOO_LONG, 0);
            return;
        }
        if (!fetch(m, next, &i.word))
            return;
    }
}

static bool step_failed(const struct machine *m)
{
    return m->stop == ILLEGAL_ADDRESS || m->stop == ADDRESS_CHAIN_TOO_LONG ||
           m->stop == EXECUTE_CHAIN_TOO_LONG;
}

/* True if the step is to be counted. */
static bool step(struct machine *m)
{
    Half pc = m->pc;
    Half flags = m->flags;

    stop(m, NO_STOP, 0);
    execute(m);
    if (!step_failed(m))
        return true;
    m->pc = pc;
    m->flags = flags;
    return false;
}

static uint64_t run(struct machine *m, uint64_t steps)
{
    uint64_t done = 0;

    do {
        if (step(m))
            done++;
    } while (done < steps && m->stop == NO_STOP);
    return done;
}

/* ---------------------------------------------------------------- bytes */

/* Two words lie in nine bytes; the middle byte has four bits of each. */
uint64_t simulator_core_word(const uint8_t *core, size_t address)
{
    const uint8_t *p = core + address / 2 * 9;

    if (address % 2 == 0)
        return (uint64_t)p[0] << 28 | (uint64_t)p[1] << 20 | (uint64_t)p[2] << 12 |
               (uint64_t)p[3] << 4 | p[4] >> 4;
    return (uint64_t)(p[4] & 15) << 32 | (uint64_t)p[5] << 24 | (uint64_t)p[6] << 16 |
           (uint64_t)p[7] << 8 | p[8];
}

void simulator_set_core_word(uint8_t *core, size_t address, uint64_t word)
{
    uint8_t *p = core + address / 2 * 9;

    word &= ALL_ONES;
    if (address % 2 == 0) {
        p[0] = (uint8_t)(word >> 28);
        p[1] = (uint8_t)(word >> 20);
        p[2] = (uint8_t)(word >> 12);
        p[3] = (uint8_t)(word >> 4);
        p[4] = (uint8_t)((word & 15) << 4 | (p[4] & 15));
    } else {
        p[4] = (uint8_t)((p[4] & 0xF0) | word >> 32);
        p[5] = (uint8_t)(word >> 24);
        p[6] = (uint8_t)(word >> 16);
        p[7] = (uint8_t)(word >> 8);
        p[8] = (uint8_t)word;
    }
}

uint64_t simulator_number(const uint8_t *numbers, size_t index)
{
    uint64_t value = 0;
    size_t k;

    for (k = 0; k < 8; k++)
        value = value << 8 | numbers[8 * index + k];
    return value;
}

void simulator_set_number(uint8_t *numbers, size_t index, uint64_t value)
{
    size_t k;

    for (k = 0; k < 8; k++)
        numbers[8 * index + k] = (uint8_t)(value >> (8 * (7 - k)));
}

/* ---------------------------------------------------------------- the call */

enum { RECORD_PC = 16, RECORD_FLAGS = 17, RECORD_COUNT = 18, RECORD_ALLOWANCE = 19 };
enum { RECORD_BYTES = 160, REPLY_BYTES = 24 };
enum { REFUSED_CORE = 1, REFUSED_PLACE = 3, REFUSED_RECORD = 6, REFUSED_STEPS = 11,
       REFUSED_ALLOWANCE = 12 };

#define MAXIMUM_STEPS UINT64_C(1000000)
#define MAXIMUM_ALLOWANCE UINT64_C(1000000000000)

static size_t length_in_words(size_t core_len)
{
    size_t pairs = core_len / 9;

    return pairs > MAXIMUM_WORDS / 2 ? MAXIMUM_WORDS : 2 * pairs;
}

/* Compares without adding, since base + blocks may be beyond 64 bits. */
static bool place_fits(uint64_t base, uint64_t blocks, uint64_t core_blocks)
{
    return blocks != 0 && base <= core_blocks && blocks <= core_blocks - base;
}

static bool record_is_valid(const uint8_t *record)
{
    uint64_t flags = simulator_number(record, RECORD_FLAGS);
    uint64_t count = simulator_number(record, RECORD_COUNT);
    uint64_t allowance = simulator_number(record, RECORD_ALLOWANCE);
    size_t k;

    for (k = 0; k < ACCUMULATORS; k++)
        if (simulator_number(record, k) > ALL_ONES)
            return false;
    if (simulator_number(record, RECORD_PC) > HALF_ONES)
        return false;
    if (!(flags & USER) || (flags & ~(uint64_t)LISTED_FLAGS))
        return false;
    return count <= allowance && allowance <= MAXIMUM_ALLOWANCE;
}

static uint32_t refusal(size_t core_words, uint64_t base, uint64_t blocks, uint64_t steps,
                        const uint8_t *record, size_t record_len, size_t reply_len)
{
    uint64_t count, allowance;

    if (core_words == 0 || core_words % BLOCK_WORDS != 0)
        return REFUSED_CORE;
    if (!place_fits(base, blocks, core_words / BLOCK_WORDS))
        return REFUSED_PLACE;
    if (record_len != RECORD_BYTES || reply_len != REPLY_BYTES || !record_is_valid(record))
        return REFUSED_RECORD;
    if (steps < 1 || steps > MAXIMUM_STEPS)
        return REFUSED_STEPS;
    count = simulator_number(record, RECORD_COUNT);
    allowance = simulator_number(record, RECORD_ALLOWANCE);
    if (steps > allowance - count)
        return REFUSED_ALLOWANCE;
    return 0;
}

/* The lowest sixteen words of the block are never looked at: those user addresses are the
   accumulators, which stand in the record. */
static void unpack(struct machine *m, const uint8_t *core, size_t first, size_t words,
                   const uint8_t *record)
{
    size_t a;

    m->legal = words;
    for (a = 0; a < ACCUMULATORS; a++)
        m->user[a] = simulator_number(record, a);
    for (a = ACCUMULATORS; a < words; a++)
        m->user[a] = simulator_core_word(core, first + a);
    m->pc = (Half)simulator_number(record, RECORD_PC);
    m->flags = (Half)simulator_number(record, RECORD_FLAGS);
}

static void pack(const struct machine *m, uint8_t *core, size_t first, uint8_t *record)
{
    size_t a;

    for (a = 0; a < ACCUMULATORS; a++)
        simulator_set_number(record, a, m->user[a]);
    for (a = ACCUMULATORS; a < m->legal; a++)
        simulator_set_core_word(core, first + a, m->user[a]);
    simulator_set_number(record, RECORD_PC, m->pc);
    simulator_set_number(record, RECORD_FLAGS, m->flags);
}

uint32_t simulator_run(uint8_t *core, size_t core_len, uint64_t base, uint64_t blocks,
                       uint64_t steps, uint8_t *record, size_t record_len, uint8_t *reply,
                       size_t reply_len)
{
    static struct machine m; /* too large for a stack */
    uint64_t done;
    size_t first;
    uint32_t refused = refusal(length_in_words(core_len), base, blocks, steps, record, record_len,
                               reply_len);

    if (refused != 0)
        return refused;
    first = (size_t)base * BLOCK_WORDS;
    unpack(&m, core, first, (size_t)blocks * BLOCK_WORDS, record);
    done = run(&m, steps);
    pack(&m, core, first, record);
    simulator_set_number(record, RECORD_COUNT, simulator_number(record, RECORD_COUNT) + done);
    simulator_set_number(reply, 0, done);
    simulator_set_number(reply, 1, m.stop);
    simulator_set_number(reply, 2, m.stop_word);
    return 0;
}
