/*
 * Running one user program of the DEC PDP-10 with the KA10 processor, by bytes.
 *
 * ka10_run does up to `steps` steps of the program whose numbers stand in `record` and whose
 * words stand in `core`, and says in `reply` what came of it. It keeps nothing between two calls:
 * calling it again with the same record and core goes on where the last call left off.
 *
 * Numbers ending in o below are octal; a,,b is the word with the octal halves a and b.
 *
 *
 * The core
 *
 * A word has 36 bits, and its bit 0 is the highest. A core is packed: each nine bytes hold two
 * words, highest bits first. So in the bytes p[0] to p[8] the first word is p[0], p[1], p[2],
 * p[3] and the high half of p[4], and the second word is the low half of p[4], p[5], p[6], p[7]
 * and p[8]; the words 0 and 777777,,777777 are 00 00 00 00 0F FF FF FF FF in hexadecimal.
 *
 * The length of the core in words is 2 * floor(core_len / 9), but at most 262,144. A last piece of
 * fewer than nine bytes, and all bytes after those of 262,144 words, are left over: they mean
 * nothing and are never written.
 *
 * The program's block is the core words from 1,024 * base to below 1,024 * (base + blocks). Its
 * own addresses, the user addresses, have 18 bits. User addresses 0 to 15 are the sixteen
 * accumulators, which stand in the record. From 16 up, user address a stands for the core's word
 * 1,024 * base + a; it is legal as long as it is less than 1,024 * blocks. So the lowest sixteen
 * words of the block are never touched, and no byte that belongs to a word outside user addresses
 * 16 to 1,024 * blocks - 1 ever changes.
 *
 *
 * The record: 160 bytes
 *
 * Twenty numbers of eight bytes each, highest byte first:
 *
 *   number 0 to 15   the accumulators, each below 2^36
 *   number 16        PC, below 2^18
 *   number 17        the flags, a sum of the bits listed below
 *   number 18        the count of steps done so far
 *   number 19        the allowance, the greatest count the program may reach
 *
 * The flags are the left half of a word:
 *
 *   400000o  Overflow              020000o  Byte Interrupt
 *   200000o  Carry 0               010000o  User, on in every valid record
 *   100000o  Carry 1               000100o  Floating Underflow
 *   040000o  Floating Overflow     000040o  No Divide
 *
 *
 * The reply: 24 bytes
 *
 * Three numbers of eight bytes each, highest byte first: steps done, stop, word.
 *
 *   stop  why the run ended                                word
 *   0     all `steps` steps were done, and none of the     0
 *         reasons below came
 *   1     monitor call: codes 000o, 040o-077o, 700o-777o   the call
 *         and JRST (254o) with bit 9 or 10
 *   2     code not installed: 100o-177o, 220o-227o and     the call
 *         234o-237o
 *   3     illegal user address                             that address
 *   4     an effective address needs more than 64          0
 *         address words
 *   5     a step has more than 64 words to execute         0
 *   6     pushdown overflow: after PUSH or PUSHJ the left  0
 *         half of the pointer is 0, or after POP or POPJ
 *         it is 777777o
 *
 * The call is a word: the executed word's bits 0-12, then five zeros, then the effective address
 * in bits 18-35. The step that ends with stop 1, 2 or 6 is done and counted: PC is past it (or where
 * it jumped), and a further call goes on from there. The step that ends with stop 3, 4 or 5 is
 * not counted, and PC and flags are as they were before it. What it wrote before it failed stays:
 * the call that a code 001o-037o stored at user address 40o, and the words that a BLT had moved.
 * An executed word other than BLT that would touch an illegal address writes nothing.
 *
 *
 * The result
 *
 * 0 means that the run was made. The record then holds the accumulators, PC and flags as after
 * the run, the count grown by the steps done, and the allowance as it was; the reply is written;
 * the core holds what the program stored.
 *
 * Any other result is a refusal, and then no byte of core, record or reply is changed. A refusal
 * comes exactly when its line below holds; when several hold, the lowest number is given:
 *
 *   1   the length of the core in words is not a multiple of 1,024 from 1,024 up
 *   3   blocks is 0, or base + blocks is above the core's length divided by 1,024
 *   6   record_len is not 160, reply_len is not 24, or the record has an accumulator of 2^36 or
 *       more, a PC that is not below 2^18, flags where User is off or a bit is on that is not
 *       listed, a count above the allowance, or an allowance above 1,000,000,000,000
 *   11  steps is not 1 to 1,000,000
 *   12  count + steps is above the allowance
 *
 * base, blocks and steps may be any 64-bit numbers, and so may the numbers in the record: sums
 * are meant as whole numbers, not as remainders.
 *
 *
 * The pointers
 *
 * Each pointer is to a buffer of the length given beside it, of any alignment. None is null, and
 * no two buffers overlap.
 */
#ifndef KA10_H
#define KA10_H

#include <stddef.h>
#include <stdint.h>

uint32_t ka10_run(uint8_t *core, size_t core_len, uint64_t base, uint64_t blocks, uint64_t steps,
                  uint8_t *record, size_t record_len, uint8_t *reply, size_t reply_len);

#endif
