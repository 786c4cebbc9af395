/* Quetlapin: checks graph tables (IFG), compiles them to board lists (IFR) and runs these.
 *
 * Link with libquetlapin.a and the mathematics library (-lm).
 *
 * Every function answers for every input. None keeps a pointer, takes memory or
 * has a state: all it uses is lent by the caller. A pointer may be anything that
 * is valid for its length; for a length of 0 nothing is read through it. Lent
 * buffers must not overlap.
 *
 * An answer below 2^32 is a success. Any other answer is a refusal: number * 2^32
 * + place. A refusal leaves every lent byte and word unchanged.
 *
 * Two things no proof can see are the caller's. The thread's floating-point state must be
 * the default one: rounding to nearest, subnormals not flushed to zero, no traps. A
 * program linked with -ffast-math changes it at its start: 1e-310 times 1 was then 0. And
 * the stack must have room: ifg_compile_version and ifg_evaluate_version need a thread of
 * 256 KB, ifg_judge_placement 128 KB, ifg_compile and ifg_evaluate 68 KB, ifg_check 16 KB,
 * ifr_run and ifr_run_points 12 KB (4 KB before lists of version 2), beside what the
 * caller uses.
 *
 * Words are the bits of IEEE 754 binary64 values. A scalar is 1 word, a vector 3
 * (x, y, z), a matrix 16 (row by row). A NaN that a step gives is always
 * 0x7FF8000000000000.
 *
 * Refusals (place 0 unless said):
 *
 *  The table
 *   1  fewer than 8 bytes
 *   2  the mark differs
 *   3  the version is not 1; place 3
 *   4  the length field differs from the input's length; place 6
 *   5  a record runs past the end; place: its first byte
 *   6  a field outside its range, an unknown kind, a wrong type byte;
 *      place: its record's first byte, for the function count 5
 *   7  a constant is not finite; place: the payload's first byte
 *   8  bytes after the last function; place: the first of them
 *   9  the id of an earlier function, or of an earlier node of the function;
 *      place: that head
 *  10  a callee that is no earlier function, or a wrong argument count;
 *      place: the node's head
 *  11  no such node or port; place: the reference
 *  12  the type differs from the one wanted; place: the reference
 *  13  a loop; place: the head of the first node in the table that lies on one
 *
 *  The compiler
 *  14  no function of the id asked for
 *  31  the list version asked for is neither 1 nor 2; judged after 14
 *  15  more than 4,096 operations
 *  16  more than 8,192 words, by the word count of the version asked for
 *  17  the code buffer is shorter than the code
 *
 *  The runner
 *  18  the code is not well formed
 *  19  the count of argument words differs from the one in the code
 *  20  an argument is not finite
 *  21  the work buffer is shorter than the word count, or the output buffer
 *      shorter than the output words
 *  22  more than 1,024 points
 *
 *  The judge of a placement
 *  33  the argument words, output words or instructions of the proposed list, or
 *      the numbers, differ in count from version 1's
 *  29  an instruction of the proposed list is at fault: its number appeared before,
 *      or no instruction of version 1's list has it; its kind, type byte or constant
 *      is not that instruction's; or an operand word does not hold at that moment
 *      what version 1's list reads there; place: the index, from 0, of the first
 *      such instruction; the instruction count where only an output word does not
 *      end holding its own
 */
#ifndef QUETLAPIN_H
#define QUETLAPIN_H

#include <stddef.h>
#include <stdint.h>

#ifdef __cplusplus
extern "C" {
#endif

/* The number of a refusal, 0 for a success. */
#define IFG_NUMBER(answer) ((uint32_t)((uint64_t)(answer) >> 32))

/* The place of a refusal; for a success the count or length answered. */
#define IFG_PLACE(answer) ((uint32_t)((uint64_t)(answer) & 0xFFFFFFFFu))

/* Bytes that are enough for every code that the compiler writes: in version 1, and in
 * version 2 (4,096 constant matrices, 12 + 4,096 * 132 + 256). */
#define IFR_LONGEST_CODE_1 73996
#define IFR_LONGEST_CODE_2 540940

/* Checks a table. Success: its function count. Refusals 1 to 13. */
uint64_t ifg_check(const uint8_t *table, size_t table_length);

/* Compiles the function with this id to a list of version 1. Success: the code's
 * length; the code stands at the front of the buffer, the bytes behind it are
 * unchanged. 73,996 bytes are enough for every code. Refusals 1 to 17. */
uint64_t ifg_compile(const uint8_t *table, size_t table_length,
                     uint16_t id,
                     uint8_t *code, size_t code_length);

/* Compiles the function with this id to a list of this version, 1 or 2. Version 1
 * is what ifg_compile writes. In version 2 each instruction has its result's
 * address, and the words of a value are used again once nothing reads them.
 * Success: the code's length; the code stands at the front of the buffer, the
 * bytes behind it are unchanged. 540,940 bytes are enough for every code of version
 * 2. Refusals, in this order: 1 to 14; 31; 15; 16, which in version 2 goes by
 * version 2's word count alone; 17. */
uint64_t ifg_compile_version(const uint8_t *table, size_t table_length,
                             uint16_t id, uint16_t version,
                             uint8_t *code, size_t code_length);

/* Runs a code of either version, given its bytes alone. Success: the count of
 * output words, which stand at the front of the output buffer; the front of the work
 * buffer holds all words of the list. The rest of both is unchanged, and so is a
 * word that a version 2 list never writes. 8,192 work words and 128 output words
 * are enough for every code. Refusals 18 to 21.
 * A list of version 2 need not be the compiler's: the instructions of version 1's
 * list in any order that puts each after all it reads, with words of its own below
 * 8,192 for each result and the arguments in their place, give the same output
 * words. */
uint64_t ifr_run(const uint8_t *code, size_t code_length,
                 const uint64_t *arguments, size_t arguments_length,
                 uint64_t *work, size_t work_length,
                 uint64_t *out, size_t out_length);

/* Runs a code of either version at 0 to 1,024 points. Their arguments stand end to end, and so do
 * their output words at the front of the output buffer. Success: the count of all
 * output words; all is as after a call of ifr_run for each point in turn, the work
 * buffer too, but the code is checked once. For no points nothing is written.
 * Refusals, in this order: 18; 22; 19 against count times the argument words; 20
 * for any argument; 21 for the work buffer, with no points too, and for an output
 * buffer shorter than count times the output words. */
uint64_t ifr_run_points(const uint8_t *code, size_t code_length,
                        uint64_t count,
                        const uint64_t *arguments, size_t arguments_length,
                        uint64_t *work, size_t work_length,
                        uint64_t *out, size_t out_length);

/* Compiles the function with this id to version 1 in the code buffer and runs the
 * code's bytes on the arguments. Success: the count of output words, which stand at the
 * front of the output buffer and are what the graph means; the front of the work
 * buffer holds all words of the list. The rest of all three buffers is unchanged.
 * The argument words are those of the function's inputs. Refusals 1 to 17 and 19
 * to 21, in this order; each is judged before anything is written. */
uint64_t ifg_evaluate(const uint8_t *table, size_t table_length,
                      uint16_t id,
                      const uint64_t *arguments, size_t arguments_length,
                      uint8_t *code, size_t code_length,
                      uint64_t *work, size_t work_length,
                      uint64_t *out, size_t out_length);

/* The same with a list of this version, 1 or 2. The output words are the same in both;
 * the work buffer holds that version's words. Refusals, in this order: 1 to 14; 31; 15
 * to 17 and 19 to 21, by that version's word count and code; each is judged before
 * anything is written. */
uint64_t ifg_evaluate_version(const uint8_t *table, size_t table_length,
                              uint16_t id, uint16_t version,
                              const uint64_t *arguments, size_t arguments_length,
                              uint8_t *code, size_t code_length,
                              uint64_t *work, size_t work_length,
                              uint64_t *out, size_t out_length);

/* Judges a list that a router proposes for the function with this id: a code of version
 * 2 and, for each of its instructions, the number, from 0, of the instruction in version
 * 1's list that it carries out. The order is free and so is the use of words, own
 * operands' too. What a word holds goes by origin: an argument's word, or a word of the
 * result of an instruction of version 1's list. Accepted is exactly a well-formed list
 * with version 1's counts in which each number appears once with kind, type and constants
 * alike, each operand word at its moment holds what version 1's list reads there, and
 * each output word ends holding its own. Success: the instruction count. An accepted list
 * gives the same output words as version 1's for all finite arguments, and the
 * compiler's own list of version 2 with the numbers 0, 1, 2 .. is accepted wherever
 * version 1's limits hold. Nothing is written. Refusals, in this order: 1 to 16, by
 * version 1's counts; 18, also for a code of version 1; 33; 29. */
uint64_t ifg_judge_placement(const uint8_t *table, size_t table_length,
                             uint16_t id,
                             const uint8_t *code, size_t code_length,
                             const uint16_t *numbers, size_t numbers_length);

#ifdef __cplusplus
}
#endif

#endif /* QUETLAPIN_H */
