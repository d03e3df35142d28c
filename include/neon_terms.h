/* NEON instructions as SMT-LIB bit-vector terms: the functions of target/staticlib/libneon_terms.a, which tests/tools/build_library
 * builds for x86-64.
 *
 * Memory. Nothing is allocated or kept: a function reads and writes only what the caller passes, during the call. A slice is a pointer and a
 * number of entries. The pointer must be aligned, valid for that many entries and not null, even if the number is 0. What is passed by a
 * pointer without const must not overlap any other argument. These rules and the stack are the caller's only duties: a function answers for any
 * words and numbers, and after an error pools and buffers are unchanged, except the working memory of neon_equal.
 *
 * Stack. The two text functions recurse, at most 64 bytes per level of a term: 4.2 MB for the deepest pool. A level prints at least 5
 * characters, so a buffer or a ceiling of at most 140,000 bytes needs at most 1.9 MB. neon_text_length takes 0.5 MB, and 48 bytes per
 * level if the ceiling is at most 2,097,150, else none per level. neon_value takes 80 bytes per level: 5.3 MB for the deepest pool.
 * neon_canonical takes 0.8 MB. The other functions take a few kilobytes.
 *
 * Pool. Four words per node; places = words / 4, at most 65,535; nodes 0 to count - 1 are in use.
 *   word 0   kind + 65,536 * width + 2^32 * set; the width is 1 to 129 bits, or 0 for a condition; bit r of the set is 1 if the
 *            term of the node contains Var r
 *   word 1   A + 2^16 * B + 2^32 * C: the numbers of the operands, smaller than the node's own
 *   word 2   Var: the register; Const: the low word; Extract: hi
 *   word 3   Const: the high word; Extract: lo
 * Parts that a kind does not use are 0. A pool whose nodes satisfy these rules and those of the kinds passes neon_pool_check. Pools of versions
 * before register sets fail the check if they contain a Var; lower the block again.
 */
#ifndef NEON_TERMS_H
#define NEON_TERMS_H

#include <stdbool.h>
#include <stddef.h>
#include <stdint.h>

#ifdef __cplusplus
extern "C" {
#endif

/* The numbers. The first in order wins: one instruction 1 to 6; text and script, by lanes too, 1, 5, 9; block, with its saturation
 * bit or without, 8, 6, then record by record 2, 3, 4, 7; value 1, 5, 11; words 12, 9; lines 10, 8; records as words 2, 3, 4, 7 record by
 * record, then 9; join 1, 5, 6; canonical 1, 5, 6; run 8, then record by record 2, 3, 4, 7; question 1, 5, 13, 6; equal 1, 5, 13, 6, 14.
 * 1 to 12 are those of the documents that this library follows; 13 and 14 are its own. */
enum neon_number {
    NEON_DONE = 0,
    NEON_BAD_POOL = 1,          /* count above places, or a node breaks a rule */
    NEON_NO_SUCH_OPERATION = 2, /* not 1 to 67 */
    NEON_NO_SUCH_FORM = 3,      /* no such arrangement, or the operation has none such */
    NEON_IMMEDIATE = 4,         /* i is not one of the form's */
    NEON_SOURCE = 5,            /* a wanted node is not below the count or has another width; an unwanted one is not NEON_NO_NODE; script by
                                   lanes: hi and lo are no cut of 128 bits */
    NEON_NO_ROOM = 6,           /* fewer than 768 free places; block of k: fewer than 32 + 768 * k places, with its bit 33 + 2,048 * k; join,
                                   canonical, question, equal: lent memory is too short; question, equal: more than 2,147,479,551 gates */
    NEON_REGISTER = 7,          /* above 31, m above 15 for an element of 16 bits, or m not 0 with no second source */
    NEON_LONG_BLOCK = 8,        /* more than 85 records, with a saturation bit more than 31; more lines than the lent list holds */
    NEON_SHORT_BUFFER = 9,      /* the text or the script is longer than the buffer; a lent list is too short for the records or words */
    NEON_LINE = 10,             /* a line is not in columns */
    NEON_VISITS = 11,           /* the term's value takes more visits than are allowed */
    NEON_WORD = 12,             /* a word that encodes no legal form, a broken last word among them */
    NEON_BITS = 13,             /* question, equal: hi and lo are no cut of 128 bits: not lo <= hi < 128 */
    NEON_REFUTATION = 14        /* a refutation is not accepted */
};

/* The kinds of nodes. */
enum neon_kind {
    NEON_VAR = 1, NEON_CONST, NEON_ADD, NEON_SUB, NEON_MUL, NEON_AND, NEON_OR, NEON_XOR, NEON_SHL, NEON_LSHR, NEON_ASHR,
    NEON_EQ, NEON_ULT, NEON_SLT, NEON_ITE, NEON_EXTRACT, NEON_CONCAT, NEON_ZERO_EXTEND, NEON_SIGN_EXTEND
};

/* The operations, named as in the Arm manual. I: the immediate form if there is also a register form; 2: upper source lanes; E: by
 * element. */
enum neon_operation {
    NEON_OP_SHL = 1, NEON_OP_SQSHLI, NEON_OP_UQSHLI, NEON_OP_SQSHLU,
    NEON_OP_SSHR = 5, NEON_OP_USHR, NEON_OP_SRSHR, NEON_OP_URSHR,
    NEON_OP_SSHL = 9, NEON_OP_USHL, NEON_OP_SRSHL, NEON_OP_URSHL, NEON_OP_SQSHL, NEON_OP_UQSHL, NEON_OP_SQRSHL, NEON_OP_UQRSHL,
    NEON_OP_SLI = 17, NEON_OP_SRI,
    NEON_OP_SQADD = 19, NEON_OP_UQADD, NEON_OP_SQSUB, NEON_OP_UQSUB,
    NEON_OP_SHADD = 23, NEON_OP_UHADD, NEON_OP_SRHADD, NEON_OP_URHADD,
    NEON_OP_SQXTN = 27, NEON_OP_UQXTN, NEON_OP_SQXTUN,
    NEON_OP_SHRN = 30, NEON_OP_RSHRN, NEON_OP_SQSHRN, NEON_OP_SQRSHRN,
    NEON_OP_UQSHRN = 34, NEON_OP_UQRSHRN, NEON_OP_SQSHRUN, NEON_OP_SQRSHRUN,
    NEON_OP_SQABS = 38, NEON_OP_SQNEG, NEON_OP_SQDMULH, NEON_OP_SQRDMULH,
    NEON_OP_SQDMULL = 42, NEON_OP_SQDMLAL, NEON_OP_SQDMLSL,
    NEON_OP_SQDMULL2 = 45, NEON_OP_SQDMLAL2, NEON_OP_SQDMLSL2,
    NEON_OP_SQDMULLE = 48, NEON_OP_SQDMLALE, NEON_OP_SQDMLSLE,
    NEON_OP_SQDMULL2E = 51, NEON_OP_SQDMLAL2E, NEON_OP_SQDMLSL2E,
    NEON_OP_SUQADD = 54, NEON_OP_USQADD,
    NEON_OP_SABD = 56, NEON_OP_UABD, NEON_OP_SABA, NEON_OP_UABA,
    NEON_OP_CNT = 60, NEON_OP_CLZ, NEON_OP_CLS, NEON_OP_RBIT,
    NEON_OP_ADDHN = 64, NEON_OP_RADDHN, NEON_OP_SUBHN, NEON_OP_RSUBHN
};

/* Lanes and their bits: 8B is 8 lanes of 8 bits. */
enum neon_arrangement { NEON_8B, NEON_16B, NEON_4H, NEON_8H, NEON_2S, NEON_4S, NEON_2D };

/* The version that this header describes: major * 1,000,000 + minor * 1,000 + patch. An archive with the same major number and the same or a
 * later minor number has everything declared here. */
#define NEON_TERMS_VERSION 1000000

#define NEON_NO_NODE 65535
#define NEON_RESERVE 768       /* free places that one instruction needs */
#define NEON_MOST_RECORDS 85
#define NEON_RECORD 6          /* words of a record: operation, arrangement, i, d, n, m */
#define NEON_REGISTER_WORDS 64 /* words of the 32 registers: two each, the low one first, v0 first */
#define NEON_VALUE 3           /* words of a value, the lowest first */
#define NEON_RUN_RESULTS 2     /* words of a run's results: the position, the saturation bit */
#define NEON_RESULTS 34        /* words of a block's results: 32 nodes, the count, the position */
#define NEON_SATURATION_RESERVE 2048 /* places for each instruction of a block with its saturation bit */
#define NEON_SATURATION_RECORDS 31   /* the most that such a block may have */
#define NEON_SATURATION_RESULTS 35   /* words of its results: those of a block, the node of the bit */
#define NEON_INPUTS 4097             /* variables of a graph before those of its gates: the constant, 128 bits of 32 registers */

/* Words of a pool for a block of k records, and for one with its saturation bit. */
#define NEON_BLOCK_WORDS(k) (4 * (32 + (size_t)NEON_RESERVE * (k)))
#define NEON_SATURATION_WORDS(k) (4 * (33 + (size_t)NEON_SATURATION_RESERVE * (k)))

/* The version of the archive, to be compared with NEON_TERMS_VERSION. */
uint64_t neon_version(void);

/* The code of a form; 0 if the operation (1 to 67) does not have the arrangement (0 to 6). Bits 0 to 2 give the immediate (1: i is 0; 2: 0 to
 * n - 1; 3: 1 to n, n being the bits of a lane; 4: an element number). 0x08: there is a second source; 0x10: the destination is read; 0x20 and
 * 0x40: the first and the second source have 128 bits, else 64. Without a second source 0x40 equals 0x20. */
uint64_t neon_form_code(uint64_t operation, uint64_t arrangement);

/* Whether the pool has `count` places and each node below `count` satisfies the rules. */
bool neon_pool_check(const uint64_t *pool, size_t words, size_t count);

/* Lowers one instruction on the nodes d (old destination), n and m (sources); pass NEON_NO_NODE for one that the form does not read.
 * Success: *node is the term, of 64 or 128 bits, and *after the new count; at most 768 nodes are appended, each reachable from *node, and no
 * other word changes. Error: *node is NEON_NO_NODE, *after is count. */
uint64_t neon_lower_instruction(uint64_t *pool, size_t words, size_t count, uint64_t operation, uint64_t arrangement, uint64_t i,
                                size_t d, size_t n, size_t m, size_t *node, size_t *after);

/* Lowers a block into a new pool; its old contents do not matter. Nodes 0 to 31 become v0 to v31. `records` has six words per record,
 * `numbers` words in all; words after the last whole record, at most five, are ignored. `results` gets
 *   0 to 31   the node of each register's term, of 128 bits; NEON_NO_NODE on error
 *   32        the count; 0 on error
 *   33        the position of the first bad record, from 0, with errors 2, 3, 4 and 7; else 0
 * No word of the pool past the count changes. */
uint64_t neon_lower_block(uint64_t *pool, size_t words, const uint64_t *records, size_t numbers, uint64_t results[NEON_RESULTS]);

/* The same with a saturation bit: a term of one bit that is 1 exactly if some lane of some instruction saturates, as FPSR.QC would record
 * from a cleared flag; operations 2 to 4, 13 to 16, 19 to 22, 27 to 29 and 32 to 55 can saturate. Node 32 is the constant 0, the bit of the empty
 * block. The terms of the registers are those of neon_lower_block, on other nodes. At most 31 records, in 33 + 2,048 * k places; `results` has
 * those of neon_lower_block and
 *   34        the node of the bit; NEON_NO_NODE on error */
uint64_t neon_lower_block_saturation(uint64_t *pool, size_t words, const uint64_t *records, size_t numbers,
                                     uint64_t results[NEON_SATURATION_RESULTS]);

/* Writes the text of a node to the front of `buffer`, without a zero byte; later bytes are unchanged. *length is the length of the text, 0 on
 * error. */
uint64_t neon_write_text(const uint64_t *pool, size_t words, size_t count, size_t node, uint8_t *buffer, size_t bytes,
                         size_t *length);

/* *length is the length of the text of a node, or ceiling + 1 if the text is longer; 0 on error. If it is at most the ceiling, neon_write_text
 * fills a buffer of *length bytes exactly. The time grows with the nodes for a node below 1,024, and for any node from a ceiling of 2^21 - 1 on; else
 * with the ceiling. */
uint64_t neon_text_length(const uint64_t *pool, size_t words, size_t count, size_t node, uint32_t ceiling, uint64_t *length);

/* Words. A64 instruction words have four bytes each, the lowest first; records have six words each, as in a block. Reading and writing are
 * inverse, and every bit of a word is checked.
 *
 * Reads words into records. `length` counts bytes, `entries` the words of `records`. Errors: NEON_WORD with the position, from 0, of the
 * first word that encodes no legal form or is incomplete; then NEON_SHORT_BUFFER if `entries` is below six per word. Success: the records are at
 * the front of `records`, later entries are unchanged, *count is the number of records, *position 0. Error: *count is 0, *position 0 except
 * with NEON_WORD, and no entry changes. */
uint64_t neon_read_words(const uint8_t *bytes, size_t length, uint64_t *records, size_t entries, size_t *count, size_t *position);

/* Reads a routine in columns into records. A line has operation, arrangement, i, d, n and m, each a decimal number without leading zeros,
 * right-aligned in four characters, and ends with a newline, which may be missing after the last line. Errors: NEON_LINE with the position, from
 * 0, of the first line that is not in columns; then NEON_LONG_BLOCK if `entries` is below six per line. Whether a record is legal is not checked.
 * The results are as for neon_read_words, with NEON_LINE for NEON_WORD. */
uint64_t neon_read_lines(const uint8_t *bytes, size_t length, uint64_t *records, size_t entries, size_t *count, size_t *position);

/* Writes records as words. `numbers` counts words, six per record; words after the last whole record are ignored. Errors: 2, 3, 4 and 7 by record,
 * with the position of the first bad one; then NEON_SHORT_BUFFER if `length` is below four bytes per record. Success: the words are at the front
 * of `bytes`, later bytes are unchanged, *count is the number of words, *position 0. Error: *count is 0, *position 0 except with 2, 3, 4 and 7,
 * and no byte changes. */
uint64_t neon_write_words(const uint64_t *records, size_t numbers, uint8_t *bytes, size_t length, size_t *count, size_t *position);

/* The registers that a node's term depends on: *set has bit r for register r, 0 on error (1 or 5). Two starts that agree on these registers give
 * the term the same value. */
uint64_t neon_registers_of(const uint64_t *pool, size_t words, size_t count, size_t node, uint64_t *set);

/* ---- Values */

/* The value of a node's term if the registers contain `start`: `value` gets its three words; a term of 129 bits uses the lowest bit of the last,
 * a condition is 0 or 1. *visits is the number of visits: one to the node, and one to an operand for each visit to a node over it; of an Ite only
 * the condition and the chosen arm are visited. Errors: 1, 5, then 11 if the visits exceed `allowance`; no more than `allowance` are made. On
 * error `value` and *visits are 0. */
uint64_t neon_value(const uint64_t *pool, size_t words, size_t count, size_t node, const uint64_t start[NEON_REGISTER_WORDS],
                    uint64_t allowance, uint64_t value[NEON_VALUE], uint64_t *visits);

/* ---- Runs */

/* Runs a block on the registers, in place and without a pool: they then contain what the Arm instructions leave in them. `numbers` counts words,
 * six per record; words after the last whole record are ignored. It accepts the records that neon_lower_block accepts. Errors: 8, then record by
 * record 2, 3, 4, 7. results[0] is the position of the first bad record, from 0, with 2, 3, 4 and 7, else 0. results[1] is 1 if some lane of some
 * instruction saturated, as FPSR.QC would record from a cleared flag, else 0. On error the registers are unchanged and results[1] is 0. */
uint64_t neon_run_block(uint64_t registers[NEON_REGISTER_WORDS], const uint64_t *records, size_t numbers,
                        uint64_t results[NEON_RUN_RESULTS]);

/* ---- Pools */

/* Joins two pools in a third buffer. Both must begin with v0 to v31 as nodes 0 to 31 and have no further Var, as pools of neon_lower_block do.
 * The third has
 *   0 to first_count - 1   the nodes of the first pool
 *   then                   those of the second from 32 on, in order; operands from 32 on are increased by first_count - 32
 *   last                   the Eq of the first pool's node a and the second's node b, of 128 bits each: *node
 * and *count = first_count + second_count - 31 nodes; later words are unchanged. Errors, the first in order: 1 for the first pool, then 1 for the
 * second; 5 if a or b is not below its count or not 128 bits wide; 6 if the third has fewer than *count places. On error *node is NEON_NO_NODE
 * and *count 0. Both pools may be the same. */
uint64_t neon_join(const uint64_t *first, size_t first_words, size_t first_count, size_t a, const uint64_t *second,
                   size_t second_words, size_t second_count, size_t b, uint64_t *joined, size_t joined_words, size_t *node,
                   size_t *count);

/* Writes the canonical pool of a root to the front of `out`: each distinct subtree once, in postorder, left operand first. *after is its count,
 * and the root is its last node; later words are unchanged. Two roots give equal words exactly if they unfold to the same tree. The canonical
 * pool of a canonical pool is the same. Errors, the first in order: 1; 5 if root is not below count; 6 if `out` has fewer places than there are
 * distinct subtrees, which is known before a word is written. On error *after is 0. */
uint64_t neon_canonical(const uint64_t *pool, size_t words, size_t count, size_t root, uint64_t *out, size_t out_words, size_t *after);

/* Scripts (SMT-LIB 2.6, QF_BV). The script of a pool asks a solver whether two nodes of 128 bits can differ, one command per line:
 *   (set-logic QF_BV)
 *   (declare-const r0 (_ BitVec 128))                  and so on to r31: the registers at the start
 *   (define-fun n40 () (_ BitVec 64) (bvlshr n38 n39)) for each node that is not a Var, by number; a condition has sort Bool
 *   (assert (distinct n90 n91))                        the nodes a and b
 *   (check-sat)
 * A Var is written as its register. A script has at most 192 bytes per node and 1,174 more. Errors, the first in order: 1; 5 if a or b is not
 * below the count or not 128 bits wide; 9. On error *length is 0. */

/* Writes the script to the front of `buffer`, with no zero byte after it; later bytes stay. */
uint64_t neon_write_script(const uint64_t *pool, size_t words, size_t count, size_t a, size_t b, uint8_t *buffer, size_t bytes,
                           size_t *length);

/* The length of the script alone, so that a buffer can be lent that fits: 1 and 5. */
uint64_t neon_script_length(const uint64_t *pool, size_t words, size_t count, size_t a, size_t b, size_t *length);

/* Scripts by lanes. The second form asks about the bits from hi down to lo of the two nodes, and has two commands for a node that is no Var:
 *   (declare-const n40 (_ BitVec 64))
 *   (assert (= n40 (bvlshr n38 n39)))
 * and in the place of S-1's assertion
 *   (assert (distinct ((_ extract 7 0) n90) ((_ extract 7 0) n91)))
 * The assertions are satisfiable exactly if the two lanes differ. If all 16 scripts of 8-bit lanes are `unsat`, the nodes are equal. A lane is often
 * decided if 128 bits are not. At most 192 bytes per node and 1,218 more. Errors, the first in order: 1; 5 if a or b is not below the count or
 * not 128 bits wide, and if not lo <= hi < 128; 9. On error *length is 0. */

/* Writes the script to the front of `buffer`, with no zero byte after it; later bytes stay. */
uint64_t neon_write_lane_script(const uint64_t *pool, size_t words, size_t count, size_t a, size_t b, uint64_t hi, uint64_t lo, uint8_t *buffer,
                                size_t bytes, size_t *length);

/* The length of the script alone: 1 and 5. */
uint64_t neon_lane_script_length(const uint64_t *pool, size_t words, size_t count, size_t a, size_t b, uint64_t hi, uint64_t lo, size_t *length);

/* ---- Gates
 *
 * An and-inverter graph: word k is gate k, the conjunction of two literals, left + 2^32 * right. A literal is 2 * variable, plus 1 if it is
 * inverted. Variable 0 is false, 1 + 128 r + j is bit j of register r at the start, 4,097 + k is gate k; the operands of a gate have smaller
 * variables. This is AIGER's numbering, with 4,096 inputs.
 *
 * The functions below build the graph of two pools, and ask whether the bits hi to lo of node a of the first pool and of node b of the second
 * differ. graph, bits, table, marks and starts are working memory, and an answer 0 is right whatever they contain before: neon_question writes
 * them only if it answers 0, neon_equal may write them whatever it answers. They must not overlap each other, the pools or the refutation; the two
 * pools may be one and the same. The table finds gates that are built already. Any entries and any number of them are sound, 0 too, but they
 * decide which gates are found: use zeros, with an entry for each gate of neon_question_room. With fewer entries gates are built twice, and fewer
 * questions fold to 0. That a refutation fits the graph built with the same cleared table is tested, not proved. A few kilobytes of stack each. */

/* How much working memory two pools need at most: *gates words of graph, *places words of bits. Number 1, for the first pool, then for the
 * second; with a refusal both are 0. */
uint64_t neon_question_room(const uint64_t *first, size_t first_words, size_t first_count, const uint64_t *second,
                            size_t second_words, size_t second_count, size_t *gates, size_t *places);

/* The graph of both pools, *count gates in `graph`, and the literal that is true at exactly those starts at which bits hi to lo of the two nodes
 * differ. *literal is 0 if the construction alone shows them equal; then no prover is needed. Numbers, the first in order: 1 for the first
 * pool, 1 for the second; 5 if a is not below its count or not 128 wide, 5 for b; 13 if not lo <= hi < 128; 6 if graph or bits have fewer
 * words than neon_question_room gives, or if it gives more than 2,147,479,551 gates, since a literal has 32 bits. With a refusal *count and
 * *literal are 0. */
uint64_t neon_question(const uint64_t *first, size_t first_words, size_t first_count, size_t a, const uint64_t *second,
                       size_t second_words, size_t second_count, size_t b, size_t hi, size_t lo, uint64_t *graph, size_t gates,
                       uint64_t *bits, size_t places, uint64_t *table, size_t entries, size_t *count, uint64_t *literal);

/* Whether a refutation shows that this literal is false at every start. 0: it does, and bits hi to lo of the two nodes are equal at every start.
 * The graph is built again: what 0 says rests on the pools and the refutation alone. Numbers as of neon_question; 6 also if marks
 * has fewer than 2 * (4,097 + *count) entries or starts fewer than refutation_words / 2 + 1; then 14, and *step is the number of the first
 * refused step, else 0. 2 * (4,097 + the gates of neon_question_room) marks are always enough. If the literal is 0, an empty refutation is accepted.
 *
 * A refutation is a list of steps, numbered from 1: the number of literals of a clause, the literals, the number of hints, the hints. Step 0 is
 * the assumption that the literal is true. Hint v cites a clause of gate v / 4 with the operands left and right,
 *   v % 4 = 0   not gate, or left
 *   v % 4 = 1   not gate, or right
 *   v % 4 = 2   gate, or not left, or not right
 *   v % 4 = 3   or the clause of step v / 4, an earlier one.
 * A step is accepted if the hints, in order, lead to a conflict by unit propagation from its literals and literal 0 being false: each cited
 * clause has one literal left that is not false, which becomes true, or none, which is the conflict. Hints after the conflict are not read.
 * The first accepted step with no literals ends the refutation; words after it are not read. Gates and steps below 2^30 can be cited. */
uint64_t neon_equal(const uint64_t *first, size_t first_words, size_t first_count, size_t a, const uint64_t *second,
                    size_t second_words, size_t second_count, size_t b, size_t hi, size_t lo, const uint32_t *refutation,
                    size_t refutation_words, uint64_t *graph, size_t gates, uint64_t *bits, size_t places, uint64_t *table,
                    size_t entries, uint64_t *marks, size_t mark_places, uint64_t *starts, size_t start_places, size_t *step);

#ifdef __cplusplus
}
#endif

#endif
