/* Sirgholyn: verified reencoding of formulas for SAT solvers. The calls of libexports.a and of
 * libsirgholyn.so, for x86-64.
 *
 * A buffer is a pointer and the number of its elements. A call reads and writes only what it is
 * lent and keeps nothing, so several threads may be in calls at once, each with its own buffers.
 *
 * A call returns 0, or the number of a refusal (enum sirgholyn_number): of all that apply, the
 * first in the order that stands with the call; within a text, the first fault in reading order.
 * - With 0, each result stands at the start of its buffer, and what lies past it is unchanged. The
 *   tally gets the call's counts in the order of their indices, as many as fit.
 * - After a refusal every output buffer is all zero, the tally too.
 * - What a workspace holds after a call is left open.
 * What output buffers and workspace hold before a call does not matter.
 *
 * What the caller has to see to, as the library cannot:
 * - A pointer is aligned for its type, and all elements that its length counts are there.
 * - A pointer is not null, even with length 0, where nothing is read or written through it. (Null
 *   with length 0 does no harm in today's library; nothing promises that.)
 * - No buffer that is written, the workspace included, overlaps another, and no other thread
 *   writes into a lent buffer before the call returns.
 * - The stack has room for the library's tables, SIRGHOLYN_STACK_BYTES.
 */
#ifndef SIRGHOLYN_H
#define SIRGHOLYN_H

#include <stddef.h>
#include <stdint.h>

#ifdef __cplusplus
extern "C" {
#endif

/* A thread with a stack of this size has room for any call: reencoding and sizes take about 1.43 MB,
 * walk-back and carrying forward 1.48 MB, reading back 0.85 MB. On a stack that is too small the
 * process ends by a segmentation fault. */
#define SIRGHOLYN_STACK_BYTES ((size_t)4 << 20)

/* What a call returns. */
enum sirgholyn_number {
    SIRGHOLYN_DONE = 0,

    /* 1 to 4, 7 to 9: the formula's writer can mend it. */

    /* the formula has no header line `p cnf V C` */
    SIRGHOLYN_NO_HEADER = 1,
    /* the header's V or C is too large */
    SIRGHOLYN_HEADER_TOO_LARGE = 2,
    /* a word of the formula is not a number */
    SIRGHOLYN_NOT_A_NUMBER = 3,
    /* a literal's variable is above V */
    SIRGHOLYN_VARIABLE_ABOVE_V = 4,
    /* the formula's text ends inside a clause */
    SIRGHOLYN_ENDS_INSIDE_CLAUSE = 7,
    /* the formula does not have exactly C clauses */
    SIRGHOLYN_NOT_C_CLAUSES = 8,
    /* the formula has too many literals */
    SIRGHOLYN_TOO_MANY_LITERALS = 9,

    /* 11 to 17: the caller can mend it. */

    /* the workspace is too short */
    SIRGHOLYN_WORK_SHORT = 11,
    /* the log's buffer is too short */
    SIRGHOLYN_LOG_SHORT = 12,
    /* the new formula's buffer is too short */
    SIRGHOLYN_FORMULA_SHORT = 13,
    /* the answer's buffer is too short */
    SIRGHOLYN_LINE_SHORT = 14,
    /* the step is outside 1 to 100 */
    SIRGHOLYN_STEP_OUTSIDE = 15,
    /* with this step the highest variable would pass 70000 */
    SIRGHOLYN_STEP_TOO_LARGE = 16,
    /* the table of choices is too short */
    SIRGHOLYN_TABLE_SHORT = 17,

    /* 31 to 34, 46: the log's writer can mend it. */

    /* a kept line of the log is not in the layout of a DRAT line, repeats or opposes a literal, or
     * has a variable above 70000 */
    SIRGHOLYN_LOG_LINE = 31,
    /* the log deletes a clause that does not stand */
    SIRGHOLYN_DELETION_WITHOUT_CLAUSE = 32,
    /* the walked-back assignment fails the formula */
    SIRGHOLYN_FORMULA_FAILED = 33,
    /* the log has fewer lines than are to be kept */
    SIRGHOLYN_FEWER_LINES = 34,

    /* 41 to 43: the solver or planner can mend it. */

    /* the answer or plan is not in the layout `s SATISFIABLE`, then `v ` lines that end in 0 */
    SIRGHOLYN_ANSWER_LAYOUT = 41,
    /* the answer names a variable above those of formula and log, or the plan one above V */
    SIRGHOLYN_VARIABLE_ABOVE_X = 42,
    /* the answer or plan names a variable twice */
    SIRGHOLYN_VARIABLE_TWICE = 43,

    /* 44: the solver can mend it. */

    /* a clause that stands is false under the answer */
    SIRGHOLYN_STANDING_CLAUSE_FALSE = 44,

    /* 45: the planner can mend it. */

    /* the plan fails the formula */
    SIRGHOLYN_PLAN_FAILS = 45,

    /* 31 to 34, 46: the log's writer can mend it. */

    /* a clause that stands is false under the plan carried forward, so the log is not the
     * formula's own */
    SIRGHOLYN_LOG_NOT_OWN = 46
};

/* How every call reads a formula: a literal that is repeated in its clause is kept at its first
 * place only, and a clause that holds a literal and its negation is left out, though C counts it. */

/* The most variables, clauses and kept literals that a formula has.. */
#define SIRGHOLYN_MOST_VARIABLES 8000
#define SIRGHOLYN_MOST_CLAUSES 20000
#define SIRGHOLYN_MOST_LITERALS 60000

/* .. and that a new one has, which reading back reads. */
#define SIRGHOLYN_MOST_NEW_VARIABLES 70000
#define SIRGHOLYN_MOST_NEW_CLAUSES 300000
#define SIRGHOLYN_MOST_NEW_LITERALS 1000000

/* ---- reencoding */

/* form: how choices are written; any number other than 0 is the order form */
#define SIRGHOLYN_COUNTER 0
#define SIRGHOLYN_ORDER 1

/* arrangement: literals of choices as they stand, or linked choices in the same order; any number
 * other than 0 is the latter */
#define SIRGHOLYN_AS_LISTED 0
#define SIRGHOLYN_ALIGNED 1

/* step: 1 to SIRGHOLYN_MOST_STEP. A choice's first new variable is the least number above all used
 * that is 1 more than a multiple of it; the numbers skipped stand in no clause. 1 skips none. */
#define SIRGHOLYN_MOST_STEP 100

/* What is written down of a choice. Its new variables are first .. first + length - 2, of which the
 * i-th says that one of its first i literals is true. */
struct sirgholyn_choice {
    uint32_t first;                       /* its first new variable */
    uint32_t length;                      /* its literals */
    uint32_t clauses;                     /* input clauses resolved into it; 1: it is one itself */
};

/* A table of so many records is long enough for any formula. How many records and bytes a formula
 * wants, sirgholyn_sizes tells beforehand. */
#define SIRGHOLYN_MOST_CHOICES 1600

/* The 32-bit entries of workspace that are enough, with one fewer number 11; for reading back too.
 * By the L literals that are kept, and the C and V of the header. */
#define SIRGHOLYN_WORK(L, C, V) \
    ((size_t)40 * (L) + (size_t)4 * (C) + (size_t)12 * (V) + (size_t)8192)

/* The counts of a reencoding and its sizes by their index in the tally, and how many there are. */
enum sirgholyn_reencode_count {
    SIRGHOLYN_REENCODE_CHOICES = 0,
    SIRGHOLYN_REENCODE_HIGHEST = 1,       /* H, the highest variable used */
    SIRGHOLYN_REENCODE_CLAUSES = 2,       /* M, the clauses of the new formula */
    SIRGHOLYN_REENCODE_LINES = 3,         /* lines of the log */
    SIRGHOLYN_REENCODE_LOG_BYTES = 4,
    SIRGHOLYN_REENCODE_FORMULA_BYTES = 5,
    SIRGHOLYN_REENCODE_COUNTS = 6
};

/* Gives a formula's log, its new formula and the table of its choices.
 *   text         read: the formula in DIMACS CNF
 *   form         SIRGHOLYN_COUNTER or SIRGHOLYN_ORDER
 *   arrangement  SIRGHOLYN_AS_LISTED or SIRGHOLYN_ALIGNED
 *   step         1 to SIRGHOLYN_MOST_STEP
 *   work         workspace: SIRGHOLYN_WORK(L, C, V) entries
 *   log          written: the log, DRAT in text
 *   formula      written: the new formula in DIMACS CNF
 *   table        written: a record for each choice, in the order in which they are taken
 *   tally        written: the counts, of enum sirgholyn_reencode_count
 * Returns 0, or 15, 1 to 4, 7 to 9, 11, 16, 17, 12, 13, in this order. */
uint32_t sirgholyn_reencode(
    const uint8_t *text, size_t text_len,
    uint32_t form,
    uint32_t arrangement,
    uint32_t step,
    int32_t *work, size_t work_len,
    uint8_t *log, size_t log_len,
    uint8_t *formula, size_t formula_len,
    struct sirgholyn_choice *table, size_t table_len,
    uint64_t *tally, size_t tally_len);

/* Tells the counts of a reencoding before it is run, and so the sizes of its buffers. No text is
 * written.
 *   text, form, arrangement, step, work
 *                those of sirgholyn_reencode
 *   tally        written: the counts, of enum sirgholyn_reencode_count
 * Returns 0, or 15, 1 to 4, 7 to 9, 11, 16, in this order. With 0, sirgholyn_reencode over as many
 * entries of workspace is not refused where log, formula and table have exactly as many bytes and
 * records as the tally says; where one of them has one less, it is, with 12, 13 or 17. */
uint32_t sirgholyn_sizes(
    const uint8_t *text, size_t text_len,
    uint32_t form,
    uint32_t arrangement,
    uint32_t step,
    int32_t *work, size_t work_len,
    uint64_t *tally, size_t tally_len);

/* ---- walk-back */

/* The 32-bit entries of workspace that are enough, with one fewer number 11: N and G are the numbers
 * (zeros counted) of the formula's kept clauses and of the kept lines, X the greater of V and the
 * highest variable in the kept lines. */
#define SIRGHOLYN_WALK_BACK_WORK(N, G, X) \
    ((size_t)4 * ((size_t)(N) + (G)) + (size_t)4 * (X) + (size_t)64)

/* The counts of a walk-back by their index in the tally, and how many there are. */
enum sirgholyn_walk_back_count {
    SIRGHOLYN_WALK_BACK_BYTES = 0,        /* bytes of the line */
    SIRGHOLYN_WALK_BACK_COUNTS = 1
};

/* Carries a solver's answer for the clauses that stand after the kept lines back to the formula.
 *   formula      read: the formula that was reencoded
 *   log          read: its log
 *   kept         how many lines of the log are kept; what follows them is not looked at
 *   answer       read: the solver's answer, `s SATISFIABLE` and `v ` lines
 *   work         workspace: SIRGHOLYN_WALK_BACK_WORK(N, G, X) entries
 *   out          written: one line, `v`, the literals of 1..V, `0`, and LF
 *   tally        written: the counts, of enum sirgholyn_walk_back_count
 * Returns 0, or 1 to 4, 7 to 9, 31 or 34, 41 to 43, 11, 32, 44, 33, 14, in this order. */
uint32_t sirgholyn_walk_back(
    const uint8_t *formula, size_t formula_len,
    const uint8_t *log, size_t log_len,
    size_t kept,
    const uint8_t *answer, size_t answer_len,
    int32_t *work, size_t work_len,
    uint8_t *out, size_t out_len,
    uint64_t *tally, size_t tally_len);

/* ---- carrying forward */

/* The counts of carrying forward by their index in the tally, and how many there are. */
enum sirgholyn_carry_forward_count {
    SIRGHOLYN_CARRY_FORWARD_BYTES = 0,    /* bytes of the line */
    SIRGHOLYN_CARRY_FORWARD_COUNTS = 1
};

/* Carries a plan for the formula forward to the clauses that stand after the kept lines, which it
 * satisfies then: those of the new formula, where all lines are kept.
 *   formula      read: the formula that was reencoded
 *   log          read: its own log
 *   kept         how many lines of the log are kept; what follows them is not looked at
 *   plan         read: a plan for 1..V that satisfies the formula, laid out as a solver's answer
 *   work         workspace: SIRGHOLYN_WALK_BACK_WORK(N, G, X) entries
 *   out          written: one line, `v`, the literals of 1..X, `0`, and LF
 *   tally        written: the counts, of enum sirgholyn_carry_forward_count
 * Returns 0, or 1 to 4, 7 to 9, 31 or 34, 41 to 43, 11, 45, 32, 46, 14, in this order. */
uint32_t sirgholyn_carry_forward(
    const uint8_t *formula, size_t formula_len,
    const uint8_t *log, size_t log_len,
    size_t kept,
    const uint8_t *plan, size_t plan_len,
    int32_t *work, size_t work_len,
    uint8_t *out, size_t out_len,
    uint64_t *tally, size_t tally_len);

/* ---- the new formula read back */

/* The counts of reading back by their index in the tally, and how many there are. */
enum sirgholyn_read_back_count {
    SIRGHOLYN_READ_BACK_VARIABLES = 0,    /* V of the header */
    SIRGHOLYN_READ_BACK_CLAUSES = 1,      /* clauses kept */
    SIRGHOLYN_READ_BACK_LITERALS = 2,     /* their literals */
    SIRGHOLYN_READ_BACK_COUNTS = 3
};

/* Reads a new formula.
 *   text         read: the new formula in DIMACS CNF
 *   store        written: the clauses kept, from entry 0 on, each as the number of its literals and
 *                then these; it wants SIRGHOLYN_WORK(L, C, V) entries, more than they fill
 *   tally        written: the counts, of enum sirgholyn_read_back_count
 * Returns 0, or 1 to 4, 7 to 9, 11, in this order. */
uint32_t sirgholyn_read_back(
    const uint8_t *text, size_t text_len,
    int32_t *store, size_t store_len,
    uint64_t *tally, size_t tally_len);

#ifdef __cplusplus
}
#endif

#endif
