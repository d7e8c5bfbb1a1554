/* The header's calls from C: sessions F to H, what is kept, tables and steps, sizes before the run, refusals, the
 * workspace rules and the limits. Prints each expectation that fails; the exit status is 1 if any does. */
#define _POSIX_C_SOURCE 200112L

#include "sirgholyn.h"

#include <pthread.h>
#include <stdio.h>
#include <stdlib.h>
#include <string.h>

/* session F has 17 literals, 7 clauses and 6 variables */
static const char F[] = "p cnf 6 7\n1 2 3 4 5 0\n-1 -2 0\n-1 6 0\n-2 6 0\n-3 6 0\n-4 -6 0\n-5 -6 0\n";
static const char G[] =
    "p cnf 10 8\n8 -7 0\n9 -8 0\n10 -9 0\n-7 6 0\n7 -8 6 0\n8 -9 6 0\n9 -10 -6 0\n10 -6 0\n";
static const char H_ANSWER[] = "s SATISFIABLE\nv 1 2 3 4 5 -6 -7 -8 -9 10 0\n";
static const char H_LINE[] = "v -1 -2 -3 4 -5 -6 0\n";
static const char PLAN[] = "s SATISFIABLE\nv -1 -2 -3 4 -5 -6 0\n";
static const char FORWARD[] = "v -1 -2 -3 4 -5 -6 -7 -8 -9 10 0\n";

enum {
    F_WORK = SIRGHOLYN_WORK(17, 7, 6),
    LOG_ROOM = 1200,
    FORMULA_ROOM = 100,
    LINE_ROOM = 40,
    TABLE_ROOM = 3,
    PATTERN = 0xA5
};

static int32_t work[SIRGHOLYN_WORK(
    SIRGHOLYN_MOST_NEW_LITERALS, SIRGHOLYN_MOST_NEW_CLAUSES, SIRGHOLYN_MOST_NEW_VARIABLES)];
static const size_t work_len = sizeof work / sizeof *work;
static uint8_t new_log[LOG_ROOM], new_formula[FORMULA_ROOM], line[LINE_ROOM];
static struct sirgholyn_choice table[TABLE_ROOM];
static uint64_t tally[SIRGHOLYN_REENCODE_COUNTS];
static int failures = 0;

#define EXPECT(holds) expect((holds), #holds, __LINE__)

static void expect(int holds, const char *what, int at)
{
    if (!holds) {
        printf("sessions.c:%d: %s\n", at, what);
        failures++;
    }
}

static const uint8_t *bytes(const char *text)
{
    return (const uint8_t *)text;
}

/* whether all bytes from the first on are the same */
static int all(const void *buffer, size_t first, size_t size, int byte)
{
    const uint8_t *at = buffer;
    size_t i;
    for (i = first; i < size; i++) {
        if (at[i] != byte) {
            return 0;
        }
    }
    return 1;
}

/* the numbers of a log's lines, zeros counted */
static size_t numbers(const uint8_t *log, size_t size)
{
    size_t count = 0;
    size_t i;
    for (i = 0; i < size; i++) {
        int ends = log[i] == ' ' || log[i] == '\n';
        count += ends && log[i - 1] != 'd';
    }
    return count;
}

static uint32_t reencode_with(
    const char *text, uint32_t step, size_t entries, size_t log_len, size_t formula_len,
    size_t table_len)
{
    memset(new_log, PATTERN, sizeof new_log);
    memset(new_formula, PATTERN, sizeof new_formula);
    memset(table, PATTERN, sizeof table);
    memset(tally, PATTERN, sizeof tally);
    return sirgholyn_reencode(
        bytes(text), strlen(text), SIRGHOLYN_ORDER, SIRGHOLYN_AS_LISTED, step, work, entries,
        new_log, log_len, new_formula, formula_len, table, table_len,
        tally, SIRGHOLYN_REENCODE_COUNTS);
}

static uint32_t reencode(const char *text, size_t entries, size_t log_len, size_t formula_len)
{
    return reencode_with(text, 1, entries, log_len, formula_len, TABLE_ROOM);
}

static uint32_t sizes_with(
    const char *text, uint32_t form, uint32_t arrangement, uint32_t step, size_t entries,
    size_t counts)
{
    memset(tally, PATTERN, sizeof tally);
    return sirgholyn_sizes(
        bytes(text), strlen(text), form, arrangement, step, work, entries, tally, counts);
}

static uint32_t sizes(const char *text, size_t entries, size_t counts)
{
    return sizes_with(text, SIRGHOLYN_ORDER, SIRGHOLYN_AS_LISTED, 1, entries, counts);
}

/* walks back over session F's log, which stands in new_log */
static uint32_t walk_back(
    size_t log_len, size_t kept, const char *answer, size_t entries, size_t line_len)
{
    memset(line, PATTERN, sizeof line);
    memset(tally, PATTERN, sizeof tally);
    return sirgholyn_walk_back(
        bytes(F), strlen(F), new_log, log_len, kept, bytes(answer), strlen(answer), work, entries,
        line, line_len, tally, SIRGHOLYN_WALK_BACK_COUNTS);
}

/* carries forward over that log */
static uint32_t carry_forward(
    size_t log_len, size_t kept, const char *plan, size_t entries, size_t line_len)
{
    memset(line, PATTERN, sizeof line);
    memset(tally, PATTERN, sizeof tally);
    return sirgholyn_carry_forward(
        bytes(F), strlen(F), new_log, log_len, kept, bytes(plan), strlen(plan), work, entries,
        line, line_len, tally, SIRGHOLYN_CARRY_FORWARD_COUNTS);
}

/* whether the line, and nothing past it, has been written */
static int is_line(const char *expected, uint64_t length)
{
    size_t size = strlen(expected);
    return length == size && memcmp(line, expected, size) == 0
        && all(line, size, sizeof line, PATTERN)
        && all(tally, sizeof *tally, sizeof tally, PATTERN);
}

static uint32_t read_back(const char *text, size_t entries)
{
    memset(work, PATTERN, 64 * sizeof *work);
    memset(tally, PATTERN, sizeof tally);
    return sirgholyn_read_back(
        bytes(text), strlen(text), work, entries, tally, SIRGHOLYN_READ_BACK_COUNTS);
}

static void sessions(void)
{
    static const int32_t first_entries[] = {2, 8, -7, 2, 9, -8, 2, 10, -9, 2, -7, 6, 3, 7, -8, 6};
    size_t log_len;

    EXPECT(reencode(F, F_WORK, LOG_ROOM, FORMULA_ROOM) == SIRGHOLYN_DONE);
    EXPECT(tally[SIRGHOLYN_REENCODE_CHOICES] == 1);
    EXPECT(tally[SIRGHOLYN_REENCODE_HIGHEST] == 10);
    EXPECT(tally[SIRGHOLYN_REENCODE_CLAUSES] == 8);
    EXPECT(tally[SIRGHOLYN_REENCODE_LINES] == 41);
    EXPECT(tally[SIRGHOLYN_REENCODE_FORMULA_BYTES] == strlen(G));
    EXPECT(memcmp(new_formula, G, strlen(G)) == 0);
    EXPECT(all(new_formula, strlen(G), sizeof new_formula, PATTERN));
    log_len = tally[SIRGHOLYN_REENCODE_LOG_BYTES];
    EXPECT(log_len < LOG_ROOM && all(new_log, log_len, sizeof new_log, PATTERN));

    EXPECT(walk_back(log_len, 41, H_ANSWER, work_len, LINE_ROOM) == SIRGHOLYN_DONE);
    EXPECT(is_line(H_LINE, tally[SIRGHOLYN_WALK_BACK_BYTES]));
    EXPECT(carry_forward(log_len, 41, PLAN, work_len, LINE_ROOM) == SIRGHOLYN_DONE);
    EXPECT(is_line(FORWARD, tally[SIRGHOLYN_CARRY_FORWARD_BYTES]));
    EXPECT(carry_forward(log_len, 0, PLAN, work_len, LINE_ROOM) == SIRGHOLYN_DONE);
    EXPECT(is_line(H_LINE, tally[SIRGHOLYN_CARRY_FORWARD_BYTES]));

    EXPECT(read_back(G, work_len) == SIRGHOLYN_DONE);
    EXPECT(tally[SIRGHOLYN_READ_BACK_VARIABLES] == 10);
    EXPECT(tally[SIRGHOLYN_READ_BACK_CLAUSES] == 8);
    EXPECT(tally[SIRGHOLYN_READ_BACK_LITERALS] == 19);
    EXPECT(memcmp(work, first_entries, sizeof first_entries) == 0);
    EXPECT(all(work, (8 + 19) * sizeof *work, 64 * sizeof *work, PATTERN));
}

static int is_record(size_t place, uint32_t first, uint32_t length, uint32_t clauses)
{
    return table[place].first == first && table[place].length == length
        && table[place].clauses == clauses;
}

/* a table by its records, the step, and their own refusals */
static void tables_and_steps(void)
{
    static const char chain[] = "p cnf 8 3\n1 2 3 0\n-3 4 5 0\n-5 6 7 8 0\n";
    static const char two[] = "p cnf 11 2\n1 2 3 4 5 0\n6 7 8 9 10 11 0\n";
    static const size_t size = sizeof(struct sirgholyn_choice);

    EXPECT(size == 12);
    EXPECT(reencode(chain, work_len, LOG_ROOM, FORMULA_ROOM) == SIRGHOLYN_DONE);
    EXPECT(is_record(0, 9, 6, 3) && all(table, size, sizeof table, PATTERN));
    EXPECT(memcmp(new_log, "1 2 4 5 0\nd 3 1 2 0\n", 20) == 0);
    EXPECT(reencode_with(chain, 10, work_len, LOG_ROOM, FORMULA_ROOM, 1) == SIRGHOLYN_DONE);
    EXPECT(is_record(0, 11, 6, 3) && all(table, size, sizeof table, PATTERN));
    EXPECT(tally[SIRGHOLYN_REENCODE_CHOICES] == 1 && tally[SIRGHOLYN_REENCODE_HIGHEST] == 15);

    EXPECT(reencode_with(two, SIRGHOLYN_MOST_STEP, work_len, LOG_ROOM, FORMULA_ROOM, 2)
           == SIRGHOLYN_DONE);
    EXPECT(is_record(0, 101, 5, 1) && is_record(1, 201, 6, 1));
    EXPECT(all(table, 2 * size, sizeof table, PATTERN));
    EXPECT(tally[SIRGHOLYN_REENCODE_HIGHEST] == 205);
    EXPECT(reencode_with(two, 100, work_len, 0, 0, 1) == SIRGHOLYN_TABLE_SHORT);
    EXPECT(all(table, 0, size, 0) && all(table, size, sizeof table, PATTERN));

    EXPECT(reencode_with("", SIRGHOLYN_MOST_STEP + 1, 0, 0, 0, TABLE_ROOM)
           == SIRGHOLYN_STEP_OUTSIDE);
    EXPECT(all(table, 0, sizeof table, 0) && all(tally, 0, sizeof tally, 0));
    EXPECT(reencode_with(two, 0, work_len, LOG_ROOM, FORMULA_ROOM, TABLE_ROOM)
           == SIRGHOLYN_STEP_OUTSIDE);
}

/* reencodes into buffers of so many bytes and records; the counts are those in the tally */
static uint32_t reencode_sized(
    const char *text, uint32_t form, uint32_t arrangement, uint32_t step, size_t log_len,
    size_t formula_len, size_t table_len)
{
    uint8_t *log = malloc(log_len), *formula = malloc(formula_len);
    struct sirgholyn_choice *records = malloc(table_len * sizeof *records);
    uint64_t counts[SIRGHOLYN_REENCODE_COUNTS];
    uint32_t number = sirgholyn_reencode(
        bytes(text), strlen(text), form, arrangement, step, work, work_len, log, log_len,
        formula, formula_len, records, table_len, counts, SIRGHOLYN_REENCODE_COUNTS);

    EXPECT(number != SIRGHOLYN_DONE || memcmp(counts, tally, sizeof tally) == 0);
    free(log);
    free(formula);
    free(records);
    return number;
}

/* so much as the sizes say is enough, and one byte or record less is not */
static void sizes_first(void)
{
    /* two choices, whose links alignment goes by */
    static const char two[] =
        "p cnf 10 24\n1 2 3 4 5 0\n6 7 8 9 10 0\n-1 -8 0\n-2 -10 0\n"
        "-1 0\n-1 0\n-2 0\n-2 0\n-3 0\n-3 0\n-4 0\n-4 0\n-5 0\n-5 0\n"
        "-6 0\n-6 0\n-7 0\n-7 0\n-8 0\n-8 0\n-9 0\n-9 0\n-10 0\n-10 0\n";
    uint32_t way, form, arrangement, step;
    size_t log, formula, records;

    for (way = 0; way < 8; way++) {
        form = way % 2;
        arrangement = way / 2 % 2;
        step = way < 4 ? 1 : SIRGHOLYN_MOST_STEP;
        EXPECT(sizes_with(two, form, arrangement, step, work_len, SIRGHOLYN_REENCODE_COUNTS)
               == SIRGHOLYN_DONE);
        records = tally[SIRGHOLYN_REENCODE_CHOICES];
        log = tally[SIRGHOLYN_REENCODE_LOG_BYTES];
        formula = tally[SIRGHOLYN_REENCODE_FORMULA_BYTES];
        EXPECT(records == 2);
        EXPECT(reencode_sized(two, form, arrangement, step, log, formula, records)
               == SIRGHOLYN_DONE);
        EXPECT(reencode_sized(two, form, arrangement, step, log - 1, formula, records)
               == SIRGHOLYN_LOG_SHORT);
        EXPECT(reencode_sized(two, form, arrangement, step, log, formula - 1, records)
               == SIRGHOLYN_FORMULA_SHORT);
        EXPECT(reencode_sized(two, form, arrangement, step, log, formula, records - 1)
               == SIRGHOLYN_TABLE_SHORT);
    }
}

/* as many choices as there can be: the longest table, and the step that leads too far */
static void most_choices(void)
{
    static char text[60000];
    static struct sirgholyn_choice records[SIRGHOLYN_MOST_CHOICES];
    static const size_t records_len = SIRGHOLYN_MOST_CHOICES;
    static uint8_t log[1 << 20], formula[1 << 20];
    char *at = text;
    unsigned i;
    uint32_t number, step;

    at += sprintf(at, "p cnf %u %u\n", 5 * SIRGHOLYN_MOST_CHOICES, SIRGHOLYN_MOST_CHOICES);
    for (i = 1; i <= 5 * SIRGHOLYN_MOST_CHOICES; i++) {
        at += sprintf(at, "%u%s", i, i % 5 == 0 ? " 0\n" : " ");
    }
    for (step = 38; step <= 39; step++) {
        memset(records, PATTERN, sizeof records);
        number = sirgholyn_reencode(
            bytes(text), strlen(text), SIRGHOLYN_COUNTER, SIRGHOLYN_ALIGNED, step, work, work_len,
            log, sizeof log, formula, sizeof formula, records, records_len, tally, 2);
        EXPECT(number == (step == 38 ? SIRGHOLYN_DONE : SIRGHOLYN_STEP_TOO_LARGE));
        EXPECT(records[records_len - 1].first == (step == 38 ? 68781 : 0));
        EXPECT(tally[SIRGHOLYN_REENCODE_HIGHEST] == (step == 38 ? 68784 : 0));
        EXPECT(sizes_with(text, SIRGHOLYN_COUNTER, SIRGHOLYN_ALIGNED, step, work_len, 2) == number);
        EXPECT(tally[SIRGHOLYN_REENCODE_HIGHEST] == (step == 38 ? 68784 : 0));
    }
}

/* a repeated literal is kept once, and a clause that holds a literal and its negation is left out */
static void one_clause(void)
{
    static const char repeated[] = "p cnf 1 1\n1 1 0\n", opposed[] = "p cnf 1 1\n1 -1 0\n";
    static const int32_t entries[] = {1, 1};

    EXPECT(reencode(repeated, work_len, LOG_ROOM, FORMULA_ROOM) == SIRGHOLYN_DONE);
    EXPECT(tally[SIRGHOLYN_REENCODE_LOG_BYTES] == 6 && memcmp(new_log, "d 1 0\n", 6) == 0);
    EXPECT(memcmp(new_formula, "p cnf 1 0\n", 10) == 0);
    EXPECT(reencode(opposed, work_len, LOG_ROOM, FORMULA_ROOM) == SIRGHOLYN_DONE);
    EXPECT(tally[SIRGHOLYN_REENCODE_LINES] == 0 && all(new_log, 0, sizeof new_log, PATTERN));
    EXPECT(memcmp(new_formula, "p cnf 1 0\n", 10) == 0);

    EXPECT(read_back(repeated, work_len) == SIRGHOLYN_DONE);
    EXPECT(tally[SIRGHOLYN_READ_BACK_CLAUSES] == 1 && tally[SIRGHOLYN_READ_BACK_LITERALS] == 1);
    EXPECT(memcmp(work, entries, sizeof entries) == 0);
    EXPECT(all(work, sizeof entries, 64 * sizeof *work, PATTERN));
    EXPECT(read_back(opposed, work_len) == SIRGHOLYN_DONE);
    EXPECT(tally[SIRGHOLYN_READ_BACK_CLAUSES] == 0 && tally[SIRGHOLYN_READ_BACK_LITERALS] == 0);
    EXPECT(all(work, 0, 64 * sizeof *work, PATTERN));
}

/* a tally takes as many counts as fit */
static void short_tally(void)
{
    memset(tally, PATTERN, sizeof tally);
    EXPECT(sirgholyn_read_back(bytes(G), strlen(G), work, work_len, tally, 2) == SIRGHOLYN_DONE);
    EXPECT(tally[0] == 10 && tally[1] == 8);
    EXPECT(all(tally, 2 * sizeof *tally, sizeof tally, PATTERN));
    EXPECT(sizes(F, F_WORK, 3) == SIRGHOLYN_DONE);
    EXPECT(tally[0] == 1 && tally[1] == 10 && tally[2] == 8);
    EXPECT(all(tally, 3 * sizeof *tally, sizeof tally, PATTERN));
    EXPECT(sizes(F, F_WORK, 0) == SIRGHOLYN_DONE);
    EXPECT(all(tally, 0, sizeof tally, PATTERN));
}

static void zero_after_refusals(void)
{
    size_t log_len;

    EXPECT(reencode("p cnf 1 1\n2 0\n", work_len, LOG_ROOM, FORMULA_ROOM)
           == SIRGHOLYN_VARIABLE_ABOVE_V);
    EXPECT(all(new_log, 0, sizeof new_log, 0));
    EXPECT(all(new_formula, 0, sizeof new_formula, 0));
    EXPECT(all(table, 0, sizeof table, 0) && all(tally, 0, sizeof tally, 0));
    EXPECT(reencode(F, F_WORK, 9, FORMULA_ROOM) == SIRGHOLYN_LOG_SHORT);
    EXPECT(all(new_log, 0, 9, 0) && all(new_log, 9, sizeof new_log, PATTERN));
    EXPECT(reencode(F, F_WORK, LOG_ROOM, 9) == SIRGHOLYN_FORMULA_SHORT);
    EXPECT(all(new_log, 0, sizeof new_log, 0) && all(new_formula, 0, 9, 0));

    EXPECT(sizes("p cnf 1 1\n2 0\n", work_len, 5) == SIRGHOLYN_VARIABLE_ABOVE_V);
    EXPECT(all(tally, 0, 5 * sizeof *tally, 0));
    EXPECT(all(tally, 5 * sizeof *tally, sizeof tally, PATTERN));
    EXPECT(sizes_with("", SIRGHOLYN_COUNTER, SIRGHOLYN_ALIGNED, 0, 0, SIRGHOLYN_REENCODE_COUNTS)
           == SIRGHOLYN_STEP_OUTSIDE);
    EXPECT(all(tally, 0, sizeof tally, 0));

    EXPECT(reencode(F, F_WORK, LOG_ROOM, FORMULA_ROOM) == SIRGHOLYN_DONE);
    log_len = tally[SIRGHOLYN_REENCODE_LOG_BYTES];
    EXPECT(walk_back(log_len, 41, "s SATISFIABLE\nv 8 -10 0\n", work_len, LINE_ROOM)
           == SIRGHOLYN_STANDING_CLAUSE_FALSE);
    EXPECT(all(line, 0, sizeof line, 0) && tally[0] == 0);
    EXPECT(walk_back(log_len, 42, H_ANSWER, work_len, LINE_ROOM) == SIRGHOLYN_FEWER_LINES);
    EXPECT(walk_back(log_len, 41, H_ANSWER, work_len, 9) == SIRGHOLYN_LINE_SHORT);
    EXPECT(all(line, 0, 9, 0) && all(line, 9, sizeof line, PATTERN));

    EXPECT(carry_forward(log_len, 41, "s SATISFIABLE\nv 1 0\n", work_len, LINE_ROOM)
           == SIRGHOLYN_PLAN_FAILS);
    EXPECT(all(line, 0, sizeof line, 0) && tally[0] == 0);
    EXPECT(carry_forward(log_len, 41, "s SATISFIABLE\nv 4 7 0\n", work_len, LINE_ROOM)
           == SIRGHOLYN_VARIABLE_ABOVE_X);
    EXPECT(all(line, 0, sizeof line, 0) && tally[0] == 0);
    EXPECT(carry_forward(log_len, 42, PLAN, work_len, LINE_ROOM) == SIRGHOLYN_FEWER_LINES);
    EXPECT(carry_forward(log_len, 41, PLAN, work_len, 9) == SIRGHOLYN_LINE_SHORT);
    EXPECT(all(line, 0, 9, 0) && all(line, 9, sizeof line, PATTERN));
    memcpy(new_log, "-4 0\n", 5);
    EXPECT(carry_forward(5, 1, PLAN, work_len, LINE_ROOM) == SIRGHOLYN_LOG_NOT_OWN);
    EXPECT(all(line, 0, sizeof line, 0) && tally[0] == 0);

    EXPECT(read_back("p cnf 1 1\n2 0\n", 64) == SIRGHOLYN_VARIABLE_ABOVE_V);
    EXPECT(all(work, 0, 64 * sizeof *work, 0) && all(tally, 0, 3 * sizeof *tally, 0));
}

/* what the rules say is enough, and one entry fewer is not */
static void workspace_rules(void)
{
    size_t log_len, enough;

    EXPECT(sizes(F, F_WORK - 1, SIRGHOLYN_REENCODE_COUNTS) == SIRGHOLYN_WORK_SHORT);
    EXPECT(all(tally, 0, sizeof tally, 0));
    EXPECT(sizes(F, F_WORK, SIRGHOLYN_REENCODE_COUNTS) == SIRGHOLYN_DONE);
    EXPECT(reencode(F, F_WORK - 1, LOG_ROOM, FORMULA_ROOM) == SIRGHOLYN_WORK_SHORT);
    EXPECT(reencode(F, F_WORK, LOG_ROOM, FORMULA_ROOM) == SIRGHOLYN_DONE);
    log_len = tally[SIRGHOLYN_REENCODE_LOG_BYTES];
    enough = SIRGHOLYN_WALK_BACK_WORK(17 + 7, numbers(new_log, log_len), 10);
    EXPECT(walk_back(log_len, 41, H_ANSWER, enough - 1, LINE_ROOM) == SIRGHOLYN_WORK_SHORT);
    EXPECT(walk_back(log_len, 41, H_ANSWER, enough, LINE_ROOM) == SIRGHOLYN_DONE);
    EXPECT(carry_forward(log_len, 41, PLAN, enough - 1, LINE_ROOM) == SIRGHOLYN_WORK_SHORT);
    EXPECT(carry_forward(log_len, 41, PLAN, enough, LINE_ROOM) == SIRGHOLYN_DONE);
    enough = SIRGHOLYN_WORK(19, 8, 10);
    EXPECT(read_back(G, enough - 1) == SIRGHOLYN_WORK_SHORT);
    EXPECT(read_back(G, enough) == SIRGHOLYN_DONE);

    /* one literal kept, of one clause of two */
    enough = SIRGHOLYN_WORK(1, 2, 1);
    EXPECT(read_back("p cnf 1 2\n1 1 0\n1 -1 0\n", enough - 1) == SIRGHOLYN_WORK_SHORT);
    EXPECT(read_back("p cnf 1 2\n1 1 0\n1 -1 0\n", enough) == SIRGHOLYN_DONE);
}

static uint32_t header_only(int new, unsigned variables, unsigned clauses)
{
    char text[64];
    sprintf(text, "p cnf %u %u\n", variables, clauses);
    return new ? read_back(text, work_len) : reencode(text, work_len, LOG_ROOM, FORMULA_ROOM);
}

/* a formula of so many literals, in clauses of up to 1000 */
static uint32_t literals_only(int new, unsigned literals)
{
    size_t size = 64 + 6 * (size_t)literals;
    char *text = malloc(size);
    char *at = text;
    unsigned i;
    uint32_t number;

    at += sprintf(at, "p cnf 1000 %u\n", (literals + 999) / 1000);
    for (i = 0; i < literals; i++) {
        at += sprintf(at, "%u%s", i % 1000 + 1, i % 1000 == 999 || i + 1 == literals ? " 0\n" : " ");
    }
    number = new ? read_back(text, work_len) : reencode(text, work_len, LOG_ROOM, FORMULA_ROOM);
    free(text);
    return number;
}

/* a limit passes the tests of the header, which are the first; one past it does not */
static void limits(void)
{
    EXPECT(header_only(0, SIRGHOLYN_MOST_VARIABLES, 0) == SIRGHOLYN_DONE);
    EXPECT(header_only(0, SIRGHOLYN_MOST_VARIABLES + 1, 0) == SIRGHOLYN_HEADER_TOO_LARGE);
    EXPECT(header_only(0, 0, SIRGHOLYN_MOST_CLAUSES) == SIRGHOLYN_NOT_C_CLAUSES);
    EXPECT(header_only(0, 0, SIRGHOLYN_MOST_CLAUSES + 1) == SIRGHOLYN_HEADER_TOO_LARGE);
    EXPECT(literals_only(0, SIRGHOLYN_MOST_LITERALS) == SIRGHOLYN_FORMULA_SHORT);
    EXPECT(literals_only(0, SIRGHOLYN_MOST_LITERALS + 1) == SIRGHOLYN_TOO_MANY_LITERALS);

    EXPECT(header_only(1, SIRGHOLYN_MOST_NEW_VARIABLES, 0) == SIRGHOLYN_DONE);
    EXPECT(header_only(1, SIRGHOLYN_MOST_NEW_VARIABLES + 1, 0) == SIRGHOLYN_HEADER_TOO_LARGE);
    EXPECT(header_only(1, 0, SIRGHOLYN_MOST_NEW_CLAUSES) == SIRGHOLYN_NOT_C_CLAUSES);
    EXPECT(header_only(1, 0, SIRGHOLYN_MOST_NEW_CLAUSES + 1) == SIRGHOLYN_HEADER_TOO_LARGE);
    EXPECT(literals_only(1, SIRGHOLYN_MOST_NEW_LITERALS) == SIRGHOLYN_DONE);
    EXPECT(literals_only(1, SIRGHOLYN_MOST_NEW_LITERALS + 1) == SIRGHOLYN_TOO_MANY_LITERALS);
}

static void *run(void *unused)
{
    sessions();
    tables_and_steps();
    sizes_first();
    most_choices();
    one_clause();
    short_tally();
    zero_after_refusals();
    workspace_rules();
    limits();
    return unused;
}

static int run_on_stack(size_t bytes)
{
    pthread_attr_t attributes;
    pthread_t thread;

    return pthread_attr_init(&attributes) == 0
        && pthread_attr_setstacksize(&attributes, bytes) == 0
        && pthread_create(&thread, &attributes, run, NULL) == 0
        && pthread_join(thread, NULL) == 0;
}

/* on a thread of 1.5 MiB, little more than the header says that calls take, first, as a larger stack would be used again;
 * then with half the stack that the header asks for, so that it asks for enough */
int main(void)
{
    if (!run_on_stack(SIRGHOLYN_STACK_BYTES / 8 * 3) || !run_on_stack(SIRGHOLYN_STACK_BYTES / 2)) {
        printf("the thread cannot be run\n");
        return 1;
    }
    return failures == 0 ? 0 : 1;
}
