/*
 * The library's peak stack: each call runs on a stack of its own that was
 * painted before, and the paint that is left tells how deep it went. Fails
 * where a call goes deeper than is promised of it. For Linux on x86-64 with
 * glibc.
 */
#include "tie_rod.h"

#include <stdio.h>
#include <stdlib.h>
#include <string.h>
#include <ucontext.h>

#define STACK_BYTES (256 * 1024)
/* What README.md promises: of every call but a trial and a section, and of these two. */
#define MOST_BYTES (2 * 1024)
#define MORE_BYTES (3 * 1024)

static uint8_t stack[STACK_BYTES];
static uint8_t sheet[TIE_ROD_SHEET_BYTES_MAX];
static size_t sheet_len;
static uint8_t state[TIE_ROD_STATE_BYTES];
static uint8_t pairs[TIE_ROD_PAIRS_MAX * TIE_ROD_PAIR_BYTES];
static uint8_t rows[TIE_ROD_PAIRS_MAX * TIE_ROD_ROW_BYTES];
static uint8_t next[TIE_ROD_STATE_BYTES];
static uint8_t tried[TIE_ROD_TRIAL_BYTES];
static struct tie_rod_member members[TIE_ROD_RODS_MAX];
static uint64_t row;
static uint64_t answer;

static void nothing(void) {}

static void run(void)
{
    answer = tie_rod_run(sheet, sheet_len, state, sizeof state, pairs, sizeof pairs, rows, sizeof rows, next, sizeof next);
}

static void pair(void)
{
    answer = tie_rod_pair(sheet, sheet_len, state, sizeof state, pairs, TIE_ROD_PAIR_BYTES, rows, TIE_ROD_ROW_BYTES,
                          next, sizeof next);
}

static void trial(void)
{
    answer = tie_rod_trial(sheet, sheet_len, state, sizeof state, pairs, TIE_ROD_PAIR_BYTES, rows, TIE_ROD_ROW_BYTES,
                           next, sizeof next, tried);
}

/* Of the trial before it. */
static void keep(void)
{
    answer = tie_rod_keep(tried, state, sizeof state, next, sizeof next);
}

static void forecast(void)
{
    answer = tie_rod_forecast(sheet, sheet_len, state, sizeof state);
}

static void unused(void)
{
    answer = tie_rod_unused(sheet, sheet_len, state);
}

/* Of the rows of the run before it. */
static void grade(void)
{
    answer = tie_rod_grade(sheet, sheet_len, state, sizeof state, pairs, sizeof pairs, rows, sizeof rows, 0, &row);
}

/* Rods on both sides of the plate, pulled and pushed past their limits by turns, while the plate warms. */
static void section(void)
{
    static int64_t bend = -20000, temperature = 201;
    int64_t force, moment;
    bend = -bend;
    temperature = temperature == 500 ? 201 : temperature + 1;
    answer = tie_rod_section(sheet, sheet_len, members, TIE_ROD_RODS_MAX, bend / 20, bend, temperature, &force, &moment);
}

/* The bytes of the painted stack that a call wrote, from the deepest one on. */
static size_t depth_with(void (*call)(void), uint8_t paint)
{
    static ucontext_t here, there;
    memset(stack, paint, sizeof stack);
    if (getcontext(&there) != 0)
        abort();
    there.uc_stack.ss_sp = stack;
    there.uc_stack.ss_size = sizeof stack;
    there.uc_link = &here;
    makecontext(&there, call, 0);
    if (swapcontext(&here, &there) != 0)
        abort();
    size_t untouched = 0;
    while (untouched < sizeof stack && stack[untouched] == paint)
        untouched++;
    return sizeof stack - untouched;
}

/* Two paints, so that a byte equal to one of them doesn't hide. */
static size_t depth(void (*call)(void))
{
    size_t first = depth_with(call, 0xa5);
    size_t second = depth_with(call, 0x5a);
    return first > second ? first : second;
}

static void put(uint8_t *bytes, size_t *at, unsigned width, int64_t value)
{
    while (width-- > 0) {
        if ((uint64_t)value >> width & 1)
            bytes[*at / 8] |= (uint8_t)(0x80u >> *at % 8);
        ++*at;
    }
}

/* With or without points, whose temperatures the pairs cross. */
static void write_sheet(int law, int points)
{
    size_t at = 0;
    int tensions = law == 1 ? 7 : 1;
    memset(sheet, 0, sizeof sheet);
    put(sheet, &at, 2, law);
    put(sheet, &at, 3, tensions);
    put(sheet, &at, 3, law == 3);
    put(sheet, &at, 20, 200000);
    put(sheet, &at, 14, points ? 0 : 1200);
    put(sheet, &at, 16, 200);
    put(sheet, &at, 24, 200000);
    put(sheet, &at, 24, law == 3 ? 250000 : 0);
    put(sheet, &at, 2, 0);
    put(sheet, &at, 4, points);
    for (int i = 0; i < tensions; i++) {
        put(sheet, &at, 28, i + 1 < tensions ? 100000000 : 0);
        put(sheet, &at, 20, 14000 - 2000 * i);
    }
    if (law == 3) {
        put(sheet, &at, 28, 0);
        put(sheet, &at, 20, 2000);
    }
    for (int i = 0; i < points; i++) {
        put(sheet, &at, 16, 210 + 37 * i);
        put(sheet, &at, 2, 0);
        put(sheet, &at, 14, 1200 + (i % 2 ? -10 : 10) * i);
    }
    sheet_len = at / 8;
}

/* Strain swings far past both limits, while the rod warms and cools. */
static void write_pairs(void)
{
    size_t at = 0;
    memset(pairs, 0, sizeof pairs);
    for (int i = 0; i < TIE_ROD_PAIRS_MAX; i++) {
        put(pairs, &at, 3, 0);
        put(pairs, &at, 29, i == 0 ? 20000000 : i % 2 ? -40000000 : 40000000);
        put(pairs, &at, 16, 200 + i % 300);
    }
}

/* Unused rods of the sheet, side by side from one edge of the plate to the other. */
static void write_members(void)
{
    for (int i = 0; i < TIE_ROD_RODS_MAX; i++) {
        members[i].area = TIE_ROD_AREA_MAX;
        members[i].offset = TIE_ROD_OFFSET_MAX - 2 * TIE_ROD_OFFSET_MAX * i / (TIE_ROD_RODS_MAX - 1);
        if (tie_rod_unused(sheet, sheet_len, members[i].state) != 0)
            abort();
    }
}

static struct {
    const char *name;
    void (*call)(void);
    size_t promised;
    size_t most;
} calls[] = {
    {"unused rod", unused, MOST_BYTES, 0},
    {"forecast", forecast, MOST_BYTES, 0},
    {"single pair", pair, MOST_BYTES, 0},
    {"trial", trial, MORE_BYTES, 0},
    {"keeping", keep, MOST_BYTES, 0},
    {"run of 4,096 pairs", run, MOST_BYTES, 0},
    {"grading of 4,096 rows", grade, MOST_BYTES, 0},
    {"section of 32 rods", section, MORE_BYTES, 0},
};

/* Measures every call on the sheet; 0 where one is refused. */
static int measure(int law)
{
    for (size_t i = 0; i < sizeof calls / sizeof calls[0]; i++) {
        /* Once beforehand, so that the dynamic linker's own frames aren't counted. */
        calls[i].call();
        size_t bytes = depth(calls[i].call);
        if (tie_rod_number(answer) != TIE_ROD_ACCEPTED) {
            fprintf(stderr, "%s, law %d: refused with %u\n", calls[i].name, law, tie_rod_number(answer));
            return 0;
        }
        if (row != 0) {
            fprintf(stderr, "%s, law %d: row %d differs from the run's\n", calls[i].name, law, (int)row);
            return 0;
        }
        if (bytes > calls[i].most)
            calls[i].most = bytes;
    }
    return 1;
}

int main(void)
{
    int passes = 1;
    write_pairs();
    for (int sheets = 0; sheets < 8; sheets++) {
        int law = sheets / 2;
        write_sheet(law, sheets % 2 ? TIE_ROD_POINTS_MAX : 0);
        write_members();
        if (!measure(law))
            return 1;
    }
    size_t empty = depth(nothing);
    printf("peak stack in bytes:");
    for (size_t i = 0; i < sizeof calls / sizeof calls[0]; i++) {
        printf(" %s %zu,", calls[i].name, calls[i].most);
        if (calls[i].most <= empty || calls[i].most > calls[i].promised)
            passes = 0;
    }
    printf(" no call %zu\n", empty);
    if (!passes)
        fprintf(stderr, "a call shows no more than no call, or more than %d bytes, a trial or a section more than %d\n",
                MOST_BYTES, MORE_BYTES);
    return passes ? 0 : 1;
}
