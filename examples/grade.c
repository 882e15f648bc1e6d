/*
 * Another firm's table, graded (SPEC 17): a customer sends the stresses that its
 * own solver has for a list of pairs, and wants a verdict. Each of them is held
 * against ours. What the verdict says of the exact stresses is printed behind it:
 * those of an unused rod that is carried on without any rounding.
 */
#include "tie_rod.h"

#include <inttypes.h>
#include <stdio.h>
#include <string.h>

#define PAIRS 6
/* Where k stands in a state (SPEC 3.11), in 4 bytes. */
#define YIELDED_AT 33
/* In grains: the customer's solver prints eight digits of MPa behind the point, the last of which is 10 grains. */
#define TOLERANCE 10

/* Law 0: E 200,000 MPa, expansion 12e-6 per kelvin, reference 20.0 degrees, yield 200 MPa, tangent 2,000 MPa. */
static const uint8_t sheet[] = {
    0x08, 0x30, 0xd4, 0x01, 0x2c, 0x00, 0x32, 0x00, 0xc3, 0x50,
    0x00, 0x00, 0x00, 0x00, 0x00, 0x00, 0x00, 0x00, 0x07, 0xd0,
};

/* In nano: pulled, pulled past the limit, pressed past it, let go, and pulled and pressed past it once more. */
static const int32_t changes[PAIRS] = {800000, 400001, -2100003, 600000, 2000011, -2200000};

/* In grains: what the solver prints for them. */
static const int64_t stresses[PAIRS] = {
    160000000000, 200400002000, -200592007960, -80592007960, 201780189800, -202144586000,
};

static uint8_t state[TIE_ROD_STATE_BYTES];
static uint8_t pairs[PAIRS * TIE_ROD_PAIR_BYTES];
static uint8_t table[PAIRS * TIE_ROD_ROW_BYTES];

/* ---- what goes in ---- */

/* A pair at the reference temperature: kind 0 in 3 bits and the change in 29, then the temperature in 16. */
static void write_pair(int place, int32_t change)
{
    uint8_t *pair = pairs + (place - 1) * TIE_ROD_PAIR_BYTES;
    uint32_t bits = (uint32_t)change & 0x1fffffffu;
    for (int i = 0; i < 4; i++)
        pair[i] = (uint8_t)(bits >> (24 - 8 * i));
    pair[4] = 0;
    pair[5] = 200;
}

/* A stress of the table: 6 bytes from byte 3 of its row on. What stands beside it has no say. */
static void write_stress(int place, int64_t stress)
{
    uint8_t *row = table + (place - 1) * TIE_ROD_ROW_BYTES;
    for (int i = 0; i < 6; i++)
        row[3 + i] = (uint8_t)((uint64_t)stress >> (40 - 8 * i));
}

/* ---- what comes out ---- */

/* Our own yielded rows up to a row and with it: a run of these pairs hands back a state that counts them. */
static uint32_t yielded_up_to(size_t row)
{
    uint8_t rows[PAIRS * TIE_ROD_ROW_BYTES];
    uint8_t next[TIE_ROD_STATE_BYTES];
    tie_rod_run(sheet, sizeof sheet, state, sizeof state, pairs, row * TIE_ROD_PAIR_BYTES, rows, sizeof rows,
                next, sizeof next);
    const uint8_t *k = next + YIELDED_AT;
    return (uint32_t)k[0] << 24 | (uint32_t)k[1] << 16 | (uint32_t)k[2] << 8 | k[3];
}

/* The rows before the one that is named, or all of them: within d + k. */
static void print_within(size_t rows)
{
    for (size_t row = 1; row <= rows; row++) {
        uint32_t k = yielded_up_to(row);
        printf("  row %zu is within %d + %" PRIu32 " = %d grains of the exact stress\n", row, TOLERANCE, k,
               TOLERANCE + (int)k);
    }
}

/* The row that is named: more than d - k away, which says something where k is at most d. */
static void print_away(size_t row)
{
    uint32_t k = yielded_up_to(row);
    printf("  row %zu is more than %d - %" PRIu32 " = %d grains away from the exact stress\n", row, TOLERANCE, k,
           TOLERANCE - (int)k);
}

/* Grades the first bytes of the table, and says what the verdict means; the row that is named, or 0. */
static uint64_t grade(const char *name, size_t table_len)
{
    uint64_t row;
    uint64_t answer = tie_rod_grade(sheet, sizeof sheet, state, sizeof state, pairs, sizeof pairs, table, table_len,
                                    TOLERANCE, &row);
    printf("%s\n", name);
    if (tie_rod_number(answer) != TIE_ROD_ACCEPTED) {
        printf("  no verdict: refused with %u", tie_rod_number(answer));
        if (tie_rod_place(answer) != 0)
            printf(" at pair %zu", tie_rod_place(answer));
        printf("\n");
    } else if (row == 0) {
        printf("  accepted: every row is within %d grains of ours\n", TOLERANCE);
        print_within(PAIRS);
    } else {
        printf("  not accepted: row %" PRIu64 " isn't within %d grains of ours\n", row, TOLERANCE);
        print_within((size_t)row - 1);
        print_away((size_t)row);
    }
    return row;
}

int main(void)
{
    if (tie_rod_unused(sheet, sizeof sheet, state) != TIE_ROD_ACCEPTED)
        return 1;
    /* The solver has other things beside the stress: they are left as they came. */
    memset(table, 0xa5, sizeof table);
    for (int i = 1; i <= PAIRS; i++) {
        write_pair(i, changes[i - 1]);
        write_stress(i, stresses[i - 1]);
    }
    uint64_t accepted = grade("the table as it came", sizeof table);

    write_stress(4, -80592007900);
    uint64_t named = grade("the same with a slip in row 4", sizeof table);

    grade("the same without its last row", sizeof table - TIE_ROD_ROW_BYTES);

    /* A refused pair goes before every verdict, also where a row before it differs. */
    write_pair(6, 150000000);
    grade("the same, but pair 6 strains the rod beyond its range", sizeof table);
    return accepted == 0 && named == 4 ? 0 : 1;
}
