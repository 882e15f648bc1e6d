/*
 * A plate solver in small (SPEC 16): it wants a stress, tries three changes of
 * strain from the state on the card, and keeps the one that comes nearest. No
 * trial moves the rod on, and what can't be kept leaves the card alone.
 */
#include "tie_rod.h"

#include <inttypes.h>
#include <stdio.h>
#include <stdlib.h>
#include <string.h>

#define TRIALS 3

/* Law 0: E 200,000 MPa, expansion 12e-6 per kelvin, reference 20.0 degrees, yield 200 MPa, tangent 2,000 MPa. */
static const uint8_t sheet[] = {
    0x08, 0x30, 0xd4, 0x01, 0x2c, 0x00, 0x32, 0x00, 0xc3, 0x50,
    0x00, 0x00, 0x00, 0x00, 0x00, 0x00, 0x00, 0x00, 0x07, 0xd0,
};

static uint8_t card[TIE_ROD_STATE_BYTES];

/* A pair at the reference temperature: kind 0 in 3 bits and the change in 29, then the temperature in 16. */
static void write_pair(uint8_t *pair, int32_t change)
{
    uint32_t bits = (uint32_t)change & 0x1fffffffu;
    for (int i = 0; i < 4; i++)
        pair[i] = (uint8_t)(bits >> (24 - 8 * i));
    pair[4] = 0;
    pair[5] = 200;
}

/* A signed number of `count` bytes, the most significant first: what is read here begins at bytes. */
static int64_t field(const uint8_t *bytes, unsigned count)
{
    uint64_t value = bytes[0] < 128 ? 0 : UINT64_MAX;
    while (count-- > 0)
        value = value << 8 | *bytes++;
    return (int64_t)value;
}

static int64_t stress_of(const uint8_t *row)
{
    return field(row + 3, 6);
}

/* Which flow gave a row, if one did. */
static const char *branch_of(const uint8_t *row)
{
    switch (tie_rod_branch(row)) {
    case TIE_ROD_TENSION:
        return ", tension flow";
    case TIE_ROD_COMPRESSION:
        return ", compression flow";
    default:
        return "";
    }
}

/* Behind yielded and branch, in 20 bits. */
static int64_t tangent_of(const uint8_t *row)
{
    return (int64_t)(row[0] & 0x0f) << 16 | row[1] << 8 | row[2];
}

static void print_card(void)
{
    printf("  card: strain %" PRId64 " nano, stress %" PRId64 " grains", field(card + 1, 4), field(card + 7, 6));
    printf(", %" PRIu32 " pairs, %" PRIu32 " of them yielded\n", (uint32_t)field(card + 29, 4), (uint32_t)field(card + 33, 4));
}

/* Tries a change from the state on the card, and prints its row. */
static uint64_t try_change(int32_t change, uint8_t *row, uint8_t *trial)
{
    uint8_t pair[TIE_ROD_PAIR_BYTES];
    uint8_t next[TIE_ROD_STATE_BYTES];
    write_pair(pair, change);
    uint64_t answer = tie_rod_trial(sheet, sizeof sheet, card, sizeof card, pair, sizeof pair,
                                    row, TIE_ROD_ROW_BYTES, next, sizeof next, trial);
    printf("  %+" PRId32 " nano: ", change);
    if (tie_rod_rows(answer, sizeof pair) == 1)
        printf("stress %" PRId64 " grains, E times plastic strain %" PRId64 " grains%s\n", stress_of(row),
               field(row + 9, 7), branch_of(row));
    else
        printf("refused with %u at pair %zu\n", tie_rod_number(answer), tie_rod_place(answer));
    return answer;
}

/* Keeps a trial, if that can be: the card has its next state then, and else what it had. */
static uint64_t keep(const char *name, const uint8_t *trial, size_t next_len)
{
    uint8_t next[TIE_ROD_STATE_BYTES];
    uint8_t before[TIE_ROD_STATE_BYTES];
    memset(next, 0xee, sizeof next);
    memcpy(before, next, sizeof next);
    uint64_t answer = tie_rod_keep(trial, card, sizeof card, next, next_len);
    printf("%s: ", name);
    if (answer == TIE_ROD_ACCEPTED) {
        memcpy(card, next, sizeof card);
        printf("kept\n");
    } else {
        printf("refused with %u, %s\n", tie_rod_number(answer),
               memcmp(before, next, sizeof next) == 0 ? "no byte was written" : "a byte was written");
    }
    print_card();
    return answer;
}

/* Tries three changes, each from the state on the card; which of them comes nearest to the wanted stress. */
static int seek(int64_t wanted, uint8_t trials[TRIALS][TIE_ROD_TRIAL_BYTES])
{
    uint8_t row[TIE_ROD_ROW_BYTES];
    int64_t least = INT64_MAX;
    int nearest = 0;
    /* First as if the rod were elastic, with E. */
    int64_t change = (wanted - field(card + 7, 6)) / 200000;
    printf("three trials for a stress of %" PRId64 " grains\n", wanted);
    for (int i = 0; i < TRIALS; i++) {
        if (try_change((int32_t)change, row, trials[i]) != TIE_ROD_ACCEPTED)
            continue;
        int64_t away = wanted - stress_of(row);
        if (llabs(away) < least) {
            least = llabs(away);
            nearest = i;
        }
        /* Then by the tangent of the row that came of it, and then half a thousandth further. */
        change += i == 0 ? away / tangent_of(row) : 500000;
    }
    print_card();
    return nearest;
}

int main(void)
{
    uint8_t trials[TRIALS][TIE_ROD_TRIAL_BYTES];
    uint8_t trial[TIE_ROD_TRIAL_BYTES];
    uint8_t row[TIE_ROD_ROW_BYTES];

    if (tie_rod_unused(sheet, sizeof sheet, card) != TIE_ROD_ACCEPTED)
        return 1;
    printf("a rod is tightened\n");
    try_change(800000, row, trial);
    keep("that", trial, sizeof card);

    int nearest = seek(201000000000, trials);
    uint64_t answer = keep("the nearest one", trials[nearest], sizeof card);

    /* The rod isn't any more where the three started. */
    keep("the first one", trials[0], sizeof card);
    keep("the nearest one again", trials[nearest], sizeof card);

    printf("a gauge slips\n");
    try_change(150000000, row, trial);
    keep("that", trial, sizeof card);

    printf("back\n");
    try_change(-100000, row, trial);
    keep("that, into a buffer of 36 bytes", trial, TIE_ROD_STATE_BYTES - 1);
    return answer == TIE_ROD_ACCEPTED ? 0 : 1;
}
