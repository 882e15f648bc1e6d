/*
 * Six rods of a large dryer, tied to one plate, as one section (SPEC 15): the
 * plate is pulled, bent and heated, and each call answers the force and the
 * moment of all rods together. A call that one rod can't follow moves none.
 */
#include "tie_rod.h"

#include <inttypes.h>
#include <stdio.h>
#include <string.h>

#define RODS 6

/* Law 0: E 200,000 MPa, expansion 12e-6 per kelvin, reference 20.0 degrees, yield 200 MPa, tangent 2,000 MPa. */
static const uint8_t sheet[] = {
    0x08, 0x30, 0xd4, 0x01, 0x2c, 0x00, 0x32, 0x00, 0xc3, 0x50,
    0x00, 0x00, 0x00, 0x00, 0x00, 0x00, 0x00, 0x00, 0x07, 0xd0,
};

/* Area in mm^2 and offset in mm: the outer rods are the thicker ones. */
static struct tie_rod_member rods[RODS] = {
    {707, -500, {0}}, {452, -300, {0}}, {452, -100, {0}}, {452, 100, {0}}, {452, 300, {0}}, {804, 500, {0}},
};

/* ---- what is printed ---- */

/* A signed number of `count` bytes, the most significant first: strain, stress and counts of a state begin at bytes. */
static int64_t field(const uint8_t *bytes, unsigned count)
{
    uint64_t value = bytes[0] < 128 ? 0 : UINT64_MAX;
    while (count-- > 0)
        value = value << 8 | *bytes++;
    return (int64_t)value;
}

/* Thousandths with their point: 10^-3 MPa as MPa, 10^-3 N as N. */
static void print_thousandths(int width, int64_t value)
{
    char digits[32];
    uint64_t magnitude = value < 0 ? 0 - (uint64_t)value : (uint64_t)value;
    snprintf(digits, sizeof digits, "%s%" PRIu64 ".%03" PRIu64, value < 0 ? "-" : "", magnitude / 1000,
             magnitude % 1000);
    printf("%*s", width, digits);
}

static void print_rods(void)
{
    printf("  rod  area  offset    strain    stress  pairs  yielded\n");
    printf("       mm^2      mm      nano       MPa\n");
    for (int i = 0; i < RODS; i++) {
        const uint8_t *state = rods[i].state;
        printf("  %3d %5" PRIu64 " %7" PRId64 " %9" PRId64, i + 1, rods[i].area, rods[i].offset, field(state + 1, 4));
        print_thousandths(10, field(state + 7, 6) / 1000000);
        printf(" %6" PRId64 " %8" PRId64 "\n", field(state + 29, 4), field(state + 33, 4));
    }
}

/* ---- what the plate does ---- */

/* Moves the plate, says what the rods pull with, and answers what the library did. */
static uint64_t move(const char *name, int64_t mean, int64_t curvature, int64_t temperature)
{
    int64_t force, moment;
    uint64_t answer = tie_rod_section(sheet, sizeof sheet, rods, RODS, mean, curvature, temperature, &force, &moment);
    printf("%s: mean %+" PRId64 " nano, curvature %+" PRId64 " nano per mm, now %" PRId64 " tenths of a degree\n", name,
           mean, curvature, temperature);
    if (tie_rod_number(answer) != TIE_ROD_ACCEPTED)
        printf("  refused with %u at rod %zu\n", tie_rod_number(answer), tie_rod_place(answer));
    else
        print_rods();
    printf("  force ");
    print_thousandths(0, force);
    printf(" N, moment ");
    print_thousandths(0, moment);
    printf(" N mm\n");
    return answer;
}

int main(void)
{
    struct tie_rod_member before[RODS];
    for (int i = 0; i < RODS; i++)
        if (tie_rod_unused(sheet, sizeof sheet, rods[i].state) != 0)
            return 1;

    move("pull", 600000, 0, 200);
    move("bend", 0, 1500, 200);
    move("heat", 900000, 0, 1200);

    /* The gauges slip: rod 6 alone would be strained beyond 10^8, and so no rod moves. */
    memcpy(before, rods, sizeof rods);
    uint64_t answer = move("slip", 70000000, 60000, 1200);
    int same = memcmp(before, rods, sizeof rods) == 0;
    printf("  %s\n", same ? "no byte of any rod has changed" : "a rod has changed");

    move("cool", -1500000, -1500, 200);
    return same && tie_rod_place(answer) == RODS ? 0 : 1;
}
