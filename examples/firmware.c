/*
 * A logger's firmware in small: carries a rod over two heats, and one of a
 * dryer's hot end over a third, through the C interface (SPEC 9.10), and prints
 * what its card and its readers get. After a refusal the card still has a good
 * state.
 */
#include "tie_rod.h"

#include <inttypes.h>
#include <stdio.h>
#include <string.h>

#define PAIRS_OF_A_HEAT 6
#define POINTS_OF_A_SHEET 5

/* ---- fields of bits, most significant first (SPEC 3.1 to 3.3) ---- */

/* Appends the lowest `width` bits of `value` at bit `*at`. */
static void put(uint8_t *bytes, size_t *at, unsigned width, int64_t value)
{
    while (width-- > 0) {
        if ((uint64_t)value >> width & 1)
            bytes[*at / 8] |= (uint8_t)(0x80u >> *at % 8);
        ++*at;
    }
}

/* Takes `width` bits at bit `*at`; two's complement where `is_signed`. */
static int64_t take(const uint8_t *bytes, size_t *at, unsigned width, int is_signed)
{
    uint64_t value = 0;
    uint64_t top = (uint64_t)1 << (width - 1);
    for (unsigned i = 0; i < width; i++, ++*at)
        value = value << 1 | (bytes[*at / 8] >> (7 - *at % 8) & 1);
    if (is_signed && (value & top))
        return -(int64_t)(top - (value & (top - 1)));
    return (int64_t)value;
}

/* ---- what goes in ---- */

/*
 * Law 0 or 2: E 200,000 MPa, yield 200 MPa, tangent 2,000 MPa, reference 20.0 degrees. The expansion is 12e-6 per
 * kelvin, or given by points: temperature and coefficient, the coldest first.
 */
static size_t write_sheet(uint8_t *sheet, int law, const int32_t (*points)[2], size_t count)
{
    size_t at = 0;
    memset(sheet, 0, TIE_ROD_SHEET_BYTES_MAX);
    put(sheet, &at, 2, law);                    /* law */
    put(sheet, &at, 3, 1);                      /* tension segments */
    put(sheet, &at, 3, 0);                      /* compression segments */
    put(sheet, &at, 20, 200000);                /* E */
    put(sheet, &at, 14, count == 0 ? 1200 : 0); /* expansion: 0 beside points */
    put(sheet, &at, 16, 200);                   /* reference temperature */
    put(sheet, &at, 24, 200000);                /* tension yield */
    put(sheet, &at, 24, 0);                     /* compression yield */
    put(sheet, &at, 2, 0);                      /* zero */
    put(sheet, &at, 4, (int64_t)count);         /* points */
    put(sheet, &at, 28, 0);                     /* the one segment's length: it has no end */
    put(sheet, &at, 20, 2000);                  /* its tangent */
    for (size_t i = 0; i < count; i++) {
        put(sheet, &at, 16, points[i][0]);      /* a point's temperature */
        put(sheet, &at, 2, 0);                  /* zero */
        put(sheet, &at, 14, points[i][1]);      /* its coefficient */
    }
    return at / 8;
}

static void write_pair(uint8_t *pair, int32_t strain_change, int16_t temperature)
{
    size_t at = 0;
    memset(pair, 0, TIE_ROD_PAIR_BYTES);
    put(pair, &at, 3, 0); /* kind */
    put(pair, &at, 29, strain_change);
    put(pair, &at, 16, temperature);
}

/* ---- what comes out ---- */

/* Grains as MPa, all digits. */
static void print_mpa(int64_t grains)
{
    uint64_t magnitude = grains < 0 ? 0 - (uint64_t)grains : (uint64_t)grains;
    printf(" %s%" PRIu64 ".%09" PRIu64, grains < 0 ? "-" : "", magnitude / 1000000000u, magnitude % 1000000000u);
}

/* The branch of a row in words. */
static const char *branch_name(unsigned branch)
{
    switch (branch) {
    case TIE_ROD_ELASTIC:
        return "elastic";
    case TIE_ROD_TENSION:
        return "tension flow";
    case TIE_ROD_COMPRESSION:
        return "compression flow";
    default:
        return "no branch of ours";
    }
}

static void print_rows(const uint8_t *rows, size_t count)
{
    for (size_t i = 0; i < count; i++) {
        const uint8_t *row = rows + TIE_ROD_ROW_BYTES * i;
        size_t at = 4; /* yielded, which is 1 exactly where the branch isn't 0, and the branch */
        int64_t tangent = take(row, &at, 20, 0);
        int64_t stress = take(row, &at, 48, 1);
        int64_t plastic = take(row, &at, 56, 1);
        printf("  pair %zu: stress", i + 1);
        print_mpa(stress);
        printf(" MPa, E times plastic strain");
        print_mpa(plastic);
        printf(" MPa, tangent %" PRId64 " MPa, %s\n", tangent, branch_name(tie_rod_branch(row)));
    }
}

static void print_card(const uint8_t *state)
{
    size_t at = 8;
    int64_t strain = take(state, &at, 32, 1);
    int64_t temperature = take(state, &at, 16, 1);
    int64_t stress = take(state, &at, 48, 1);
    at += 2 * 64;
    int64_t n = take(state, &at, 32, 0);
    int64_t k = take(state, &at, 32, 0);
    printf("  card: strain %" PRId64 " nano, %" PRId64 " tenths of a degree, stress", strain, temperature);
    print_mpa(stress);
    printf(" MPa, %" PRId64 " pairs, %" PRId64 " of them yielded:\n", n, k);
    printf("        stress and E times plastic strain are within %" PRId64 " grains of the exact ones\n", k);
}

static const char *who(unsigned number)
{
    if (number <= 3 || number == TIE_ROD_SHEET_POINTS)
        return "the sheet";
    if (number <= 6)
        return "the state";
    if (number <= 9)
        return "the logger";
    if (number == TIE_ROD_RANGE)
        return "the steel";
    return "the caller";
}

static void print_refusal(uint64_t answer)
{
    unsigned number = tie_rod_number(answer);
    if (number == TIE_ROD_ACCEPTED)
        return;
    printf("  refused with %u (%s)", number, who(number));
    if (tie_rod_place(answer) != 0)
        printf(" at pair %zu", tie_rod_place(answer));
    printf("\n");
}

/*
 * What a call leaves on the card (SPEC 9.3). On 0 and 8 to 10 the rod has moved
 * as far as its pairs were accepted, and that state is stored. On 1 to 6 and 13
 * `next` is zero bytes, which are no state, and on 7 and 12 the old state holds:
 * the card is left alone, and the refusal has been reported.
 */
static void store(uint8_t *card, const uint8_t *next, uint64_t answer)
{
    if (tie_rod_has_next(answer))
        memcpy(card, next, TIE_ROD_STATE_BYTES);
    print_card(card);
}

/* Makes an unused rod on the card; whether there is one now. */
static int unused(const char *name, const uint8_t *sheet, size_t sheet_len, uint8_t *card)
{
    uint64_t answer = tie_rod_unused(sheet, sheet_len, card);
    printf("%s\n", name);
    print_refusal(answer);
    if (tie_rod_number(answer) != TIE_ROD_ACCEPTED)
        return 0;
    print_card(card);
    return 1;
}

/* Carries the rod on the card over a heat. */
static void heat(const char *name, const uint8_t *sheet, size_t sheet_len, uint8_t *card,
                 const int32_t (*pairs)[2], size_t count)
{
    uint8_t list[PAIRS_OF_A_HEAT * TIE_ROD_PAIR_BYTES];
    uint8_t rows[PAIRS_OF_A_HEAT * TIE_ROD_ROW_BYTES];
    uint8_t next[TIE_ROD_STATE_BYTES];
    size_t length = count * TIE_ROD_PAIR_BYTES;
    for (size_t i = 0; i < count; i++)
        write_pair(list + i * TIE_ROD_PAIR_BYTES, pairs[i][0], (int16_t)pairs[i][1]);

    uint64_t answer = tie_rod_run(sheet, sheet_len, card, TIE_ROD_STATE_BYTES, list, length,
                                  rows, sizeof rows, next, sizeof next);
    printf("%s\n", name);
    print_rows(rows, tie_rod_rows(answer, length));
    print_refusal(answer);
    store(card, next, answer);
}

/* What a refused sheet leaves: zeros where a state was asked for, and no row. */
static void print_left(uint64_t answer, const uint8_t *next)
{
    size_t zeros = 0;
    while (zeros < TIE_ROD_STATE_BYTES && next[zeros] == 0)
        zeros++;
    printf("  left: %zu zero bytes, %zu rows, place %zu\n", zeros, tie_rod_rows(answer, TIE_ROD_PAIR_BYTES),
           tie_rod_place(answer));
}

/* Carries the rod on the card over a single pair. */
static void single_pair(const char *name, const uint8_t *sheet, size_t sheet_len, uint8_t *card,
                        int32_t strain_change, int16_t temperature)
{
    uint8_t pair[TIE_ROD_PAIR_BYTES];
    uint8_t row[TIE_ROD_ROW_BYTES];
    uint8_t next[TIE_ROD_STATE_BYTES];
    write_pair(pair, strain_change, temperature);
    memset(next, 0xee, sizeof next);

    uint64_t answer = tie_rod_pair(sheet, sheet_len, card, TIE_ROD_STATE_BYTES, pair, sizeof pair,
                                   row, sizeof row, next, sizeof next);
    printf("%s\n", name);
    print_rows(row, tie_rod_rows(answer, sizeof pair));
    print_refusal(answer);
    if (!tie_rod_has_next(answer))
        print_left(answer, next);
    store(card, next, answer);
}

/* ---- the rods ---- */

/* A rod with one expansion for all temperatures, over two heats; 0 if there is no such rod. */
static int two_heats(void)
{
    /* Strain change in nano, new temperature in tenths of a degree. */
    static const int32_t first_heat[][2] = {
        {1500000, 200}, {-3000000, 200}, {0, 300}, {1200000, 300}, {400000, 900}, {-100000, 200},
    };
    static const int32_t second_heat[][2] = {
        {900000, 200}, {600000, 200}, {150000000, 200}, {0, 200},
    };
    uint8_t sheet[TIE_ROD_SHEET_BYTES_MAX];
    uint8_t other[TIE_ROD_SHEET_BYTES_MAX];
    uint8_t card[TIE_ROD_STATE_BYTES];
    size_t sheet_len = write_sheet(sheet, 0, NULL, 0);
    size_t other_len = write_sheet(other, 2, NULL, 0);

    if (!unused("an unused rod", sheet, sheet_len, card))
        return 0;
    heat("first heat", sheet, sheet_len, card, first_heat, sizeof first_heat / sizeof first_heat[0]);
    heat("second heat, by mistake with another rod's sheet", other, other_len, card, second_heat,
         sizeof second_heat / sizeof second_heat[0]);
    heat("second heat, with a gauge that slips at its third pair", sheet, sheet_len, card, second_heat,
         sizeof second_heat / sizeof second_heat[0]);
    single_pair("a single pair", sheet, sheet_len, card, 200000, 200);

    uint64_t answer = tie_rod_forecast(sheet, sheet_len, card, sizeof card);
    printf("a forecast\n");
    print_refusal(answer);
    printf("  tangent %" PRIu32 " MPa\n", tie_rod_tangent(answer));
    return 1;
}

/* A rod of a dryer's hot end, whose expansion grows with heat; 0 if there is no such rod. */
static int dryer(void)
{
    static const int32_t dryer_heat[][2] = {
        {2150000, 2000}, {1250000, 3001}, {4470000, 5999}, {1800000, 8000}, {400000, 8000}, {-9900000, 200},
    };
    /* Temperature in tenths of a degree, from 20 to 800 degrees, and coefficient in 10^-8 per kelvin. */
    static const int32_t hot_end[POINTS_OF_A_SHEET][2] = {
        {200, 1150}, {2000, 1220}, {4000, 1310}, {6000, 1400}, {8000, 1480},
    };
    static const int32_t exchanged[POINTS_OF_A_SHEET][2] = {
        {200, 1150}, {2000, 1220}, {6000, 1400}, {4000, 1310}, {8000, 1480},
    };
    uint8_t sheet[TIE_ROD_SHEET_BYTES_MAX];
    uint8_t other[TIE_ROD_SHEET_BYTES_MAX];
    uint8_t card[TIE_ROD_STATE_BYTES];
    uint8_t next[TIE_ROD_STATE_BYTES];
    size_t sheet_len = write_sheet(sheet, 0, hot_end, POINTS_OF_A_SHEET);
    size_t other_len = write_sheet(other, 0, exchanged, POINTS_OF_A_SHEET);

    if (!unused("an unused rod for a dryer's hot end, its expansion given by points", sheet, sheet_len, card))
        return 0;
    heat("a heat from 20 to 800 degrees and back", sheet, sheet_len, card, dryer_heat,
         sizeof dryer_heat / sizeof dryer_heat[0]);

    uint64_t answer = tie_rod_unused(other, other_len, next);
    printf("another rod, with a sheet whose points don't rise\n");
    print_refusal(answer);
    print_left(answer, next);
    single_pair("a single pair with that sheet", other, other_len, card, 0, 200);
    return 1;
}

int main(void)
{
    return two_heats() && dryer() ? 0 : 1;
}
