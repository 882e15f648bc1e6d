/*
 * tie_rod.h: the state of a tie rod, carried on pair by pair, on bytes.
 *
 * This is the part of docs/SPEC.md that C needs; numbers such as (SPEC 3.7)
 * name its paragraphs.
 *
 * Link with libtie_rod_c.a, with libsection_c.a for tie_rod_section, and with
 * libgrade_c.a for tie_rod_grade. The library has no heap, keeps nothing between
 * calls, calls no operating system and needs nothing but memcpy, memmove, memset
 * and memcmp. Calls may run at the same time on different buffers.
 *
 * Buffers (SPEC 9.1, 9.10)
 *   A buffer is a pointer and a length in bytes. No bytes and no length can
 *   make a call fail: each one ends with one of the numbers below.
 *   NULL with length 0 is fine. Lengths must be true.
 *   Buffers of one call must not overlap: the library's promises don't cover
 *   overlapping ones, `next == state` included.
 *   The fields of a layout lie side by side, each with its most significant
 *   bit in front; those marked s are in two's complement (SPEC 3.1 to 3.4).
 *
 * Units (SPEC 2.1)
 *   strain      10^-9, "nano"
 *   stress      10^-9 MPa, the grain, a thousandth of a pascal
 *   moduli      MPa
 *   temperature tenths of a degree Celsius
 *   of a section (SPEC 15): area mm^2, offset mm, curvature nano per mm,
 *   force 10^-3 N, moment 10^-3 N mm
 *
 * Sheet (SPEC 3.7, 3.8): 14 bytes, then 6 bytes a segment, tension first, then
 * 4 bytes a point of the expansion.
 *   law            2   0 isotropic line, 1 isotropic traction curve,
 *                      2 kinematic line, 3 asymmetric line
 *   segments, T    3   1; law 1: 1 to 7
 *   segments, C    3   law 3: 1; else 0
 *   E             20   1 to 400,000
 *   expansion     14   0 to 10,000, in 10^-8 per kelvin; 0 where there are points
 *   reference     16 s -2,000 to 20,000, a temperature
 *   yield, T      24   1 to 10,000,000, in 10^-3 MPa
 *   yield, C      24   law 3: 1 to 10,000,000; else 0
 *   zero           2   0
 *   points c       4   0 to 8
 *   then each segment:
 *   length        28   1 to 100,000,000 nano; 0 for the last of its side
 *   tangent       20   below E; along a side it never rises
 *   then each point:
 *   temperature   16 s -2,000 to 20,000
 *   zero           2   0
 *   coefficient   14   0 to 10,000, in 10^-8 per kelvin
 *
 * Thermal strain (SPEC 5.1) is the coefficient at the temperature times
 * (temperature - reference): a secant coefficient, counted from the reference.
 *   No points: the coefficient is the expansion field, at every temperature.
 *   Else (SPEC 5.7) it is up to the first point that point's, from the last one
 *   on that one's, and in between what the straight line through the two
 *   neighbours has there, rounded down, whether the line rises or falls. The
 *   points stand in the order of their temperatures, the coldest first.
 *
 * State (SPEC 3.11): 37 bytes.
 *   law            2   the sheet's
 *   yielded        1   of the last pair; 1 needs k at least 1
 *   zero           5   0
 *   strain        32 s within 100,000,000
 *   temperature   16 s -2,000 to 20,000
 *   stress        48 s within 10^14, and within the yield limits
 *   first         64 s laws 0, 1: abscissa; law 2: centre X, within 10^14;
 *                      law 3: tension abscissa
 *   second        64 s law 3: compression abscissa; else 0
 *   pairs n       32   accepted pairs so far
 *   yielded k     32   those of them that yielded, at most n
 *   An abscissa is in grains, from its yield to 10^17.
 *
 * Pair (SPEC 3.12): 6 bytes.
 *   kind           3   0
 *   strain change 29 s within 200,000,000
 *   temperature   16 s the new one, -2,000 to 20,000
 *
 * Result row (SPEC 3.14): 16 bytes.
 *   yielded        1   1 if the pair passed a yield limit
 *   branch         3   of the law: 0 elastic, 1 flow in tension, 2 flow in
 *                      compression
 *   tangent       20   E, or after a flow that of the segment reached
 *   stress        48 s
 *   plastic       56 s E times plastic strain, in grains
 *   Of the first byte yielded is the bit 0x80, the branch 0x70, and 0x0f the highest
 *   bits of the tangent, whose other 16 are the next two bytes. The branch's bits
 *   were zero before: firmware from then that takes 23 bits as the tangent, or asks
 *   whether the byte is 0x80, reads a flow wrongly now.
 *   tie_rod_branch takes the branch out of a row, and yielded is 1 exactly when it
 *   isn't 0. It says which way plastic strain went: 1 grew, 2 fell, 0 stayed (SPEC
 *   7.7). Neither the sign of the strain change nor that of the stress tells as much:
 *   a rod that is heated can flow in compression though it is stretched, and under
 *   law 2 the branch of a flow is the side of the old centre X on which the trial
 *   stress lies, so that a tension flow can end at a negative stress. It is decided
 *   before anything is rounded: a flow of less than a grain can leave `plastic` as
 *   it was.
 */
#ifndef TIE_ROD_H
#define TIE_ROD_H

#include <stddef.h>
#include <stdint.h>

#ifdef __cplusplus
extern "C" {
#endif

#define TIE_ROD_STATE_BYTES 37
#define TIE_ROD_ROW_BYTES 16
#define TIE_ROD_PAIR_BYTES 6
/* What a trial hands to its keeping. */
#define TIE_ROD_TRIAL_BYTES 75
/* The most that a sheet's own counts can ask for. One that passes has at most 88. */
#define TIE_ROD_SHEET_BYTES_MAX 158
/* The most points that a sheet has. */
#define TIE_ROD_POINTS_MAX 8
/* The most pairs that one run takes. */
#define TIE_ROD_PAIRS_MAX 4096
/* The most rods that one section has, and how far its numbers go. */
#define TIE_ROD_RODS_MAX 32
#define TIE_ROD_AREA_MAX 1000000
#define TIE_ROD_OFFSET_MAX 1000
#define TIE_ROD_MEAN_MAX 200000000
#define TIE_ROD_CURVATURE_MAX 1000000
/* The greatest tolerance of a grading, in grains; the least is 0. */
#define TIE_ROD_TOLERANCE_MAX 1000000000000

/* The branches of a row (SPEC 3.14, 7.7), each as tie_rod_branch has it. A row of ours has no other. */
enum tie_rod_branches {
    TIE_ROD_ELASTIC = 0,     /* nothing flowed, and yielded is 0 */
    TIE_ROD_TENSION = 1,     /* plastic strain grew */
    TIE_ROD_COMPRESSION = 2  /* plastic strain fell */
};

/*
 * The numbers (SPEC 8.2). A call answers the first of them that applies, in this
 * order: 1, 2, 3, 13, 4, 5, 6, then 7 and 12, then pair by pair 8, 9 and 10.
 * A section: 1, 2, 3, 13, then 14, then rod by rod 5, 6, 8, 9 and 10.
 * A keeping: 12, then 15.
 * A grading: 1, 2, 3, 13, 4, 5, 6, 7, then pair by pair 8, 9 and 10, then 16,
 * then 17.
 * There is no 11: it was taken out, no call answers it, and no other condition
 * will ever have it (SPEC 8.7).
 */
enum tie_rod_numbers {
    TIE_ROD_ACCEPTED = 0,

    /* For whoever wrote the sheet. */
    TIE_ROD_SHEET_LENGTH = 1,  /* below 14 bytes, or not 14 + 6 for each segment + 4 for
                                  each point, the counts as they stand there */
    TIE_ROD_SHEET_FIELD = 2,   /* a field isn't in its range, a zero field isn't 0, or
                                  expansion isn't 0 though there are points */
    TIE_ROD_SHEET_TANGENT = 3, /* a tangent not below E, or above the one before it on its side */
    TIE_ROD_SHEET_POINTS = 13, /* the temperature of a point isn't above that of the one
                                  before it */

    /* For whoever keeps the state. */
    TIE_ROD_STATE_LENGTH = 4, /* not 37 bytes */
    TIE_ROD_STATE_FIELD = 5,  /* a field isn't in its range by the law that the state
                                 names, the zero field isn't 0, n is less than k, or
                                 the last pair yielded though k is 0 (SPEC 8.3) */
    TIE_ROD_STATE_SHEET = 6,  /* state and sheet don't belong together: the laws differ,
                                 an abscissa is less than its yield, the stress lies
                                 beyond a limit, or a law without a second variable
                                 has one that isn't 0 (SPEC 8.4) */

    /* For the logger. */
    TIE_ROD_LIST_LENGTH = 7,  /* not a whole number of pairs, or more than 4,096; for
                                 tie_rod_pair and tie_rod_trial: not 6 bytes */
    TIE_ROD_PAIR_FIELD = 8,   /* a field of the pair isn't in its range */
    TIE_ROD_PAIR_STRAIN = 9,  /* the new strain isn't within -10^8 to 10^8 */

    /* About the steel. */
    TIE_ROD_RANGE = 10,       /* the new stress, centre, abscissa or n wouldn't fit its
                                 range (SPEC 8.5) */

    /* For the caller. */
    TIE_ROD_BUFFER = 12,      /* rows below 16 bytes a pair, or next not 37 bytes; for
                                 tie_rod_keep: next not 37 bytes */

    /* For whoever describes the plate. */
    TIE_ROD_SECTION_FIELD = 14, /* a section's count isn't 1 to 32, or one of its areas,
                                   offsets, the mean strain or the curvature isn't in
                                   its range */

    /* For whoever keeps a trial. */
    TIE_ROD_NOT_KEPT = 15,    /* the state offered isn't the one that the trial started
                                 from, or the trial was itself refused */

    /* For whoever sends the table and wants a verdict. */
    TIE_ROD_TABLE_LENGTH = 16, /* the rows of the table aren't 16 bytes for each pair */
    TIE_ROD_TOLERANCE = 17     /* the tolerance isn't 0 to 10^12 */
};

/*
 * A whole run (SPEC 9.6): carries the rod over a list of up to 4,096 pairs.
 *
 * The answer is number + 256 * place. The place is that of the refused pair,
 * from 1, for numbers 8 to 10, and 0 otherwise.
 *
 *   number        rows                         next (if its length is 37)
 *   0             a row for each pair          the state after the last pair
 *   8 to 10       a row for each pair before   the state after the last
 *                 the place                    accepted pair
 *   7, 12         unchanged                    the bytes of `state`
 *   1 to 6, 13    unchanged                    37 zero bytes
 *
 * That is all that changes (SPEC 9.3 to 9.5): rows behind the last accepted
 * pair keep what they held. A `next` of another length than 37 stays untouched
 * on every answer, and so do rows that are too short. An empty list is accepted
 * with no row, and `next` then holds the bytes of `state`.
 *
 * Whoever keeps the state on a card stores `next` on 0 and on 8 to 10 only, as
 * tie_rod_has_next says. On 1 to 6 and 13 its zeros would take the state off the
 * card: leave the card alone and report the number. On 7 and 12 the old state
 * holds, and a `next` of another length holds whatever it held before the call.
 */
uint64_t tie_rod_run(const uint8_t *sheet, size_t sheet_len,
                     const uint8_t *state, size_t state_len,
                     const uint8_t *pairs, size_t pairs_len,
                     uint8_t *rows, size_t rows_len,
                     uint8_t *next, size_t next_len);

/* A single pair (SPEC 9.6): a run over one pair; a pair_len other than 6 gets 7. */
uint64_t tie_rod_pair(const uint8_t *sheet, size_t sheet_len,
                      const uint8_t *state, size_t state_len,
                      const uint8_t *pair, size_t pair_len,
                      uint8_t *row, size_t row_len,
                      uint8_t *next, size_t next_len);

/*
 * A trial of a single pair (SPEC 16): says what tie_rod_pair would, and the rod
 * stays where it is. So a solver can try several changes from one state, look at
 * their rows, and keep one of them.
 *
 * The answer, `row` and `next` are those of tie_rod_pair for the same sheet,
 * state, pair and buffers, on every answer and in every byte. All 75 bytes of
 * `trial` are written on every answer; after a refusal it is one that can't be
 * kept. It is for tie_rod_keep and for nothing else: how it is laid out is the
 * library's own, so don't look inside it, and don't change it. It may be stored
 * and kept later.
 *
 * `next` is there to be looked at. Never put it on a card by itself: that would
 * move the rod on without a keeping, and lose whatever has happened to it since
 * the trial's start. What goes on the card is the `next` of tie_rod_keep. So
 * tie_rod_has_next is not for this answer; tie_rod_rows is.
 *
 * `trial` is never NULL, and overlaps no other buffer of the call.
 */
uint64_t tie_rod_trial(const uint8_t *sheet, size_t sheet_len,
                       const uint8_t *state, size_t state_len,
                       const uint8_t *pair, size_t pair_len,
                       uint8_t *row, size_t row_len,
                       uint8_t *next, size_t next_len,
                       uint8_t trial[TIE_ROD_TRIAL_BYTES]);

/*
 * The keeping of a trial (SPEC 16): makes the trial's next state the rod's.
 * `state` is the state that the rod has now, as its card has it. The answer is the
 * number, 0, 12 or 15; there is no place.
 *
 *   number   next                     what it says
 *   0        the trial's next state   it is the rod's: copy it to the card
 *   12       unchanged                `next` hasn't 37 bytes
 *   15       unchanged                `state` isn't the one that the trial started
 *                                     from, byte for byte, or the trial was itself
 *                                     refused; a `state` that hasn't 37 bytes gets
 *                                     15 too, and never 4
 *
 * Once the card holds another state, from a keeping, a single pair or a run, every
 * trial from the state before gets 15, the kept one too. So of several trials from
 * one state one is kept, and once. n and k count a kept pair once, and a pair that
 * was only tried never.
 *
 * Whoever keeps the state on a card stores this `next` on 0 only, and never the
 * `next` of a trial. Buffers of one call must not overlap, so lend another `next`
 * than the card's own bytes, and copy it there afterwards. On 12 and 15 the card
 * stays as it is, as tie_rod_has_next says; tie_rod_rows is not for this answer.
 *
 * A trial belongs to the sheet that it was made with, which isn't asked for here:
 * keep it for rods of that sheet only. `trial` is never NULL. Any 75 bytes end
 * with one of the three numbers, but bytes that no trial wrote lead to no state
 * that is promised anything: 75 zeros, say, are kept from a state of zeros.
 */
uint64_t tie_rod_keep(const uint8_t trial[TIE_ROD_TRIAL_BYTES],
                      const uint8_t *state, size_t state_len,
                      uint8_t *next, size_t next_len);

/*
 * The tangent modulus that a state lets one expect (SPEC 7.13, 9.8). The answer
 * is number + 256 * tangent; the number is 0 to 6 or 13, the tangent 0 unless it
 * is 0.
 */
uint64_t tie_rod_forecast(const uint8_t *sheet, size_t sheet_len,
                          const uint8_t *state, size_t state_len);

/*
 * Makes an unused rod of a sheet (SPEC 3.15, 9.9). The answer is the number, 0
 * to 3 or 13. All 37 bytes of `state` are written: the rod, or zeros where the
 * sheet is refused, so never lend it a card that holds a state. `state` is never
 * NULL.
 */
uint64_t tie_rod_unused(const uint8_t *sheet, size_t sheet_len,
                        uint8_t state[TIE_ROD_STATE_BYTES]);

/*
 * A rod of a section: 56 bytes, the state from byte 16 on. What C leaves free
 * behind the state means nothing.
 */
struct tie_rod_member {
    uint64_t area;  /* 1 to 1,000,000 mm^2 */
    int64_t offset; /* -1,000 to 1,000 mm from the line where the mean strain holds */
    uint8_t state[TIE_ROD_STATE_BYTES];
};

/* No #pragma or option has packed the struct or spread it. */
#define TIE_ROD_MEMBER_FITS \
    (offsetof(struct tie_rod_member, area) == 0 && offsetof(struct tie_rod_member, offset) == 8 \
     && offsetof(struct tie_rod_member, state) == 16 && sizeof(struct tie_rod_member) == 56)
#if defined(__cplusplus) && __cplusplus >= 201103L
static_assert(TIE_ROD_MEMBER_FITS, "struct tie_rod_member lies otherwise than the library's");
#elif defined(__STDC_VERSION__) && __STDC_VERSION__ >= 201112L
_Static_assert(TIE_ROD_MEMBER_FITS, "struct tie_rod_member lies otherwise than the library's");
#endif

/*
 * A section (SPEC 15): up to 32 rods of one sheet that are tied to one plate.
 * The plate's mean strain changes by `mean` nano, its curvature by `curvature`
 * nano per mm, and `temperature` is the new one of all rods. So every rod is
 * given the pair (mean + curvature * offset, temperature), and either all of
 * them move or none does.
 *
 *   mean          within 200,000,000 nano
 *   curvature     within 1,000,000 nano per mm
 *   temperature   -2,000 to 20,000 tenths; all 64 bits count
 *
 * The answer is number + 256 * place, the place being that of the refused rod,
 * from 1, and 0 where the number isn't a rod's own.
 *
 *   number                  place      what it says
 *   0                       0          all rods have moved
 *   1, 2, 3, 13             0          the sheet is refused
 *   14                      0          the count, an area or an offset of any
 *                                      member, the mean or the curvature
 *   5, 6, 8, 9, 10          1 to 32    the lowest refused rod: what tie_rod_pair
 *                                      answers for its state and its pair; 8 for
 *                                      the temperature too, or for a strain
 *                                      change beyond 200,000,000
 *
 * `force` and `moment` are written on every answer, and are 0 on a refusal. On
 * 0 they are sums over the rods: of the stress behind the call, in whole 10^-3
 * MPa and rounded toward zero, times the area, in 10^-3 N; and of the same
 * products times the offset, in 10^-3 N mm. Tension counts as positive. Both
 * are exact: a force is within 3.2 * 10^15, a moment within 3.2 * 10^18.
 *
 * On 0 each member's state is the next one, as tie_rod_pair would have left it,
 * and area and offset are what they were. On a refusal area, offset and every
 * byte of the state of every member are what they were. So the members are the
 * card, and nothing is left to copy: tie_rod_has_next and tie_rod_rows are not
 * for this answer.
 *
 * `members` is an array as C lays it out, and `count` says how many it has,
 * which must be true; NULL with count 0 is fine, and gets 14. Sheet, members,
 * `force` and `moment` must not overlap; the last two are never NULL.
 */
uint64_t tie_rod_section(const uint8_t *sheet, size_t sheet_len,
                         struct tie_rod_member *members, size_t count,
                         int64_t mean, int64_t curvature, int64_t temperature,
                         int64_t *force, int64_t *moment);

/*
 * Grading another firm's table (SPEC 17): carries the rod over the pairs as
 * tie_rod_run does, and holds each stress in `rows` against ours. `rows` is their
 * table, a result row for each pair. Of each row the stress field alone is read:
 * whatever bits stand beside it, yielded and branch among them, they have no say.
 *
 * The table is accepted exactly when every stress of theirs is within `tolerance`
 * grains of ours, |theirs - ours| <= tolerance. The tolerance is 0 to
 * TIE_ROD_TOLERANCE_MAX; all 64 bits count.
 *
 * The answer is number + 256 * place. `row` has the verdict, and is written on
 * every answer; nothing else is.
 *
 *   number        place       *row         what it says
 *   0             0           0            the table is accepted
 *   0             0           1 to 4,096   it isn't: the first row, from 1, whose
 *                                          stress isn't within the tolerance
 *   1 to 7, 13    0           0            what tie_rod_run answers
 *   8 to 10       of a pair   0            what tie_rod_run answers: the refused
 *                                          pair's own number, and its place from 1
 *   16            0           0            rows_len isn't 16 bytes for each pair
 *   17            0           0            the tolerance isn't in its range
 *
 * So a refusal is no verdict. A pair that is refused anywhere in the list goes
 * before 16, before 17, and before every row that differs, however early: the
 * verdict waits for the run's end. No buffer is lent for rows or for a next state,
 * so there is no 12. An empty list with no rows is accepted, if the tolerance is
 * in its range.
 *
 * What a verdict means for a rod that began unused (SPEC 17.8): d is the tolerance,
 * k counts our own yielded rows, from the unused rod on, up to a row and with it,
 * and the exact stress is that of the rod which is carried on without any rounding.
 *   accepted         each stress of the table is within d + k of the exact one
 *   a row is named   its stress is more than d - k away from the exact one, and
 *                    each stress before it is within d + k of its own exact one
 * A d - k below 0 says nothing. To find k, run the pairs up to the row and with it
 * by tie_rod_run: it is the k of the state that is handed back.
 *
 * tie_rod_has_next and tie_rod_rows are not for this answer: the rod isn't moved
 * on, and no row of ours is written. `row` is never NULL, and overlaps no buffer
 * of the call.
 */
uint64_t tie_rod_grade(const uint8_t *sheet, size_t sheet_len,
                       const uint8_t *state, size_t state_len,
                       const uint8_t *pairs, size_t pairs_len,
                       const uint8_t *rows, size_t rows_len,
                       int64_t tolerance, uint64_t *row);

/*
 * The number of an answer of any of the calls: 0 is accepted, but of tie_rod_grade
 * it says that there is a verdict, which is in its `row`.
 */
static inline unsigned tie_rod_number(uint64_t answer)
{
    return (unsigned)(answer & 255u);
}

/*
 * The refused pair's place, from 1, in an answer of tie_rod_run, tie_rod_pair,
 * tie_rod_trial or tie_rod_grade, or the refused rod's in one of tie_rod_section;
 * else 0. The row that a grading names isn't here, but in its `row`.
 */
static inline size_t tie_rod_place(uint64_t answer)
{
    return (size_t)(answer >> 8);
}

/*
 * Whether `next` after tie_rod_run, tie_rod_pair or tie_rod_keep is to be stored:
 * all pairs were accepted, or one of them was refused and so has a place (8 to
 * 10). On any other answer, 13 among them, the card stays as it is. Not for
 * tie_rod_trial, whose `next` is never stored.
 */
static inline int tie_rod_has_next(uint64_t answer)
{
    return tie_rod_number(answer) == TIE_ROD_ACCEPTED || tie_rod_place(answer) != 0;
}

/* The rows that tie_rod_run, tie_rod_pair or tie_rod_trial has written: one for each accepted pair. */
static inline size_t tie_rod_rows(uint64_t answer, size_t pairs_len)
{
    size_t place = tie_rod_place(answer);
    if (tie_rod_number(answer) == TIE_ROD_ACCEPTED)
        return pairs_len / TIE_ROD_PAIR_BYTES;
    return place == 0 ? 0 : place - 1;
}

/* The tangent modulus in an answer of tie_rod_forecast, in MPa. */
static inline uint32_t tie_rod_tangent(uint64_t answer)
{
    return (uint32_t)(answer >> 8);
}

/* The branch of a row that tie_rod_run, tie_rod_pair or tie_rod_trial has written. */
static inline unsigned tie_rod_branch(const uint8_t row[TIE_ROD_ROW_BYTES])
{
    return (unsigned)((row[0] >> 4) & 7);
}

#ifdef __cplusplus
}
#endif

#endif
