/*
 * Campaign totals: the totals of a test campaign over every choice of its axes, formed by a rack
 * of 2^p boards with the fewest values moved between them and the fewest cells added up.
 *
 * Link with libcampaign.a (pkg-config --cflags --libs campaign); campaign(3) is its manual page.
 *
 * The library allocates nothing, keeps no state between calls, calls nothing back, reads and
 * writes nothing but what it is lent, and may be called from any thread. Each of its functions
 * returns CAMPAIGN_OK or the first refusal of the list below that is due, and on a refusal not one
 * byte of what it was lent has changed. That, and what each writes, is proved for every input.
 *
 * The inline functions below are C, and not proved. Those that return a uint8_t hand structures
 * over to a function of the library, return what it returns, and write nothing where it refuses.
 * campaign_boards, campaign_work_cells, campaign_choice_cells and campaign_points work out sizes
 * and refuse nothing; each says where it gives 0. campaign_tell_step and campaign_tell_tape put
 * cells into structures for the others.
 *
 * What a caller owes: each pointer is not null, also where its length is 0, is aligned for its
 * type and valid for its length, and what a function writes overlaps nothing else that the same
 * call is lent.
 *
 * A run:
 *
 *     campaign_plan_make(lengths, axes, p, &plan, &prices, &idle)     plan, once
 *     cells = campaign_work_cells(&plan, &prices)
 *     work = calloc(cells, sizeof *work)
 *     position = 0
 *     campaign_plan_step(&plan, points, n, work, cells, &position, &step)     until step.kind is
 *                                                                            CAMPAIGN_DONE
 *     campaign_plan_gather(&plan, work, cells, position, result, m)   where it is CAMPAIGN_FINISH
 */
#ifndef CAMPAIGN_H
#define CAMPAIGN_H

#include <stddef.h>
#include <stdint.h>

#ifdef __cplusplus
extern "C" {
#endif

/* ---- limits ------------------------------------------------------------------------------ */

#define CAMPAIGN_AXES 8             /* the most axes; slots past a plan's last axis are 0 */
#define CAMPAIGN_LONGEST 65535      /* the longest axis */
#define CAMPAIGN_POINTS 16777216    /* the most points */
#define CAMPAIGN_HIGHEST_P 10       /* the highest p: a rack has at most 1,024 boards */
#define CAMPAIGN_TAPE_BYTES 65536   /* the longest tape */
#define CAMPAIGN_HIGHEST_LINK 1000  /* the highest weight of a link; the lowest is 1 */

/* ---- refusals, in the order in which they are judged ------------------------------------- */

#define CAMPAIGN_OK 0               /* not refused */
#define CAMPAIGN_PLANNED 0          /* the same, as campaign_plan returns it */
#define CAMPAIGN_LONG_TAPE 1        /* the tape is over 65,536 bytes */
#define CAMPAIGN_BAD_TAPE 2         /* the tape departs from its form */
#define CAMPAIGN_NOT_FINITE 14      /* a reading on the tape is infinite or not a number; */
#define CAMPAIGN_OUT_OF_RANGE 15    /* or it gives a number outside -2,147,483,647 to 2,147,483,647:
                                       of 14 and 15 the one that comes first on the tape is due */
#define CAMPAIGN_BAD_AXES 3         /* no axes or more than 8; an odd number of length bytes */
#define CAMPAIGN_BAD_LENGTH 4       /* an axis length is 0 or over 65,535 */
#define CAMPAIGN_TOO_MANY_POINTS 5  /* the product of the lengths is over 16,777,216 */
#define CAMPAIGN_TOO_MANY_BOARDS 6  /* p is over 10 */
#define CAMPAIGN_NO_BUDGET 18       /* a search over links is given a budget of 0 */
#define CAMPAIGN_BAD_LINKS 19       /* a link weight is 0 or over 1,000, or there is not one for each
                                       axis */
#define CAMPAIGN_NO_ROOM 7          /* retired, no function returns it: where the axes cannot be
                                       divided for 2^p boards, fewer are used */
#define CAMPAIGN_BAD_ORDER 8        /* the order does not name each axis once, or a slot past the
                                       last axis is not 0 */
#define CAMPAIGN_BAD_EXPONENTS 9    /* an axis has more portions than it is long, or the exponents
                                       do not sum to p */
#define CAMPAIGN_BAD_ARRAY 10       /* the number of points is not the product of the lengths */
#define CAMPAIGN_SMALL_AREA 11      /* the work area is under 2^p shares; or the slice for a tape's
                                       points is too short for them */
#define CAMPAIGN_BAD_POSITION 12    /* the position is past the last step; or view or gather does
                                       not follow a finish; or there is no such board */
#define CAMPAIGN_BAD_RESULT 13      /* a lent result has the wrong length */

/* ---- types ------------------------------------------------------------------------------- */

/*
 * A plan. Lengths and exponents are by axis number; order[i] is the axis at place i of the plan.
 * An axis with exponent k is cut in 2^k portions, and the exponents sum to p: the plan uses 2^p
 * boards. The first (length mod 2^k) portions have one position more than the others, so that no
 * board ever holds more than board 0 does after the first step. A caller may fill a plan in by
 * hand, and any lawful plan can be priced and run: set it to {0} first.
 */
struct campaign_rack_plan {
    uint8_t axes;
    uint8_t p;
    uint8_t order[CAMPAIGN_AXES];
    uint8_t exponents[CAMPAIGN_AXES];
    uint32_t lengths[CAMPAIGN_AXES];
};

/* The library reads and writes all but the lengths as one slice of bytes, in this order. */
#if defined __cplusplus && __cplusplus >= 201103L
#define CAMPAIGN_ASSERT(holds, says) static_assert(holds, says)
#elif defined __STDC_VERSION__ && __STDC_VERSION__ >= 201112L
#define CAMPAIGN_ASSERT(holds, says) _Static_assert(holds, says)
#endif
#ifdef CAMPAIGN_ASSERT
CAMPAIGN_ASSERT(offsetof(struct campaign_rack_plan, axes) == 0, "axes stand first");
CAMPAIGN_ASSERT(offsetof(struct campaign_rack_plan, p) == 1, "p stands after axes");
CAMPAIGN_ASSERT(offsetof(struct campaign_rack_plan, order) == 2, "the order stands after p");
CAMPAIGN_ASSERT(offsetof(struct campaign_rack_plan, exponents) == 2 + CAMPAIGN_AXES,
                "the exponents stand after the order");
#undef CAMPAIGN_ASSERT
#endif

/*
 * What a plan costs, and whether its order wastes additions. Each choice but the full one is summed
 * from its parent, a choice that keeps the same axes and exactly one more: a way to form the totals
 * selects these parents, and a plan's tree is one such way.
 */
struct campaign_prices {
    uint64_t moved;  /* values moved between boards */
    uint64_t added;  /* cells added up */
    uint64_t share;  /* A: the cells of one board's share of the work area */
    uint64_t fewest; /* 1: no selection of parents adds up fewer cells; 0: some selection does */
};

/*
 * A division of the axes that a search over links found, and how far it may be from the best. Each
 * axis has a link weight, and a value that is moved costs the weight of the axis being summed.
 * cost is what the division costs with the cheapest parent for every choice. No division for the
 * same boards, with any parents, costs less than cost - distance; where distance is 0, none costs
 * less at all.
 */
struct campaign_division {
    uint64_t cost;
    uint64_t distance;
    uint64_t priced;                  /* how many divisions were priced */
    uint8_t exponents[CAMPAIGN_AXES]; /* by axis number; 0 past the last axis */
};

enum campaign_kind {
    CAMPAIGN_EXPAND = 1,   /* a choice's cells are summed into those of all its children */
    CAMPAIGN_TRANSFER = 2, /* one board's cells of a choice are added to those of a lead */
    CAMPAIGN_FINISH = 3,   /* a choice is final and may be viewed and gathered */
    CAMPAIGN_DONE = 4      /* all steps are taken */
};

/* What a step tells. A choice is the sum of 2^d over the axes d that it keeps. */
struct campaign_rack_step {
    uint64_t kind;      /* an enum campaign_kind */
    uint64_t sender;    /* the two boards of a transfer, else 0 */
    uint64_t receiver;
    uint64_t choice;    /* 0 with CAMPAIGN_DONE */
    uint64_t values;    /* how many values a transfer moves, else 0 */
};

/* Where a board's cells of a finished choice stand in the work area: work[start] and on. */
struct campaign_part {
    uint64_t start;
    uint64_t cells;     /* 0 for a board that is no lead */
};

/* What a tape holds. */
struct campaign_tape {
    size_t axes;                      /* can be over CAMPAIGN_AXES: it has no plan then */
    uint8_t p;
    uint64_t points;                  /* a 52 counts as often as it repeats its point */
    uint64_t commands;                /* of every kind, with the 42 and the 45; a 52 is one */
    uint32_t lengths[CAMPAIGN_AXES];  /* of the first axes; 0 past the last */
};

/* ---- the library's functions ------------------------------------------------------------- */

/*
 * These are the functions of libcampaign.a: slices, each a pointer and its number of elements,
 * and numbers. The inline functions below call them with the structures above. Another language
 * binds these.
 *
 * A plan is lent as two slices: CAMPAIGN_PLAN_BYTES bytes (axes, p, order, exponents) and
 * CAMPAIGN_AXES lengths. Slices of other lengths hold no axes, and CAMPAIGN_BAD_AXES is due. A
 * result slice is exactly as long as is said here, else CAMPAIGN_BAD_RESULT is due, last.
 */
#define CAMPAIGN_PLAN_BYTES (2 + 2 * CAMPAIGN_AXES)
#define CAMPAIGN_PRICES_CELLS 4                    /* moved, added, share, fewest */
#define CAMPAIGN_MAKE_CELLS 4                      /* moved, added, share, idle */
#define CAMPAIGN_SEARCH_CELLS (3 + CAMPAIGN_AXES)  /* cost, distance, priced, exponents */
#define CAMPAIGN_STEP_CELLS 5                      /* kind, sender, receiver, choice, values */
#define CAMPAIGN_PART_CELLS 2                      /* start, cells */
#define CAMPAIGN_TAPE_CELLS (4 + CAMPAIGN_AXES)    /* axes, p, points, commands, lengths */

/*
 * Planning for a rack controller, over bytes. Refusals 3 to 6, 13.
 *
 * lengths      the axis lengths in axis order, two bytes each, the lower byte first
 * lengths_len  the number of bytes at `lengths`: twice the number of axes n
 * p            the rack has 2^p boards
 * result       n axis numbers (from 0), then n exponents, both in plan order, one byte each
 * result_len   exactly 2n
 *
 * The exponents sum to the p that is used: p, or where that is over F, the sum of floor(log2
 * length), then F.
 */
uint8_t campaign_plan(const uint8_t *lengths, size_t lengths_len, uint8_t p,
                      uint8_t *result, size_t result_len);

/*
 * How many of the 2^p boards stand idle under that plan: 2^p less 2 to the p that is used. `lengths`
 * and p are those of campaign_plan, `idle` is one cell. Refusals 3 to 6, 13.
 */
uint8_t campaign_idle(const uint8_t *lengths, size_t lengths_len, uint8_t p,
                      uint64_t *idle, size_t idle_len);

/* Planning with prices: see campaign_plan_make. */
uint8_t campaign_make(const uint32_t *lengths, size_t lengths_len, uint8_t p,
                      uint8_t *plan, size_t plan_len, uint32_t *slots, size_t slots_len,
                      uint64_t *cells, size_t cells_len);

/* The search over links: see campaign_link_search. CAMPAIGN_SEARCH_CELLS cells. */
uint8_t campaign_search(const uint32_t *lengths, size_t lengths_len, uint8_t p,
                        const uint32_t *links, size_t links_len, uint64_t budget,
                        uint64_t *cells, size_t cells_len);

/* Pricing: see campaign_plan_price. CAMPAIGN_PRICES_CELLS cells, of which the last is 1 or 0. */
uint8_t campaign_price(const uint8_t *plan, size_t plan_len,
                       const uint32_t *slots, size_t slots_len,
                       uint64_t *prices, size_t prices_len);

/* The step count: see campaign_plan_step_count. One cell. */
uint8_t campaign_step_count(const uint8_t *plan, size_t plan_len,
                            const uint32_t *slots, size_t slots_len,
                            uint64_t *count, size_t count_len);

/* The step at a position: see campaign_plan_step_at. */
uint8_t campaign_step_at(const uint8_t *plan, size_t plan_len,
                         const uint32_t *slots, size_t slots_len, uint64_t position,
                         uint64_t *step, size_t step_len);

/* Held: see campaign_plan_held. One cell. */
uint8_t campaign_held(const uint8_t *plan, size_t plan_len,
                      const uint32_t *slots, size_t slots_len, uint64_t position, uint32_t board,
                      uint64_t *cells, size_t cells_len);

/* Step: see campaign_plan_step. */
uint8_t campaign_step(const uint8_t *plan, size_t plan_len,
                      const uint32_t *slots, size_t slots_len,
                      const int32_t *array, size_t array_len, int64_t *work, size_t work_len,
                      uint64_t *position, uint64_t *step, size_t step_len);

/* View: see campaign_plan_view. */
uint8_t campaign_view(const uint8_t *plan, size_t plan_len,
                      const uint32_t *slots, size_t slots_len,
                      const int64_t *work, size_t work_len, uint64_t position, uint32_t board,
                      uint64_t *part, size_t part_len);

/* Gather: see campaign_plan_gather. */
uint8_t campaign_gather(const uint8_t *plan, size_t plan_len,
                        const uint32_t *slots, size_t slots_len,
                        const int64_t *work, size_t work_len, uint64_t position,
                        int64_t *result, size_t result_len);

/*
 * Tapes. A row of commands of one byte each (hex), with operands, the lowest byte first: 41 and an
 * axis length (2 bytes) for each axis, then 42 and p (1 byte), then the points, then 45 and no byte
 * after it. A point is one of
 *
 *     56  a whole number of centimetres, signed (4 bytes)
 *     52  a count of at least 1 (2 bytes), and such a number (4 bytes) that stands so often
 *     4D  a reading in metres: the 4 bytes of a float in single precision (IEEE 754)
 *     4B  a reading in kilometres: the same
 *
 * A reading gives the whole centimetre nearest to the float's exact value, and of two that are
 * equally near the even one: 0.125 m gives 12, 0.375 m gives 38, -0.125 m gives -12, and both zeros
 * give 0. No reading gives -2,147,483,648; a 56 or a 52 may. campaign(3) shows how the log of an
 * older set is loaded.
 */

/* Scanning a tape: see campaign_tape_scan. */
uint8_t campaign_scan(const uint8_t *tape, size_t tape_len, uint64_t *scan, size_t scan_len);

/*
 * Reads a tape's points into `array`, which has room for them or for more; cells after the points
 * are not touched. The tape's lengths and p play no part here. Refusals 1, 2, 14, 15, 11.
 */
uint8_t campaign_fill(const uint8_t *tape, size_t tape_len, int32_t *array, size_t array_len);

/* Opening a campaign: see campaign_tape_open. */
uint8_t campaign_open(const uint8_t *tape, size_t tape_len, int32_t *array, size_t array_len,
                      uint64_t *scan, size_t scan_len);

/* ---- over structures --------------------------------------------------------------------- */

/*
 * Plans a campaign for a rack of 2^p boards: the order of the axes, and into how many portions
 * each is cut. Where p is over F, the sum of floor(log2 length), the axes cannot be divided for so
 * many boards, and 2^F are used: plan->p is then F, and *idle says how many of the 2^p stand idle,
 * else 0. No way to form the totals, with any division of the axes for the boards in use, moves
 * fewer values or adds up fewer cells: prices->fewest is 1. `lengths` has the axes' lengths, in axis
 * order. Refusals 3 to 6.
 */
static inline uint8_t campaign_plan_make(const uint32_t *lengths, size_t axes, uint8_t p,
                                         struct campaign_rack_plan *plan,
                                         struct campaign_prices *prices, uint32_t *idle)
{
    uint64_t cells[CAMPAIGN_MAKE_CELLS];
    uint8_t refusal = campaign_make(lengths, axes, p, (uint8_t *)plan, CAMPAIGN_PLAN_BYTES,
                                    plan->lengths, CAMPAIGN_AXES, cells, CAMPAIGN_MAKE_CELLS);

    if (refusal == CAMPAIGN_OK) {
        prices->moved = cells[0];
        prices->added = cells[1];
        prices->share = cells[2];
        prices->fewest = 1; /* as campaign_price says of each plan that campaign_make gives */
        *idle = (uint32_t)cells[3];
    }
    return refusal;
}

/*
 * What a plan costs, and whether its order wastes additions. prices->fewest is 1 exactly where the
 * lengths never rise along the order: none is more than the one before it. Then no selection of
 * parents, tree or not, adds up fewer cells. Where it is 0, the plan that campaign_plan_make gives
 * for the same lengths adds up fewer, whatever p. How the axes are divided plays no part, and of
 * values moved it says nothing. Refusals 3 to 6, 8, 9, as of every function that takes a plan.
 */
static inline uint8_t campaign_plan_price(const struct campaign_rack_plan *plan,
                                          struct campaign_prices *prices)
{
    uint64_t cells[CAMPAIGN_PRICES_CELLS];
    uint8_t refusal = campaign_price((const uint8_t *)plan, CAMPAIGN_PLAN_BYTES, plan->lengths,
                                     CAMPAIGN_AXES, cells, CAMPAIGN_PRICES_CELLS);

    if (refusal == CAMPAIGN_OK) {
        prices->moved = cells[0];
        prices->added = cells[1];
        prices->share = cells[2];
        prices->fewest = cells[3];
    }
    return refusal;
}

/*
 * Searches the divisions of a campaign for a rack of 2^p boards in which some axes are spread over
 * a slow link. `links` has the axes' link weights, from 1 to 1,000, in axis order. Divisions of the
 * boards in use (2^p, or 2^F where p is over F, as in campaign_plan_make) are priced in ascending
 * order of their exponents, read in axis order, the first `budget` of them or all that there are.
 * The answer is the first cheapest of these.
 *
 * Any budget gives a usable answer, and each call begins again with the first division. A larger
 * budget never gives a higher cost or a higher distance. UINT64_MAX prices all divisions, of which
 * there are never more than 6,728, and then the answer is the cheapest of all and found->distance
 * is 0. Before that found->distance is the cost less a floor: the smallest link weight of all axes,
 * also of one of length 1, times the values that the plan of campaign_plan_make moves
 * (prices->moved). To know that an answer is within a tenth of the best, look for
 * distance <= (cost - distance) / 10. No cost overflows.
 *
 * To run an answer, fill in a plan by hand: lengths and exponents by axis number, p the sum of the
 * exponents (less than the p asked for where that is over F), and an order along which
 * (2^k - 1) * link weight never rises, k being an axis's exponent. Each choice is then formed from
 * its cheapest parent, and its tree costs found->cost. examples/links.c does that, and adds up the
 * transfers. `links_len` must be `axes`, else 19 is due. Refusals 3 to 6, 18, 19.
 */
static inline uint8_t campaign_link_search(const uint32_t *lengths, size_t axes, uint8_t p,
                                           const uint32_t *links, size_t links_len,
                                           uint64_t budget, struct campaign_division *found)
{
    uint64_t cells[CAMPAIGN_SEARCH_CELLS];
    uint8_t refusal = campaign_search(lengths, axes, p, links, links_len, budget, cells,
                                      CAMPAIGN_SEARCH_CELLS);

    if (refusal == CAMPAIGN_OK) {
        found->cost = cells[0];
        found->distance = cells[1];
        found->priced = cells[2];
        for (unsigned d = 0; d < CAMPAIGN_AXES; d++)
            found->exponents[d] = (uint8_t)cells[3 + d];
    }
    return refusal;
}

/* The boards that a plan uses: 2^p; 0 where p is over CAMPAIGN_HIGHEST_P. */
static inline uint32_t campaign_boards(const struct campaign_rack_plan *plan)
{
    return plan->p > CAMPAIGN_HIGHEST_P ? 0 : (uint32_t)1 << plan->p;
}

/*
 * The cells of the work area that a plan of these prices needs: a share for each board; 0 where p
 * is over CAMPAIGN_HIGHEST_P, or where a size_t cannot hold so many.
 */
static inline size_t campaign_work_cells(const struct campaign_rack_plan *plan,
                                         const struct campaign_prices *prices)
{
    if (plan->p > CAMPAIGN_HIGHEST_P || prices->share > SIZE_MAX >> plan->p)
        return 0;
    return (size_t)prices->share << plan->p;
}

/*
 * The cells of a choice: the product of the lengths of the axes that it keeps, 1 for the grand
 * total; 0 where a plan has no axes or more than CAMPAIGN_AXES, and where the product is 0 or over
 * CAMPAIGN_POINTS. Bits of a choice past the last axis play no part.
 */
static inline size_t campaign_choice_cells(const struct campaign_rack_plan *plan, uint64_t choice)
{
    uint64_t cells = 1;

    if (plan->axes == 0 || plan->axes > CAMPAIGN_AXES)
        return 0;
    for (unsigned d = 0; d < plan->axes; d++) {
        if (choice >> d & 1)
            cells *= plan->lengths[d];
        if (cells > CAMPAIGN_POINTS)
            return 0;
    }
    return (size_t)cells;
}

/* The points of a plan's campaign: the cells of the choice that keeps every axis. */
static inline size_t campaign_points(const struct campaign_rack_plan *plan)
{
    return campaign_choice_cells(plan, UINT64_MAX);
}

/* T: how many steps a plan has. */
static inline uint8_t campaign_plan_step_count(const struct campaign_rack_plan *plan,
                                               uint64_t *count)
{
    return campaign_step_count((const uint8_t *)plan, CAMPAIGN_PLAN_BYTES, plan->lengths,
                               CAMPAIGN_AXES, count, 1);
}

/* For the functions below: what a step tells, out of its cells. */
static inline void campaign_tell_step(const uint64_t cells[CAMPAIGN_STEP_CELLS],
                                      struct campaign_rack_step *step)
{
    step->kind = cells[0];
    step->sender = cells[1];
    step->receiver = cells[2];
    step->choice = cells[3];
    step->values = cells[4];
}

/* The step at a position, CAMPAIGN_DONE at T; nothing is taken. Also refusal 12. */
static inline uint8_t campaign_plan_step_at(const struct campaign_rack_plan *plan,
                                            uint64_t position, struct campaign_rack_step *step)
{
    uint64_t cells[CAMPAIGN_STEP_CELLS];
    uint8_t refusal = campaign_step_at((const uint8_t *)plan, CAMPAIGN_PLAN_BYTES, plan->lengths,
                                       CAMPAIGN_AXES, position, cells, CAMPAIGN_STEP_CELLS);

    if (refusal == CAMPAIGN_OK)
        campaign_tell_step(cells, step);
    return refusal;
}

/*
 * How many cells a board holds at a position: those of its choices that are formed and not yet
 * finished. Also refusal 12.
 */
static inline uint8_t campaign_plan_held(const struct campaign_rack_plan *plan, uint64_t position,
                                         uint32_t board, uint64_t *cells)
{
    return campaign_held((const uint8_t *)plan, CAMPAIGN_PLAN_BYTES, plan->lengths, CAMPAIGN_AXES,
                         position, board, cells, 1);
}

/*
 * Takes the step at *position on the work area and adds 1 to *position; at T it takes none and
 * tells CAMPAIGN_DONE. Also refusals 10, 11, 12.
 *
 * array     the campaign's points, row-major in axis order, the last axis fastest
 * work      campaign_work_cells cells or more; what they hold before the first step plays no part
 * position  the steps taken so far: 0 before the first
 */
static inline uint8_t campaign_plan_step(const struct campaign_rack_plan *plan,
                                         const int32_t *array, size_t array_len,
                                         int64_t *work, size_t work_len,
                                         uint64_t *position, struct campaign_rack_step *step)
{
    uint64_t cells[CAMPAIGN_STEP_CELLS];
    uint8_t refusal = campaign_step((const uint8_t *)plan, CAMPAIGN_PLAN_BYTES, plan->lengths,
                                    CAMPAIGN_AXES, array, array_len, work, work_len, position,
                                    cells, CAMPAIGN_STEP_CELLS);

    if (refusal == CAMPAIGN_OK)
        campaign_tell_step(cells, step);
    return refusal;
}

/*
 * Where a board's cells of the choice that the step before `position` finished stand in the work
 * area, row-major in plan order over the board's own portions. Also refusals 11, 12.
 */
static inline uint8_t campaign_plan_view(const struct campaign_rack_plan *plan,
                                         const int64_t *work, size_t work_len,
                                         uint64_t position, uint32_t board,
                                         struct campaign_part *part)
{
    uint64_t cells[CAMPAIGN_PART_CELLS];
    uint8_t refusal = campaign_view((const uint8_t *)plan, CAMPAIGN_PLAN_BYTES, plan->lengths,
                                    CAMPAIGN_AXES, work, work_len, position, board, cells,
                                    CAMPAIGN_PART_CELLS);

    if (refusal == CAMPAIGN_OK) {
        part->start = cells[0];
        part->cells = cells[1];
    }
    return refusal;
}

/*
 * Copies the choice that the step before `position` finished, whole, from the boards' shares into
 * `result`, row-major in axis order; result_len is campaign_choice_cells. Also refusals 11, 12, 13.
 */
static inline uint8_t campaign_plan_gather(const struct campaign_rack_plan *plan,
                                           const int64_t *work, size_t work_len,
                                           uint64_t position, int64_t *result, size_t result_len)
{
    return campaign_gather((const uint8_t *)plan, CAMPAIGN_PLAN_BYTES, plan->lengths,
                           CAMPAIGN_AXES, work, work_len, position, result, result_len);
}

/* For the functions below: what a tape holds, out of its cells. */
static inline void campaign_tell_tape(const uint64_t cells[CAMPAIGN_TAPE_CELLS],
                                      struct campaign_tape *scan)
{
    scan->axes = (size_t)cells[0];
    scan->p = (uint8_t)cells[1];
    scan->points = cells[2];
    scan->commands = cells[3];
    for (unsigned d = 0; d < CAMPAIGN_AXES; d++)
        scan->lengths[d] = (uint32_t)cells[4 + d];
}

/*
 * Judges a tape's form and its readings in one pass, and tells what it holds. Whether such a
 * campaign can be planned is for campaign_plan_make to say, where it has no more than CAMPAIGN_AXES
 * axes. Refusals 1, 2, 14, 15.
 */
static inline uint8_t campaign_tape_scan(const uint8_t *tape, size_t tape_len,
                                         struct campaign_tape *scan)
{
    uint64_t cells[CAMPAIGN_TAPE_CELLS];
    uint8_t refusal = campaign_scan(tape, tape_len, cells, CAMPAIGN_TAPE_CELLS);

    if (refusal == CAMPAIGN_OK)
        campaign_tell_tape(cells, scan);
    return refusal;
}

/*
 * Opens a campaign: does what campaign_tape_scan and campaign_fill do, but scans the tape once,
 * where these two scan it twice. Refusals 1, 2, 14, 15, 11. As with the scan, the lengths, p and
 * the number of points are judged by planning and by the steps (3 to 6 and 10), not here.
 *
 * A caller lends as many cells as the largest campaign that it takes has points, and 11 says that
 * the tape has more; no campaign that can be planned has more than CAMPAIGN_POINTS. One that would
 * rather lend no more than is needed asks campaign_tape_scan for the number of points first.
 */
static inline uint8_t campaign_tape_open(const uint8_t *tape, size_t tape_len,
                                         int32_t *array, size_t array_len,
                                         struct campaign_tape *scan)
{
    uint64_t cells[CAMPAIGN_TAPE_CELLS];
    uint8_t refusal = campaign_open(tape, tape_len, array, array_len, cells, CAMPAIGN_TAPE_CELLS);

    if (refusal == CAMPAIGN_OK)
        campaign_tell_tape(cells, scan);
    return refusal;
}

#ifdef __cplusplus
}
#endif

#endif
