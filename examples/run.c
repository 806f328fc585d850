/*
 * A whole campaign: two fault loops on three line sections, on a rack of two boards. Opens it from
 * its tape, plans it, lends memory, takes every step, gathers each choice when it is finished and
 * prints its totals; shows what another plan costs and that its order wastes additions, what the
 * boards hold, where a board's own cells lie, the same campaign on a larger rack, and refusals that
 * leave everything as it was.
 */
#include <inttypes.h>
#include <stdio.h>
#include <stdlib.h>

#include "campaign.h"

/* A 2, A 3, B 1, six points, E. */
static const uint8_t tape[] = {
    0x41, 2, 0, 0x41, 3, 0, 0x42, 1,
    0x56, 1, 0, 0, 0, 0x56, 0xfe, 0xff, 0xff, 0xff, 0x56, 3, 0, 0, 0,
    0x56, 4, 0, 0, 0, 0x56, 5, 0, 0, 0, 0x56, 0xfa, 0xff, 0xff, 0xff,
    0x45,
};

/* The most points that are taken here. */
#define ROOM 8192

static void check(const char *what, uint8_t refusal)
{
    if (refusal == CAMPAIGN_OK)
        return;
    fprintf(stderr, "%s: refused %u\n", what, refusal);
    exit(EXIT_FAILURE);
}

static void *lent(size_t n, size_t size)
{
    void *memory = calloc(n, size);

    if (memory == NULL) {
        perror("run");
        exit(EXIT_FAILURE);
    }
    return memory;
}

/* Plans what the tape holds; it has as many points as the plan. */
static void plan_tape(const struct campaign_tape *scan, struct campaign_rack_plan *plan,
                      struct campaign_prices *prices)
{
    uint32_t idle;

    if (scan->axes > CAMPAIGN_AXES)
        check("plan", CAMPAIGN_BAD_AXES);
    check("plan", campaign_plan_make(scan->lengths, scan->axes, scan->p, plan, prices, &idle));
    printf("boards: %" PRIu32 " used, %" PRIu32 " idle\n", campaign_boards(plan), idle);
    if (scan->points != campaign_points(plan))
        check("points", CAMPAIGN_BAD_ARRAY);
}

static void print_prices(const char *what, const struct campaign_prices *prices)
{
    printf("%s: moved %" PRIu64 ", added %" PRIu64 ", share %" PRIu64 ", fewest added up: %s\n",
           what, prices->moved, prices->added, prices->share, prices->fewest ? "yes" : "no");
}

/* The same campaign with its axes in the order of the tape, the shorter first, and cut along that. */
static void print_other(const struct campaign_rack_plan *plan)
{
    struct campaign_rack_plan other = *plan;
    struct campaign_prices prices;

    other.order[0] = 0;
    other.order[1] = 1;
    other.exponents[0] = 1;
    other.exponents[1] = 0;
    check("price", campaign_plan_price(&other, &prices));
    print_prices("another plan", &prices);
}

/* The same campaign on a rack of 64 boards: its axes can be divided for four. */
static void print_larger(const struct campaign_tape *scan)
{
    struct campaign_rack_plan larger;
    struct campaign_prices prices;
    uint32_t idle;

    check("plan", campaign_plan_make(scan->lengths, scan->axes, 6, &larger, &prices, &idle));
    printf("64 boards: %" PRIu32 " used, %" PRIu32 " idle\n", campaign_boards(&larger), idle);
}

/* The whole list, of which none is taken. */
static void print_steps(const struct campaign_rack_plan *plan)
{
    static const char *const kinds[] = {"", "expand", "transfer", "finish", "done"};
    struct campaign_rack_step step;
    uint64_t steps;

    check("step count", campaign_plan_step_count(plan, &steps));
    printf("%" PRIu64 " steps:", steps);
    for (uint64_t position = 0; position < steps; position++) {
        check("step at", campaign_plan_step_at(plan, position, &step));
        printf(" %s %" PRIu64 ",", kinds[step.kind], step.choice);
    }
    check("step at", campaign_plan_step_at(plan, steps, &step));
    printf(" %s\n", kinds[step.kind]);
}

/* The totals of the choice that was finished last. */
static void print_group(const struct campaign_rack_plan *plan, const int64_t *work,
                        size_t work_len, uint64_t position, uint64_t choice)
{
    size_t cells = campaign_choice_cells(plan, choice);
    int64_t *result = (int64_t *)lent(cells, sizeof *result);

    check("gather", campaign_plan_gather(plan, work, work_len, position, result, cells));
    printf("group %" PRIu64, choice);
    for (size_t i = 0; i < cells; i++)
        printf(" %" PRId64, result[i]);
    printf("\n");
    free(result);
}

/* Each board's own cells of that choice, in the work area itself. */
static void print_parts(const struct campaign_rack_plan *plan, const int64_t *work,
                        size_t work_len, uint64_t position)
{
    for (uint32_t board = 0; board < campaign_boards(plan); board++) {
        struct campaign_part part;

        check("view", campaign_plan_view(plan, work, work_len, position, board, &part));
        printf("  board %" PRIu32 ":", board);
        for (uint64_t i = 0; i < part.cells; i++)
            printf(" %" PRId64, work[part.start + i]);
        printf("\n");
    }
}

static void print_held(const struct campaign_rack_plan *plan, uint64_t position)
{
    printf("held at %" PRIu64 ":", position);
    for (uint32_t board = 0; board < campaign_boards(plan); board++) {
        uint64_t cells;

        check("held", campaign_plan_held(plan, position, board, &cells));
        printf(" %" PRIu64, cells);
    }
    printf("\n");
}

static void run(const struct campaign_rack_plan *plan, const int32_t *array, size_t points,
                int64_t *work, size_t cells)
{
    struct campaign_rack_step step;
    uint64_t position = 0;

    for (;;) {
        check("step", campaign_plan_step(plan, array, points, work, cells, &position, &step));
        if (step.kind == CAMPAIGN_DONE)
            break;
        if (step.kind == CAMPAIGN_TRANSFER)
            printf("transfer of %" PRIu64 " from board %" PRIu64 " to %" PRIu64 "\n",
                   step.values, step.sender, step.receiver);
        if (step.kind == CAMPAIGN_EXPAND)
            print_held(plan, position);
        if (step.kind == CAMPAIGN_FINISH) {
            print_group(plan, work, cells, position, step.choice);
            print_parts(plan, work, cells, position);
        }
    }
    printf("done at %" PRIu64 "\n", position);
}

int main(void)
{
    struct campaign_rack_plan plan;
    struct campaign_prices prices;
    struct campaign_tape scan, needed;
    struct campaign_rack_step step;
    uint64_t position = 2;
    uint32_t idle = 0;
    uint8_t refusal;

    /* Lend memory for any campaign that is taken here, and open this one: one scan, one filling. */
    int32_t *array = (int32_t *)lent(ROOM, sizeof *array);
    check("open", campaign_tape_open(tape, sizeof tape, array, ROOM, &scan));
    printf("tape: %" PRIu64 " commands, %" PRIu64 " points\n", scan.commands, scan.points);

    plan_tape(&scan, &plan, &prices);
    print_prices("plan", &prices);
    check("price", campaign_plan_price(&plan, &prices));
    print_prices("the same, priced", &prices);
    print_other(&plan);
    print_larger(&scan);
    print_steps(&plan);

    /* Lend memory for the work, and run. */
    size_t points = campaign_points(&plan), cells = campaign_work_cells(&plan, &prices);
    int64_t *work = (int64_t *)lent(cells, sizeof *work);
    run(&plan, array, points, work, cells);

    /* Refusals: too few cells for the tape's points, whose number a scan tells; a plan for too many
       boards; a step that is lent too few points. */
    refusal = campaign_tape_open(tape, sizeof tape, array, points - 1, &scan);
    check("scan", campaign_tape_scan(tape, sizeof tape, &needed));
    printf("refused %u, the tape needs %" PRIu64 " cells\n", refusal, needed.points);
    refusal = campaign_plan_make(scan.lengths, scan.axes, 11, &plan, &prices, &idle);
    printf("refused %u, the plan is still for %" PRIu32 " boards\n", refusal,
           campaign_boards(&plan));
    refusal = campaign_plan_step(&plan, array, points - 1, work, cells, &position, &step);
    printf("refused %u, the position is still %" PRIu64 "\n", refusal, position);

    free(work);
    free(array);
    if (fflush(stdout) != 0 || ferror(stdout)) {
        perror("run");
        return EXIT_FAILURE;
    }
    return EXIT_SUCCESS;
}
