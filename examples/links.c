/*
 * A rack of two crates: axis 0 is spread over the slow link between them, and a value moved along
 * it costs five times as much. Lets the search price more and more divisions until its answer is
 * within a tenth of the best; fills in a plan with that division and goes through its steps, to see
 * that its transfers cost what the search said; then searches to the end, and shows refusals that
 * leave the answer as it was.
 */
#include <inttypes.h>
#include <stdio.h>
#include <stdlib.h>
#include <string.h>

#include "campaign.h"

#define AXES 4
#define P 5

static const uint32_t lengths[AXES] = {6, 9, 12, 5};
static const uint32_t links[AXES] = {20, 4, 4, 4};

static void check(const char *what, uint8_t refusal)
{
    if (refusal == CAMPAIGN_OK)
        return;
    fprintf(stderr, "%s: refused %u\n", what, refusal);
    exit(EXIT_FAILURE);
}

static void print(const struct campaign_division *found)
{
    printf("%" PRIu64 " priced:", found->priced);
    for (int d = 0; d < AXES; d++)
        printf(" %u", found->exponents[d]);
    printf(", cost %" PRIu64 ", none under %" PRIu64 "\n", found->cost,
           found->cost - found->distance);
}

/* What a cell costs that is summed over an axis: 2^k - 1 values, each at the axis's weight. */
static uint64_t fare(const struct campaign_division *found, uint8_t axis)
{
    return (((uint64_t)1 << found->exponents[axis]) - 1) * links[axis];
}

/* The plan with an answer's division, its axes in an order along which the fares never rise. */
static void fill_in(const struct campaign_division *found, struct campaign_rack_plan *plan)
{
    memset(plan, 0, sizeof *plan);
    plan->axes = AXES;
    for (uint8_t d = 0; d < AXES; d++) {
        unsigned at = d;

        plan->lengths[d] = lengths[d];
        plan->exponents[d] = found->exponents[d];
        plan->p = (uint8_t)(plan->p + found->exponents[d]);
        for (; at > 0 && fare(found, plan->order[at - 1]) < fare(found, d); at--)
            plan->order[at] = plan->order[at - 1];
        plan->order[at] = d;
    }
}

/* The axis being summed where a choice is formed: the last of the order that it does not keep. */
static uint8_t summed(const struct campaign_rack_plan *plan, uint64_t choice)
{
    unsigned at = AXES;

    while (at > 0 && choice >> plan->order[at - 1] & 1)
        at--;
    return plan->order[at - 1];
}

/* What all transfers of a plan cost. */
static uint64_t transfers(const struct campaign_rack_plan *plan)
{
    uint64_t cost = 0, steps;

    check("step count", campaign_plan_step_count(plan, &steps));
    for (uint64_t position = 0; position < steps; position++) {
        struct campaign_rack_step step;

        check("step at", campaign_plan_step_at(plan, position, &step));
        if (step.kind == CAMPAIGN_TRANSFER)
            cost += step.values * links[summed(plan, step.choice)];
    }
    return cost;
}

int main(void)
{
    struct campaign_rack_plan plan;
    struct campaign_prices prices;
    struct campaign_division found;
    uint32_t idle;
    uint8_t refusal;
    uint64_t budget = 1;

    check("plan", campaign_plan_make(lengths, AXES, P, &plan, &prices, &idle));
    printf("the planner's transfers cost %" PRIu64 "\n", transfers(&plan));

    /* Stop as soon as the answer is within a tenth of the best. */
    do {
        check("search", campaign_link_search(lengths, AXES, P, links, AXES, budget, &found));
        print(&found);
        budget *= 4;
    } while (found.distance > (found.cost - found.distance) / 10);

    fill_in(&found, &plan);
    check("price", campaign_plan_price(&plan, &prices));
    printf("its transfers cost %" PRIu64 "\n", transfers(&plan));

    check("search", campaign_link_search(lengths, AXES, P, links, AXES, UINT64_MAX, &found));
    print(&found);

    refusal = campaign_link_search(lengths, AXES, P, links, AXES, 0, &found);
    printf("refused %u, the cost is still %" PRIu64 "\n", refusal, found.cost);
    refusal = campaign_link_search(lengths, AXES, P, links, AXES - 1, 1, &found);
    printf("refused %u, the cost is still %" PRIu64 "\n", refusal, found.cost);

    if (fflush(stdout) != 0 || ferror(stdout)) {
        perror("links");
        return EXIT_FAILURE;
    }
    return EXIT_SUCCESS;
}
