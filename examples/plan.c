/*
 * Plans a campaign of three axes for four boards, and one that is too small for 64 of them; says
 * how many stand idle, and shows a refusal.
 */
#include <inttypes.h>
#include <stdio.h>

#include "campaign.h"

#define AXES 3

static void show(const uint16_t lengths[AXES], uint8_t p)
{
    uint8_t bytes[2 * AXES];
    uint8_t result[2 * AXES];
    uint64_t idle;

    for (int i = 0; i < AXES; i++) {
        bytes[2 * i] = (uint8_t)(lengths[i] & 0xff);
        bytes[2 * i + 1] = (uint8_t)(lengths[i] >> 8);
    }
    uint8_t refusal = campaign_plan(bytes, sizeof bytes, p, result, sizeof result);
    if (refusal == CAMPAIGN_PLANNED)
        refusal = campaign_idle(bytes, sizeof bytes, p, &idle, 1);
    if (refusal != CAMPAIGN_PLANNED) {
        printf("refused %u\n", refusal);
        return;
    }
    for (int i = 0; i < AXES; i++) {
        uint8_t axis = result[i];
        uint8_t exponent = result[AXES + i];
        printf("axis %u of length %u in %u portions\n", axis, lengths[axis], 1u << exponent);
    }
    printf("%" PRIu64 " of %u boards idle\n", idle, 1u << p);
}

int main(void)
{
    const uint16_t lengths[AXES] = {2, 300, 7}, few[AXES] = {2, 3, 1};

    show(lengths, 2);
    show(few, 6);
    show(lengths, 11);
    return 0;
}
