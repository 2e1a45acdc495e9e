/*
 * Power-up: opens the store that memory still holds, or creates it. The flags are not kept; opening works them out.
 * A creation that was cut short can leave bytes that open (see rondo_create in rondo.h), so a word beside the image says
 * that it was finished: cleared before, set after.
 */
#include <inttypes.h>
#include <stdio.h>

#include "store.h"

#define FINISHED UINT32_C(0x600dca5e)

/* What stays over a power cycle. On a device: a section that the start-up code does not clear. */
static struct kept {
    volatile uint32_t finished;
    uint8_t image[IMAGE_SIZE];
} kept;

static uint32_t flags;

/* Whether the image is of this plan: opening accepts every good image. Marks, lengths and offsets are the image's own. */
static int is_planned(const uint8_t *plan) {
    if (memcmp(plan, kept.image, 16)) return 0;
    for (unsigned row = 0; row < TIERS; row++) {
        const uint8_t *want = plan + RONDO_PLAN_SIZE(row), *have = kept.image + RONDO_PLAN_SIZE(row);
        if (memcmp(want, have, 32) || memcmp(want + 56, have + 56, 8)) return 0;
    }
    return 1;
}

/* Opens or creates; *fresh says which. */
static uint32_t power_up(int *fresh) {
    uint8_t plan[PLAN_SIZE];
    put_plan(plan);
    *fresh = 0;
    if (kept.finished == FINISHED && rondo_open(kept.image, sizeof kept.image, &flags) == RONDO_ACCEPTED && is_planned(plan))
        return RONDO_ACCEPTED;
    *fresh = 1;
    kept.finished = 0;
    uint32_t answer = rondo_create(plan, sizeof plan, kept.image, sizeof kept.image, &flags);
    if (answer == RONDO_ACCEPTED) kept.finished = FINISHED;
    return answer;
}

static void show(const char *what) {
    struct rondo_answer a;
    int fresh;
    flags = 0; /* lost with the power */
    uint32_t answer = power_up(&fresh);
    if (answer == RONDO_ACCEPTED) answer = rondo_query(kept.image, sizeof kept.image, flags, 0, 0, 0, 0, UINT64_MAX, &a);
    printf("%s: %s, %s", what, rondo_refusal_name(answer), fresh ? "created" : "opened");
    if (answer == RONDO_ACCEPTED) printf(", seconds %" PRIu64 " to %" PRIu64, a.oldest / SECOND, a.newest / SECOND);
    printf("\n");
}

int main(void) {
    memset(kept.image, 0xa5, sizeof kept.image);
    show("first power-up");
    for (uint64_t s = 3600; s < 12345; s++)
        if (rondo_record(kept.image, sizeof kept.image, &flags, 0, 0, rondo_bits((double)s), s * SECOND)) return 1;
    show("off and on");
    kept.finished = 0;
    show("cut short in creation");
    kept.image[40] ^= 1;
    show("damaged");
    return 0;
}
