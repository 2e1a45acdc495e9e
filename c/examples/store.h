/*
 * A store of seconds for two hours, minutes for a day and hours for thirty days, of two series, in a static block.
 * Each ring but the coarsest spans two hours, two of the coarsest intervals.
 */
#ifndef STORE_H
#define STORE_H

#include "rondo.h"

#define SECOND UINT64_C(1000000000)
#define HOUR (3600 * SECOND)
#define SERIES 2
#define TIERS 3

#define PLAN_SIZE RONDO_PLAN_SIZE(TIERS)
#define IMAGE_SIZE (PLAN_SIZE + RONDO_RING_SIZE(7200, SERIES) + RONDO_RING_SIZE(1440, SERIES) + RONDO_RING_SIZE(720, SERIES))

enum { OFFSET_OF_CLOCK = 0, TEMPERATURE = 1 };

static inline void put_plan(uint8_t *plan) {
    const uint64_t hash = 7; /* yours: another number for another plan */
    rondo_put_plan(plan, 1, TIERS);
    rondo_put_row(plan, 0, 0, 0, SECOND, 2 * HOUR, RONDO_NONE, SERIES, hash);
    rondo_put_row(plan, 1, 0, 1, 60 * SECOND, 24 * HOUR, RONDO_AVERAGE, SERIES, hash);
    rondo_put_row(plan, 2, 0, 2, HOUR, 720 * HOUR, RONDO_AVERAGE, SERIES, hash);
}

#endif
