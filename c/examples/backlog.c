/*
 * A port that reconnects sends its backlog, oldest first. What is older than the sample that its slot holds is refused with
 * 18: it is counted and dropped, and the rest goes on.
 */
#include <inttypes.h>
#include <stdio.h>

#include "store.h"

#define SECONDS 7500 /* five minutes more than the finest ring holds */

static uint8_t image[IMAGE_SIZE];
static uint32_t flags;

struct sample {
    uint64_t stamp;
    double offset;
};

/* Counts what was taken and what was old. Any other refusal ends it: it would meet every sample, or this one is wrong. */
static uint32_t send_backlog(const struct sample *backlog, size_t n, size_t *taken, size_t *old) {
    *taken = *old = 0;
    for (size_t i = 0; i < n; i++) {
        uint64_t value = rondo_bits(backlog[i].offset);
        uint32_t answer = rondo_record(image, sizeof image, &flags, 0, OFFSET_OF_CLOCK, value, backlog[i].stamp);
        if (answer == RONDO_ACCEPTED) ++*taken;
        else if (answer == RONDO_OLD_SAMPLE) ++*old;
        else return answer;
    }
    return RONDO_ACCEPTED;
}

int main(void) {
    static struct sample backlog[SECONDS];
    uint8_t plan[PLAN_SIZE];
    struct rondo_answer all;
    struct rondo_point first;
    size_t taken, old;
    put_plan(plan);
    if (rondo_create(plan, sizeof plan, image, sizeof image, &flags)) return 1;
    /* the temperature comes each second; the offsets of the same seconds wait in the port */
    for (uint64_t i = 0; i < SECONDS; i++) {
        backlog[i].stamp = HOUR + i * SECOND;
        backlog[i].offset = (double)i;
        if (rondo_record(image, sizeof image, &flags, 0, TEMPERATURE, rondo_bits(41.5), backlog[i].stamp)) return 1;
    }
    /* sent twice: on equal stamps the later call wins, so nothing is spoiled */
    for (int i = 0; i < 2; i++) {
        if (send_backlog(backlog, SECONDS, &taken, &old)) return 1;
        printf("backlog of %d: %zu taken, %zu older than what their slot holds\n", SECONDS, taken, old);
    }
    if (rondo_query(image, sizeof image, flags, 0, OFFSET_OF_CLOCK, 0, 0, UINT64_MAX, &all)) return 1;
    if (!rondo_next_point(image, sizeof image, &all, &first)) return 1;
    printf("first offset: %.0f, of second %" PRIu64 "; newest second: %" PRIu64 "\n", rondo_double(first.value), first.stamp / SECOND, all.newest / SECOND);
    return 0;
}
