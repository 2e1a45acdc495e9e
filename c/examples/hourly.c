/* A run each hour: seconds become minutes, minutes become hours. What a refused run means, and when to run. */
#include <inttypes.h>
#include <stdio.h>

#include "store.h"

static uint8_t image[IMAGE_SIZE];
static uint32_t flags;

/* A refused run keeps what it did before the refusal; the next one does the rest, once the cause is gone. */
static uint32_t run_hourly(uint64_t *written) {
    uint32_t answer = rondo_consolidate(image, sizeof image, &flags, written);
    if (answer) printf("run refused: %s, %s\n", rondo_refusal_name(answer), rondo_refusal_words(answer));
    return answer;
}

/* The second that ends an hour, after its sample: then each hour gets a run. Any other second of it would do. */
static int is_run_due(uint64_t second) {
    return second % 3600 == 3599;
}

int main(void) {
    uint8_t plan[PLAN_SIZE];
    uint64_t written = 0;
    put_plan(plan);
    if (rondo_create(plan, sizeof plan, image, sizeof image, &flags)) return 1;
    for (uint64_t s = 3600; s < 5 * 3600; s++) {
        double offset = (double)(s / 3600 * 100 + s % 2);
        if (rondo_record(image, sizeof image, &flags, 0, OFFSET_OF_CLOCK, rondo_bits(offset), s * SECOND)) return 1;
        if (!is_run_due(s)) continue;
        if (run_hourly(&written)) return 1;
        printf("second %" PRIu64 ": %" PRIu64 " values written\n", s, written);
    }
    struct rondo_answer hours;
    struct rondo_point point;
    if (rondo_query(image, sizeof image, flags, 0, OFFSET_OF_CLOCK, 2, 0, UINT64_MAX, &hours)) return 1;
    while (rondo_next_point(image, sizeof image, &hours, &point))
        printf("hour from second %" PRIu64 ": mean %.3f\n", point.stamp / SECOND, rondo_double(point.value));
    return 0;
}
