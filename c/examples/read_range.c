/* Reads a range, many points a call, in the tier that covers it. */
#include <inttypes.h>
#include <stdio.h>

#include "store.h"

#define AT_ONCE 32

static uint8_t image[IMAGE_SIZE];
static uint32_t flags;

/* Sums a range up: its end is left out. The image must not change between the query and the last read. */
static uint32_t sum_up(uint64_t start, uint64_t end) {
    struct rondo_answer range;
    struct rondo_point points[AT_ONCE];
    size_t got, n = 0, calls = 0;
    double sum = 0;
    uint32_t answer = rondo_query_auto(image, sizeof image, flags, 0, OFFSET_OF_CLOCK, start, end, &range);
    if (answer) return answer;
    do {
        got = rondo_read_points(image, sizeof image, &range, points, AT_ONCE);
        for (size_t i = 0; i < got; i++) sum += rondo_double(points[i].value);
        n += got;
        calls++;
    } while (got == AT_ONCE);
    printf("seconds %" PRIu64 " to %" PRIu64 "%s: tier %" PRIu64 ", %zu points in %zu calls, mean %.3f\n", start / SECOND,
           end / SECOND, range.incomplete ? ", may be incomplete" : "", range.tier, n, calls, n ? sum / (double)n : 0);
    return RONDO_ACCEPTED;
}

int main(void) {
    uint8_t plan[PLAN_SIZE];
    uint64_t written = 0;
    put_plan(plan);
    if (rondo_create(plan, sizeof plan, image, sizeof image, &flags)) return 1;
    for (uint64_t s = 3600; s < 5 * 3600; s++) {
        if (rondo_record(image, sizeof image, &flags, 0, OFFSET_OF_CLOCK, rondo_bits((double)s), s * SECOND)) return 1;
        if (s % 3600 == 3599 && rondo_consolidate(image, sizeof image, &flags, &written)) return 1;
    }
    if (sum_up(15000 * SECOND, 15100 * SECOND) || sum_up(HOUR, 4 * HOUR)) return 1;
    uint32_t answer = sum_up(HOUR, HOUR);
    printf("an empty range: %s, %s\n", rondo_refusal_name(answer), rondo_refusal_words(answer));
    return 0;
}
