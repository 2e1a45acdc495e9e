/* Records two series once a second, into a static block: nothing is allocated. */
#include <inttypes.h>
#include <stdio.h>

#include "store.h"

static uint8_t image[IMAGE_SIZE];
static uint32_t flags; /* kept beside the image, handed to every call */

/* Both values of one second: one call, all or none. */
static uint32_t record_second(uint64_t now, double offset, double temperature) {
    uint8_t both[2 * RONDO_ENTRY_SIZE];
    rondo_put_entry(both, 0, OFFSET_OF_CLOCK, rondo_bits(offset));
    rondo_put_entry(both + RONDO_ENTRY_SIZE, 0, TEMPERATURE, rondo_bits(temperature));
    return rondo_record_batch(image, sizeof image, &flags, both, sizeof both, now);
}

int main(void) {
    uint8_t plan[PLAN_SIZE];
    put_plan(plan);
    uint32_t answer = rondo_create(plan, sizeof plan, image, sizeof image, &flags);
    /* time begins at one hour or later: see "Stamps" in rondo.h */
    for (uint64_t s = 3600; answer == RONDO_ACCEPTED && s < 3600 + 90; s++)
        answer = record_second(s * SECOND, 1000 + (double)(s % 7), 41.5);
    printf("%zu bytes, recorded: %s\n", sizeof image, rondo_refusal_name(answer));

    answer = record_second(0, 1, 2);
    printf("no time yet: %" PRIu32 " %s, %s\n", answer, rondo_refusal_name(answer), rondo_refusal_words(answer));
    return 0;
}
