/* The line on a panel: a whole number of nanoseconds, dashes without a point, a word where no number is shown. Service tools get the point in full. */
#include <inttypes.h>
#include <stdio.h>

#include "store.h"

static uint8_t image[IMAGE_SIZE];
static uint32_t flags;

/* At most 17 characters: -9007199254740992. */
#define LINE 18

static void panel_line(char line[LINE], uint32_t tier) {
    uint32_t shown = 0;
    int64_t figure = 0;
    uint32_t answer = rondo_panel(image, sizeof image, flags, 0, OFFSET_OF_CLOCK, tier, &shown, &figure);
    if (answer) snprintf(line, LINE, "%s", answer == RONDO_OFF_PANEL ? "off panel" : "fault");
    else if (shown) snprintf(line, LINE, "%" PRId64, figure);
    else snprintf(line, LINE, "--");
}

static void service_line(uint32_t tier) {
    uint64_t figure[5];
    uint32_t answer = rondo_service(image, sizeof image, flags, 0, OFFSET_OF_CLOCK, tier, figure);
    if (answer) printf("service refused: %s, %s\n", rondo_refusal_name(answer), rondo_refusal_words(answer));
    else if (figure[0])
        printf("service: %.17g at second %" PRIu64 ", ring from %" PRIu64 " to %" PRIu64 "\n", rondo_double(figure[2]), figure[1] / SECOND, figure[3] / SECOND, figure[4] / SECOND);
    else printf("service: no point\n");
}

static int record_and_show(double offset, uint64_t second) {
    char line[LINE];
    if (rondo_record(image, sizeof image, &flags, 0, OFFSET_OF_CLOCK, rondo_bits(offset), second * SECOND)) return 1;
    panel_line(line, 0);
    printf("recorded %.17g, panel: %s\n", offset, line);
    return 0;
}

int main(void) {
    uint8_t plan[PLAN_SIZE];
    char line[LINE];
    put_plan(plan);
    if (rondo_create(plan, sizeof plan, image, sizeof image, &flags)) return 1;
    panel_line(line, 0);
    printf("fresh, panel: %s\n", line);
    service_line(0);
    if (record_and_show(-12.25, 3600) || record_and_show(-2.5, 3601) || record_and_show(1e17, 3602)) return 1;
    service_line(0);
    panel_line(line, 3);
    printf("no such tier, panel: %s\n", line);
    service_line(3);
    return 0;
}
