/*
 * A store of seconds, minutes and hours for two series: three hours recorded, consolidated, queried; the flags are
 * lost on the way, as when a cabinet is switched off, and opening works them out.
 * tour.rs does the same in Rust and prints the same.
 */
#include <inttypes.h>
#include <stdio.h>
#include <stdlib.h>

#include "rondo.h"

#define SECOND UINT64_C(1000000000)

/* The store: its bytes, their number, the flags. */
static uint8_t *image;
static uint64_t size;
static uint32_t flags;

static void check(const char *what, uint32_t answer) {
    if (answer == RONDO_ACCEPTED) return;
    printf("%s: refused, %" PRIu32 ", %s: %s\n", what, answer, rondo_refusal_name(answer), rondo_refusal_words(answer));
    exit(1);
}

static void show(struct rondo_answer *answer) {
    struct rondo_point point;
    uint64_t n = 0;
    double first = 0, last = 0, sum = 0;
    while (rondo_next_point(image, size, answer, &point)) {
        last = rondo_double(point.value);
        if (n++ == 0) first = last;
        sum += last;
    }
    printf("tier %" PRIu64 " from %" PRIu64 " to %" PRIu64 "%s: %" PRIu64 " points, first %.6f, last %.6f, mean %.6f\n",
           answer->tier, answer->oldest / SECOND, answer->newest / SECOND,
           answer->incomplete ? " (may be incomplete)" : "", n, first, last, n ? sum / (double)n : 0);
}

/* The same reader, sixteen points a call. */
static void show_sixteen(struct rondo_answer *answer) {
    struct rondo_point points[16];
    uint64_t calls = 0, n = 0;
    double sum = 0;
    size_t got;
    do {
        got = rondo_read_points(image, size, answer, points, 16);
        calls++;
        for (size_t i = 0; i < got; i++) sum += rondo_double(points[i].value);
        n += got;
    } while (got == 16);
    printf("sixteen at a time: %" PRIu64 " points in %" PRIu64 " calls, mean %.6f\n", n, calls, n ? sum / (double)n : 0);
}

static void create(void) {
    uint8_t plan[RONDO_PLAN_SIZE(3)];
    rondo_put_plan(plan, 1, 3);
    rondo_put_row(plan, 0, 0, 0, SECOND, 7200 * SECOND, RONDO_NONE, 2, 7);
    rondo_put_row(plan, 1, 0, 1, 60 * SECOND, 86400 * SECOND, RONDO_AVERAGE, 2, 7);
    rondo_put_row(plan, 2, 0, 2, 3600 * SECOND, 2592000 * SECOND, RONDO_AVERAGE, 2, 7);
    check("size", rondo_image_size(plan, sizeof plan, &size));
    image = malloc(size);
    if (!image) exit(1);
    check("create", rondo_create(plan, sizeof plan, image, size, &flags));
    printf("image of %" PRIu64 " bytes\n", size);
}

/* Three hours: a run after each hour's last second, and one in the middle of a minute and an hour. */
static void record(void) {
    struct rondo_answer answer;
    uint64_t count = 0;
    for (uint64_t s = 3600; s < 4 * 3600; s++) {
        uint8_t both[2 * RONDO_ENTRY_SIZE];
        rondo_put_entry(both, 0, 0, rondo_bits((double)(s % 60)));
        rondo_put_entry(both + RONDO_ENTRY_SIZE, 0, 1, rondo_bits((double)s));
        check("batch", rondo_record_batch(image, size, &flags, both, sizeof both, s * SECOND));
        if (s % 3600 == 3599 || s == 9029) {
            check("consolidate", rondo_consolidate(image, size, &flags, &count));
            printf("second %" PRIu64 ": %" PRIu64 " values written\n", s, count);
        }
        /* off and on again, in the middle of the ring: no second is lost, though the next slots are empty */
        if (s == 9029) {
            flags = 0;
            check("open", rondo_open(image, size, &flags));
            check("query", rondo_query(image, size, flags, 0, 1, 0, 0, UINT64_MAX, &answer));
            show(&answer);
        }
    }
}

static void ask(void) {
    struct rondo_answer answer;
    for (uint32_t tier = 0; tier < 3; tier++) {
        check("query", rondo_query(image, size, flags, 0, 1, tier, 0, UINT64_MAX, &answer));
        show(&answer);
    }
    check("query_auto", rondo_query_auto(image, size, flags, 0, 0, 3600 * SECOND, 7200 * SECOND, &answer));
    show(&answer);
    check("query_auto", rondo_query_auto(image, size, flags, 0, 1, 3600 * SECOND, 7200 * SECOND, &answer));
    show_sixteen(&answer);

    printf("refused: value %" PRIu32 ", stamp %" PRIu32 ", column %" PRIu32 ", tier %" PRIu32 ", range %" PRIu32 "\n",
           rondo_record(image, size, &flags, 0, 0, rondo_bits(1 / 0.0), 1),
           rondo_record(image, size, &flags, 0, 0, 0, 0),
           rondo_record(image, size, &flags, 0, 2, 0, 1),
           rondo_query(image, size, flags, 0, 0, 3, 5, 5, &answer),
           rondo_query(image, size, flags, 0, 0, 0, 5, 5, &answer));
}

/* Second 7199 has the slot of 14399, which holds the later stamp: it is refused, alone and in a batch. On equal stamps the later call wins. */
static void come_late(void) {
    uint8_t both[2 * RONDO_ENTRY_SIZE];
    rondo_put_entry(both, 0, 0, rondo_bits(1));
    rondo_put_entry(both + RONDO_ENTRY_SIZE, 0, 1, rondo_bits(14399));
    printf("a lap late: %" PRIu32 ", in a batch %" PRIu32 "; the same second again: %" PRIu32 "\n",
           rondo_record(image, size, &flags, 0, 0, rondo_bits(1), 7199 * SECOND),
           rondo_record_batch(image, size, &flags, both, sizeof both, 7199 * SECOND),
           rondo_record_batch(image, size, &flags, both, sizeof both, 14399 * SECOND));
}

/* The last minute's mean: a whole number for the panel, in full for service tools. Then a value that no panel shows. */
static void figures(void) {
    const double beyond = 9007199254740994.0; /* 2^53 + 2 */
    uint32_t shown = 0;
    int64_t figure = 0;
    uint64_t full[5] = { 0 };
    check("panel", rondo_panel(image, size, flags, 0, 1, 1, &shown, &figure));
    check("service", rondo_service(image, size, flags, 0, 1, 1, full));
    printf("panel: %" PRIu32 ", %" PRId64 "; service: %" PRIu64 ", %.6f of second %" PRIu64 ", ring from %" PRIu64 " to %" PRIu64 "\n",
           shown, figure, full[0], rondo_double(full[2]), full[1] / SECOND, full[3] / SECOND, full[4] / SECOND);
    check("record", rondo_record(image, size, &flags, 0, 0, rondo_bits(beyond), 14399 * SECOND));
    printf("beyond 2^53: panel %" PRIu32 ", service %" PRIu32 "\n",
           rondo_panel(image, size, flags, 0, 0, 0, &shown, &figure),
           rondo_service(image, size, flags, 0, 0, 0, full));
}

/* The cursor stands in the last slot: none is above it, and the same points are read from slot 0 on. */
static void open_again(void) {
    struct rondo_answer answer;
    uint32_t again = 0;
    check("open", rondo_open(image, size, &again));
    printf("flags %" PRIu32 ", opened again %" PRIu32 "\n", flags, again);
    check("query", rondo_query(image, size, again, 0, 1, 0, 0, UINT64_MAX, &answer));
    show(&answer);
    image[0] ^= 1;
    printf("damaged: %" PRIu32 "\n", rondo_open(image, size, &again));
}

int main(void) {
    create();
    record();
    ask();
    come_late();
    figures();
    open_again();
    free(image);
    return 0;
}
