/*
 * What include/rondo.h says of limits, early stamps, stamps that are superseded, alignment, the floating-point mode and figures, tried on the library.
 * A line for each; ends with 1 if one does not hold.
 */
#include <stdio.h>
#include <stdlib.h>
#include <xmmintrin.h>

#include "rondo.h"

#define SECOND UINT64_C(1000000000)

static int faults;

static void hold(const char *what, int good) {
    if (good) return;
    printf("does not hold: %s\n", what);
    faults++;
}

/* The answer of a plan of so many schemas, each of so many tiers, 2, 4, 8, .. ns for so many slots. */
static uint32_t size_of(uint32_t schemas, uint32_t tiers, uint64_t slots, uint32_t series, uint64_t *size) {
    static uint8_t plan[RONDO_PLAN_SIZE(64)];
    uint32_t row = 0;
    rondo_put_plan(plan, schemas, schemas * tiers);
    for (uint32_t s = 0; s < schemas; s++)
        for (uint32_t t = 0; t < tiers; t++, row++)
            rondo_put_row(plan, row, s, t, UINT64_C(2) << t, (UINT64_C(2) << t) * slots, t ? RONDO_AVERAGE : RONDO_NONE, series, s);
    return rondo_image_size(plan, sizeof plan, size);
}

static void try_version(void) {
    char text[40];
    sprintf(text, "%d.%d.%d", RONDO_VERSION_MAJOR, RONDO_VERSION_MINOR, RONDO_VERSION_PATCH);
    hold("the version as text", strcmp(text, RONDO_VERSION_STRING) == 0);
}

static void try_limits(void) {
    uint64_t size = 0;
    uint32_t most = 999; /* series: 999 + 1 words a slot */
    hold("32 rows", size_of(1, RONDO_MAX_ROWS, 3, 1, &size) == 0);
    hold("33 rows are refused", size_of(1, RONDO_MAX_ROWS + 1, 3, 1, &size) == RONDO_BAD_IMAGE);
    hold("8 schemas", size_of(RONDO_MAX_SCHEMAS, 4, 3, 2, &size) == 0);
    hold("the size of 8 schemas", size == RONDO_PLAN_SIZE(32) + 32 * RONDO_RING_SIZE(3, 2));
    hold("9 schemas are refused", size_of(RONDO_MAX_SCHEMAS + 1, 1, 3, 1, &size) == RONDO_BAD_IMAGE);
    hold("10^9 slots", size_of(1, 1, RONDO_MAX_SLOTS, 1, &size) == 0);
    hold("the size of 10^9 slots", size == RONDO_PLAN_SIZE(1) + RONDO_RING_SIZE(RONDO_MAX_SLOTS, 1));
    hold("10^9 + 1 slots are refused", size_of(1, 1, RONDO_MAX_SLOTS + UINT64_C(1), 1, &size) == RONDO_TOO_MANY_SLOTS);
    uint64_t fit = (RONDO_MAX_IMAGE_SIZE - RONDO_PLAN_SIZE(1) - 64 - 4 * most) / (8 * (1 + most));
    hold("2^40 bytes", size_of(1, 1, fit, most, &size) == 0 && size <= RONDO_MAX_IMAGE_SIZE);
    hold("above 2^40 bytes is refused", size_of(1, 1, fit + 1, most, &size) == RONDO_LAYOUT_TOO_LARGE);
    printf("machine: limits tried\n");
}

/* A store of two tiers, 1 s for 16 s and 4 s for 16 s, two series: bytes, and its size. */
static size_t make(uint8_t *plan, uint8_t *image, uint32_t *flags) {
    rondo_put_plan(plan, 1, 2);
    rondo_put_row(plan, 0, 0, 0, SECOND, 16 * SECOND, RONDO_NONE, 2, 7);
    rondo_put_row(plan, 1, 0, 1, 4 * SECOND, 16 * SECOND, RONDO_AVERAGE, 2, 7);
    *flags = 0;
    uint64_t size = RONDO_PLAN_SIZE(2) + 2 * RONDO_RING_SIZE(16, 2);
    hold("create", rondo_create(plan, RONDO_PLAN_SIZE(2), image, size, flags) == 0);
    return size;
}

#define ROOM 2048

static void try_early(void) {
    static uint8_t plan[RONDO_PLAN_SIZE(2)], image[ROOM];
    uint32_t flags;
    uint64_t count = 0, s = 1, refused = 0;
    size_t size = make(plan, image, &flags);
    hold("the greatest stamp", rondo_record(image, size, &flags, 0, 0, 0, RONDO_TIME_LIMIT) == RONDO_INVALID_TIMESTAMP);
    for (; s < 24; s++) {
        hold("record", rondo_record(image, size, &flags, 0, 0, 0, s * SECOND) == 0);
        uint32_t answer = rondo_consolidate(image, size, &flags, &count);
        if (answer == RONDO_INVALID_TIMESTAMP) refused = s;
        else if (answer) hold("a run", 0);
        if (s == 1) hold("the first run is refused with 13", answer == RONDO_INVALID_TIMESTAMP);
    }
    hold("runs are refused until the early samples have left the ring", refused == 18);
    printf("machine: stamps from 1 s on with a coarsest interval of 4 s and 16 slots: runs refused with 13 up to %u s\n", (unsigned)refused);
}

/* Two schemas, a ring of four slots of 10 ns and two series each. */
static size_t make_two(uint8_t *image, uint32_t *flags) {
    static uint8_t plan[RONDO_PLAN_SIZE(2)];
    uint64_t size = RONDO_PLAN_SIZE(2) + 2 * RONDO_RING_SIZE(4, 2);
    rondo_put_plan(plan, 2, 2);
    rondo_put_row(plan, 0, 0, 0, 10, 40, RONDO_NONE, 2, 7);
    rondo_put_row(plan, 1, 1, 0, 10, 40, RONDO_NONE, 2, 8);
    *flags = 0;
    hold("create", rondo_create(plan, sizeof plan, image, size, flags) == 0);
    return size;
}

#define INFINITE (UINT64_C(0x7ff) << 52)
#define NO_VALUE (UINT64_C(0x7ff8) << 48) /* NaN */

#define COUNT(array) (sizeof (array) / sizeof (array)[0])

/* Records in schema 0, one after the other: 50, 90 and 10 have slot 1, 60 slot 2, 80 slot 0. */
static const struct { uint32_t column; uint64_t value, stamp; uint32_t answer; } singles[] = {
    { 0, 0, 50, 0 }, { 0, 0, 90, 0 }, { 0, 0, 50, 18 }, { 0, 0, 10, 18 }, { 1, 0, 50, 18 }, { 0, NO_VALUE, 50, 18 },
    { 0, 0, 60, 0 }, { 0, 0, 90, 0 }, { 1, 0, 91, 0 }, { 0, 0, 90, 18 }, { 0, NO_VALUE, 91, 0 }, { 0, 0, 80, 0 },
    { 2, INFINITE, 0, 11 }, { 0, INFINITE, 0, 12 }, { 0, INFINITE, 50, 12 }, { 0, 0, 0, 13 }, { 0, 0, 40, 18 }
};

/* Then batches of two entries: schema 1 holds 70, in slot 3, and 60. Of schema 0 alone 30 would be taken. */
static const struct { uint32_t schemas[2]; uint64_t value, stamp; uint32_t answer; } batches[] = {
    { { 1, 1 }, 0, 60, 0 }, { { 1, 1 }, 0, 70, 0 }, { { 0, 1 }, 0, 30, 18 }, { { 1, 0 }, 0, 30, 18 }, { { 0, 0 }, 0, 30, 0 },
    { { 0, 1 }, 0, 50, 18 }, { { 0, 1 }, 0, 70, 0 }, { { 0, 2 }, INFINITE, 0, 11 }, { { 0, 1 }, INFINITE, 0, 13 },
    { { 0, 1 }, INFINITE, 30, 12 }, { { 0, 1 }, 0, 30, 18 }
};

static void hold_row(const char *what, size_t row, int good) {
    if (!good) printf("row %zu: ", row);
    hold(what, good);
}

static void try_superseded(void) {
    static uint8_t image[ROOM], before[ROOM];
    uint32_t flags;
    size_t size = make_two(image, &flags);
    for (size_t i = 0; i < COUNT(singles); i++) {
        uint32_t were = flags;
        memcpy(before, image, size);
        uint32_t answer = rondo_record(image, size, &flags, 0, singles[i].column, singles[i].value, singles[i].stamp);
        hold_row("a record's answer, by its slot's stamp", i, answer == singles[i].answer);
        hold_row("a refused record leaves all", i, !answer || (memcmp(image, before, size) == 0 && flags == were));
    }
    for (size_t i = 0; i < COUNT(batches); i++) {
        uint8_t entries[2 * RONDO_ENTRY_SIZE];
        uint32_t were = flags;
        memcpy(before, image, size);
        for (unsigned e = 0; e < 2; e++) rondo_put_entry(entries + e * RONDO_ENTRY_SIZE, batches[i].schemas[e], e, batches[i].value);
        uint32_t answer = rondo_record_batch(image, size, &flags, entries, sizeof entries, batches[i].stamp);
        hold_row("a batch's answer, by its rings' stamps", i, answer == batches[i].answer);
        hold_row("a refused batch leaves all", i, !answer || (memcmp(image, before, size) == 0 && flags == were));
    }
    printf("machine: %zu records and %zu batches, taken or refused by the stamps of their slots\n", COUNT(singles), COUNT(batches));
}

/* The mark of a row. */
static uint64_t mark_of(const uint8_t *image, unsigned row) {
    const uint8_t *at = image + RONDO_PLAN_SIZE(row) + 48;
    uint64_t mark = 0;
    for (unsigned i = 8; i > 0; i--) mark = mark << 8 | at[i - 1];
    return mark;
}

/*
 * Means of 30 ns in three slots: window 30 and 120 share one. The run is refused at window 180, whose sum is INFINITE, and
 * keeps 30, then 120 in its place, and 150, and no mark. Then all samples but the first are recorded again with this value, and
 * a run passes window 30 over.
 */
static uint64_t passed_over(uint64_t again, uint64_t *mark, uint64_t *held) {
    static uint8_t plan[RONDO_PLAN_SIZE(2)], image[ROOM];
    static const uint64_t stamps[] = { 30, 120, 150, 180, 190 };
    uint64_t size = RONDO_PLAN_SIZE(2) + RONDO_RING_SIZE(20, 1) + RONDO_RING_SIZE(3, 1), count = 77;
    uint32_t flags = 0;
    rondo_put_plan(plan, 1, 2);
    rondo_put_row(plan, 0, 0, 0, 10, 200, RONDO_NONE, 1, 7);
    rondo_put_row(plan, 1, 0, 1, 30, 90, RONDO_AVERAGE, 1, 7);
    hold("create", rondo_create(plan, sizeof plan, image, size, &flags) == 0);
    for (size_t i = 0; i < COUNT(stamps); i++)
        hold("record", rondo_record(image, size, &flags, 0, 0, rondo_bits(i < 3 ? (double)stamps[i] : 1.7e308), stamps[i]) == 0);
    hold("the run is refused", rondo_consolidate(image, size, &flags, &count) == RONDO_INVALID_VALUE && count == 77);
    hold("its mark stays", mark_of(image, 0) == 0);
    for (size_t i = 1; i < COUNT(stamps); i++) hold("record", rondo_record(image, size, &flags, 0, 0, again, stamps[i]) == 0);
    hold("the run after it", rondo_consolidate(image, size, &flags, &count) == 0);
    struct rondo_answer answer;
    struct rondo_point point = { 0, 0 };
    hold("query", rondo_query(image, size, flags, 0, 0, 1, 0, UINT64_MAX, &answer) == 0);
    hold("point", rondo_next_point(image, size, &answer, &point) == 1);
    *mark = mark_of(image, 0);
    *held = point.stamp;
    return count;
}

static void try_passed_over(void) {
    uint64_t mark, held;
    uint64_t written = passed_over(rondo_bits(1), &mark, &held);
    hold("120, 150 and 180 are written and counted, 30 is not; the mark is the newest stamp", written == 3 && mark == 190 && held == 120);
    hold("no write but one that is passed over: none is counted, the mark stays", passed_over(NO_VALUE, &mark, &held) == 0 && mark == 0 && held == 120);
    printf("machine: after a refused run a window below its slot's stamp is passed over, %u written\n", (unsigned)written);
}

/* The same calls at every offset from a multiple of 16. */
static void try_alignment(void) {
    static uint8_t plans[512], images[16][ROOM + 32], entries[64];
    size_t size = 0;
    for (size_t o = 0; o < 16; o++) {
        uint8_t *image = images[o] + o, *entry = entries + 15 - o;
        uint32_t flags;
        uint64_t count = 0;
        size = make(plans + (o * 7) % 16, image, &flags);
        for (uint64_t s = 4; s < 40; s++) {
            rondo_put_entry(entry, 0, 0, rondo_bits((double)s));
            rondo_put_entry(entry + 16, 0, 1, rondo_bits(0.1 * (double)s));
            hold("batch", rondo_record_batch(image, size, &flags, entry, 32, s * SECOND) == 0);
        }
        hold("run", rondo_consolidate(image, size, &flags, &count) == 0 && count > 0);
        hold("the same bytes at every address", memcmp(image, images[0], size) == 0);
    }
    printf("machine: the same %u bytes at 16 addresses\n", (unsigned)size);
}

/* The mean of three values with this mode register. */
static uint64_t mean(unsigned mode, const double *values) {
    static uint8_t plan[RONDO_PLAN_SIZE(2)], image[ROOM];
    uint32_t flags;
    uint64_t count = 0;
    size_t size = make(plan, image, &flags);
    struct rondo_answer answer;
    struct rondo_point point = { 0, 0 };
    for (uint64_t i = 0; i < 3; i++) hold("record", rondo_record(image, size, &flags, 0, 0, rondo_bits(values[i]), (4 + i) * SECOND) == 0);
    unsigned was = _mm_getcsr();
    _mm_setcsr(mode);
    uint32_t run = rondo_consolidate(image, size, &flags, &count);
    _mm_setcsr(was);
    hold("run", run == 0 && count == 1);
    hold("query", rondo_query(image, size, flags, 0, 0, 1, 0, UINT64_MAX, &answer) == 0);
    hold("point", rondo_next_point(image, size, &answer, &point) == 1);
    return point.value;
}

static void try_modes(void) {
    static const double small[] = { 3e-320, 6e-320, 9e-320 }, third[] = { 1, 0, 0 };
    const unsigned plain = 0x1f80, flush = plain | 0x8000, up = plain | 0x4000;
    double kept = rondo_double(mean(plain, small));
    hold("the mean of small values", kept == 6e-320);
    hold("it is 0 with flush to zero", mean(flush, small) == 0);
    hold("1 / 3 is another number when rounded upwards", mean(up, third) == mean(plain, third) + 1);
    printf("machine: the mean of 3e-320, 6e-320, 9e-320 is %g, and %g with flush to zero\n", kept, rondo_double(mean(flush, small)));
}

/* The panel's figure of column 0 in tier 0, after this value was recorded; what stood in *shown and *figure before is a parameter. */
static uint32_t panel_after(double value, unsigned mode, uint32_t *shown, int64_t *figure) {
    static uint8_t plan[RONDO_PLAN_SIZE(2)], image[ROOM];
    uint32_t flags;
    size_t size = make(plan, image, &flags);
    hold("record", rondo_record(image, size, &flags, 0, 0, rondo_bits(value), 4 * SECOND) == 0);
    unsigned was = _mm_getcsr();
    _mm_setcsr(mode);
    uint32_t answer = rondo_panel(image, size, flags, 0, 0, 0, shown, figure);
    _mm_setcsr(was);
    return answer;
}

static const struct { double value; int64_t shown; } rows[] = {
    { -0.5, 0 }, { 1.5, 2 }, { -2.5, -2 }, { -0.0, 0 }, { 3e-320, 0 }, { 0.1, 0 }, { -0.9, -1 }, { 4503599627370495.5, 4503599627370496 },
    { 9007199254740992.0, 9007199254740992 }, { -9007199254740992.0, -9007199254740992 }
};
static const unsigned modes[] = { 0x1f80, 0x1f80 | 0x8040, 0x1f80 | 0x2000, 0x1f80 | 0x4000, 0x1f80 | 0x6000 };

static void try_whole(size_t i, size_t m) {
    uint32_t shown = 0;
    int64_t figure = 77;
    uint32_t answer = panel_after(rows[i].value, modes[m], &shown, &figure);
    hold("the nearest whole number, in every mode", answer == 0 && shown == 1 && figure == rows[i].shown);
}

/* None, refusals, and what the two calls leave. */
static void try_left(void) {
    static uint8_t plan[RONDO_PLAN_SIZE(2)], image[ROOM];
    const uint64_t lent = 77;
    uint32_t flags, shown = 77;
    int64_t figure = 77;
    uint64_t full[5] = { 77, 77, 77, 77, 77 };
    size_t size = make(plan, image, &flags);
    hold("beyond -2^53 is refused", panel_after(-9007199254740994.0, 0x1f80, &shown, &figure) == RONDO_OFF_PANEL);
    hold("no tier: refused", rondo_panel(image, size, flags, 0, 0, 2, &shown, &figure) == RONDO_INVALID_TIER);
    hold("no tier: refused, for service", rondo_service(image, size, flags, 0, 0, 2, full) == RONDO_INVALID_TIER);
    hold("a refusal leaves all", shown == 77 && figure == 77 && full[0] == lent && full[1] == lent && full[4] == lent);
    hold("none on the panel", rondo_panel(image, size, flags, 0, 0, 0, &shown, &figure) == 0 && shown == 0 && figure == 77);
    hold("none for service", rondo_service(image, size, flags, 0, 0, 0, full) == 0 && full[0] == 0);
    hold("none leaves the rest", full[1] == lent && full[2] == lent && full[3] == lent && full[4] == lent);
}

static void try_figures(void) {
    for (size_t i = 0; i < COUNT(rows); i++)
        for (size_t m = 0; m < COUNT(modes); m++) try_whole(i, m);
    try_left();
    printf("machine: %zu figures in %zu floating-point modes, none, refused\n", COUNT(rows), COUNT(modes));
}

int main(void) {
    try_version();
    try_limits();
    try_early();
    try_superseded();
    try_passed_over();
    try_alignment();
    try_modes();
    try_figures();
    return faults != 0;
}
