/*
 * Answers that no query made, handed to the readers of include/rondo.h: nothing outside the image is read. The image
 * stands between two pages that may not be touched. Compiles as C and as C++.
 */
#include <stdio.h>
#include <sys/mman.h>

#include "rondo.h"

#define PAGE 4096

static const uint64_t odd[] = {
    0, 1, 63, 64, 96, 159, 160, 168, 303, 304, 423, 424, 425, PAGE, UINT32_MAX, UINT64_C(1) << 32, UINT64_C(1) << 63,
    UINT64_MAX - 424, UINT64_MAX - 1, UINT64_MAX
};
#define ODD (sizeof odd / sizeof odd[0])

static unsigned long tried, handed, faults;

/* The block ends, or begins, at a page that may not be touched. */
static uint8_t *block(size_t len, int at_end) {
    uint8_t *all = (uint8_t *)mmap(0, 3 * PAGE, PROT_NONE, MAP_PRIVATE | MAP_ANONYMOUS, -1, 0);
    if (all == MAP_FAILED || mprotect(all + PAGE, PAGE, PROT_READ | PROT_WRITE)) return 0;
    return at_end ? all + 2 * PAGE - len : all + PAGE;
}

static void read_both(const uint8_t *image, size_t len, struct rondo_answer answer) {
    struct rondo_point points[4];
    struct rondo_answer copy = answer, good = answer;
    int fits = answer.from <= answer.to && answer.to <= len && answer.column < UINT64_C(1) << 32;
    size_t got = rondo_read_points(image, len, &copy, points, 4);
    uint32_t one = rondo_next_point(image, len, &answer, points);
    tried += 2;
    handed += one;
    if (fits != rondo_answer_fits(&good, len) || (got != 0) != (one != 0) || (!fits && (got || answer.place.left || copy.place.left))) faults++;
}

static void try_all(const uint8_t *image, size_t len, struct rondo_answer good) {
    for (size_t i = 0; i < ODD * ODD; i++) {
        struct rondo_answer a = good, b = good, c = good;
        a.from = odd[i / ODD];
        a.to = odd[i % ODD];
        read_both(image, len, a);
        b.place.slot = odd[i / ODD];
        b.place.left = odd[i % ODD];
        read_both(image, len, b);
        c.column = odd[i / ODD];
        c.to = odd[i % ODD];
        read_both(image, len, c);
    }
}

/* The worked example of docs/FORMAT.md: 424 bytes. */
static uint32_t make(uint8_t *image, size_t len, uint32_t *flags, struct rondo_answer *answer) {
    uint8_t plan[RONDO_PLAN_SIZE(2)];
    uint64_t t;
    rondo_put_plan(plan, 1, 2);
    rondo_put_row(plan, 0, 0, 0, 10, 30, RONDO_NONE, 2, 7);
    rondo_put_row(plan, 1, 0, 1, 30, 60, RONDO_AVERAGE, 2, 7);
    if (rondo_create(plan, sizeof plan, image, len, flags)) return 1;
    for (t = 30; t < 60; t += 10)
        if (rondo_record(image, len, flags, 0, 0, rondo_bits((double)t), t)) return 1;
    return rondo_query(image, len, *flags, 0, 0, 0, 0, UINT64_MAX, answer);
}

int main(void) {
    for (int at_end = 0; at_end < 2; at_end++) {
        struct rondo_answer answer;
        uint32_t flags = 0;
        size_t len = 424;
        uint8_t *image = block(len, at_end);
        if (!image || make(image, len, &flags, &answer)) return 2;
        try_all(image, len, answer);
        /* the answer is of a longer image than is lent now */
        for (size_t less = 0; less <= len; less++) read_both(image + (at_end ? less : 0), len - less, answer);
    }
    printf("answers: %lu readings, %lu of them hand a point out, none outside the image, %lu faults\n", tried, handed, faults);
    return faults != 0;
}
