/*
 * Single-steps calls in a child and looks at the image after each instruction that changed it: what rondo_open
 * answers, what is read, and whether the same call made again ends as if it had not been interrupted.
 * Prints a line for each call. Ends with 1 if a state between is not as include/rondo.h says.
 */
#define _GNU_SOURCE
#include <inttypes.h>
#include <stdio.h>
#include <stdlib.h>
#include <sys/mman.h>
#include <sys/ptrace.h>
#include <sys/user.h>
#include <sys/wait.h>
#include <signal.h>
#include <unistd.h>

#include "rondo.h"

#define ROOM 4096
#define SECOND UINT64_C(1000000000)
#define POINTS 512

/* What the calls are lent, in memory that parent and child share. */
struct lent {
    uint8_t image[ROOM];
    size_t len;
    uint32_t flags, answer;
    uint64_t count;
};

struct call {
    int kind; /* 0 record, 1 batch, 2 run, 3 creation */
    uint64_t stamp;
    double value;
};

struct reading { uint64_t tier, column; struct rondo_point point; };

struct readings { size_t n; struct reading all[POINTS]; };

/* What was seen between the first and the last change of a call. */
struct seen {
    unsigned instructions, states, answers[RONDO_ANSWERS];
    unsigned before, after, points, stale, strange; /* what was read, see sort_reading() */
    unsigned fallen;                                /* read in an order that falls more often than before and after */
    unsigned redone;                                /* the call made again: image and readings as uninterrupted */
    unsigned mended;                                /* not made again: see mends() */
    unsigned unfinished;                            /* opened with 0, but its bytes are not the ended call's */
    uint64_t stack;
};

static struct lent *lent;
static uint8_t plan[RONDO_PLAN_SIZE(4)];
static int faults;

static void carry_out(struct lent *l, const struct call *c) {
    uint8_t entries[3 * RONDO_ENTRY_SIZE];
    if (c->kind == 0) l->answer = rondo_record(l->image, l->len, &l->flags, 0, 1, rondo_bits(c->value), c->stamp);
    if (c->kind == 1) {
        rondo_put_entry(entries, 0, 0, rondo_bits(c->value));
        rondo_put_entry(entries + 16, 0, 2, rondo_bits(-c->value));
        rondo_put_entry(entries + 32, 1, 0, rondo_bits(c->value / 3));
        l->answer = rondo_record_batch(l->image, l->len, &l->flags, entries, sizeof entries, c->stamp);
    }
    if (c->kind == 2) l->answer = rondo_consolidate(l->image, l->len, &l->flags, &l->count);
    if (c->kind == 3) l->answer = rondo_create(plan, sizeof plan, l->image, l->len, &l->flags);
}

/* Where a call of this kind begins. */
static uint64_t address(int kind) {
    switch (kind) {
    case 0: return (uint64_t)(uintptr_t)rondo_record;
    case 1: return (uint64_t)(uintptr_t)rondo_record_batch;
    case 2: return (uint64_t)(uintptr_t)rondo_consolidate;
    default: return (uint64_t)(uintptr_t)rondo_create;
    }
}

/* Every point of every ring and column. */
static void read_all(const struct lent *l, struct readings *r) {
    struct rondo_answer a;
    struct rondo_point p;
    r->n = 0;
    for (uint32_t i = 0; i < 18; i++) {
        uint32_t schema = i / 9, tier = i / 3 % 3, column = i % 3;
        if (rondo_query(l->image, l->len, l->flags, schema, column, tier, 0, UINT64_MAX, &a)) continue;
        while (r->n < POINTS && rondo_next_point(l->image, l->len, &a, &p)) {
            r->all[r->n].tier = 3 * schema + tier;
            r->all[r->n].column = column;
            r->all[r->n++].point = p;
        }
    }
}

static int same(const struct readings *a, const struct readings *b) {
    return a->n == b->n && memcmp(a->all, b->all, a->n * sizeof a->all[0]) == 0;
}

/* Whether one of r is in the same ring and column, with the same stamp and value where these are asked for. */
static int has(const struct readings *r, const struct reading *one, int stamp, int value) {
    for (size_t i = 0; i < r->n; i++) {
        const struct reading *o = &r->all[i];
        if (o->tier == one->tier && o->column == one->column && (!stamp || o->point.stamp == one->point.stamp) &&
            (!value || o->point.value == one->point.value)) return 1;
    }
    return 0;
}

/* How often a stamp is below the one before it in its ring and column. */
static unsigned falls(const struct readings *r) {
    unsigned n = 0;
    for (size_t i = 1; i < r->n; i++) {
        const struct reading *a = &r->all[i - 1], *b = &r->all[i];
        n += a->tier == b->tier && a->column == b->column && b->point.stamp < a->point.stamp;
    }
    return n;
}

/* As before, as after, points of these two, a later stamp with an earlier value, or anything else. */
static void sort_reading(struct seen *s, const struct readings *now,
                         const struct readings *before, const struct readings *after) {
    int stale = 0;
    if (falls(now) > falls(before) && falls(now) > falls(after)) s->fallen++;
    if (same(now, after)) { s->after++; return; }
    if (same(now, before)) { s->before++; return; }
    for (size_t i = 0; i < now->n; i++) {
        const struct reading *p = &now->all[i];
        if (has(before, p, 1, 1) || has(after, p, 1, 1)) continue;
        if (!has(after, p, 1, 0) || !has(before, p, 0, 1)) { s->strange++; return; }
        stale = 1;
    }
    if (stale) s->stale++; else s->points++;
}

/* Opens a copy with flags unknown, and reads all. */
static uint32_t open_and_read(struct lent *l, struct readings *r) {
    uint32_t answer;
    l->flags = 0;
    answer = rondo_open(l->image, l->len, &l->flags);
    r->n = 0;
    if (answer == RONDO_ACCEPTED) read_all(l, r);
    return answer;
}

/* Two seconds more, and after a run another run. */
static void go_on(struct lent *l, const struct call *c) {
    static const struct call run = { 2, 0, 0 };
    for (uint64_t i = 1; i < 3; i++) {
        struct call next = { 1, c->stamp + i * SECOND, 5 };
        carry_out(l, &next);
    }
    if (c->kind == 2) carry_out(l, &run);
}

/*
 * Whether all is well if the call is not made again: two seconds after a recording the order falls no more often than
 * if it had been made, or had not; the next run leaves the same bytes.
 */
static int mends(struct lent at, const struct call *c, const struct lent *before, const struct lent *after) {
    static struct readings now, then, later;
    struct lent was = *before, done = *after;
    go_on(&at, c);
    go_on(&was, c);
    go_on(&done, c);
    if (c->kind == 2) return memcmp(at.image, done.image, at.len) == 0;
    read_all(&at, &now);
    read_all(&was, &then);
    read_all(&done, &later);
    return falls(&now) <= falls(&then) || falls(&now) <= falls(&later);
}

/* Looks at one state: `at` is a copy of what is lent now. */
static void look(struct seen *s, struct lent *at, const struct call *c,
                 const struct lent *before, const struct lent *after) {
    static struct readings now, then, later, again;
    struct lent was = *before, done = *after;
    uint32_t answer = open_and_read(at, &now);
    open_and_read(&was, &then);
    open_and_read(&done, &later);
    s->states++;
    s->answers[answer]++;
    if (answer == RONDO_ACCEPTED) {
        sort_reading(s, &now, &then, &later);
        if (memcmp(at->image, after->image, at->len)) s->unfinished++;
        if (c->kind < 3 && mends(*at, c, before, after)) s->mended++;
    }
    carry_out(at, c);
    read_all(at, &again);
    if (memcmp(at->image, after->image, at->len) == 0 && same(&again, &later)) s->redone++;
}

/* The child: stops, makes the call, and ends. */
static pid_t start(const struct call *c) {
    pid_t child = fork();
    if (child != 0) return child;
    ptrace(PTRACE_TRACEME, 0, 0, 0);
    raise(SIGSTOP);
    carry_out(lent, c);
    _exit(0);
}

/* Steps the child to its end; looks at each state. The stack is counted from the call's return address on. */
static void step(struct seen *s, const struct call *c, const struct lent *before, const struct lent *after) {
    static struct lent last, copy;
    struct user_regs_struct regs;
    uint64_t top = 0;
    int status, inside = 0;
    pid_t child = start(c);
    last = *lent;
    waitpid(child, &status, 0);
    while (WIFSTOPPED(status)) {
        ptrace(PTRACE_GETREGS, child, 0, &regs);
        if (!inside && regs.rip == address(c->kind)) { inside = 1; top = regs.rsp + 8; }
        if (inside) {
            s->instructions++;
            if (regs.rsp < top && top - regs.rsp > s->stack) s->stack = top - regs.rsp;
            if (regs.rsp == top) break;
        }
        if (memcmp(last.image, lent->image, lent->len)) {
            last = copy = *lent;
            look(s, &copy, c, before, after);
        }
        if (ptrace(PTRACE_SINGLESTEP, child, 0, 0) || waitpid(child, &status, 0) != child) exit(2);
    }
    if (WIFSTOPPED(status)) {
        ptrace(PTRACE_CONT, child, 0, 0);
        waitpid(child, &status, 0);
    }
}

/* Steps one call from what is lent, adds what was seen, and leaves what the call leaves. */
static void try_call(struct seen *s, struct call c) {
    static struct lent before, after;
    before = after = *lent;
    carry_out(&after, &c);
    step(s, &c, &before, &after);
    if (memcmp(lent->image, after.image, ROOM) || lent->flags != after.flags || lent->answer != 0) {
        printf("a stepped call of kind %d ended otherwise, answer %" PRIu32 "\n", c.kind, lent->answer);
        faults++;
    }
}

static void put_plan(void) {
    const uint64_t s = SECOND;
    rondo_put_plan(plan, 2, 4);
    rondo_put_row(plan, 0, 0, 0, s, 16 * s, RONDO_NONE, 3, 7);
    rondo_put_row(plan, 1, 0, 1, 4 * s, 16 * s, RONDO_AVERAGE, 3, 7);
    rondo_put_row(plan, 2, 0, 2, 8 * s, 32 * s, RONDO_MAX, 3, 7);
    rondo_put_row(plan, 3, 1, 0, s, 16 * s, RONDO_NONE, 1, 9);
}

/* What include/rondo.h says: every state opens but those of a creation; a call made again ends as it would have. */
static void hold(const char *what, const struct seen *s, int opens) {
    int again = s->states && s->redone == s->states;
    if (again && (!opens || (s->answers[0] == s->states && s->strange == 0 && s->mended == s->states))) return;
    printf("%s: a state between is not as rondo.h says\n", what);
    faults++;
}

static void show(const char *what, const struct seen *s, int opens) {
    printf("%s: %u instructions, %u states, opened:", what, s->instructions, s->states);
    for (unsigned i = 0; i < RONDO_ANSWERS; i++)
        if (s->answers[i]) printf(" %u with %u (%s)", s->answers[i], i, rondo_refusal_name(i));
    printf("\n    opened and not at the end: %u; read as before %u, as after %u, points of the two %u,"
           " a new stamp with an old value %u, other %u; order falls %u\n",
           s->unfinished, s->before, s->after, s->points, s->stale, s->strange, s->fallen);
    printf("    opened and called again, all as uninterrupted: %u; ", s->redone);
    if (opens) printf("not called again, mended two seconds later: %u; ", s->mended);
    printf("stack %" PRIu64 "\n", s->stack);
    hold(what, s, opens);
}

/* Creation over zeros, erased flash, a fresh store, one with a damaged header, and noise. */
static void try_creations(struct seen *s) {
    static const struct call create = { 3, 0, 0 };
    memset(lent->image, 0, ROOM);
    try_call(s, create);
    try_call(s, create);
    memset(lent->image, 0xff, ROOM);
    try_call(s, create);
    lent->image[0] ^= 1;
    try_call(s, create);
    for (uint32_t i = 0, x = 1; i < ROOM; i++, x = x * 1664525 + 1013904223) lent->image[i] = (uint8_t)(x >> 24);
    try_call(s, create);
}

/* Records, batches and runs together, as include/rondo.h has the numbers. */
static void sum_up(const struct seen *a, const struct seen *b, const struct seen *c) {
    printf("step: records, batches and runs: %u images, %u unfinished, %u opened with 0, %u with a new stamp and an old value,"
           " %u out of order\n",
           a->states + b->states + c->states, a->unfinished + b->unfinished + c->unfinished,
           a->answers[0] + b->answers[0] + c->answers[0], a->stale + b->stale + c->stale, a->fallen + b->fallen + c->fallen);
}

int main(void) {
    static struct seen creation, again, record, batch, run;
    static const struct call create = { 3, 0, 0 };
    const uint64_t s = SECOND, first = 1700000000 * s;
    uint64_t size = 0;
    lent = mmap(0, sizeof *lent, PROT_READ | PROT_WRITE, MAP_SHARED | MAP_ANONYMOUS, -1, 0);
    put_plan();
    if (lent == MAP_FAILED || rondo_image_size(plan, sizeof plan, &size) || size > ROOM) return 2;
    lent->len = size;
    try_creations(&creation);
    for (uint64_t i = 0; i < 56; i++) {
        uint64_t now = first + i * s; /* the second of the two calls is a nanosecond later */
        struct call a = { 1, now + !(i % 2), 0.1 * (double)i }, b = { 0, now + i % 2, 1e9 + (double)i }, c = { 2, now, 0 };
        try_call(i % 2 ? &batch : &record, i % 2 ? a : b);
        try_call(i % 2 ? &record : &batch, i % 2 ? b : a);
        if (i % 8 == 7 || i % 8 == 4) try_call(&run, c);
        if (i % 8 == 7) {
            b.stamp -= 3 * s; /* late: its slot has this stamp already, so it is taken */
            try_call(&record, b);
        }
    }
    try_call(&again, create);
    show("rondo_create", &creation, 0);
    show("rondo_create over a store of the same plan", &again, 0);
    show("rondo_record", &record, 1);
    show("rondo_record_batch", &batch, 1);
    show("rondo_consolidate", &run, 1);
    sum_up(&record, &batch, &run);
    return faults != 0;
}
