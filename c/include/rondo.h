/*
 * rondo.h - time series in ring slabs, in memory that you lend.
 *
 * A store is one block of bytes, the image: a table of contents, then a ring of slots for each
 * tier. Beside it goes one number, the wrap flags: bit i belongs to row i of the table. Keep the
 * two together, from call to call; the library keeps nothing, allocates nothing and calls memset alone.
 *
 * Every call may be handed anything: a block of any length with any content, any flags, any
 * numbers. It answers 0 (RONDO_ACCEPTED) or one refusal below, and returns. You test nothing
 * first. A refusal leaves every byte, flag and number that you lent as it was; a refused
 * rondo_consolidate alone keeps what it did before the refusal.
 *
 * You owe what C always asks: a pointer and a length that describe memory of yours (a pointer to
 * no bytes is not null), blocks of one call that do not overlap, and nothing else that writes them
 * during the call (a thread, an interrupt, DMA: it could end in an illegal instruction). Stamps are
 * nanoseconds. Values are doubles by their 64-bit pattern: rondo_bits and rondo_double convert.
 *
 * Opening, both ways to record, both queries, both figures and a run check the table and each ring's
 * header again, some nanoseconds a row, and change nothing before all is good; a reader's step checks
 * its ring's header. So the fast ways are those that do much in a call: a batch for the values of one
 * stamp (rondo_record_batch), and many points a call (rondo_read).
 *
 * Stamps: let time begin at the coarsest interval or later. An earlier sample's window would start at
 * 0, so the next run is refused with 13, and each after it until the finer ring has lost the sample.
 *
 * What it asks of a machine (make check tries each of these):
 * - x86-64 with the System V calling convention, as on Linux; SSE2 and nothing newer.
 * - memset: the one symbol that librondo.a needs (nm -u).
 * - Code: 19,882 bytes with constants, and no data (size librondo.a; the build of 2026-11-27).
 * - Stack: at most RONDO_STACK_SIZE bytes a call, beside memset's own. That build takes 684, the return
 *   address among them: the deepest path of each call, added up from the disassembly (c/tests/stack.awk);
 *   544 is the most that the single-stepped calls took. Up to 8 of them lie below the stack pointer, as
 *   the convention allows: an interrupt on the same stack must leave the 128 bytes below it.
 * - Alignment: none is asked of images, plans and entries; numbers and structs have that of C.
 * - Floating point: averages and sums are computed in the mode that the caller has set. Round to nearest
 *   and do not flush to zero: with flush to zero the mean of 3e-320, 6e-320, 9e-320 is 0. rondo_panel
 *   rounds by the value's pattern, in every mode the same.
 *
 * Calls cut short, as by a reset: nothing is proved of them. c/tests/step.c single-steps 63 records, 56
 * batches and 14 runs and looks at the image after each instruction that changed it. In that build:
 * - rondo_open answered 0 on each of the 687 images, 554 of them unfinished; no other answer occurred.
 *   Take the flags from it.
 * - After it the same call, made again, left every byte and reading as if it had not been cut short.
 * - Not made again, a slot may have its new stamp with the value that stood there before (212 images), and
 *   keeps it until it is written again; a batch or a run may be there in part. No other point was read.
 * - A new point may be read before older ones (239 images). Two seconds' further records later the order
 *   fell no more often than if the record or batch had been made whole, or not at all.
 * - After a run cut short, two seconds and the next run left the same bytes as after a whole one.
 * - rondo_create is not like that: see there.
 * The stores were seen in the order of the program, each whole. Where a cache stands before the memory
 * that outlasts the power, flush it after each call.
 *
 * Each function here has the contract that is proved of it in crates/rondo/src/lib.rt; what is inline
 * here is not proved.
 */
#ifndef RONDO_H
#define RONDO_H

#include <stddef.h>
#include <stdint.h>
#include <string.h>

#ifdef __cplusplus
extern "C" {
#endif

/* ---- versions and limits ---- */

/* These calls. A call, an answer or a struct that changes for a caller raises MAJOR, one that is added MINOR. */
#define RONDO_VERSION_MAJOR 2
#define RONDO_VERSION_MINOR 0
#define RONDO_VERSION_PATCH 0
#define RONDO_VERSION_STRING "2.0.0"

/* The image's bytes: the number in an image's header. Others are refused with 1. */
#define RONDO_IMAGE_VERSION 1

#define RONDO_MAX_SCHEMAS 8u
#define RONDO_MAX_ROWS 32u                          /* tiers of all schemas */
#define RONDO_MAX_SLOTS 1000000000u                 /* of a ring: retention / interval */
#define RONDO_MAX_IMAGE_SIZE (UINT64_C(1) << 40)    /* bytes */
#define RONDO_TIME_LIMIT (UINT64_C(1) << 63)        /* ns: stamps, intervals and retentions are below it */

#define RONDO_HEADER_SIZE 32u   /* bytes: an image's or a plan's header */
#define RONDO_ROW_SIZE 64u      /* a row of it */
#define RONDO_ENTRY_SIZE 16u    /* a batch's entry: schema, column, value (rondo_put_entry) */

/* The bytes of a plan, and of the head of an image. */
#define RONDO_PLAN_SIZE(rows) (RONDO_HEADER_SIZE + RONDO_ROW_SIZE * (size_t)(rows))

/* The bytes of a ring. An image is its plan and the ring of each row, so a static block can be sized. */
#define RONDO_RING_SIZE(slots, series) \
    (64 + 4 * (size_t)(series) + 8 * (size_t)(slots) * (1 + (size_t)(series)))

/* The most bytes of stack that a call takes: "What it asks of a machine". */
#define RONDO_STACK_SIZE 768u

/* ---- answers ---- */

enum rondo_answer_number {
    RONDO_ACCEPTED = 0,
    RONDO_BAD_IMAGE = 1,            /* header, rows, offsets or lengths; a plan's field that must be 0 */
    RONDO_NO_TIERS = 2,             /* a schema has no row */
    RONDO_INVALID_MAX_SERIES = 3,   /* max series is 0 */
    RONDO_INVALID_TIER_CONFIG = 4,  /* interval or retention is 0 or 2^63 or more, or retention is below interval */
    RONDO_TOO_MANY_SLOTS = 5,       /* retention / interval is above 1,000,000,000 */
    RONDO_TIERS_NOT_ORDERED = 6,    /* an interval is not above the finer tier's */
    RONDO_CONSOLIDATION_ON_HIGHEST_TIER = 7, /* tier 0 has a function */
    RONDO_LAYOUT_TOO_LARGE = 8,     /* the image would exceed 2^40 bytes */
    RONDO_SHORT_BUFFER = 9,         /* rondo_create: the image's block is too short */
    RONDO_CORRUPTED_SLAB = 10,      /* a slab's header; rondo_consolidate: a stamp of 2^63 or more in a source */
    RONDO_INVALID_HANDLE = 11,      /* no such schema or column */
    RONDO_INVALID_VALUE = 12,       /* the value is infinite (NaN is accepted) */
    RONDO_INVALID_TIMESTAMP = 13,   /* the stamp is 0 or 2^63 or more */
    RONDO_INVALID_TIER = 14,        /* no such tier */
    RONDO_INVALID_TIME_RANGE = 15,  /* start is not below end */
    RONDO_NO_CONSOLIDATION_FUNCTION = 16, /* a coarser tier has function 0 */
    RONDO_OFF_PANEL = 17,           /* rondo_panel: the value is beyond 2^53, either way, or infinite */
    RONDO_OLD_SAMPLE = 18           /* recording: the stamp is below the one that its slot holds */
};

/* How many answers there are, 0 among them. */
#define RONDO_ANSWERS 19u

/* An answer's name; "Unknown" for a number that is none. In the caller's code, not in the library. */
static inline const char *rondo_refusal_name(uint32_t number) {
    static const char *const names[RONDO_ANSWERS] = {
        "Accepted",
        "BadImage",
        "NoTiers",
        "InvalidMaxSeries",
        "InvalidTierConfig",
        "TooManySlots",
        "TiersNotOrdered",
        "ConsolidationOnHighestTier",
        "LayoutTooLarge",
        "ShortBuffer",
        "CorruptedSlab",
        "InvalidHandle",
        "InvalidValue",
        "InvalidTimestamp",
        "InvalidTier",
        "InvalidTimeRange",
        "NoConsolidationFunction",
        "OffPanel",
        "OldSample",
    };
    return number < RONDO_ANSWERS ? names[number] : "Unknown";
}

/* An answer in words, for a person. */
static inline const char *rondo_refusal_words(uint32_t number) {
    static const char *const words[RONDO_ANSWERS] = {
        "the call was carried out",
        "the plan has no schema, more than 8 schemas, more than 32 tiers, rows out of order or a field that should be 0 and is not, or the image's table is damaged, or the image is cut short",
        "a schema has no tier",
        "a schema's greatest number of series is 0",
        "an interval or a retention is 0, or 2^63 ns or more, or the retention is below the interval",
        "a tier would have more than 1000000000 slots",
        "a tier's interval is not above the finer tier's",
        "a schema's finest tier has a function",
        "the image would be longer than 2^40 bytes",
        "the bytes lent for the image are fewer than the plan needs",
        "a slab's header is damaged, or a stamp in it is 2^63 ns or more",
        "there is no such schema, or no such column in it",
        "the value is infinite",
        "the stamp is 0, or 2^63 ns or more",
        "the schema has no such tier",
        "the range's start is not below its end",
        "a coarser tier has no function",
        "the last point's value is beyond 2^53, either way, or infinite",
        "the stamp is below the one that its slot of the ring holds",
    };
    return number < RONDO_ANSWERS ? words[number] : "no refusal has this number";
}

/* The functions of a coarser tier. */
enum rondo_function {
    RONDO_NONE = 0, RONDO_AVERAGE = 1, RONDO_MIN = 2, RONDO_MAX = 3,
    RONDO_LAST = 4, RONDO_SUM = 5, RONDO_COUNT = 6
};

/* ---- plans and entries: bytes that you write ---- */

/*
 * A plan is the head of an image: RONDO_PLAN_SIZE(rows) bytes, written by rondo_put_plan and then
 * rondo_put_row for each row, by schema and then by tier, finest first. At most RONDO_MAX_SCHEMAS
 * and RONDO_MAX_ROWS. Rows of a schema agree in series and hash; the hash is yours to choose.
 */
static inline void rondo_put_number(uint8_t *at, unsigned bytes, uint64_t x) {
    for (unsigned i = 0; i < bytes; i++, x >>= 8) at[i] = (uint8_t)x;
}

static inline void rondo_put_plan(uint8_t *plan, uint32_t schemas, uint32_t rows) {
    memset(plan, 0, RONDO_PLAN_SIZE(rows));
    memcpy(plan, "RSTO", 4);
    rondo_put_number(plan + 4, 4, RONDO_IMAGE_VERSION);
    rondo_put_number(plan + 8, 4, schemas);
    rondo_put_number(plan + 12, 4, rows);
}

static inline void rondo_put_row(uint8_t *plan, uint32_t row, uint32_t schema, uint32_t tier,
                                 uint64_t interval_ns, uint64_t retention_ns,
                                 uint32_t function, uint32_t max_series, uint64_t hash) {
    uint8_t *at = plan + RONDO_PLAN_SIZE(row);
    rondo_put_number(at, 4, schema);
    rondo_put_number(at + 4, 4, tier);
    rondo_put_number(at + 8, 8, interval_ns);
    rondo_put_number(at + 16, 8, retention_ns);
    rondo_put_number(at + 24, 4, function);
    rondo_put_number(at + 28, 4, max_series);
    rondo_put_number(at + 56, 8, hash);
}

static inline void rondo_put_entry(uint8_t *entry, uint32_t schema, uint32_t column, uint64_t value) {
    rondo_put_number(entry, 4, schema);
    rondo_put_number(entry + 4, 4, column);
    rondo_put_number(entry + 8, 8, value);
}

static inline uint64_t rondo_bits(double value) {
    uint64_t bits;
    memcpy(&bits, &value, sizeof bits);
    return bits;
}

static inline double rondo_double(uint64_t bits) {
    double value;
    memcpy(&value, &bits, sizeof value);
    return value;
}

/* ---- the calls ---- */

/*
 * The size of the image that a plan needs, into *size. Refuses 1 to 8, and then leaves *size.
 * A longer block than the plan may be lent; what stands past the plan is not read.
 */
uint32_t rondo_image_size(const uint8_t *plan, size_t plan_len, uint64_t *size);

/*
 * Writes the plan's fresh image at the start of `image`, and makes the flags of its rows 0. Later
 * bytes and flags stay. Refuses 1 to 9.
 *
 * Cut short, it may leave an image that opens. Single-stepped with glibc's memset: of 352 images, over
 * zeros, 0xff, noise and fresh stores, rondo_open refused 308 (with 1, 3 or 10) and accepted 44; 40 of
 * these were not finished, and 4 gave points that nobody recorded. Over a store of the same plan it
 * accepted all 64 images, some with a part of the old points. So keep a word beside the image that says
 * that creation has ended, as c/examples/power_up.c does. Made again, it left the same image from each.
 */
uint32_t rondo_create(const uint8_t *plan, size_t plan_len,
                      uint8_t *image, size_t image_len, uint32_t *flags);

/*
 * Checks an image and works out the flags of its rows, for an image whose flags were not kept, as
 * after a power cycle: a row's flag is 1 where some slot numbered above its ring's cursor has a
 * stamp that is not 0. What these calls wrote, from rondo_create on and with the flags as each of
 * them left them, is read after it as before it. Reads up to 8 bytes for each slot above a cursor.
 * Flags past the rows stay. Refuses 1 to 8 and 10, as every call below does before its own refusals.
 */
uint32_t rondo_open(const uint8_t *image, size_t image_len, uint32_t *flags);

/*
 * Records a value in a series' finest ring. Changes one slot, the ring's cursor and the row's flag.
 * Refuses 11, 12, 13, 18, in this order.
 *
 * Which sample supersedes which: a stamp's slot is (stamp / interval) mod slots, and a slot has one stamp
 * for all series of the schema. The later stamp wins: one below the slot's is refused with 18, whichever
 * series wrote that, and NaN too; on equal stamps the later call wins. The slot's stamp decides, not the
 * ring's newest: a late sample is taken where its slot is empty or holds an earlier stamp. With interval
 * 10 and 4 slots, after 50 and 90: 50 and 10 are refused, 90 and 60 are taken; after 91, 90 is refused.
 *
 * On 18 drop the sample and go on: the same call would be refused again. Send a backlog oldest first, so
 * that its own samples do not refuse each other (c/examples/backlog.c); the coarser tiers get what lies in
 * the window that the last run ended in, or later. A stamp that ran ahead, as from a clock not yet set,
 * keeps its slot until samples reach it, and once a run has read it the coarser tiers get nothing until
 * samples reach its window. One of 2^63 or more, which somebody else must have written, keeps it for good.
 */
uint32_t rondo_record(uint8_t *image, size_t image_len, uint32_t *flags,
                      uint32_t schema, uint32_t column, uint64_t value, uint64_t stamp);

/*
 * Records entries_len / RONDO_ENTRY_SIZE entries at one stamp, all or none; a shorter rest is not
 * read. The entries may be of several schemas: one call for all rings is the fast way to record.
 * No entries: accepted, nothing changes. Refuses 11 for any entry, then 13, then 12, then 18 where the
 * slot of any entry's ring holds a later stamp. Nothing is stored then, not in the other rings either: a ring
 * that shall take its values whatever the others hold needs a batch of its own. A schema without an entry
 * is not asked.
 */
uint32_t rondo_record_batch(uint8_t *image, size_t image_len, uint32_t *flags,
                            const uint8_t *entries, size_t entries_len, uint64_t stamp);

/* Where a reader stands: the next slot, and how many slots are left. */
struct rondo_place {
    uint64_t slot;
    uint64_t left;
};

/* A query's answer. */
struct rondo_answer {
    uint64_t tier;
    uint64_t oldest;     /* the ring's ends; 0: it is empty */
    uint64_t newest;
    uint64_t start;      /* the range asked for, its end left out */
    uint64_t end;
    uint64_t incomplete; /* 1: there may have been older points in the range, else 0 */
    uint64_t column;
    uint64_t from;       /* the slab that is read: the image's bytes from `from` up to `to` */
    uint64_t to;
    struct rondo_place place;
};

/* A point: its stamp, and its value's pattern. */
struct rondo_point {
    uint64_t stamp;
    uint64_t value;
};

/*
 * Looks a series up in a tier (0 is the finest), for the points from `start` up to `end`, its end
 * left out. All time is start 0, end UINT64_MAX. Changes *answer alone. Refuses 11, 14, 15.
 */
uint32_t rondo_query(const uint8_t *image, size_t image_len, uint32_t flags,
                     uint32_t schema, uint32_t column, uint32_t tier,
                     uint64_t start, uint64_t end, struct rondo_answer *answer);

/*
 * The same in the first tier that covers the range in full, else the last that is not empty, else
 * the finest. Refuses 11, 15.
 */
uint32_t rondo_query_auto(const uint8_t *image, size_t image_len, uint32_t flags,
                          uint32_t schema, uint32_t column,
                          uint64_t start, uint64_t end, struct rondo_answer *answer);

/*
 * The panel's figure of a series in a tier: the value of the last point that a query over all time hands
 * out, as the nearest whole number, of two that are equally near the even one (-0.5 shows 0, 1.5 shows 2,
 * -2.5 shows -2). 1 into *shown and the number into *figure; where there is no point 0 into *shown, and
 * *figure is left. Refuses 11, 14, then 17 where there is a point with a value beyond 2^53, either way, or
 * infinite (rondo_record takes no infinite value, so somebody else wrote it); a refusal leaves both.
 *
 * What it costs: no buffer, and a look at the slots from the ring's cursor backward, up to the first with a
 * point. Where the cursor's slot has one the time does not depend on the number of slots: 18 ns with three
 * rows, at 3,600 and at 10^6 slots. The worst case of what these calls wrote is a column of NaN, as of a
 * series that was never recorded, in a ring that has wrapped: 4.0 us at 3,600 slots, 1.1 ms at 10^6. An
 * image that came from elsewhere may have stamp 2^64 - 1 in every slot: 4.6 us and 1.3 ms.
 */
uint32_t rondo_panel(const uint8_t *image, size_t image_len, uint32_t flags,
                     uint32_t schema, uint32_t column, uint32_t tier,
                     uint32_t *shown, int64_t *figure);

/*
 * The same point in full, with the ring's ends, for service tools. Into figure[0] to figure[4]: 1, stamp,
 * the value's pattern, oldest, newest. Where there is no point figure[0] is 0 and the rest is left. The
 * point is the last in the order of reading: its stamp need not be the greatest, nor newest, which is the
 * stamp at the ring's cursor, whatever stands there for this series. Refuses 11, 14, and then leaves all.
 * It needs no buffer and costs the same, and oldest besides, which is worked out as a query does: past
 * empty slots at the ring's start, 0.49 us at 3,600 slots and 129 us at 10^6 where all but two are empty.
 */
uint32_t rondo_service(const uint8_t *image, size_t image_len, uint32_t flags,
                       uint32_t schema, uint32_t column, uint32_t tier, uint64_t figure[5]);

/*
 * One step of a reader over a slab: 1, the point into *point and *place moved on; or 0 at the end,
 * *point left and place->left 0. Any numbers may be handed in: a place outside the slab, or with
 * more slots left than the slab has, is at the end.
 */
uint32_t rondo_next(const uint8_t *slab, size_t slab_len, uint32_t column,
                    uint64_t start, uint64_t end,
                    struct rondo_place *place, struct rondo_point *point);

/* Whether an answer names bytes of an image of this length. An answer that a query made of it does. */
static inline int rondo_answer_fits(const struct rondo_answer *answer, size_t image_len) {
    return answer->from <= answer->to && answer->to <= image_len && answer->column <= UINT32_MAX;
}

/*
 * The next point of an answer, from the image that it was made from. Any answer may be handed in: one
 * that does not fit the image is at its end, and nothing outside the image is read.
 */
static inline uint32_t rondo_next_point(const uint8_t *image, size_t image_len,
                                        struct rondo_answer *answer, struct rondo_point *point) {
    if (!rondo_answer_fits(answer, image_len)) {
        answer->place.left = 0;
        return 0;
    }
    return rondo_next(image + answer->from, (size_t)(answer->to - answer->from),
                      (uint32_t)answer->column, answer->start, answer->end,
                      &answer->place, point);
}

/*
 * Many steps in one call, which is the fast way to read: 32 points a call take about half as long as
 * 32 calls of rondo_next. Stores the next points of a reader, as many as `words_len` / 2
 * has room for, moves *place past them and answers how many there are. Fewer than there is room for:
 * the reader is at its end. Words past the stored points are left.
 */
size_t rondo_read(const uint8_t *slab, size_t slab_len, uint32_t column,
                  uint64_t start, uint64_t end,
                  struct rondo_place *place, uint64_t *words, size_t words_len);

/* The next points of an answer, at most `room`, with the same test. */
static inline size_t rondo_read_points(const uint8_t *image, size_t image_len,
                                       struct rondo_answer *answer,
                                       struct rondo_point *points, size_t room) {
    if (!rondo_answer_fits(answer, image_len)) {
        answer->place.left = 0;
        return 0;
    }
    return rondo_read(image + answer->from, (size_t)(answer->to - answer->from),
                      (uint32_t)answer->column, answer->start, answer->end,
                      &answer->place, (uint64_t *)points, 2 * room);
}

/*
 * Brings every coarser tier up to date, and counts the values written into *count. It may follow any
 * sample: the window that the last run ended in is read again from its start, over the samples that
 * the finer ring still has; if one is left it is written and counted again, even where nothing is
 * new. So that no closed window is averaged over its last samples alone, let every ring but the
 * coarsest hold two of the coarsest intervals. Refuses 16, 10, 12, 13 by pair of tiers: what it did
 * before stays, *count is left.
 *
 * A window whose start is below the stamp that its slot holds is passed over, once 12 and 13 are tried:
 * slot, cursor and flag stay, it is not counted and nothing is refused. Where a pair has no other window
 * its mark stays too. What these calls wrote comes to that only after a run that was refused, or cut short.
 *
 * What it costs: every stamp of each ring but the coarsest is looked at, then the samples from the
 * start of the window that the last run ended in (all, if there was no run) are read, once for their
 * windows and once for each series. In an image that these calls wrote, however many samples were
 * missed or came late: where the time from there to the newest sample is up to m times what the ring
 * holds, this is done in at most 2 m - 1 parts, so in one where it is no longer than the ring (one
 * more where that window is the first of all time). Each part goes over the ring's stamps once to be
 * found and at most once more to be read, about a nanosecond a stamp, and for each series over the
 * slots of its windows. An image that came from elsewhere may need as many parts as it has windows,
 * at the worst as many as its slots, each over the whole ring and for every series: do not run one
 * that you do not trust where nothing may wait.
 */
uint32_t rondo_consolidate(uint8_t *image, size_t image_len, uint32_t *flags, uint64_t *count);

#ifdef __cplusplus
}
#endif

#endif
