/* memory PLAN SCRIPT alone|all: does the script with each allocation of each call failing in turn, and beside it,
 * on another map, undisturbed. It is linked with the library inside, and with --wrap for malloc and realloc.
 *
 * After status 5 the map must be as it was, after status 6 and 0 as the other one is once the same record was done
 * there. The last line counts what was refused; status 1: something was wrong. */
#include "job.h"

void *__real_malloc(size_t);
void *__real_realloc(void *, size_t);

static long left = -1; /* Allocations up to the one that fails; less than 0: none fails. */
static int is_alone;   /* Whether that one fails alone, or all later ones too. */
static unsigned long failed, wrong;

static int fails(void)
{
    if (left < 0)
        return 0;
    if (left > 0) {
        left--;
        return 0;
    }
    if (is_alone)
        left = -1;
    failed++;
    return 1;
}

void *__wrap_malloc(size_t size) { return fails() ? NULL : __real_malloc(size); }

void *__wrap_realloc(void *old, size_t size) { return fails() ? NULL : __real_realloc(old, size); }

enum { ROOM = 1 << 20 };

struct told {
    uint8_t bytes[ROOM];
    uint64_t length;
};

static struct told before, now, wanted, answer, other;

static int is_same(const struct told *one, const struct told *two)
{
    return one->length == two->length && one->length <= ROOM && !memcmp(one->bytes, two->bytes, one->length);
}

static uint32_t submit(cadedit_map *map, const uint8_t *record, size_t size, struct told *told)
{
    return cadedit_submit(map, record, size, told->bytes, ROOM, &told->length);
}

static void print(cadedit_map *map, struct told *told)
{
    static const char record[] = "print,,,,,,\n";
    if (submit(map, (const uint8_t *)record, sizeof record - 1, told) != CADEDIT_DONE)
        exit(2);
}

static void need(int is_right, const char *what, long at, const uint8_t *record, size_t size)
{
    if (is_right)
        return;
    wrong++;
    printf("allocation %ld: %s: %.*s\n", at, what, (int)size, (const char *)record);
}

/* Opens a map, each allocation failing in turn, and answers how many there are. */
static unsigned long open_map(cadedit_map *map, struct text plan)
{
    for (unsigned long at = 0;; at++) {
        unsigned long failed_before = failed;
        left = (long)at;
        uint32_t status = cadedit_open(map, plan.bytes, plan.length, 100, 1, now.bytes, ROOM, &now.length);
        left = -1;
        if (status == CADEDIT_DONE && failed == failed_before)
            return at;
        if (status == CADEDIT_DONE)
            cadedit_close(map);
        need((status == CADEDIT_MEMORY || status == CADEDIT_DONE) && !map->opened && !map->at && !now.length, "opening",
             (long)at, plan.bytes, 0);
    }
}

/* What is told again after a call, which allocates nothing. */
static int is_told_again(cadedit_map *map, const struct told *latest)
{
    left = 0;
    uint32_t status = cadedit_answer(map, 0, other.bytes, ROOM, &other.length);
    left = -1;
    return status == CADEDIT_DONE && is_same(&other, latest);
}

/* Takes back what a record did, so that it can be tried again. */
static void take_back(cadedit_map *map, long at, const uint8_t *record, size_t size)
{
    const char *back = size > 4 && !memcmp(record, "undo", 4) ? "redo,,,,,," : "undo,,,,,,";
    if (!is_same(&wanted, &before))
        submit(map, (const uint8_t *)back, strlen(back), &now);
    print(map, &now);
    need(is_same(&now, &before), "taken back", at, record, size);
}

struct counts {
    unsigned long records, undone, untold, done;
};

/* The first number that an answer to `areas` tells, or 0. */
static uint32_t first_parcel(cadedit_map *map)
{
    static const char record[] = "areas,,,,,,\n", area[] = "area,";
    submit(map, (const uint8_t *)record, sizeof record - 1, &now);
    if (now.length < sizeof area || memcmp(now.bytes, area, sizeof area - 1))
        return 0;
    return (uint32_t)strtoul((const char *)now.bytes + sizeof area - 1, NULL, 10);
}

/* Tells the shape of a parcel, each allocation failing in turn, and answers how often memory ran out. */
static unsigned long tell_shape(cadedit_map *map, cadedit_map *undisturbed)
{
    static const struct told none;
    uint32_t parcel = first_parcel(undisturbed), wanted_status;
    wanted_status = cadedit_shape(undisturbed, parcel, answer.bytes, ROOM, &answer.length);
    for (unsigned long at = 0;; at++) {
        unsigned long failed_before = failed;
        left = (long)at;
        uint32_t status = cadedit_shape(map, parcel, now.bytes, ROOM, &now.length);
        left = -1;
        if (failed == failed_before) {
            need(status == wanted_status && is_same(&now, &answer), "the shape", (long)at, NULL, 0);
            return at;
        }
        need(status == CADEDIT_MEMORY || status == wanted_status, "a shape's status", (long)at, NULL, 0);
        need(is_told_again(map, status == CADEDIT_DONE ? &answer : &none), "a shape told again", (long)at, NULL, 0);
    }
}

/* Does a record, each allocation failing in turn, until none is left that could. The other map has done it already:
 * `answer` is what that answered, `wanted` its plan. */
static void do_record(cadedit_map *map, const uint8_t *record, size_t size, struct counts *counts)
{
    static const struct told none;
    for (long at = 0;; at++) {
        print(map, &before);
        unsigned long failed_before = failed;
        left = at;
        uint32_t status = submit(map, record, size, &now);
        left = -1;
        need(is_told_again(map, status == CADEDIT_DONE ? &now : &none), "told again", at, record, size);
        need(status != CADEDIT_DONE || is_same(&now, &answer), "the answer", at, record, size);
        print(map, &now);
        if (status == CADEDIT_MEMORY) {
            need(is_same(&now, &before), "not undone", at, record, size);
            counts->undone++;
            continue;
        }
        need(status == CADEDIT_DONE || status == CADEDIT_UNTOLD, "the status", at, record, size);
        need(is_same(&now, &wanted), "not done", at, record, size);
        if (failed == failed_before)
            return;
        *(status == CADEDIT_DONE ? &counts->done : &counts->untold) += 1;
        take_back(map, at, record, size);
    }
}

int main(int count, char **words)
{
    if (count != 4)
        return 9;
    is_alone = !strcmp(words[3], "alone");
    struct text plan = read_file(words[1]), script = read_file(words[2]);
    cadedit_map map = CADEDIT_CLOSED_MAP, beside = CADEDIT_CLOSED_MAP;
    struct counts counts = {0, 0, 0, 0};
    unsigned long opens = open_map(&map, plan);
    if (cadedit_open(&beside, plan.bytes, plan.length, 100, 2, now.bytes, ROOM, &now.length) != CADEDIT_DONE)
        return 2;
    for (size_t at = 0, size; at < script.length; at += size, counts.records++) {
        size = record_length(script.bytes + at, script.length - at);
        if (submit(&beside, script.bytes + at, size, &answer) != CADEDIT_DONE)
            return 2;
        print(&beside, &wanted);
        do_record(&map, script.bytes + at, size, &counts);
        print(&map, &now);
        need(is_same(&now, &wanted), "the plan", -1, script.bytes + at, size);
    }
    unsigned long shapes = tell_shape(&map, &beside);
    print(&map, &now);
    need(is_same(&now, &wanted), "the plan after shapes", -1, NULL, 0);
    cadedit_close(&map);
    cadedit_close(&beside);
    free(plan.bytes);
    free(script.bytes);
    printf("%lu records; %lu allocations failed: opening %lu times, %lu records undone, %lu done and untold, "
           "%lu done; a shape %lu times; %lu wrong\n", counts.records, failed, opens, counts.undone, counts.untold,
           counts.done, shapes, wrong);
    return wrong || !opens || !counts.undone || !shapes;
}
