/* calls PLAN SCRIPT RUNS: prints the microseconds that a record of the script takes as a call, those of the plan's
 * opening and of closing, and how many records there are and how many of them are answered by a refusal. The
 * script is timed in ten parts, on a map that is opened anew for each run, and of each part the fastest run
 * counts. */
#define _POSIX_C_SOURCE 200809L
#include "job.h"
#include <math.h>
#include <time.h>

enum { PARTS = 10, ROOM = 4096 };

struct records {
    struct text *all;
    size_t count;
};

static double now(void)
{
    struct timespec time;
    clock_gettime(CLOCK_MONOTONIC, &time);
    return (double)time.tv_sec * 1e6 + (double)time.tv_nsec / 1e3;
}

static struct records records_of(struct text script)
{
    struct records records = {malloc((script.length / 7 + 1) * sizeof *records.all), 0};
    if (!records.all)
        exit(9);
    for (size_t at = 0; at < script.length;) {
        size_t size = record_length(script.bytes + at, script.length - at);
        records.all[records.count++] = (struct text){script.bytes + at, size};
        at += size;
    }
    return records;
}

static void keep_least(double *kept, double since)
{
    *kept = fmin(*kept, now() - since);
}

/* Does the records of a part, and answers how many were refused. */
static size_t do_part(cadedit_map *map, struct records records, size_t from, size_t end)
{
    static uint8_t room[ROOM];
    size_t refused = 0;
    uint64_t length;
    for (; from < end; from++) {
        if (cadedit_submit(map, records.all[from].bytes, records.all[from].length, room, ROOM, &length) != CADEDIT_DONE)
            exit(2);
        refused += room[0] == 'r' && room[1] == 'e';
    }
    return refused;
}

int main(int count, char **words)
{
    if (count != 4)
        return 9;
    struct text plan = read_file(words[1]);
    struct records records = records_of(read_file(words[2]));
    double opening = INFINITY, closing = INFINITY, parts[PARTS], sum = 0;
    size_t refused = 0;
    for (int part = 0; part < PARTS; part++)
        parts[part] = INFINITY;
    for (int run = atoi(words[3]); run > 0; run--) {
        cadedit_map map = CADEDIT_CLOSED_MAP;
        uint8_t room[64];
        uint64_t length;
        double since = now();
        if (cadedit_open(&map, plan.bytes, plan.length, 1000, 1, room, sizeof room, &length) != CADEDIT_DONE)
            return 2;
        keep_least(&opening, since);
        refused = 0;
        for (size_t part = 0; part < PARTS; part++) {
            since = now();
            refused += do_part(&map, records, records.count * part / PARTS, records.count * (part + 1) / PARTS);
            keep_least(&parts[part], since);
        }
        since = now();
        cadedit_close(&map);
        keep_least(&closing, since);
    }
    for (int part = 0; part < PARTS; part++)
        sum += parts[part];
    printf("%.3f %.0f %.0f %zu %zu\n", sum / (double)records.count, opening, closing, records.count, refused);
    return 0;
}
