/* use PLAN SCRIPT: opens the plan, does each record of the script, and writes the answers, of which it has room
 * for 64 bytes at a time. A status that isn't wanted ends it by 1. */
#include "job.h"

enum { ROOM = 64 };

static void need(int is_right, const char *what)
{
    if (is_right)
        return;
    fprintf(stderr, "wrong: %s\n", what);
    exit(1);
}

/* Writes the answer to the latest record, whose front is in the room. */
static void write_answer(cadedit_map *map, uint8_t *room, uint64_t length)
{
    uint64_t whole = length;
    for (uint64_t from = 0; from < length; from += ROOM) {
        if (from)
            need(cadedit_answer(map, from, room, ROOM, &whole) == CADEDIT_DONE && whole == length, "the answer again");
        fwrite(room, 1, length - from < ROOM ? length - from : ROOM, stdout);
    }
}

int main(int count, char **words)
{
    need(count == 3, "two words");
    struct text plan = read_file(words[1]), script = read_file(words[2]);
    cadedit_map map = CADEDIT_CLOSED_MAP;
    uint8_t room[ROOM];
    uint64_t length;
    need(cadedit_open(&map, plan.bytes, plan.length, 100, 12345, room, ROOM, &length) == CADEDIT_DONE, "opening");
    for (size_t at = 0, size; at < script.length; at += size) {
        size = record_length(script.bytes + at, script.length - at);
        need(cadedit_submit(&map, script.bytes + at, size, room, ROOM, &length) == CADEDIT_DONE, "a record");
        write_answer(&map, room, length);
    }
    cadedit_close(&map);
    need(!map.opened && !map.at, "closing");
    free(plan.bytes);
    free(script.bytes);
    return 0;
}
