/* Calls that go wrong, with the status and the text that each has: maps that are closed or open already, depths
 * out of range, rooms too small, places past an answer's end, texts that aren't one record, plans at fault. Status
 * 1: one was another. */
#include "cadedit.h"
#include <stdio.h>
#include <stdlib.h>
#include <string.h>

static unsigned long tried, wrong;
static uint8_t room[256];
static uint64_t length;

static const char PLAN[] = "plan,2,,,,,\nsource,1,Survey 7,,,,\npoint,1,0,0,1,,\nopen,,,,,,\n";
static const char PRINTED[] = "plan,2,,,,,\nsource,1,Survey 7,,,,\npoint,1,0,0,1,,\nopen,,,,,,\n";

static void need(int is_right, const char *what)
{
    tried++;
    if (is_right)
        return;
    wrong++;
    printf("wrong: %s\n", what);
}

static uint32_t open_with(cadedit_map *map, const char *plan, uint64_t depth)
{
    length = 99;
    return cadedit_open(map, (const uint8_t *)plan, strlen(plan), depth, 1, room, sizeof room, &length);
}

static uint32_t submit(cadedit_map *map, const char *record)
{
    length = 99;
    return cadedit_submit(map, (const uint8_t *)record, strlen(record), room, sizeof room, &length);
}

static int is_told(const char *text)
{
    return length == strlen(text) && !memcmp(room, text, length);
}

static void of_closed_maps(void)
{
    cadedit_map map = CADEDIT_CLOSED_MAP, garbage = {5, NULL};
    need(submit(&map, "print,,,,,,\n") == CADEDIT_CLOSED && !length, "a record before opening");
    length = 99;
    need(cadedit_answer(&map, 0, room, sizeof room, &length) == CADEDIT_CLOSED && !length, "an answer before opening");
    cadedit_close(&map);
    need(!map.opened && !map.at, "closing a closed map");
    need(open_with(&map, PLAN, 9) == CADEDIT_DONE && map.opened && map.at && !length, "opening");
    void *at = map.at;
    need(submit(&map, "add-point,2,5,5,,,\n") == CADEDIT_DONE && is_told("ok,,,,,,\n"), "an edit");
    need(open_with(&map, PLAN, 9) == CADEDIT_CLOSED && !length && map.at == at, "opening twice");
    need(open_with(&map, "", 0) == CADEDIT_CLOSED, "opening twice, with nothing");
    need(submit(&map, "undo,,,,,,\n") == CADEDIT_DONE && is_told("ok,,,,,,\n"), "the map that was opened first");
    cadedit_close(&map);
    need(!map.opened && !map.at, "closing");
    cadedit_close(&map);
    need(submit(&map, "print,,,,,,\n") == CADEDIT_CLOSED && !length, "a record after closing");
    need(submit(&garbage, "print,,,,,,\n") == CADEDIT_CLOSED, "what isn't open");
    need(open_with(&map, PLAN, 9) == CADEDIT_DONE, "opening again");
    cadedit_close(&map);
}

static void of_depths(void)
{
    static const uint64_t depths[] = {0, 1001, (uint64_t)1 << 32, ((uint64_t)1 << 32) + 5, UINT64_MAX};
    cadedit_map map = CADEDIT_CLOSED_MAP;
    for (size_t i = 0; i < sizeof depths / sizeof *depths; i++)
        need(open_with(&map, PLAN, depths[i]) == CADEDIT_DEPTH && !length && !map.opened && !map.at, "a depth out of range");
    need(open_with(&map, PLAN, 1000) == CADEDIT_DONE, "the greatest depth");
    cadedit_close(&map);
    need(open_with(&map, PLAN, 1) == CADEDIT_DONE, "the least depth");
    submit(&map, "move,1,1,0,,,\n");
    submit(&map, "move,1,2,0,,,\n");
    need(submit(&map, "undo,,,,,,") == CADEDIT_DONE && is_told("ok,,,,,,\n"), "undo at depth 1");
    need(submit(&map, "undo,,,,,,") == CADEDIT_DONE && is_told("nothing,,,,,,\n"), "undo past depth 1");
    cadedit_close(&map);
}

static void of_plans(void)
{
    cadedit_map map = CADEDIT_CLOSED_MAP;
    need(open_with(&map, "", 9) == CADEDIT_PLAN && is_told("12 no-open"), "an empty plan");
    need(open_with(&map, "plan,2,,,,,\npoint,1,0,0,1,,\nopen,,,,,,\n", 9) == CADEDIT_PLAN && is_told("6 unknown source 1"),
         "a source that isn't there");
    need(!map.opened && !map.at, "a map whose plan is at fault");
    static const char plan[] = "plan,2,,,,,\npoint,1,0,0,\xff,,\nopen,,,,,,\n";
    memset(room, '.', sizeof room);
    uint32_t status = cadedit_open(&map, (const uint8_t *)plan, sizeof plan - 1, 9, 1, room, 3, &length);
    need(status == CADEDIT_PLAN && length == 17 && !memcmp(room, "3 s.", 4), "a fault in a room of 3 bytes");
    status = cadedit_open(&map, (const uint8_t *)plan, sizeof plan - 1, 9, 1, room, 0, &length);
    need(status == CADEDIT_PLAN && length == 17, "a fault in no room");
}

/* Rooms of each size up to that of a whole answer, and one more. Nothing is written behind a room or an answer. */
static void of_rooms(void)
{
    static const char record[] = "print,,,,,,";
    cadedit_map map = CADEDIT_CLOSED_MAP;
    size_t size = sizeof PRINTED - 1;
    need(open_with(&map, PLAN, 9) == CADEDIT_DONE, "opening");
    for (size_t room_size = 0; room_size <= size + 1; room_size++) {
        size_t most = room_size < size ? room_size : size;
        memset(room, '.', sizeof room);
        uint32_t status = cadedit_submit(&map, (const uint8_t *)record, sizeof record - 1, room, room_size, &length);
        need(status == CADEDIT_DONE && length == size && !memcmp(room, PRINTED, most) && room[most] == '.', "a room");
        for (size_t from = 0; from <= size + 1; from++) {
            size_t rest = from < size ? size - from : 0, told = rest < room_size ? rest : room_size;
            memset(room, '.', sizeof room);
            status = cadedit_answer(&map, from, room, room_size, &length);
            need(status == CADEDIT_DONE && length == size && room[told] == '.', "a room for an answer from a place on");
            need(!told || !memcmp(room, PRINTED + from, told), "an answer from a place on");
        }
    }
    memset(room, '.', sizeof room);
    need(cadedit_answer(&map, UINT64_MAX, room, sizeof room, &length) == CADEDIT_DONE && length == size && *room == '.',
         "an answer from the last place");
    cadedit_close(&map);
}

static void of_records(void)
{
    static const char *const none[] = {"", "\n", "\r\n\n", "\xef\xbb\xbf", "undo,,,,,,\nundo,,,,,,\n", "undo\nundo"};
    static const char *const syntax[] = {
        "undo", "undo,,,,,", "undo,,,,,,,", ",,,,,,", "frob,,,,,,", "Undo,,,,,,", " undo,,,,,,", "undo,x,,,,,",
        "\"undo,,,,,,\n", "rename,1,\xff,,,,\n", "add-source,2,\xc3\x28,,,,", "move,1,+5,0,,,", "move,1,00,0,,,",
        "add-point,0,1,1,,,", "add-point,1000000000,1,1,,,", "plan,2,,,,,", "open,,,,,,"};
    static const char *const nothing[] = {"undo,,,,,,", "undo,,,,,,\n", "undo,,,,,,\r\n", "\nundo,,,,,,\n\n",
                                          "\"undo\",,,,,,", "\xef\xbb\xbfundo,,,,,,", "undo,\"\",,,,,"};
    cadedit_map map = CADEDIT_CLOSED_MAP;
    need(open_with(&map, PLAN, 9) == CADEDIT_DONE, "opening");
    for (size_t i = 0; i < sizeof none / sizeof *none; i++)
        need(submit(&map, none[i]) == CADEDIT_NOT_ONE && !length, none[i]);
    need(cadedit_answer(&map, 0, room, sizeof room, &length) == CADEDIT_DONE && !length, "no answer to no record");
    for (size_t i = 0; i < sizeof syntax / sizeof *syntax; i++)
        need(submit(&map, syntax[i]) == CADEDIT_DONE && is_told("syntax,,,,,,\n"), syntax[i]);
    for (size_t i = 0; i < sizeof nothing / sizeof *nothing; i++)
        need(submit(&map, nothing[i]) == CADEDIT_DONE && is_told("nothing,,,,,,\n"), nothing[i]);
    uint32_t status = cadedit_submit(&map, (const uint8_t *)"undo\0,,,,,,", 11, room, sizeof room, &length);
    need(status == CADEDIT_DONE && is_told("syntax,,,,,,\n"), "a zero in a record");
    need(submit(&map, "move,1,10000000001,0,,,") == CADEDIT_DONE && is_told("refused,1,range,,,,\n"), "out of range");
    need(submit(&map, "drop-point,7,,,,,") == CADEDIT_DONE && is_told("refused,2,unknown,point,7,,\n"), "unknown");
    need(submit(&map, "print,,,,,,") == CADEDIT_DONE && is_told(PRINTED), "the map after all that");
    cadedit_close(&map);
}

static void of_points(void)
{
    static const uint32_t none[] = {0, 2, 101, 999999999, UINT32_MAX};
    cadedit_map map = CADEDIT_CLOSED_MAP;
    int64_t x = 7, y = 8;
    need(cadedit_point(&map, 1, &x, &y) == CADEDIT_CLOSED && x == 7 && y == 8, "a point of a closed map");
    need(open_with(&map, PLAN, 9) == CADEDIT_DONE, "opening");
    for (size_t i = 0; i < sizeof none / sizeof *none; i++)
        need(cadedit_point(&map, none[i], &x, &y) == CADEDIT_UNKNOWN && x == 7 && y == 8, "a point that isn't there");
    need(cadedit_point(&map, 1, &x, &y) == CADEDIT_DONE && !x && !y, "a point");
    need(submit(&map, "move,1,-10000000000,10000000000,,,") == CADEDIT_DONE && is_told("ok,,,,,,\n"), "a move");
    need(cadedit_point(&map, 1, &x, &y) == CADEDIT_DONE && x == -10000000000 && y == 10000000000, "a point far away");
    need(cadedit_answer(&map, 0, room, sizeof room, &length) == CADEDIT_DONE && is_told("ok,,,,,,\n"),
         "the latest answer after a point");
    cadedit_close(&map);
}

static const char TRIANGLE[] =
    "plan,2,,,,,\npoint,1,0,0,,,\npoint,2,3000,0,,,\npoint,3,0,-4007,,,\nparcel,9,Corner,,,,\n"
    "string,11,1,3,9,0,\nstring,12,3,2,9,0,\nstring,13,2,1,9,0,\nopen,,,,,,\n";

/* Its polygon, from whichever corner it is told. */
static int is_triangle(void)
{
    return is_told("POLYGON((0.000 0.000,0.000 -4.007,3.000 0.000,0.000 0.000))")
        || is_told("POLYGON((0.000 -4.007,3.000 0.000,0.000 0.000,0.000 -4.007))")
        || is_told("POLYGON((3.000 0.000,0.000 0.000,0.000 -4.007,3.000 0.000))");
}

static void of_shapes(void)
{
    static const uint32_t none[] = {0, 1, 8, 10, 999999999, UINT32_MAX};
    cadedit_map map = CADEDIT_CLOSED_MAP;
    length = 99;
    need(cadedit_shape(&map, 9, room, sizeof room, &length) == CADEDIT_CLOSED && !length, "a shape of a closed map");
    need(open_with(&map, TRIANGLE, 9) == CADEDIT_DONE, "opening");
    need(cadedit_shape(&map, 9, room, sizeof room, &length) == CADEDIT_DONE && is_triangle(), "a shape");
    memset(room, 0, sizeof room);
    need(cadedit_answer(&map, 0, room, sizeof room, &length) == CADEDIT_DONE && is_triangle(), "the shape told again");
    uint64_t whole = length;
    memset(room, '.', sizeof room);
    need(cadedit_shape(&map, 9, room, 7, &length) == CADEDIT_DONE && length == whole && !memcmp(room, "POLYGON.", 8),
         "a shape in a room of 7 bytes");
    for (size_t i = 0; i < sizeof none / sizeof *none; i++) {
        length = 99;
        need(cadedit_shape(&map, none[i], room, sizeof room, &length) == CADEDIT_UNKNOWN && !length, "no parcel's shape");
        need(cadedit_answer(&map, 0, room, sizeof room, &length) == CADEDIT_DONE && !length, "no answer to no parcel");
    }
    need(submit(&map, "undo,,,,,,") == CADEDIT_DONE && is_told("nothing,,,,,,\n"), "no edit done by a shape");
    cadedit_close(&map);
}

/* A record of a megabyte, of one field and of very many. */
static void of_long_records(void)
{
    cadedit_map map = CADEDIT_CLOSED_MAP;
    size_t size = 1 << 20;
    uint8_t *record = malloc(size);
    if (!record)
        exit(9);
    need(open_with(&map, PLAN, 9) == CADEDIT_DONE, "opening");
    memset(record, 'a', size);
    need(cadedit_submit(&map, record, size, room, sizeof room, &length) == CADEDIT_DONE && is_told("syntax,,,,,,\n"),
         "a long field");
    memset(record, ',', size);
    need(cadedit_submit(&map, record, size, room, sizeof room, &length) == CADEDIT_DONE && is_told("syntax,,,,,,\n"),
         "many fields");
    memset(record, '"', size);
    need(cadedit_submit(&map, record, size, room, sizeof room, &length) == CADEDIT_DONE && is_told("syntax,,,,,,\n"),
         "many quotes");
    cadedit_close(&map);
    free(record);
}

int main(void)
{
    of_closed_maps();
    of_depths();
    of_plans();
    of_rooms();
    of_records();
    of_points();
    of_shapes();
    of_long_records();
    printf("%lu calls, %lu wrong\n", tried, wrong);
    return wrong > 0;
}
