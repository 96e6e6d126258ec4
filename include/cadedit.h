/* A cadastral map that is edited and asked record by record: docs/EMBED.md.
 *
 * A map is what a `cadedit_map` stands for, a struct of the caller's. It is all zero while the map is closed.
 * While it is open, it stays on the thread that opened it, isn't copied, isn't moved, and nobody else writes to
 * it.
 *
 * Pointers are never null, also where a length is 0. In one call the map, the text, the room and the length lie
 * apart. Nothing that is passed is kept after the call. */
#ifndef CADEDIT_H
#define CADEDIT_H

#include <stddef.h>
#include <stdint.h>

#ifdef __cplusplus
extern "C" {
#endif

typedef struct cadedit_map {
    uint64_t opened;
    void *at;
} cadedit_map;

#define CADEDIT_CLOSED_MAP {0, 0}

enum cadedit_status {
    CADEDIT_DONE = 0,    /* It was done, and what there is to tell is told. */
    CADEDIT_CLOSED = 1,  /* The map is closed; of `cadedit_open`, it is open already. Nothing has changed. */
    CADEDIT_PLAN = 2,    /* The plan is at fault, and the fault's text is told. The map stays closed. */
    CADEDIT_NOT_ONE = 3, /* The text isn't one record. Nothing has changed. */
    CADEDIT_DEPTH = 4,   /* The depth isn't from 1 to 1000. The map stays closed. */
    CADEDIT_MEMORY = 5,  /* Memory ran out. Nothing has changed. */
    CADEDIT_UNTOLD = 6,  /* Memory ran out once the record was done. Its answer isn't told, and won't be. */
    CADEDIT_UNKNOWN = 7  /* The map has nothing of this number. Nothing has changed. */
};

/* What is told goes into a room of the caller's: as much of it as fits, with no zero behind it. `length` is set to the
 * length of the whole text, 0 where there is none. */

/* Opens a map from a plan's bytes. `depth` is how many edits can be undone, from 1 to 1000. `seed` is a number that a
 * stranger can't guess: with it, no choice of numbers makes the map slow. No answer depends on it. What is told is the
 * plan's fault, as `8 dangling string 4`, without a line feed. */
uint32_t cadedit_open(cadedit_map *map, const uint8_t *plan, size_t plan_length, uint64_t depth, uint64_t seed,
                      uint8_t *room, size_t room_length, uint64_t *length);

/* Does one record of a script, with or without its line end. What is told is its answer, as `cadedit` writes it:
 * `ok`, a refusal, `nothing` and `syntax` are answers too, of status 0. A record of another number of fields than
 * seven is answered by `syntax`. */
uint32_t cadedit_submit(cadedit_map *map, const uint8_t *record, size_t record_length, uint8_t *room,
                        size_t room_length, uint64_t *length);

/* Tells the answer to the latest record again, from a byte of it on. `length` is that of the whole answer, and 0 where
 * the latest record had none. */
uint32_t cadedit_answer(cadedit_map *map, uint64_t from, uint8_t *room, size_t room_length, uint64_t *length);

/* Tells where a point lies, in millimetres, x to the east and y to the north. But for status 0 nothing is told. */
uint32_t cadedit_point(cadedit_map *map, uint32_t number, int64_t *x, int64_t *y);

/* Tells the polygon of a parcel of the map, as well-known text in metres: the ring around it, and then those around its
 * holes, cut so that none passes a point twice. The map keeps it as its latest answer. Statuses: DONE, CLOSED, MEMORY,
 * UNKNOWN. Only after DONE is a text told; after another status of an open map its latest answer is the empty text. */
uint32_t cadedit_shape(cadedit_map *map, uint32_t number, uint8_t *room, size_t room_length, uint64_t *length);

/* Closes a map and gives its memory back. A closed one stays closed. */
void cadedit_close(cadedit_map *map);

#ifdef __cplusplus
}
#endif

#endif
