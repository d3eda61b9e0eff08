/* One epoch of a plan at a time, in the caller's process: libtd, made by ./build --library. docs/LIBRARY.md is its reference.
 *
 * The caller keeps the states of a plan's folds, in an array, a file or a database, and hands them in at each epoch: all of them to
 * td_epoch, and to td_changes those of the keys that the epoch asks for. The library keeps nothing between calls, opens no file,
 * starts no thread and prints nothing. It allocates by malloc, and frees what it took before it returns. Calls in several threads at
 * once are apart, as long as no two of them are given the same array.
 *
 * No pointer may be null, also where its length is 0, and no two of the arrays may overlap. */
#ifndef TD_H
#define TD_H

#include <stddef.h>
#include <stdint.h>

#ifdef __cplusplus
extern "C" {
#endif

/* A record. In an epoch's records `vertex` is the number of the input that it comes to, in its outputs that of the output. */
struct td_record {
    uint64_t vertex;
    uint64_t key;
    int64_t val;
};

/* What the fold `vertex` keeps for a key. */
struct td_state {
    uint64_t vertex;
    uint64_t key;
    int64_t a;
    int64_t b;
};

/* What becomes of the state that the fold `vertex` keeps for a key: `is_kept` is 1 where it keeps a and b after the epoch, and 0 where
 * it keeps none, and a and b are 0. */
struct td_change {
    uint64_t vertex;
    uint64_t key;
    uint64_t is_kept;
    int64_t a;
    int64_t b;
};

/* How many states, or changes of states, and outputs there are. */
struct td_counts {
    size_t states;
    size_t outputs;
};

/* What a call answers, and what its `place` is then: a line of the text or of the closures, from 1; the number of a vertex; the index
 * of a record or state, from 0; or else 0. */
enum td_answer {
    TD_DONE = 0,
    TD_SYNTAX = 1,       /* a line of the text has none of the forms of a line, or a loop is not ended; the line */
    TD_NUMBER = 2,       /* a vertex does not have the next number; the line */
    TD_ORDER = 3,        /* a source does not stand before its reader; the line */
    TD_NEST = 4,         /* a vertex or a source stands in the wrong loop; the line */
    TD_BOUND = 5,        /* the bound of a loop is not 1 to 1000; the line */
    TD_FOLD_IN_LOOP = 6, /* the line */
    TD_AGAIN = 7,        /* a feedback has not one source on its own loop; the line */
    TD_TOO_MANY = 8,     /* a vertex, loop, source or edge too many; the line */
    TD_NO_ENDS = 9,      /* the plan has no input or no output; 0 */
    TD_MEMORY = 10,      /* an allocation was refused; 0 */
    TD_TEXT = 11,        /* the text is no UTF-8; 0 */
    TD_CLOSURE = 12,     /* neither the catalogue nor the closures in text have the closure of a vertex; the vertex */
    TD_INPUT = 13,       /* a record names no input of the plan; the index of the first such record */
    TD_COUNT = 14,       /* counts->states is more than states_len; 0 */
    TD_FOLD = 15,        /* a state names no fold of the plan; its index */
    TD_DOUBLED = 16,     /* an earlier state has the same vertex and key; the index of the later one */
    TD_ROOM = 17,        /* more states, changes or outputs than the arrays have places: `counts` has how many there would be; 0 */

    /* Of closures in text, in td_check_with, td_epoch_with and td_changes alone. They come before all others. */
    TD_CLOSURES_SYNTAX = 18,   /* a line has none of the forms of a line, or does not stand in its place; the line */
    TD_CLOSURES_NAME = 19,     /* a name is unknown, or is not there on this line; the line */
    TD_CLOSURES_CODE = 20,     /* a code is not 10000 to 65535, or stands twice in its kind; the line */
    TD_CLOSURES_TOO_MANY = 21, /* a closure, register, line `send`, number, name or byte too many; the line */
    TD_CLOSURES_DEEP = 22,     /* an expression is nested more than 64 deep; the line */
    TD_CLOSURES_TEXT = 23      /* the closures are no UTF-8; 0 */
};

/* Whether a text spells a plan whose closures are all in the catalogue. */
uint32_t td_check(const uint8_t *text, size_t text_len, uint64_t *place);

/* Whether a text spells a plan whose closures are all in the catalogue, or in `closures`: a text of closures, whose codes are from 10000
 * on (docs/CLOSURES.md). An empty one has none. */
uint32_t td_check_with(const uint8_t *text, size_t text_len, const uint8_t *closures, size_t closures_len, uint64_t *place);

/* One epoch. The first counts->states of the states_len places of `states` are the states before it, in any order. After TD_DONE
 * the first counts->states of them are those after it, sorted by (vertex, key), and the first counts->outputs of `outputs` are its
 * outputs, sorted by (vertex, key, val); other places are as they were. After any other answer both arrays are as they were, and
 * `counts` too, but for TD_ROOM. Whoever calls again after TD_ROOM has to put the number of the states before into counts->states. */
uint32_t td_epoch(const uint8_t *text, size_t text_len,
                  const struct td_record *records, size_t records_len,
                  struct td_state *states, size_t states_len,
                  struct td_record *outputs, size_t outputs_len,
                  struct td_counts *counts, uint64_t *place);

/* The same by the closures of the catalogue and those of `closures`, as of td_check_with. */
uint32_t td_epoch_with(const uint8_t *text, size_t text_len, const uint8_t *closures, size_t closures_len,
                       const struct td_record *records, size_t records_len,
                       struct td_state *states, size_t states_len,
                       struct td_record *outputs, size_t outputs_len,
                       struct td_counts *counts, uint64_t *place);

/* The changes of one epoch, by the same closures. `states` are some of the states before it, in any order, and stay as they are. After
 * TD_DONE the first counts->states of `changes` say what becomes of each state that the epoch asks for, one for each key of a fold at
 * which records arrive, sorted by (vertex, key). The first counts->outputs of `outputs` are its outputs, sorted by (vertex, key, val);
 * other places are as they were. After any other answer both arrays are as they were, and `counts` too, but for TD_ROOM. What `counts`
 * has before the call is not read, and TD_COUNT is never answered.
 *
 * The changes and outputs are those of all the caller's states as long as `states` has each one of them that stands where a change is.
 * So hand in the states of the keys that you expect. Where a change has a (vertex, key) whose state you keep and did not hand in, add
 * it, and call again. Such an epoch costs its records, whatever else is kept. */
uint32_t td_changes(const uint8_t *text, size_t text_len, const uint8_t *closures, size_t closures_len,
                    const struct td_record *records, size_t records_len,
                    const struct td_state *states, size_t states_len,
                    struct td_change *changes, size_t changes_len,
                    struct td_record *outputs, size_t outputs_len,
                    struct td_counts *counts, uint64_t *place);

#ifdef __cplusplus
}
#endif

#endif
