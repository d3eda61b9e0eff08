/* A service by libtd: each record is counted once, and each output stands once in FOLDER/outputs, whatever is killed or sent twice.
 *
 *     ./exactly_once FOLDER PLAN < REQUESTS       docs/LIBRARY.md says how it is built, and what a request is
 *
 * FOLDER/state has the number of the last request, the states after it, its outputs, and where they begin in `outputs`. It is written whole
 * beside the old one, synced and renamed, so a stop leaves one of the two. Then the outputs are put at their place, and each start puts
 * them there again. They are synced before the next request takes their place. So a request costs all states, and three syncs. */
#define _XOPEN_SOURCE 700
#include <ctype.h>
#include <errno.h>
#include <fcntl.h>
#include <inttypes.h>
#include <stdbool.h>
#include <stdio.h>
#include <stdlib.h>
#include <string.h>
#include <sys/file.h>
#include <unistd.h>
#include "td.h"

/* The head of `state`, in the machine's byte order. So many states and outputs follow, and then the plan's text. */
static struct head {
    uint64_t request, place, states, outputs; /* `place` is the byte of the file `outputs` at which the request's outputs begin */
} head;
static char *plan, *line;
static int folder;
static FILE *lines; /* the file `outputs` */
static struct td_state *states;
static struct td_record *outputs, *records;
static size_t states_room, outputs_room, records_room, line_room;

/* Ends the program where something does not hold; with the system's error, where it was a call of the system. */
static void require(bool holds, const char *what, bool is_call) {
    if (!holds) {
        fprintf(stderr, "exactly_once: %s%s%s\n", what, is_call ? ": " : "", is_call ? strerror(errno) : "");
        exit(EXIT_FAILURE);
    }
}

/* An array with more places than are wanted, so that its pointer is never null. */
static void *grown(void *array, size_t *room, size_t wanted, size_t size) {
    if (*room <= wanted) {
        *room = 2 * wanted + 1;
        array = wanted < SIZE_MAX / 4 / size ? realloc(array, *room * size) : NULL;
        require(array != NULL, "memory", false);
    }
    return array;
}

static void make_room(size_t of_states, size_t of_outputs) {
    states = grown(states, &states_room, of_states, sizeof *states);
    outputs = grown(outputs, &outputs_room, of_outputs, sizeof *outputs);
}

static char *rest_of(FILE *file, const char *name) {
    char *text = NULL;
    size_t room = 0;
    require(file != NULL && getdelim(&text, &room, '\0', file) > 0 && fclose(file) == 0, name, true);
    return text;
}

static void read_state(void) {
    FILE *file = fopen("state", "rb");
    require(file != NULL || errno == ENOENT, "state", true);
    if (file != NULL) {
        require(fread(&head, sizeof head, 1, file) == 1, "state: its head", false);
        make_room(head.states, head.outputs);
        require(fread(states, sizeof *states, head.states, file) == head.states, "state: its states", false);
        require(fread(outputs, sizeof *outputs, head.outputs, file) == head.outputs, "state: its outputs", false);
        char *text = rest_of(file, "state");
        require(strcmp(text, plan) == 0, "FOLDER is of another plan", false);
        free(text);
    }
}

static void write_state(void) {
    FILE *file = fopen("state.new", "wb");
    require(file != NULL && fwrite(&head, sizeof head, 1, file) == 1 && fwrite(states, sizeof *states, head.states, file) == head.states &&
            fwrite(outputs, sizeof *outputs, head.outputs, file) == head.outputs && fputs(plan, file) >= 0 && fflush(file) == 0 &&
            fsync(fileno(file)) == 0 && fclose(file) == 0, "state.new", true);
    require(rename("state.new", "state") == 0 && fsync(folder) == 0, "state", true);
}

static void write_outputs(void) {
    require(fseeko(lines, 0, SEEK_END) == 0 && ftello(lines) >= (off_t)head.place && fseeko(lines, (off_t)head.place, SEEK_SET) == 0,
            "outputs: it lacks lines", false);
    for (uint64_t at = 0; at < head.outputs; at++) {
        fprintf(lines, "%" PRIu64 " %" PRIu64 " %" PRIu64 " %" PRId64 "\n", head.request, outputs[at].vertex, outputs[at].key, outputs[at].val);
    }
    require(fflush(lines) == 0 && !ferror(lines), "outputs", true);
}

static void put(uint64_t request, uint64_t count) {
    struct td_counts counts = {0, 0};
    uint64_t place = 0, end = (uint64_t)ftello(lines);
    uint32_t answer = TD_ROOM;
    while (answer == TD_ROOM && request > head.request) {
        make_room(counts.states, counts.outputs);
        counts.states = head.states;
        answer = td_epoch((const uint8_t *)plan, strlen(plan), records, count, states, states_room, outputs, outputs_room, &counts, &place);
    }
    if (answer == TD_ROOM) {
        printf("again %" PRIu64 "\n", request);
    } else if (answer != TD_DONE) {
        printf("refused %" PRIu64 ": libtd answers %" PRIu32 " at %" PRIu64 "\n", request, answer, place);
    } else {
        require(end <= INT64_MAX && fsync(fileno(lines)) == 0, "outputs", true);
        head = (struct head){request, end, counts.states, counts.outputs};
        write_state();
        write_outputs();
        printf("done %" PRIu64 "\n", request);
    }
    require(fflush(stdout) == 0 && !ferror(stdout), "standard output", true);
}

/* Reads the number of 64 bits at which a text begins, and passes over it: whether there is one. */
static bool read_number(char **at, bool is_signed, uint64_t *number) {
    *at += strspn(*at, " ");
    bool is_number = isdigit((unsigned char)(*at)[is_signed && **at == '-']);
    errno = 0;
    *number = is_signed ? (uint64_t)strtoll(*at, at, 10) : strtoull(*at, at, 10);
    return is_number && errno == 0;
}

int main(int argc, char **argv) {
    require(argc == 3, "usage: exactly_once FOLDER PLAN < REQUESTS", false);
    plan = rest_of(fopen(argv[2], "r"), argv[2]);
    require((folder = open(argv[1], O_RDONLY)) >= 0 && fchdir(folder) == 0, argv[1], true);
    int fd = open("outputs", O_RDWR | O_CREAT, 0666);
    require(fd >= 0 && flock(fd, LOCK_EX | LOCK_NB) == 0 && (lines = fdopen(fd, "r+")) != NULL, "outputs", true);
    read_state();
    write_outputs();
    uint64_t request = 0, count = 0;
    for (char *at; getline(&line, &line_room, stdin) >= 0;) {
        records = grown(records, &records_room, count, sizeof *records);
        if (request == 0) {
            at = line + 4;
            require(strncmp(line, "req ", 4) == 0 && read_number(&at, false, &request) && request > 0 && *at == '\n', "no request", false);
        } else if (strcmp(line, ".\n") == 0) {
            put(request, count);
            request = count = 0;
        } else {
            at = line;
            require(read_number(&at, false, &records[count].vertex) && read_number(&at, false, &records[count].key) &&
                    read_number(&at, true, (uint64_t *)&records[count].val) && *at == '\n', "no record", false);
            count++;
        }
    }
    require(feof(stdin), "standard input", true);
}
