/* A running total of each key, epoch by epoch. Lines of standard input are `KEY VALUE`, or `.`, which ends an epoch; each total that an
 * epoch changes is printed as `EPOCH VERTEX KEY TOTAL`, as `td batch` prints it.
 *
 *     cc -I clients/c clients/c/example.c libtd.a -o totals */
#include <stdio.h>
#include <stdlib.h>
#include <string.h>

#include "td.h"

static const char PLAN[] = "0 input\n1 fold 40 0\n2 output 1\n";

/* What stands between two epochs, and the room for more. */
struct table {
    struct td_state *states;
    struct td_record *outputs;
    size_t states_len, outputs_len;
    struct td_counts counts;
};

static void *grown(void *array, size_t len, size_t size) {
    void *more = realloc(array, len * size);
    if (more == NULL) {
        perror("totals");
        exit(1);
    }
    return more;
}

static void make_room(struct table *table, struct td_counts wanted) {
    if (table->states_len < wanted.states) {
        table->states_len = 2 * wanted.states;
        table->states = grown(table->states, table->states_len, sizeof *table->states);
    }
    if (table->outputs_len < wanted.outputs) {
        table->outputs_len = 2 * wanted.outputs;
        table->outputs = grown(table->outputs, table->outputs_len, sizeof *table->outputs);
    }
}

static void run_epoch(struct table *table, const struct td_record *records, size_t len) {
    for (;;) {
        struct td_counts counts = {table->counts.states, 0};
        uint64_t place = 0;
        uint32_t answer = td_epoch((const uint8_t *)PLAN, strlen(PLAN), records, len, table->states, table->states_len,
                                   table->outputs, table->outputs_len, &counts, &place);
        if (answer == TD_DONE) {
            table->counts = counts;
            return;
        }
        if (answer != TD_ROOM) {
            fprintf(stderr, "totals: answer %u at %llu\n", answer, (unsigned long long)place);
            exit(1);
        }
        make_room(table, counts);
    }
}

int main(void) {
    struct table table = {0};
    struct td_record *records = grown(NULL, 16, sizeof *records);
    size_t len = 0, room = 16;
    unsigned long long epoch = 0, key;
    long long val;
    char line[80];
    make_room(&table, (struct td_counts){1, 1});
    while (fgets(line, sizeof line, stdin) != NULL) {
        if (sscanf(line, "%llu %lld", &key, &val) == 2) {
            if (len == room) {
                records = grown(records, room *= 2, sizeof *records);
            }
            records[len++] = (struct td_record){0, key, val};
        } else if (line[0] == '.') {
            run_epoch(&table, records, len);
            epoch++;
            len = 0;
            for (size_t at = 0; at < table.counts.outputs; at++) {
                const struct td_record *output = &table.outputs[at];
                printf("%llu %llu %llu %lld\n", epoch, (unsigned long long)output->vertex, (unsigned long long)output->key,
                       (long long)output->val);
            }
        }
    }
    free(records);
    free(table.states);
    free(table.outputs);
    return 0;
}
