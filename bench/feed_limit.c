/* The writes and syncs of `td feed`, and nothing else: what a feed of so many epochs cannot be faster than.

   feed_limit FILE M N K EPOCHS CUT_EVERY [plain | group G]

   It makes the file at its whole size, and then puts EPOCHS cells and, each CUT_EVERY epochs and at the end, a slot: a gate
   that is open is closed and synced, the payload is written and synced, the gate is opened and synced. It prints the seconds
   of that part. `group G`: G epochs at once, up to the next cut: where the first one's gate is open it is closed and synced, its
   payload is written and the others, gates and all, neighbours by one write, and synced. Then the first one's gate is opened,
   that of the epoch behind the group is closed, if it is open and free, and both are synced. `plain`: it reads the file from end to end in pieces of 64 KiB, and prints the seconds of that. */
#include <fcntl.h>
#include <stdio.h>
#include <stdlib.h>
#include <string.h>
#include <time.h>
#include <unistd.h>

enum { HEADS = 8258, PIECE = 65536 };

static int file;
static unsigned char *payload;

static double seconds(void) {
    struct timespec now;
    clock_gettime(CLOCK_MONOTONIC, &now);
    return (double)now.tv_sec + (double)now.tv_nsec * 1e-9;
}

static void die(const char *what) {
    perror(what);
    exit(1);
}

static void write_synced(const unsigned char *bytes, size_t length, off_t at) {
    if (pwrite(file, bytes, length, at) != (ssize_t)length) die("write");
    if (SYNC(file) != 0) die("sync");
}

/* Puts a payload of this length into the region at this place, which is open or not. */
static void put(off_t at, size_t length, int is_open) {
    const unsigned char closed = 0, open = 0xA5;
    if (is_open) write_synced(&closed, 1, at + (off_t)length);
    write_synced(payload, length, at);
    write_synced(&open, 1, at + (off_t)length);
}

/* Writes so many cells from the one with this number on, which are neighbours, by one write. */
static void write_run(off_t cells, size_t cell, long from, long count) {
    size_t length = (size_t)count * (cell + 1);
    if (count > 0 && pwrite(file, payload, length, cells + from * (off_t)(cell + 1)) != (ssize_t)length) die("write");
}

/* Puts a group of cells from this epoch on, of which the first is opened last. The epochs up to a kept one may be written over. */
static void put_group(off_t cells, size_t cell, long n, long kept, long first, long count) {
    static long closed_ahead = 0;
    const unsigned char closed = 0, open = 0xA5;
    off_t at = cells + first % n * (off_t)(cell + 1);
    long others = count - 1, to_end = n - (first + 1) % n, here = others < to_end ? others : to_end, next = first + count;
    if (first > n && first != closed_ahead) write_synced(&closed, 1, at + (off_t)cell);
    if (pwrite(file, payload, cell, at) != (ssize_t)cell) die("write");
    write_run(cells, cell, (first + 1) % n, here);
    write_run(cells, cell, 0, others - here);
    if (SYNC(file) != 0) die("sync");
    if (count > 1 && next > n && next <= kept + n) {
        if (pwrite(file, &closed, 1, cells + next % n * (off_t)(cell + 1) + (off_t)cell) != 1) die("write");
        closed_ahead = next;
    }
    write_synced(&open, 1, at + (off_t)cell);
}

static void read_all(const char *name) {
    double begin = seconds();
    ssize_t got;
    file = open(name, O_RDONLY);
    if (file < 0) die(name);
    payload = malloc(PIECE);
    while ((got = read(file, payload, PIECE)) > 0) {}
    if (got < 0) die("read");
    printf("%.6f\n", seconds() - begin);
}

int main(int count, char **words) {
    if (count == 8) return read_all(words[1]), 0;
    if (count != 7 && count != 9) return 2;
    long group = count == 9 ? atol(words[8]) : 1;
    long m = atol(words[2]), n = atol(words[3]), k = atol(words[4]), epochs = atol(words[5]), every = atol(words[6]);
    size_t cell = 24 + 24 * (size_t)m, slot = 24 + 32 * (size_t)k;
    off_t slots = HEADS, cells = HEADS + 2 * (off_t)(slot + 1), size = cells + n * (off_t)(cell + 1);
    int slot_open[2] = {1, 0}, newest = 0;
    file = open(words[1], O_RDWR | O_CREAT | O_TRUNC, 0644);
    size_t run = (size_t)group * (cell + 1), widest = run > slot + 1 ? run : slot + 1;
    payload = calloc(1, widest);
    if (file < 0 || payload == NULL) die(words[1]);
    if (ftruncate(file, size) != 0) die("size");
    /* A format writes zeros over all bytes. */
    for (off_t at = 0; at < size;) {
        size_t length = size - at < (off_t)cell ? (size_t)(size - at) : cell;
        if (pwrite(file, payload, length, at) != (ssize_t)length) die("write");
        at += (off_t)length;
    }
    if (fsync(file) != 0) die("sync");
    double begin = seconds();
    for (long epoch = 0; epoch < epochs;) {
        long left = every - epoch % every < epochs - epoch ? every - epoch % every : epochs - epoch;
        long many = group < left ? group : left;
        put_group(cells, cell, n, epoch - epoch % every, epoch + 1, many);
        epoch += many;
        if (epoch % every == 0) {
            int side = 1 - newest;
            put(slots + side * (off_t)(slot + 1), slot, slot_open[side]);
            slot_open[side] = 1;
            newest = side;
        }
    }
    printf("%.6f\n", seconds() - begin);
    return 0;
}
