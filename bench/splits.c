/* Splits the lines of a menu and of a text in plain C: what bench/run.sh times bench/timings beside.

       splits menu|text FILE

   Each line's parts are kept as pointers into the file, in an array that doubles; nothing is copied. Prints the best of
   several rounds in megabytes a second. */
#include <stdint.h>
#include <stdio.h>
#include <stdlib.h>
#include <string.h>
#include <time.h>

enum { ROUNDS = 5 };

struct item {
    const char *display, *selector, *host;
    uint32_t display_length, selector_length, host_length;
    uint16_t port;
    char kind;
};

struct line {
    const char *bytes;
    size_t length;
};

struct array {
    char *parts;
    size_t count, room;
};

static void *push(struct array *array, size_t size) {
    if (array->count == array->room) {
        array->room = array->room ? 2 * array->room : 4;
        array->parts = realloc(array->parts, array->room * size);
        if (!array->parts) {
            exit(1);
        }
    }
    return array->parts + array->count++ * size;
}

/* The number that the digits write, without the spaces at their ends, or -1. */
static int read_port(const char *from, const char *to) {
    while (from < to && *from == ' ') from++;
    while (from < to && to[-1] == ' ') to--;
    if (from == to) return -1;
    int value = 0;
    for (; from < to; from++) {
        if (*from < '0' || *from > '9') return -1;
        value = value * 10 + (*from - '0');
        if (value > 65535) return -1;
    }
    return value;
}

/* The line's end; `rest` is what comes after it. */
static const char *end_of_line(const char *from, const char *to, const char **rest) {
    const char *feed = memchr(from, '\n', to - from);
    if (!feed) {
        *rest = to;
        return to;
    }
    *rest = feed + 1;
    return feed > from && feed[-1] == '\r' ? feed - 1 : feed;
}

static const char *tab_after(const char *from, const char *to) {
    return from ? memchr(from, '\t', to - from) : NULL;
}

static void add_item(struct array *items, const char *from, const char *to) {
    if (memchr(from, '\r', to - from) || memchr(from, 0, to - from)) return;
    const char *first = tab_after(from, to);
    const char *second = first ? tab_after(first + 1, to) : NULL;
    const char *third = second ? tab_after(second + 1, to) : NULL;
    if (!third || first == from) return;
    const char *fourth = tab_after(third + 1, to);
    int port = read_port(third + 1, fourth ? fourth : to);
    if (port < 0) return;
    *(struct item *)push(items, sizeof(struct item)) = (struct item){
        from + 1, first + 1, second + 1, first - from - 1, second - first - 1, third - second - 1, port, *from,
    };
}

static void split(int is_menu, const char *from, const char *to, struct array *array) {
    while (from < to) {
        const char *rest, *end = end_of_line(from, to, &rest);
        if (end - from == 1 && *from == '.') return;
        if (is_menu) {
            add_item(array, from, end);
        } else {
            from += end - from > 1 && from[0] == '.' && from[1] == '.';
            *(struct line *)push(array, sizeof(struct line)) = (struct line){from, end - from};
        }
        from = rest;
    }
}

static double now(void) {
    struct timespec time;
    clock_gettime(CLOCK_MONOTONIC, &time);
    return time.tv_sec + time.tv_nsec * 1e-9;
}

int main(int count, char **words) {
    FILE *file = count == 3 ? fopen(words[2], "rb") : NULL;
    if (!file) return 1;
    fseek(file, 0, SEEK_END);
    size_t length = ftell(file);
    rewind(file);
    char *bytes = malloc(length);
    if (!bytes || fread(bytes, 1, length, file) != length) return 1;
    double best = 1e9;
    for (int round = 0; round < ROUNDS; round++) {
        struct array array = {0};
        double start = now();
        split(words[1][0] == 'm', bytes, bytes + length, &array);
        double took = now() - start;
        if (took < best) best = took;
        free(array.parts);
    }
    printf("split in plain C: %.0f MB/s\n", length / best / 1e6);
    return 0;
}
