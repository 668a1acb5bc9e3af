/* The times of the library, in processor time: of a load with its builds, of queries <p0>/iri/<p1> through the A(2)-index, whose answers are
 * copied out, and of calls that do next to nothing.
 *     bench GRAPH.nt QUERIES */
#define _POSIX_C_SOURCE 200809L
#include "pathindex.h"

#include <stdio.h>
#include <stdlib.h>
#include <time.h>

#define QUERY "<http://e/p0>/iri/<http://e/p1>"

static double seconds(void) {
    struct timespec now;
    clock_gettime(CLOCK_PROCESS_CPUTIME_ID, &now);
    return (double)now.tv_sec + 1e-9 * (double)now.tv_nsec;
}

static char *read_file(const char *name, size_t *length) {
    FILE *file = fopen(name, "rb");
    char *text;
    if (!file || fseek(file, 0, SEEK_END)) exit(5);
    *length = (size_t)ftell(file);
    rewind(file);
    text = malloc(*length + 1);
    if (!text || fread(text, 1, *length, file) != *length) exit(5);
    fclose(file);
    return text;
}

int main(int argc, char **argv) {
    pathindex p;
    struct pathindex_answer answer = {0, 0, 0};
    size_t length, copied = 0;
    uint64_t sum = 0;
    uint32_t *nodes;
    int i, count = argc > 2 ? atoi(argv[2]) : 0;
    double start, opened, asked, called;
    char *text = argc > 1 ? read_file(argv[1], &length) : NULL;
    if (!text) return 2;
    start = seconds();
    if (pathindex_open(&p, text, length, 2, 0, NULL) != PATHINDEX_OK) return 3;
    opened = seconds();
    nodes = malloc(sizeof *nodes * (pathindex_node_count(&p) + 1));
    if (!nodes) return 7;
    for (i = 0; i < count; i++) {
        if (pathindex_path(&p, PATHINDEX_A + 2, PATHINDEX_TEXT(QUERY), &answer) != PATHINDEX_OK) return 1;
        copied += pathindex_nodes(&p, 0, nodes, answer.count);
    }
    asked = seconds();
    for (i = 0; i < 1000000; i++) sum += pathindex_node_count(&p);
    called = seconds();
    printf("open %.3f s; %d queries %.3f s, %llu answers each; an empty call %.1f ns\n", opened - start, count, asked - opened,
           (unsigned long long)answer.count, (called - asked) * 1e3);
    pathindex_close(&p);
    free(nodes);
    free(text);
    return sum && copied == (size_t)count * answer.count ? 0 : 1;
}
