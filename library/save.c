/* The graph of a file and its indexes as an index file: what the program prints for `save` of the same graph. */
#include "pathindex.h"

#include <errno.h>
#include <stdio.h>
#include <stdlib.h>

enum { NO_FILE = 5, NO_MEMORY = 7 };

static int end(int code) { return code == PATHINDEX_OK ? 0 : code == PATHINDEX_NO_MEMORY ? NO_MEMORY : 1; }

static int open_file(pathindex *p, const char *name) {
    static char text[1 << 16];
    size_t length;
    FILE *file = fopen(name, "rb");
    if (!file) exit(errno == ENOMEM ? NO_MEMORY : NO_FILE);
    length = fread(text, 1, sizeof text, file);
    fclose(file);
    return pathindex_open(p, text, length, 2, 0, NULL);
}

int main(int argc, char **argv) {
    static char output[1 << 12];
    char bytes[64];
    size_t first = 0, count;
    pathindex p;
    int code;
    setvbuf(stdout, output, _IOFBF, sizeof output);
    code = open_file(&p, argc > 1 ? argv[1] : "examples/foaf.nt");
    if (code == PATHINDEX_OK) code = pathindex_save(&p, NULL);
    while (code == PATHINDEX_OK && (count = pathindex_text(&p, first, bytes, sizeof bytes)) != 0) {
        fwrite(bytes, 1, count, stdout);
        first += count;
    }
    pathindex_close(&p);
    return end(code);
}
