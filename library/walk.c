/* The commands of examples/walk.script by the calls of pathindex.h, over the graph of a file. It writes what the program writes for that
 * script, and ends with the program's status: 1, since one command is refused, and 7 where memory runs out. */
#include "pathindex.h"

#include <errno.h>
#include <stdio.h>
#include <stdlib.h>
#include <string.h>

#define KNOWS "<http://xmlns.com/foaf/0.1/knows>"
#define NAME "<http://xmlns.com/foaf/0.1/name>"
#define AGE "<http://xmlns.com/foaf/0.1/age>"
#define KNOWN KNOWS "//literal"
#define AGES "iri/(" KNOWS "/(iri|blank))*/" AGE "/literal"
#define AGELESS "iri[/" KNOWS " and not(/" AGE ")]"

enum { NO_FILE = 5, NO_MEMORY = 7 };

static pathindex p;
static int is_refused;

static void leave(int status) {
    pathindex_close(&p);
    exit(status);
}

/* Whether the call was carried out. */
static int is_done(int code) {
    if (code == PATHINDEX_NO_MEMORY) leave(NO_MEMORY);
    if (code != PATHINDEX_OK) {
        printf("refused %s\n", pathindex_word(code));
        is_refused = 1;
    }
    return code == PATHINDEX_OK;
}

typedef size_t copy_nodes(pathindex *, size_t, uint32_t *, size_t);

/* Prints nodes, copied a few at a time. */
static void print_nodes(copy_nodes *copy) {
    uint32_t nodes[3];
    size_t first = 0, count, i;
    while ((count = copy(&p, first, nodes, 3)) != 0) {
        for (i = 0; i < count; i++) printf("%sn%u", first + i ? " " : "", (unsigned)nodes[i]);
        first += count;
    }
    if (first) printf("\n");
}

typedef int ask_text(pathindex *, uint32_t, const void *, size_t, struct pathindex_answer *);

static void ask(ask_text *language, uint32_t via, const char *text) {
    static const char *const words[] = {"", "exact", "checked"};
    struct pathindex_answer answer;
    if (!is_done(language(&p, via, text, strlen(text), &answer))) return;
    printf("answers %llu", (unsigned long long)answer.count);
    if (answer.how) printf(" candidates %llu %s", (unsigned long long)answer.candidates, words[answer.how]);
    printf("\n");
    print_nodes(pathindex_nodes);
}

static void explain(uint32_t node, const char *text) {
    uint64_t count;
    if (!is_done(pathindex_why(&p, node, text, strlen(text), &count))) return;
    printf(count ? "walk %llu\n" : "no walk\n", (unsigned long long)count);
    if (count) print_nodes(pathindex_walk);
}

static void print_text(int code) {
    char bytes[64];
    size_t first = 0, count;
    if (!is_done(code)) return;
    while ((count = pathindex_text(&p, first, bytes, sizeof bytes)) != 0) {
        fwrite(bytes, 1, count, stdout);
        first += count;
    }
}

static void print_ok(int code) {
    if (is_done(code)) printf("ok\n");
}

static void add_node(const char *label) {
    uint32_t node;
    if (is_done(pathindex_node(&p, label, strlen(label), &node))) printf("added n%u\n", (unsigned)node);
}

static void open_file(const char *name) {
    static char text[1 << 16];
    uint64_t line;
    size_t length;
    FILE *file = fopen(name, "rb");
    if (!file) exit(errno == ENOMEM ? NO_MEMORY : NO_FILE);
    length = fread(text, 1, sizeof text, file);
    fclose(file);
    if (!is_done(pathindex_open(&p, text, length, 2, 0, &line))) leave(3);
}

int main(int argc, char **argv) {
    static char output[1 << 12];
    setvbuf(stdout, output, _IOFBF, sizeof output);
    open_file(argc > 1 ? argv[1] : "examples/foaf.nt");
    ask(pathindex_path, PATHINDEX_DATA, KNOWS "/iri/" NAME "/literal");
    ask(pathindex_path, PATHINDEX_DATA, KNOWN);
    explain(21, KNOWN);
    ask(pathindex_path, PATHINDEX_DATA, AGES);
    ask(pathindex_path, PATHINDEX_A + 1, KNOWN);
    ask(pathindex_path, PATHINDEX_ONE, AGES);
    ask(pathindex_branch, PATHINDEX_FB, AGELESS);
    ask(pathindex_branch, PATHINDEX_DATA, AGELESS);
    print_text(pathindex_sizes(&p, NULL));
    print_text(pathindex_extents(&p, PATHINDEX_A + 0, NULL));
    print_ok(pathindex_forget(&p, PATHINDEX_A));
    add_node("note");
    print_ok(pathindex_link(&p, 5, 22));
    ask(pathindex_path, PATHINDEX_DATA, KNOWS "/note");
    print_ok(pathindex_link(&p, 0, 99));
    print_ok(pathindex_drop(&p, 22));
    leave(is_refused);
}
