/* The calls of pathindex.h over the exports of crates/pathindex_c, which are declared here and nowhere else.
 *
 * What a handle holds lies in memory that is taken here. The exports are given its address, and nothing else reads or writes it. */
#include "pathindex.h"

#include <stdlib.h>

/* `at` has pathindex_c_size() bytes, aligned as malloc aligns. pathindex_c_new wants them empty, the others as the call before left
 * them. After pathindex_c_close they take no other memory. `alloc` is any address but NULL, and so is that of an empty list. */
size_t pathindex_c_size(void);
void pathindex_c_new(const void *alloc, void *at);
uint32_t pathindex_c_call(void *at, uint32_t call, uint32_t a, uint32_t b, const uint8_t *text, size_t length);
uint32_t pathindex_c_check(void *at, uint32_t node, const uint32_t *walk, size_t count, const uint8_t *text, size_t length);
uint64_t pathindex_c_told(void *at, uint32_t which);
size_t pathindex_c_nodes(void *at, size_t first, uint32_t *nodes, size_t room);
size_t pathindex_c_walk(void *at, size_t first, uint32_t *nodes, size_t room);
size_t pathindex_c_text(void *at, size_t first, uint8_t *bytes, size_t room);
void pathindex_c_close(void *at);

/* The numbers of calls (`request_at` of crates/pathindex_calls). */
enum call {
    OPEN = 0,
    NODE = 1,
    LINK = 2,
    UNLINK = 3,
    DROP = 4,
    RELABEL = 5,
    BEGIN = 6,
    END = 7,
    CANCEL = 8,
    INSERT = 9,
    DELETE = 10,
    PATH = 11,
    BRANCH = 12,
    WHY = 13,
    EXTENTS = 14,
    SIZES = 15,
    FORGET = 16,
    SAVE = 17
};

/* The numbers of what is reported (`reported` there). */
enum reported { HOW = 0, COUNT = 1, NUMBER = 2, NODES = 3, EDGES = 4, NEXT = 5 };

static const uint32_t none[1] = {0};

static const uint8_t *bytes_of(const void *text) { return (const uint8_t *)(text ? text : none); }

static int call(pathindex *p, enum call number, uint32_t a, uint32_t b, const void *text, size_t length) {
    if (!p->held) return PATHINDEX_MISUSE;
    return (int)pathindex_c_call(p->held, number, a, b, bytes_of(text), text ? length : 0);
}

static uint64_t reported(pathindex *p, enum reported which) { return p->held ? pathindex_c_told(p->held, which) : 0; }

/* Writes what the last call reported, where that was carried out. */
static int with_count(pathindex *p, int code, uint64_t *count) {
    if (code == PATHINDEX_OK && count) *count = reported(p, COUNT);
    return code;
}

int pathindex_open(pathindex *p, const void *triples, size_t length, uint32_t k, uint32_t flags, uint64_t *line) {
    int code;
    if (line) *line = 0;
    p->held = malloc(pathindex_c_size());
    if (!p->held) return PATHINDEX_NO_MEMORY;
    pathindex_c_new(none, p->held);
    code = call(p, OPEN, k, flags, triples, length);
    if (line && code != PATHINDEX_OK) *line = reported(p, COUNT);
    if (code != PATHINDEX_OK) pathindex_close(p);
    return code;
}

void pathindex_close(pathindex *p) {
    if (p->held) {
        pathindex_c_close(p->held);
        free(p->held);
    }
    p->held = NULL;
}

int pathindex_node(pathindex *p, const void *label, size_t length, uint32_t *node) {
    int code = call(p, NODE, 0, 0, label, length);
    /* in a group no node is added yet */
    if (code == PATHINDEX_OK && node && reported(p, COUNT) == 1) *node = (uint32_t)reported(p, NUMBER);
    return code;
}

int pathindex_link(pathindex *p, uint32_t from, uint32_t to) { return call(p, LINK, from, to, NULL, 0); }
int pathindex_unlink(pathindex *p, uint32_t from, uint32_t to) { return call(p, UNLINK, from, to, NULL, 0); }
int pathindex_drop(pathindex *p, uint32_t node) { return call(p, DROP, node, 0, NULL, 0); }

int pathindex_relabel(pathindex *p, uint32_t node, const void *label, size_t length) {
    return call(p, RELABEL, node, 0, label, length);
}

int pathindex_begin(pathindex *p) { return call(p, BEGIN, 0, 0, NULL, 0); }
int pathindex_end(pathindex *p) { return call(p, END, 0, 0, NULL, 0); }
int pathindex_cancel(pathindex *p) { return call(p, CANCEL, 0, 0, NULL, 0); }

int pathindex_insert(pathindex *p, const void *triple, size_t length) { return call(p, INSERT, 0, 0, triple, length); }
int pathindex_delete(pathindex *p, const void *triple, size_t length) { return call(p, DELETE, 0, 0, triple, length); }

static int ask(pathindex *p, enum call language, uint32_t via, const void *text, size_t length, struct pathindex_answer *answer) {
    int code = call(p, language, via, 0, text, length);
    if (code == PATHINDEX_OK && answer) {
        answer->count = reported(p, COUNT);
        answer->candidates = reported(p, NUMBER);
        answer->how = (uint32_t)reported(p, HOW);
    }
    return code;
}

int pathindex_path(pathindex *p, uint32_t via, const void *text, size_t length, struct pathindex_answer *answer) {
    return ask(p, PATH, via, text, length, answer);
}

int pathindex_branch(pathindex *p, uint32_t via, const void *text, size_t length, struct pathindex_answer *answer) {
    return ask(p, BRANCH, via, text, length, answer);
}

size_t pathindex_nodes(pathindex *p, size_t first, uint32_t *nodes, size_t room) {
    return p->held && room ? pathindex_c_nodes(p->held, first, nodes, room) : 0;
}

int pathindex_why(pathindex *p, uint32_t node, const void *text, size_t length, uint64_t *count) {
    return with_count(p, call(p, WHY, node, 0, text, length), count);
}

size_t pathindex_walk(pathindex *p, size_t first, uint32_t *nodes, size_t room) {
    return p->held && room ? pathindex_c_walk(p->held, first, nodes, room) : 0;
}

int pathindex_check(pathindex *p, uint32_t node, const uint32_t *walk, size_t count, const void *text, size_t length, int *shows) {
    int code;
    if (!p->held) return PATHINDEX_MISUSE;
    code = (int)pathindex_c_check(p->held, node, walk ? walk : none, walk ? count : 0, bytes_of(text), text ? length : 0);
    if (code == PATHINDEX_OK && shows) *shows = reported(p, COUNT) == 1;
    return code;
}

int pathindex_extents(pathindex *p, uint32_t index, uint64_t *length) {
    return with_count(p, call(p, EXTENTS, index, 0, NULL, 0), length);
}

int pathindex_sizes(pathindex *p, uint64_t *length) { return with_count(p, call(p, SIZES, 0, 0, NULL, 0), length); }

int pathindex_save(pathindex *p, uint64_t *length) { return with_count(p, call(p, SAVE, 0, 0, NULL, 0), length); }

size_t pathindex_text(pathindex *p, size_t first, void *bytes, size_t room) {
    return p->held && room ? pathindex_c_text(p->held, first, (uint8_t *)bytes, room) : 0;
}

int pathindex_forget(pathindex *p, uint32_t kind) { return call(p, FORGET, kind, 0, NULL, 0); }

uint64_t pathindex_node_count(pathindex *p) { return reported(p, NODES); }
uint64_t pathindex_edge_count(pathindex *p) { return reported(p, EDGES); }
uint64_t pathindex_next(pathindex *p) { return reported(p, NEXT); }

const char *pathindex_word(int code) {
    switch (code) {
    case PATHINDEX_OK: return "ok";
    case PATHINDEX_NO_NODE: return "no-node";
    case PATHINDEX_NO_EDGE: return "no-edge";
    case PATHINDEX_LIMIT: return "limit";
    case PATHINDEX_NO_INDEX: return "no-index";
    case PATHINDEX_SYNTAX: return "syntax";
    case PATHINDEX_NO_MEMORY: return "memory";
    case PATHINDEX_MISUSE: return "misuse";
    default: return "unknown";
    }
}
