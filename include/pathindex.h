/* pathindex.h: structural indexes of graph data, for C and C++.
 *
 * A handle has a graph with a label on each node, which is loaded from N-Triples, and indexes of it, which follow each change. It
 * answers path expressions and branching queries, through the graph itself or an index. README.md shows both query languages;
 * docs/FORMATS.md defines them.
 *
 *     pathindex p;
 *     struct pathindex_answer answer;
 *     uint32_t node;
 *     size_t i;
 *     if (pathindex_open(&p, text, length, 2, 0, NULL) != PATHINDEX_OK) return 1;
 *     if (pathindex_path(&p, PATHINDEX_ONE, PATHINDEX_TEXT("<x:knows>/iri"), &answer) == PATHINDEX_OK)
 *         for (i = 0; pathindex_nodes(&p, i, &node, 1) == 1; i++) printf("n%u\n", (unsigned)node);
 *     pathindex_close(&p);
 *
 * Link with libpathindex.a or libpathindex.so, which `make library` builds, and with nothing else.
 *
 * CODES. A call that returns int returns one of enum pathindex_code. Unless that is PATHINDEX_OK, the graph, its indexes, the answers, the
 * walk and the text that were found last are as before. No call prints, ends the process or waits, and there is no state outside
 * a handle: nothing to set up, and nothing to clean up but handles.
 *
 * MEMORY. It is taken by malloc and realloc, which must be of one allocator and align blocks as C demands, and given back by free.
 * PATHINDEX_NO_MEMORY is a code like any other: the handle stays good. What a pointer of a call leads to is read or written during
 * that call alone, and no pointer into the library's memory is handed out: what was found is copied into the caller's.
 *
 * TEXTS are UTF-8, with a length and no NUL at the end; NULL is the text of length 0. At most 2^30 bytes of triples, and 4,096 of
 * an expression, are taken.
 *
 * HANDLES. One is good from the pathindex_open that returned PATHINDEX_OK until pathindex_close, which sets it to NULL. It may be
 * moved, not copied: of two copies only one may be used. Any call takes a handle that is NULL, and answers PATHINDEX_MISUSE or 0.
 *
 * THREADS. Calls on two handles may come at the same time. Calls on one handle must come one after another, in any threads, with a
 * lock or a join between them; queries too, since a view may be computed when it is first asked. No call may come from a signal
 * handler, nor in a child of a process with threads after fork().
 *
 * LIMITS are those of the program: 2^21 node numbers, 2^22 edges, 2^20 labels. A number that was given to a node is never given
 * again. */
#ifndef PATHINDEX_H
#define PATHINDEX_H

#include <stddef.h>
#include <stdint.h>

#ifdef __cplusplus
extern "C" {
#endif

/* What this header offers. A change that breaks callers raises it. */
#define PATHINDEX_VERSION 1

/* A string literal as a text and its length. */
#define PATHINDEX_TEXT(literal) (literal), (sizeof(literal) - 1)

typedef struct pathindex {
    void *held;
} pathindex;

enum pathindex_code {
    PATHINDEX_OK = 0,
    PATHINDEX_NO_NODE = 1,   /* a node of the call, or the triple to delete, isn't there */
    PATHINDEX_NO_EDGE = 2,   /* the edge isn't there */
    PATHINDEX_LIMIT = 4,     /* a limit is reached */
    PATHINDEX_NO_INDEX = 5,  /* the index isn't kept */
    PATHINDEX_SYNTAX = 6,    /* the text spells nothing of its kind */
    PATHINDEX_NO_MEMORY = 7, /* malloc or realloc failed */
    PATHINDEX_MISUSE = 8     /* a number names nothing, the handle is NULL, or no group is begun, or one is */
};

/* Through what a query is asked. PATHINDEX_A + i is the A(k)-index of level i, and PATHINDEX_B + i the bounded forward and backward
 * index of that level, for i up to 8. As kinds of pathindex_forget, PATHINDEX_A and PATHINDEX_B are all levels. */
enum pathindex_via {
    PATHINDEX_A = 0,
    PATHINDEX_B = 16,
    PATHINDEX_DATA = 32, /* the graph itself */
    PATHINDEX_ONE = 33,  /* the 1-index */
    PATHINDEX_FB = 34    /* the forward and backward index */
};

/* Flags of pathindex_open, to be added up. */
enum pathindex_flags {
    PATHINDEX_WITHOUT_ONE = 1, /* keep no 1-index */
    PATHINDEX_WITHOUT_FB = 2,  /* keep no forward and backward index */
    PATHINDEX_WITH_B = 4       /* keep the bounded ones too */
};

enum pathindex_how {
    PATHINDEX_IN_GRAPH = 0, /* in the graph itself */
    PATHINDEX_EXACT = 1,    /* through an index that is exact for the query */
    PATHINDEX_CHECKED = 2   /* in an index, whose candidates were then looked up in the graph */
};

struct pathindex_answer {
    uint64_t count;      /* how many nodes answer */
    uint64_t candidates; /* how many the index offered; 0 of the graph itself */
    uint32_t how;        /* enum pathindex_how */
};

/* Opens a handle of the graph of some N-Triples, which may be none, with the A(k)-indexes of the levels 0 to k, k at most 8, and the
 * other indexes that no flag leaves out. PATHINDEX_SYNTAX and PATHINDEX_LIMIT write the number of the line at fault, from 1 on, to
 * *line, which may be NULL; 0 where it is no line. After any code but PATHINDEX_OK the handle is NULL. */
int pathindex_open(pathindex *p, const void *triples, size_t length, uint32_t k, uint32_t flags, uint64_t *line);

/* Closes a handle, and frees its memory. One that is NULL stays so. */
void pathindex_close(pathindex *p);

/* Changes. A label is a name, or an IRI in angle brackets. pathindex_node writes the number of the new node to *node, which may be
 * NULL. A link that is there already is PATHINDEX_OK and changes nothing. pathindex_drop also takes away the node's edges. */
int pathindex_node(pathindex *p, const void *label, size_t length, uint32_t *node);
int pathindex_link(pathindex *p, uint32_t from, uint32_t to);
int pathindex_unlink(pathindex *p, uint32_t from, uint32_t to);
int pathindex_drop(pathindex *p, uint32_t node);
int pathindex_relabel(pathindex *p, uint32_t node, const void *label, size_t length);

/* Groups: the five calls above, between pathindex_begin and pathindex_end, only note their steps, and are PATHINDEX_OK. The end makes them as
 * one change, all or none, and says why it is refused; the group is ended in any case. The cancel drops them. The nodes that the group adds get the numbers from
 * pathindex_next on, so later steps can name them; *node of pathindex_node isn't written within a group. */
int pathindex_begin(pathindex *p);
int pathindex_end(pathindex *p);
int pathindex_cancel(pathindex *p);

/* Inserts a triple into the graph, or deletes it: with its nodes, where it is the only one that needs them. The text is a line of
 * N-Triples, without its end. To insert one that is there is PATHINDEX_OK and changes nothing; to delete one that isn't is PATHINDEX_NO_NODE. */
int pathindex_insert(pathindex *p, const void *triple, size_t length);
int pathindex_delete(pathindex *p, const void *triple, size_t length);

/* Queries: a path expression, and a branching query. *answer is written with PATHINDEX_OK alone, and may be NULL. */
int pathindex_path(pathindex *p, uint32_t via, const void *text, size_t length, struct pathindex_answer *answer);
int pathindex_branch(pathindex *p, uint32_t via, const void *text, size_t length, struct pathindex_answer *answer);

/* Copies the answers that were found last, rising, from the place `first` on, at most `room` of them, and says how many: 0 past the
 * last one. */
size_t pathindex_nodes(pathindex *p, size_t first, uint32_t *nodes, size_t room);

/* Finds the least walk that shows why the node answers a path expression, and writes how many nodes it has to *count, which may be
 * NULL: 0 where the node doesn't answer, and then the walk that was found last stays. pathindex_walk copies that, as pathindex_nodes
 * does. */
int pathindex_why(pathindex *p, uint32_t node, const void *text, size_t length, uint64_t *count);
size_t pathindex_walk(pathindex *p, size_t first, uint32_t *nodes, size_t room);

/* Whether the numbers are the nodes of a walk that ends in `node` and shows that it answers a path expression: writes 1 or 0 to
 * *shows. It shares no code with pathindex_why. */
int pathindex_check(pathindex *p, uint32_t node, const uint32_t *walk, size_t count, const void *text, size_t length, int *shows);

/* Texts, as the program prints them: the blocks of an index, each with its nodes; the sizes of the graph and of the indexes; the graph
 * and its indexes as an index file, which `pathindex --check` reads. The number of bytes is written to *length, which may be NULL.
 * pathindex_text copies the text that was made last, from the byte `first` on, at most `room` bytes, and says how many. */
int pathindex_extents(pathindex *p, uint32_t index, uint64_t *length);
int pathindex_sizes(pathindex *p, uint64_t *length);
int pathindex_save(pathindex *p, uint64_t *length);
size_t pathindex_text(pathindex *p, size_t first, void *bytes, size_t room);

/* Drops the indexes of a kind: PATHINDEX_A, PATHINDEX_B, PATHINDEX_ONE or PATHINDEX_FB. */
int pathindex_forget(pathindex *p, uint32_t kind);

/* How many nodes and edges the graph has, and the number that its next node gets. */
uint64_t pathindex_node_count(pathindex *p);
uint64_t pathindex_edge_count(pathindex *p);
uint64_t pathindex_next(pathindex *p);

/* The word of a code, as "no-node"; "unknown" of any other number. The string is always there. */
const char *pathindex_word(int code);

#ifdef __cplusplus
}
#endif

#endif
