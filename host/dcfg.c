/* The command dcfg. */
#include "command.h"
#include "log.h"
#include "tell.h"
#include "towercloak.h"

#include <errno.h>
#include <inttypes.h>
#include <stdio.h>
#include <string.h>
#include <unistd.h>

static const char help[] =
    "usage: towercloak dcfg [--format=text|csv|json|dot] FILE\n"
    "\n"
    "Prints what a DCFG lists, a control-flow graph in JSON: the numbers of edges and threads; then a line for each edge, in\n"
    "the order of the text, with its process (counted from 0), id, source, target and type, and one for each thread, with\n"
    "its process and its count of instructions. csv has both in one table; dot is a graph for Graphviz, with a cluster for\n"
    "each process and an edge's type as its label.\n"
    "\n"
    "  FILE   a text of up to 1,048,576 bytes, or - for standard input\n"
    "\n"
    "Exit status: 0, 1 for a text that is refused, told as 'refused NUMBER at PLACE', 2 for a file that can't be read.\n";

/* The numbers of an edge's row, and of a thread's. */
enum { PROCESS, ID, SOURCE, TARGET, TYPE, EDGE };
enum { COUNT = 1, THREAD };

/* One byte more than the longest text, so that a longer one shows. */
enum { ROOM = 1048577 };

/* What a text lists. */
struct graph {
    uint64_t edges[TOWERCLOAK_EDGES], threads[TOWERCLOAK_THREADS];
    uint64_t edge_count, thread_count;
};

static const uint64_t *edge_of(const struct graph *graph, uint64_t place) {
    return graph->edges + place * EDGE;
}

static const uint64_t *thread_of(const struct graph *graph, uint64_t place) {
    return graph->threads + place * THREAD;
}

static void print_text(const struct graph *graph) {
    printf("edges %" PRIu64 " threads %" PRIu64 "\n", graph->edge_count, graph->thread_count);
    for (uint64_t i = 0; i < graph->edge_count; i++) {
        const uint64_t *edge = edge_of(graph, i);
        printf("%" PRIu64 " %" PRIu64 " %" PRIu64 " %" PRIu64 " %" PRIu64 "\n", edge[PROCESS], edge[ID], edge[SOURCE],
               edge[TARGET], edge[TYPE]);
    }
    for (uint64_t i = 0; i < graph->thread_count; i++)
        printf("%" PRIu64 " %" PRIu64 "\n", thread_of(graph, i)[PROCESS], thread_of(graph, i)[COUNT]);
}

static void print_csv(const struct graph *graph) {
    puts("kind,process,id,source,target,type,count");
    for (uint64_t i = 0; i < graph->edge_count; i++) {
        const uint64_t *edge = edge_of(graph, i);
        printf("edge,%" PRIu64 ",%" PRIu64 ",%" PRIu64 ",%" PRIu64 ",%" PRIu64 ",\n", edge[PROCESS], edge[ID],
               edge[SOURCE], edge[TARGET], edge[TYPE]);
    }
    for (uint64_t i = 0; i < graph->thread_count; i++)
        printf("thread,%" PRIu64 ",,,,,%" PRIu64 "\n", thread_of(graph, i)[PROCESS], thread_of(graph, i)[COUNT]);
}

static void print_json(const struct graph *graph) {
    fputs("{\n  \"edges\": [", stdout);
    for (uint64_t i = 0; i < graph->edge_count; i++) {
        const uint64_t *edge = edge_of(graph, i);
        printf("%s\n    {\"process\": %" PRIu64 ", \"id\": %" PRIu64 ", \"source\": %" PRIu64 ", \"target\": %" PRIu64
               ", \"type\": %" PRIu64 "}",
               i == 0 ? "" : ",", edge[PROCESS], edge[ID], edge[SOURCE], edge[TARGET], edge[TYPE]);
    }
    fputs("\n  ],\n  \"threads\": [", stdout);
    for (uint64_t i = 0; i < graph->thread_count; i++)
        printf("%s\n    {\"process\": %" PRIu64 ", \"count\": %" PRIu64 "}", i == 0 ? "" : ",",
               thread_of(graph, i)[PROCESS], thread_of(graph, i)[COUNT]);
    puts("\n  ]\n}");
}

/* A node is named by its process and its id, and shown by its id: each process numbers its own blocks. */
static void print_dot(const struct graph *graph) {
    puts("digraph dcfg {");
    for (uint64_t i = 0; i < graph->edge_count; i++) {
        const uint64_t *edge = edge_of(graph, i);
        uint64_t process = edge[PROCESS];
        if (i == 0 || edge_of(graph, i - 1)[PROCESS] != process)
            printf("  subgraph cluster_%" PRIu64 " {\n    label=\"process %" PRIu64 "\";\n", process, process);
        for (int end = SOURCE; end <= TARGET; end++)
            printf("    \"%" PRIu64 ".%" PRIu64 "\" [label=\"%" PRIu64 "\"];\n", process, edge[end], edge[end]);
        printf("    \"%" PRIu64 ".%" PRIu64 "\" -> \"%" PRIu64 ".%" PRIu64 "\" [label=\"%" PRIu64 "\"];\n", process,
               edge[SOURCE], process, edge[TARGET], edge[TYPE]);
        if (i + 1 == graph->edge_count || edge_of(graph, i + 1)[PROCESS] != process)
            puts("  }");
    }
    puts("}");
}

/* Reads the text, or as much of it as shows that it is too long. Gives DONE, or FAILED and tells why. */
static int read_dcfg(const char *name, uint8_t *bytes, size_t *length) {
    int file = open_log(name, ANY);
    if (file < 0)
        return FAILED;
    int status = DONE;
    *length = 0;
    while (*length < ROOM) {
        ssize_t n = read(file, bytes + *length, ROOM - *length);
        if (n < 0 && errno == EINTR)
            continue;
        if (n < 0)
            status = failed(name, strerror(errno));
        if (n <= 0)
            break;
        *length += (size_t)n;
    }
    close_log(name, file);
    return status;
}

static int run(const struct options *options, char **words, int count) {
    static void (*const print[])(const struct graph *) = {
        [TEXT] = print_text, [CSV] = print_csv, [JSON] = print_json, [DOT] = print_dot};
    static uint8_t text[ROOM];
    static struct graph graph;
    size_t length;
    uint64_t place;
    (void)count;
    int status = read_dcfg(words[0], text, &length);
    if (status != DONE)
        return status;
    uint32_t number = towercloak_dcfg(text, length, graph.edges, TOWERCLOAK_EDGES, graph.threads, TOWERCLOAK_THREADS,
                                      &graph.edge_count, &graph.thread_count, &place);
    if (number != 0)
        return refused(words[0], number, place);
    print[options->format](&graph);
    return DONE;
}

const struct command dcfg_command = {"dcfg", help, "fg", 1, 1, run};
