/* The plain program that the engine is measured against: it reads the same edge text, keeps the edges in one array in
   memory, sweeps it round by round on one thread, and prints the same answer. Nothing is kept in files.
   usage: plain VERTICES bfs ROOT | labels | sssp ROOT | degrees | pagerank ROUNDS */
#include <inttypes.h>
#include <stdbool.h>
#include <stdint.h>
#include <stdio.h>
#include <stdlib.h>
#include <string.h>

#define NONE UINT64_MAX
#define GREATEST_SUM (UINT64_C(1) << 60)

struct edge {
    uint32_t src;
    uint32_t dst;
    uint64_t weight;
};

struct graph {
    uint32_t vertices;
    size_t count;
    size_t room;
    struct edge *edges;
};

static void *room_for(void *old, size_t count, size_t width)
{
    void *room = realloc(old, (count == 0 ? 1 : count) * width);
    if (room == NULL) {
        fputs("out of memory\n", stderr);
        exit(5);
    }
    return room;
}

static void add_edge(struct graph *graph, uint64_t src, uint64_t dst, uint64_t weight)
{
    if (graph->count == graph->room) {
        graph->room = graph->room == 0 ? 1 << 16 : 2 * graph->room;
        graph->edges = room_for(graph->edges, graph->room, sizeof(struct edge));
    }
    graph->edges[graph->count++] = (struct edge){(uint32_t)src, (uint32_t)dst, weight};
}

/* The next byte of standard input, or EOF. */
static int next_byte(void)
{
    static unsigned char bytes[1 << 16];
    static size_t count;
    static size_t given;
    if (given == count) {
        count = fread(bytes, 1, sizeof bytes, stdin);
        given = 0;
        if (count == 0) {
            return EOF;
        }
    }
    return bytes[given++];
}

static void malformed(uint64_t line)
{
    fprintf(stderr, "line %" PRIu64 " is malformed\n", line);
    exit(2);
}

/* Reads the numbers of a line, at most three, and says how many there were. `*end` is the byte behind the line. */
static int read_line(uint64_t *numbers, uint64_t line, int *end)
{
    int count = 0;
    int byte = next_byte();
    while (byte != '\n' && byte != EOF) {
        if (byte == '#' && count == 0) {
            while (byte != '\n' && byte != EOF) {
                byte = next_byte();
            }
        } else if (byte >= '0' && byte <= '9' && count < 3) {
            uint64_t number = 0;
            for (; byte >= '0' && byte <= '9'; byte = next_byte()) {
                number = 10 * number + (uint64_t)(byte - '0');
            }
            numbers[count++] = number;
        } else if (byte == ' ' || byte == '\t' || byte == '\r') {
            byte = next_byte();
        } else {
            malformed(line);
        }
    }
    *end = byte;
    return count;
}

static struct graph read_graph(uint32_t vertices, bool both)
{
    struct graph graph = {vertices, 0, 0, NULL};
    int end = '\n';
    for (uint64_t line = 1; end != EOF; line++) {
        uint64_t numbers[3] = {0, 0, 1};
        int count = read_line(numbers, line, &end);
        if (count == 0) {
            continue;
        }
        if (count == 1 || numbers[0] >= vertices || numbers[1] >= vertices) {
            malformed(line);
        }
        add_edge(&graph, numbers[0], numbers[1], numbers[2]);
        if (both) {
            add_edge(&graph, numbers[1], numbers[0], numbers[2]);
        }
    }
    return graph;
}

static uint64_t least(uint64_t a, uint64_t b)
{
    return a < b ? a : b;
}

static uint64_t sum(uint64_t a, uint64_t b)
{
    return least(a + b, GREATEST_SUM);
}

/* One round from `now` to `next`: along each edge whose source has changed the step is added. Says whether a value changed. */
static bool make_round(const struct graph *graph, const bool *changed, const uint64_t *now, uint64_t *next, const char *program)
{
    bool is_labels = strcmp(program, "labels") == 0;
    bool is_bfs = strcmp(program, "bfs") == 0;
    memcpy(next, now, graph->vertices * sizeof *next);
    for (size_t i = 0; i < graph->count; i++) {
        const struct edge *edge = &graph->edges[i];
        if (!changed[edge->src] || now[edge->src] == NONE) {
            continue;
        }
        uint64_t step = is_labels ? 0 : is_bfs ? 1 : edge->weight;
        next[edge->dst] = least(next[edge->dst], sum(now[edge->src], step));
    }
    return memcmp(next, now, graph->vertices * sizeof *next) != 0;
}

/* Rounds until nothing changes. */
static uint64_t *settle(const struct graph *graph, uint64_t *now, const char *program)
{
    uint64_t *next = room_for(NULL, graph->vertices, sizeof *next);
    bool *changed = room_for(NULL, graph->vertices, sizeof *changed);
    memset(changed, 1, graph->vertices * sizeof *changed);
    while (make_round(graph, changed, now, next, program)) {
        for (uint32_t v = 0; v < graph->vertices; v++) {
            changed[v] = next[v] != now[v];
        }
        uint64_t *old = now;
        now = next;
        next = old;
    }
    free(changed);
    free(next);
    return now;
}

static uint64_t *edges_out(const struct graph *graph)
{
    uint64_t *out = room_for(NULL, graph->vertices, sizeof *out);
    memset(out, 0, graph->vertices * sizeof *out);
    for (size_t i = 0; i < graph->count; i++) {
        out[graph->edges[i].src]++;
    }
    return out;
}

static void sum_ranks(const struct graph *graph, uint64_t *now, const uint64_t *out, uint64_t rounds)
{
    uint64_t *sums = room_for(NULL, graph->vertices, sizeof *sums);
    for (uint64_t round = 0; round < rounds; round++) {
        memset(sums, 0, graph->vertices * sizeof *sums);
        for (size_t i = 0; i < graph->count; i++) {
            const struct edge *edge = &graph->edges[i];
            sums[edge->dst] = sum(sums[edge->dst], now[edge->src] / out[edge->src]);
        }
        for (uint32_t v = 0; v < graph->vertices; v++) {
            now[v] = 150000 + 85 * sums[v] / 100;
        }
    }
    free(sums);
}

static void sum_edges_in(const struct graph *graph, uint64_t *now)
{
    for (size_t i = 0; i < graph->count; i++) {
        now[graph->edges[i].dst]++;
    }
}

/* One line a vertex: the vertex, its number, and `side`'s where there is one. */
static void print_answer(uint32_t vertices, const uint64_t *main, const uint64_t *side)
{
    for (uint32_t v = 0; v < vertices; v++) {
        if (main[v] == NONE) {
            printf("%" PRIu32 " -", v);
        } else {
            printf("%" PRIu32 " %" PRIu64, v, main[v]);
        }
        if (side != NULL) {
            printf(" %" PRIu64, side[v]);
        }
        putchar('\n');
    }
}

static void begin(uint64_t *now, uint32_t vertices, const char *program, uint64_t argument)
{
    bool is_labels = strcmp(program, "labels") == 0;
    bool is_rooted = strcmp(program, "bfs") == 0 || strcmp(program, "sssp") == 0;
    uint64_t first = is_rooted ? NONE : strcmp(program, "pagerank") == 0 ? 1000000 : 0;
    for (uint32_t v = 0; v < vertices; v++) {
        now[v] = is_labels ? v : first;
    }
    if (is_rooted && argument < vertices) {
        now[argument] = 0;
    }
}

int main(int count, char **arguments)
{
    if (count < 3) {
        fputs("usage: plain VERTICES bfs ROOT|labels|sssp ROOT|degrees|pagerank ROUNDS\n", stderr);
        return 1;
    }
    uint32_t vertices = (uint32_t)strtoul(arguments[1], NULL, 10);
    const char *program = arguments[2];
    uint64_t argument = count > 3 ? strtoull(arguments[3], NULL, 10) : 0;
    struct graph graph = read_graph(vertices, strcmp(program, "labels") == 0);
    uint64_t *now = room_for(NULL, vertices, sizeof *now);
    uint64_t *side = NULL;
    begin(now, vertices, program, argument);
    if (strcmp(program, "degrees") == 0) {
        side = edges_out(&graph);
        sum_edges_in(&graph, now);
    } else if (strcmp(program, "pagerank") == 0) {
        uint64_t *out = edges_out(&graph);
        sum_ranks(&graph, now, out, argument);
        free(out);
    } else {
        now = settle(&graph, now, program);
    }
    print_answer(vertices, now, side);
    free(now);
    free(side);
    free(graph.edges);
    return fflush(stdout) == 0 ? 0 : 1;
}
