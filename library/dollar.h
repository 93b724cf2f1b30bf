/* The dollar game of Baker and Norine, for C: verdicts, ranks and rank tests on many divisors of one graph.
 *
 * Link with -ldollar. No function takes memory, waits, starts a thread, opens a file, keeps anything between calls, or writes
 * anything but the arrays that it is lent for answers; so any number of threads may call at once. A thread needs a stack of 1 MB.
 *
 * Each call takes one graph, and as many divisors of it as `told` has places. Arrays lie row by row, as C has them: the amount of
 * vertex v in row r is amounts[r * vertices + v], from -1,000,000 to 1,000,000. A pointer may not be null, and behind each array
 * comes how many places it has; an array for answers that are not wanted has 0. Arrays for answers may not overlap others. A call
 * can't be stopped: for progress, or to stop, ask about some thousand rows at a time, with pointers moved on.
 *
 * A call gives 0; or a number below 0, which DOLLAR_KIND and DOLLAR_PLACE take apart, and has then written nothing. What became of
 * each row stands in `told`. If it is below 0, vertex -1 - told is the first whose amount is past the limit, and the row's other
 * places keep what they held. */
#ifndef DOLLAR_H
#define DOLLAR_H

#include <stddef.h>
#include <stdint.h>

#ifdef __cplusplus
extern "C" {
#endif

#define DOLLAR_ABI 1

/* An edge item: two vertices, numbered from 0, and how many edges join them; items for the same two add up. */
typedef struct { uint8_t from, to, count; } dollar_edge;

/* Why a call is refused: the kind, and of 2 to 4 the place of the edge item, of 5 the vertex. If there is more than one reason, 9 comes
 * first, then 1; then the first edge item that is wrong, by the least of 2 to 4; then 5 with the first vertex, 6, 7 and 8. */
enum {
    DOLLAR_SIZE = 1,          /* there are not 1 to 16 vertices */
    DOLLAR_NO_VERTEX = 2,     /* an edge item names a vertex that is not there */
    DOLLAR_LOOP = 3,          /* an edge item joins a vertex to itself */
    DOLLAR_EMPTY = 4,         /* an edge item has no edge */
    DOLLAR_VALENCE = 5,       /* more than 63 edges meet at a vertex */
    DOLLAR_NOT_CONNECTED = 6, /* some two vertices are joined by no path */
    DOLLAR_NO_Q = 7,          /* there is no vertex q */
    DOLLAR_LENGTHS = 8,       /* the length of an array does not fit the others */
    DOLLAR_TOO_MANY = 9       /* there are more than 120 edge items */
};
#define DOLLAR_KIND(given) ((int)(-(given) & 15))
#define DOLLAR_PLACE(given) ((int)(-(given) >> 4))

/* What `told` may be beside 0 and 1: a divisor fails the rank test, but the test is past the limits within which the first loss is
 * named, so its row of `losses` keeps what it held. */
#define DOLLAR_UNNAMED 2

/* DOLLAR_ABI of the library that is loaded. */
uint32_t dollar_abi(void);

/* 0 if there is such a graph. */
int64_t dollar_graph(size_t vertices, const dollar_edge *edges, size_t items);

/* Whether each divisor is winnable (told: 1 or 0). scripts: how often each vertex lends (0 at q), which leads to reduced: the
 * divisor that is reduced for q. orders: the vertices in the order in which they burn, which shows that it is. */
int64_t dollar_judge(size_t vertices, const dollar_edge *edges, size_t items, size_t q,
                     const int64_t *amounts, size_t all, int8_t *told, size_t rows,
                     int64_t *scripts, size_t scripts_all, int64_t *reduced, size_t reduced_all,
                     uint8_t *orders, size_t orders_all);

/* The rank of each divisor (-1 if it is not winnable), and that of its residual K - D (told: 0). On a graph of genus 100 and more a
 * rank may take a fifth of a second, and nothing bounds how long. */
int64_t dollar_rank(size_t vertices, const dollar_edge *edges, size_t items,
                    const int64_t *amounts, size_t all, int8_t *told, size_t rows,
                    int64_t *ranks, size_t ranks_all, int64_t *duals, size_t duals_all);

/* Whether the rank of each divisor is at least k (told: 1 or 0); if not, losses has the lexicographically first effective divisor of
 * degree k that can't be lost, and else the row of losses keeps what it held. It may take as long as a rank. */
int64_t dollar_rank_test(size_t vertices, const dollar_edge *edges, size_t items, uint32_t k,
                         const int64_t *amounts, size_t all, int8_t *told, size_t rows,
                         int64_t *losses, size_t losses_all);

#ifdef __cplusplus
}
#endif
#endif
