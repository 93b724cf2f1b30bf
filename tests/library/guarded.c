/* Calls with random sizes, each array at the end of a page behind which nothing may be touched: a place too many ends the program.
 * A call that is refused may write nothing. The arguments: how many calls, and the seed. */
#define _GNU_SOURCE
#include <dollar.h>
#include <stdio.h>
#include <stdlib.h>
#include <string.h>
#include <sys/mman.h>
#include <unistd.h>

enum { PAGE = 1 << 16, ARRAYS = 7, FILL = 0x55 };

static uint64_t state;
static unsigned char *ends[ARRAYS];

static uint64_t draw(uint64_t below) {
    state = state * 6364136223846793005u + 1442695040888963407u;
    return (state >> 33) % below;
}

/* So many bytes at the end of a page. */
static void *at_end(int which, size_t bytes) {
    memset(ends[which] - bytes, FILL, bytes);
    return ends[which] - bytes;
}

static int is_filled(const unsigned char *from, size_t bytes) {
    while (bytes--)
        if (*from++ != FILL) return 0;
    return 1;
}

static size_t near(size_t wanted) {
    return draw(4) ? wanted : draw(2) ? 0 : draw(wanted + 3);
}

int main(int count, char **words) {
    long calls = count > 1 ? atol(words[1]) : 1000, done = 0;
    state = count > 2 ? strtoull(words[2], 0, 10) : 1;
    for (int i = 0; i < ARRAYS; i++) {
        unsigned char *page = mmap(0, 2 * PAGE, PROT_READ | PROT_WRITE, MAP_PRIVATE | MAP_ANONYMOUS, -1, 0);
        if (page == MAP_FAILED || mprotect(page + PAGE, PAGE, PROT_NONE)) return 2;
        ends[i] = page + PAGE;
    }
    for (long i = 0; i < calls; i++) {
        size_t n = draw(20) ? 1 + draw(8) : draw(41), items = draw(20) ? n : draw(141), rows = draw(5), q = draw(20) ? draw(n + 1) : draw(99);
        dollar_edge *edges = at_end(0, 3 * items);
        for (size_t j = 0; j < items; j++) {
            edges[j].from = draw(50) ? j % (n + !n) : draw(256);
            edges[j].to = draw(50) ? (j + 1) % (n + !n) : draw(256);
            edges[j].count = draw(50) ? 1 + draw(3) : draw(256);
        }
        size_t all = near(rows * n), a = near(rows * n), b = near(rows * n), c = near(rows * n);
        int64_t *amounts = at_end(1, 8 * all);
        for (size_t j = 0; j < all; j++) amounts[j] = draw(99) ? (int64_t)draw(9) - 3 : (int64_t)(draw(1u << 31) << 33 | draw(1u << 31));
        int8_t *told = at_end(2, rows);
        int64_t given, *first, *second = at_end(4, 8 * b);
        uint8_t *orders = at_end(5, c);
        switch (draw(3)) {
        case 0:
            first = at_end(3, 8 * a);
            given = dollar_judge(n, edges, items, q, amounts, all, told, rows, first, a, second, b, orders, c);
            break;
        case 1:
            a = near(rows), b = near(rows), first = at_end(3, 8 * a), second = at_end(4, 8 * b);
            given = dollar_rank(n, edges, items, amounts, all, told, rows, first, a, second, b);
            break;
        default:
            first = at_end(3, 8 * a);
            given = dollar_rank_test(n, edges, items, (uint32_t)draw(6), amounts, all, told, rows, first, a);
        }
        done += given == 0;
        if (given && !(is_filled((void *)told, rows) && is_filled((void *)first, 8 * a) && is_filled((void *)second, 8 * b) &&
                       is_filled(orders, c)))
            return printf("call %ld is refused and writes\n", i), 1;
    }
    printf("%d\n", done > calls / 20);
}
