#include <dollar.h>
#include <stdio.h>

int main(void) {
    const dollar_edge triangle[] = {{0, 1, 1}, {1, 2, 1}, {0, 2, 1}};
    const int64_t amounts[2][3] = {{2, -1, -1}, {3, -1, -1}};
    int64_t scripts[2][3], ranks[2];
    int8_t won[2], told[2];
    uint8_t none[1];
    if (dollar_judge(3, triangle, 3, 0, amounts[0], 6, won, 2, scripts[0], 6, ranks, 0, none, 0) != 0 ||
        dollar_rank(3, triangle, 3, amounts[0], 6, told, 2, ranks, 2, ranks, 0) != 0)
        return 1;
    for (int r = 0; r < 2; r++)
        printf("%s by %d %d %d, rank %d\n", won[r] ? "winnable" : "unwinnable", (int)scripts[r][0], (int)scripts[r][1],
               (int)scripts[r][2], (int)ranks[r]);
}
