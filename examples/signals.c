/* Averages and positions of a short price series, by the C header: `tools/examples` builds and runs this. */
#include <stdio.h>

#include "tegbalowu.h"

enum { BARS = 6 };

static void print_cells(const char *name, tegbalowu_answer answer, const double *cells)
{
    printf("%s: refusal %llu, count %llu:", name, (unsigned long long)answer.refusal, (unsigned long long)answer.count);
    for (uint64_t i = 0; i < answer.count; i++) {
        if (cells[i] != cells[i])
            printf(" NaN");
        else
            printf(" %.17g", cells[i]);
    }
    printf("\n");
}

int main(void)
{
    const double prices[BARS] = {10, 12, 12, 11, 15, 14};
    double cells[BARS];
    double work[8 * BARS];
    int64_t ticks[BARS];

    print_cells("sma of 3", tegbalowu_sma(prices, BARS, 3, cells, BARS), cells);
    print_cells("ema of 3", tegbalowu_ema(prices, BARS, 3, cells, BARS), cells);
    print_cells("smoothing by 0.25", tegbalowu_exponential_smoothing(prices, BARS, 0.25, cells, BARS), cells);

    tegbalowu_answer means = tegbalowu_tick_mean(prices, BARS, 2, ticks, BARS);
    printf("tick mean of 2: refusal %llu, count %llu:",
           (unsigned long long)means.refusal, (unsigned long long)means.count);
    for (uint64_t i = 0; i < means.count; i++)
        printf(" %lld", (long long)ticks[i]);
    printf("\n");

    print_cells("one average of 2",
                tegbalowu_single_sma_positions(prices, BARS, 2, cells, BARS, work, 8 * BARS), cells);
    print_cells("averages of 1 and 2", tegbalowu_double_sma_positions(prices, BARS, 1, 2, cells, BARS), cells);

    print_cells("sma of 0", tegbalowu_sma(prices, BARS, 0, cells, BARS), cells);
    print_cells("sma of 721", tegbalowu_sma(prices, BARS, 721, cells, BARS), cells);
    print_cells("sma without room", tegbalowu_sma(prices, BARS, 3, cells, BARS - 1), cells);
    print_cells("averages of 2 and 1", tegbalowu_double_sma_positions(prices, BARS, 2, 1, cells, BARS), cells);
    return 0;
}
