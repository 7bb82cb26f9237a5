/*
 * Compares the leaves with the recorded answers of Rust's own functions, bit for bit, NaNs as one value. README.md
 * beside this file has the form of the list.
 *   leaves <leaves.txt
 * Exit status: 0 all lines were compared and nothing differs; else 1.
 */
#include <inttypes.h>

#include "leaves.h"
#include "list.h"

/* What a leaf gives as the list has it: 1 or 0, or the bits of an f64. */
static uint64_t is_nan(double x) { return tegbalowu_is_nan(x); }
static uint64_t magnitude(double x) { return one_nan(bits_of(tegbalowu_magnitude(x))); }
static uint64_t sign(double x) { return one_nan(bits_of(tegbalowu_sign(x))); }
static uint64_t round_to_whole(double x) { return one_nan(bits_of(tegbalowu_round_to_whole(x))); }
static uint64_t square_root(double x) { return one_nan(bits_of(tegbalowu_square_root(x))); }
static uint64_t tanh_cell(double x) { return one_nan(bits_of(tegbalowu_tanh_cell(x))); }

/* The columns of the list after the first, which is x. */
static const struct {
    const char *name;
    uint64_t (*leaf)(double x);
} LEAVES[] = {
    {"is_nan", is_nan},
    {"magnitude", magnitude},
    {"sign", sign},
    {"round_to_whole", round_to_whole},
    {"square_root", square_root},
    {"tanh_cell", tanh_cell},
};
enum { COUNT = sizeof LEAVES / sizeof *LEAVES };

/* Compares one line, and counts the leaves that differ. */
static void compare_line(uint64_t differ[COUNT])
{
    uint64_t x = next_bits();
    for (size_t k = 0; k < COUNT; k++) {
        uint64_t given = LEAVES[k].leaf(f64_of(x)), recorded = next_bits();
        if (given != recorded && differ[k]++ == 0)
            printf("%s of %" PRIx64 " is %" PRIx64 ", recorded is %" PRIx64 "\n", LEAVES[k].name, x, given, recorded);
    }
}

int main(void)
{
    uint64_t differ[COUNT] = {0}, all = 0, lines = next_number();
    expect("x");
    for (size_t k = 0; k < COUNT; k++)
        expect(LEAVES[k].name);
    for (uint64_t line = 0; line < lines; line++)
        compare_line(differ);
    expect_end();
    for (size_t k = 0; k < COUNT; k++) {
        printf("%s %" PRIu64 " calls, %" PRIu64 " differ\n", LEAVES[k].name, lines, differ[k]);
        all += differ[k];
    }
    return lines != 0 && all == 0 ? 0 : 1;
}
