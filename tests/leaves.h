/*
 * The leaves, and the cell of a score, as C functions, proved in crates/capi_leaves: for tests/leaves.c and tools/root.
 * They are no part of the library that is installed. Each takes every f64; of a NaN they promise no bits.
 */
#ifndef LEAVES_H
#define LEAVES_H

#include <stdbool.h>

/* Whether x is no number. */
bool tegbalowu_is_nan(double x);

/* x without its sign. */
double tegbalowu_magnitude(double x);

/* 1.0 with the sign of x, that of a zero too; NaN for NaN. */
double tegbalowu_sign(double x);

/* The whole number nearest x, a half away from zero. */
double tegbalowu_round_to_whole(double x);

/* The f64 nearest the root of x, ties to even; NaN below zero. */
double tegbalowu_square_root(double x);

/* The cell of `tanh_positions` for a score: its tanh in hundredths, by the recorded thresholds; NaN for NaN. */
double tegbalowu_tanh_cell(double score);

#endif
