/*
 * Makes the calls of a recorded list by the library's C functions, and compares what each leaves: its answer, the cells
 * that it writes, NaNs as one value, and all else that was lent, bit for bit, the bits inside NaNs too: output and work
 * cells that must stay, series, and guard cells around them. README.md beside this file has the form of the list.
 *   replay FUNCTION.. <calls.txt
 * Each FUNCTION must have a call in the list.
 * Exit status: 0 all calls were made and nothing differs; else 1.
 */
#include <inttypes.h>
#include <stdarg.h>

#include <tegbalowu.h>

#include "list.h"

/* How many series, parameters or outputs a call may have, and how many guard cells stand on each side of a slice. */
enum { MOST = 8, GUARD = 4 };

/* The longest slice; a longer one is an error of the list. */
static const uint64_t MOST_CELLS = 1 << 24;

/* What a cell holds before the call, with its place added, so that no other cell of the slice holds the same. */
static const uint64_t FILL_F64 = 0xc1cd6f3458900000, FILL_NAN = 0x7ff8dead00000000, FILL_WHOLE = 0xffffffffc521974f;

typedef enum { NONE, F64, I32, I64, U64, TYPES } cell_type;
static const char *const TYPE_NAMES[TYPES] = {"none", "f64", "i32", "i64", "u64"};
static const size_t SIZES[TYPES] = {0, sizeof(double), sizeof(int32_t), sizeof(int64_t), sizeof(uint64_t)};

/* A slice that is lent, with its guard cells: as it is now, and as it was before the call. */
typedef struct {
    cell_type type;
    size_t length;
    unsigned char *now, *before;
} slice;

/* A recorded call: its place in the list, and what it is given. */
typedef struct {
    const char *name;
    uint64_t place;
    slice in[MOST], out[MOST], work;
    uint64_t parameters[MOST];
    size_t in_count, out_count, parameter_count;
    bool differs;
} call;

/* The cells of a slice, which must be of the type that the function takes. */
static void *cells(const slice *s, cell_type type)
{
    if (s->type != type)
        fail("the list does not lend a slice of", TYPE_NAMES[type]);
    return s->now + GUARD * SIZES[type];
}

/* A parameter, which the list must have. */
static uint64_t parameter(const call *c, size_t k)
{
    if (k >= c->parameter_count)
        fail("the list has too few parameters of", c->name);
    return c->parameters[k];
}

static double *f64(const slice *s) { return cells(s, F64); }
static int32_t *i32(const slice *s) { return cells(s, I32); }
static int64_t *i64(const slice *s) { return cells(s, I64); }
static uint64_t *u64(const slice *s) { return cells(s, U64); }

/*
 * A line for each function: its name, and its arguments in the header's order, each by its place among the recorded
 * series, parameters or outputs. The compiler holds the line against the header, and `cells` against the list.
 */
#define IN(k) f64(&c->in[k]), c->in[k].length
#define OUT(type, k) type(&c->out[k]), c->out[k].length
#define WORK f64(&c->work), c->work.length
#define WHOLE(k) parameter(c, k)
#define REAL(k) f64_of(parameter(c, k))
#define FUNCTIONS(CALL) \
    CALL(sma, IN(0), WHOLE(0), OUT(f64, 0)) \
    CALL(ema, IN(0), WHOLE(0), OUT(f64, 0)) \
    CALL(exponential_smoothing, IN(0), REAL(0), OUT(f64, 0)) \
    CALL(double_sma_positions, IN(0), WHOLE(0), WHOLE(1), OUT(f64, 0)) \
    CALL(double_sma_ranges, IN(0), IN(1), WHOLE(0), WHOLE(1), OUT(i32, 0)) \
    CALL(ultimate_smoother, IN(0), REAL(0), OUT(f64, 0)) \
    CALL(true_range, IN(0), IN(1), IN(2), WHOLE(0), REAL(1), OUT(f64, 0)) \
    CALL(single_sma_positions, IN(0), WHOLE(0), OUT(f64, 0), WORK) \
    CALL(single_ema_positions, IN(0), WHOLE(0), OUT(f64, 0), WORK) \
    CALL(mid_positions, IN(0), WHOLE(0), OUT(f64, 0), WORK) \
    CALL(mms_positions, IN(0), WHOLE(0), WHOLE(1), OUT(f64, 0), WORK) \
    CALL(rank_positions, IN(0), WHOLE(0), OUT(f64, 0), WORK) \
    CALL(wilder_rsi, IN(0), WHOLE(0), OUT(f64, 0), WORK) \
    CALL(rsx_ss2, IN(0), WHOLE(0), WHOLE(1), OUT(f64, 0), WORK) \
    CALL(jurik_volty, IN(0), WHOLE(0), REAL(1), OUT(f64, 0), WORK) \
    CALL(ultimate_oscillator, IN(0), IN(1), IN(2), WHOLE(0), WHOLE(1), WHOLE(2), WHOLE(3), REAL(4), OUT(f64, 0), WORK) \
    CALL(holt_winters, IN(0), WHOLE(0), REAL(1), REAL(2), REAL(3), OUT(f64, 0), WORK) \
    CALL(triple_sma_positions, IN(0), WHOLE(0), WHOLE(1), WHOLE(2), OUT(i32, 0), WORK) \
    CALL(boll_positions, IN(0), WHOLE(0), REAL(1), OUT(i32, 0), WORK) \
    CALL(boll_reverse_positions, IN(0), WHOLE(0), REAL(1), OUT(i32, 0), WORK) \
    CALL(rsi_reverse_positions, IN(0), WHOLE(0), REAL(1), REAL(2), REAL(3), OUT(i32, 0), WORK) \
    CALL(rolling_rank, IN(0), WHOLE(0), OUT(u64, 0), WORK) \
    CALL(tick_mean, IN(0), WHOLE(0), OUT(i64, 0)) \
    CALL(ultimate_bands, IN(0), WHOLE(0), REAL(1), WHOLE(2), OUT(f64, 0), OUT(f64, 1), OUT(f64, 2), WORK) \
    CALL(ultimate_channel, IN(0), IN(1), IN(2), WHOLE(0), REAL(1), WHOLE(2), REAL(3), OUT(f64, 0), OUT(f64, 1), \
         OUT(f64, 2), WORK) \
    CALL(tanh_positions, IN(0), WHOLE(0), OUT(f64, 0), WORK)

#define DEFINED(name, ...) \
    static tegbalowu_answer call_##name(const call *c) { return tegbalowu_##name(__VA_ARGS__); }
FUNCTIONS(DEFINED)

/* The functions, and how many of their calls were made and how many of these differ. */
#define LISTED(name, ...) {#name, call_##name, 0, 0},
static struct {
    const char *name;
    tegbalowu_answer (*call)(const call *c);
    uint64_t calls, differ;
} table[] = {FUNCTIONS(LISTED)};
enum { COUNT = sizeof table / sizeof *table };

/* Where a function stands in the table; COUNT where it does not. */
static size_t row_of(const char *name)
{
    size_t row = 0;
    while (row < COUNT && !is(table[row].name, name))
        row++;
    return row;
}

/* The word at a place of a slice's memory, guard cells counted; cells of 32 bits are widened with their sign. */
static uint64_t word_at(const slice *s, const unsigned char *memory, size_t place)
{
    uint64_t word;
    int32_t narrow;
    if (s->type == I32) {
        memcpy(&narrow, memory + sizeof narrow * place, sizeof narrow);
        return (uint64_t)(int64_t)narrow;
    }
    memcpy(&word, memory + sizeof word * place, sizeof word);
    return word;
}

static void put(const slice *s, size_t place, uint64_t word)
{
    int32_t narrow = (int32_t)(int64_t)word;
    if (s->type == I32)
        memcpy(s->now + sizeof narrow * place, &narrow, sizeof narrow);
    else
        memcpy(s->now + sizeof word * place, &word, sizeof word);
}

static size_t places(const slice *s)
{
    return s->length + 2 * GUARD;
}

/* A slice of this many cells, filled; of f64 every second one with a NaN. */
static slice lend(cell_type type, size_t length)
{
    slice s = {type, length, NULL, NULL};
    if (length > MOST_CELLS)
        fail("the list has too long a slice of", TYPE_NAMES[type]);
    s.now = calloc(places(&s), SIZES[type]);
    s.before = calloc(places(&s), SIZES[type]);
    if (!s.now || !s.before)
        fail("no memory for a slice of", TYPE_NAMES[type]);
    for (size_t place = 0; place < places(&s); place++)
        if (type == F64)
            put(&s, place, (place % 2 ? FILL_NAN : FILL_F64) + place);
        else
            put(&s, place, FILL_WHOLE + place);
    return s;
}

/* Notes what a slice holds. */
static void note(const slice *s)
{
    if (s->type != NONE)
        memcpy(s->before, s->now, SIZES[s->type] * places(s));
}

static void give_back(const slice *s)
{
    free(s->now);
    free(s->before);
}

/* Does something with each slice of a call. */
static void each_slice(const call *c, void (*apply)(const slice *s))
{
    for (size_t k = 0; k < MOST; k++) {
        apply(&c->in[k]);
        apply(&c->out[k]);
    }
    apply(&c->work);
}

static cell_type next_type(void)
{
    const char *word = next_word();
    for (cell_type type = F64; type < TYPES; type++)
        if (is(word, TYPE_NAMES[type]))
            return type;
    fail("the list has no such type:", word);
}

/* The place of one series, parameter or output more. */
static size_t one_more(size_t *count)
{
    if (*count == MOST)
        fail("replay.c has no room for so many series, parameters or outputs", "");
    return (*count)++;
}

/* A series that is written out. */
static slice next_series(void)
{
    cell_type type = next_type();
    slice s = lend(type, next_number());
    for (size_t i = 0; i < s.length; i++)
        put(&s, GUARD + i, next_bits());
    return s;
}

/* A series that is made by a rule: whole numbers from 1 to 10,007. */
static slice series_by_rule(void)
{
    slice s = lend(F64, next_number());
    uint64_t shift = next_number();
    for (size_t i = 0; i < s.length; i++)
        put(&s, GUARD + i, bits_of((double)((i + shift) * 7919 % 10007 + 1)));
    return s;
}

static slice next_output(void)
{
    cell_type type = next_type();
    return lend(type, next_number());
}

/* Reads what a call is given, and the word `answer` after it. */
static void read_given(call *c)
{
    for (;;) {
        const char *part = next_word();
        if (is(part, "in"))
            c->in[one_more(&c->in_count)] = next_series();
        else if (is(part, "rule"))
            c->in[one_more(&c->in_count)] = series_by_rule();
        else if (is(part, "whole"))
            c->parameters[one_more(&c->parameter_count)] = next_number();
        else if (is(part, "real"))
            c->parameters[one_more(&c->parameter_count)] = next_bits();
        else if (is(part, "out"))
            c->out[one_more(&c->out_count)] = next_output();
        else if (is(part, "work") && c->work.type == NONE)
            c->work = lend(F64, next_number());
        else if (is(part, "answer"))
            return;
        else
            fail("a call has no such part:", part);
    }
}

/* Notes that a call differs, and says how it does first. */
static void differs(call *c, const char *how, ...)
{
    va_list values;
    if (!c->differs) {
        printf("%s, call %" PRIu64 " of the list: ", c->name, c->place);
        va_start(values, how);
        vprintf(how, values);
        va_end(values);
        printf("\n");
    }
    c->differs = true;
}

/* Compares all of a slice but its first `written` cells with what it held before the call, guard cells too. */
static void compare_kept(call *c, const slice *s, const char *what, size_t written)
{
    for (size_t place = 0; place < places(s); place++) {
        uint64_t now = word_at(s, s->now, place), before = word_at(s, s->before, place);
        bool kept = place < GUARD || place >= GUARD + written;
        if (kept && now != before)
            differs(c, "cell %td of %s was %" PRIx64 " and must stay; it is %" PRIx64, (ptrdiff_t)place - GUARD, what,
                    before, now);
    }
}

/* A cell as the list has it. */
static uint64_t cell(const slice *s, size_t i)
{
    uint64_t word = word_at(s, s->now, GUARD + i);
    return s->type == F64 ? one_nan(word) : word;
}

/* One word of a slice's first cells. The modulus is prime: by a power of two wrong signs would cancel in pairs. */
static uint64_t digest(const slice *s, uint64_t count)
{
    const uint64_t prime = 4294967291;
    uint64_t digest = 0;
    for (size_t i = 0; i < count; i++)
        digest = (digest * 2654435761 + cell(s, i) % prime) % prime;
    return digest;
}

/* Compares an output with the list: its first cells with those recorded, all others with what they held. */
static void compare_output(call *c, size_t k, uint64_t count)
{
    const slice *s = &c->out[k];
    const char *form = next_word();
    if (count > s->length)
        fail("the list has a count beyond an output of", c->name);
    if (is(form, "cells")) {
        for (size_t i = 0; i < count; i++) {
            uint64_t now = cell(s, i), recorded = next_bits();
            if (now != recorded)
                differs(c, "cell %zu of output %zu is %" PRIx64 ", recorded is %" PRIx64, i, k, now, recorded);
        }
    } else if (is(form, "digest")) {
        uint64_t now = digest(s, count), recorded = next_bits();
        if (now != recorded)
            differs(c, "output %zu has the digest %" PRIx64 ", recorded is %" PRIx64, k, now, recorded);
    } else {
        fail("an output has cells or a digest: the list has", form);
    }
    compare_kept(c, s, "an output", count);
}

/* Compares a work slice: its first cells hold +0.0, and all others what they held. */
static void compare_work(call *c)
{
    const slice *s = &c->work;
    expect("cleared");
    uint64_t cleared = next_number();
    if (cleared > s->length)
        fail("the list clears more than the work slice of", c->name);
    for (size_t i = 0; i < cleared; i++)
        if (word_at(s, s->now, GUARD + i) != 0)
            differs(c, "work cell %zu is not +0.0", i);
    compare_kept(c, s, "the work slice", cleared);
}

/* Compares what a call leaves with the rest of its record. */
static void compare(call *c, tegbalowu_answer answer)
{
    uint64_t refusal = next_number(), count = next_number();
    if (answer.refusal != refusal)
        differs(c, "refusal %" PRIu64 ", recorded is %" PRIu64, answer.refusal, refusal);
    if (answer.count != count)
        differs(c, "count %" PRIu64 ", recorded is %" PRIu64, answer.count, count);
    for (size_t k = 0; k < c->in_count; k++)
        compare_kept(c, &c->in[k], "a series", 0);
    for (size_t k = 0; k < c->out_count; k++)
        compare_output(c, k, count);
    if (c->work.type != NONE)
        compare_work(c);
}

/* Makes the next call of the list. */
static void run_call(uint64_t place)
{
    call c = {0};
    expect("call");
    const char *name = next_word();
    size_t row = row_of(name);
    if (row == COUNT)
        fail("replay.c has no line for the function", name);
    c.name = table[row].name;
    c.place = place;
    read_given(&c);
    each_slice(&c, note);
    compare(&c, table[row].call(&c));
    each_slice(&c, give_back);
    table[row].calls++;
    table[row].differ += c.differs;
}

/* Prints the table's counts. Whether some call was made and none differs. */
static bool report(void)
{
    uint64_t calls = 0, differ = 0;
    for (size_t row = 0; row < COUNT; row++) {
        printf("%s %" PRIu64 " calls, %" PRIu64 " differ\n", table[row].name, table[row].calls, table[row].differ);
        calls += table[row].calls;
        differ += table[row].differ;
    }
    printf("%" PRIu64 " calls, %" PRIu64 " differ\n", calls, differ);
    return calls != 0 && differ == 0;
}

int main(int count, char **names)
{
    expect("calls");
    uint64_t calls = next_number();
    for (uint64_t place = 1; place <= calls; place++)
        run_call(place);
    expect_end();
    bool good = report();
    for (int k = 1; k < count; k++) {
        size_t row = row_of(names[k]);
        if (row == COUNT || table[row].calls == 0)
            fail("the list has no call of", names[k]);
    }
    return good ? 0 : 1;
}
