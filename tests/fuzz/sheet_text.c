/*
 * A fuzz target: tegbalowu_sheet_text on any bytes. tests/sheet_fuzz builds and runs it.
 *
 * Each input is read a second time here, by columns, as docs/SCOPE.md has them; the positions are those of the
 * library's own rules. The call must give the bytes of that reading and leave all later ones, give the same again,
 * leave the input, and refuse exactly the outputs that are shorter than input_len + TEGBALOWU_SHEET_ROOM.
 */
#include <stdio.h>
#include <stdlib.h>
#include <string.h>
#include "tegbalowu.h"

enum { MOST_BARS = 512, HEADER = 26, PRICE = 12, DESKS = 16, LONGER = 7 };

int LLVMFuzzerTestOneInput(const uint8_t *data, size_t size);

static void must(int holds, const char *what)
{
    if (!holds) {
        fprintf(stderr, "sheet_text: %s\n", what);
        abort();
    }
}

/* The input that is left to read, and the text so far. */
typedef struct {
    const uint8_t *next, *end;
    char *text;
    size_t filled, room;
} reading;

typedef struct {
    long desk, rule, n, m, bars;
    double prices[MOST_BARS];
} request;

static void print(reading *at, const char *line)
{
    size_t length = strlen(line);
    must(length <= at->room - at->filled, "the sheet is longer than its room");
    memcpy(at->text + at->filled, line, length);
    at->filled += length;
}

static void print_head(reading *at, long desk, long rule, unsigned long refusal, unsigned long count)
{
    char line[64];
    snprintf(line, sizeof line, "%4ld%4ld%4lu%6lu\n", desk, rule, refusal, count);
    print(at, line);
}

/* Takes a line of so many columns and its line feed; NULL where there is none. */
static const uint8_t *take_line(reading *at, size_t columns)
{
    const uint8_t *line = at->next;
    size_t left = (size_t)(at->end - line);
    if (left <= columns || memchr(line, '\n', columns) != NULL || line[columns] != '\n')
        return NULL;
    at->next = line + columns + 1;
    return line;
}

/* Whether the columns are blanks, a minus where `sign` is 1 and there is one, and digits to the last; their number. */
static int decimal(const uint8_t *field, size_t columns, int sign, long *number)
{
    size_t i = 0;
    int below = 0;
    while (i < columns && field[i] == ' ')
        i++;
    if (sign && i < columns && field[i] == '-') {
        below = 1;
        i++;
    }
    if (i == columns)
        return 0;
    for (*number = 0; i < columns; i++) {
        if (field[i] < '0' || field[i] > '9')
            return 0;
        *number = *number * 10 + (field[i] - '0');
    }
    if (below)
        *number = -*number;
    return 1;
}

/* Reads a request; 0 where a line breaks its columns. */
static int read_request(reading *at, request *asked)
{
    const uint8_t *line = take_line(at, HEADER);
    if (line == NULL || !decimal(line, 4, 0, &asked->desk) || !decimal(line + 4, 4, 0, &asked->rule) ||
        !decimal(line + 8, 6, 0, &asked->n) || !decimal(line + 14, 6, 0, &asked->m) ||
        !decimal(line + 20, 6, 0, &asked->bars))
        return 0;
    if (asked->rule < 1 || asked->rule > 3 || asked->bars > MOST_BARS)
        return 0;
    for (long i = 0; i < asked->bars; i++) {
        long price;
        line = take_line(at, PRICE);
        if (line == NULL || !decimal(line, PRICE, 1, &price))
            return 0;
        asked->prices[i] = (double)price;
    }
    return 1;
}

/* Prints the answer of a request, and counts it for its desk where its rule refuses it. */
static void answer(reading *at, const request *asked, unsigned long refused[DESKS])
{
    static double out[MOST_BARS], work[8 * MOST_BARS];
    size_t bars = (size_t)asked->bars, n = (size_t)asked->n;
    tegbalowu_answer given;
    if (asked->desk < 1 || asked->desk > DESKS) {
        print_head(at, asked->desk, asked->rule, 15, 0);
        return;
    }
    if (asked->rule == 1)
        given = tegbalowu_single_sma_positions(asked->prices, bars, n, out, bars, work, 8 * bars);
    else if (asked->rule == 2)
        given = tegbalowu_double_sma_positions(asked->prices, bars, n, (size_t)asked->m, out, bars);
    else
        given = tegbalowu_mid_positions(asked->prices, bars, n, out, bars, work, 8 * bars);
    print_head(at, asked->desk, asked->rule, given.refusal, given.count);
    for (size_t i = 0; i < given.count; i++)
        print(at, out[i] == 1.0 ? "   1\n" : out[i] == -1.0 ? "  -1\n" : "   0\n");
    refused[asked->desk - 1] += given.refusal != 0;
}

/* The sheet of the input: how many bytes it has. */
static size_t sheet_of(const uint8_t *input, size_t length, char *text, size_t room)
{
    static request asked;
    reading at = {input, input + length, text, 0, room};
    unsigned long refused[DESKS] = {0};
    int whole = 1;
    char line[64];
    while (whole && at.next != at.end) {
        whole = read_request(&at, &asked);
        if (whole)
            answer(&at, &asked, refused);
        else
            print_head(&at, 0, 0, 10, 0);
    }
    for (int desk = 1; desk <= DESKS; desk++) {
        snprintf(line, sizeof line, "%4d%12lu\n", desk, refused[desk - 1]);
        print(&at, line);
    }
    return at.filled;
}

/* Whether the bytes from `from` to `to` still are what they were filled with. */
static int kept(const uint8_t *bytes, size_t from, size_t to, uint8_t filled)
{
    for (size_t i = from; i < to; i++)
        if (bytes[i] != filled)
            return 0;
    return 1;
}

/* A call with so long an output, of bytes that are `filled`, against the sheet. */
static void try_call(const uint8_t *input, size_t length, size_t out_len, uint8_t filled, const char *sheet,
                     size_t sheet_len)
{
    uint8_t *out = malloc(out_len + 1);
    must(out != NULL, "no memory");
    memset(out, filled, out_len + 1);
    tegbalowu_answer given = tegbalowu_sheet_text(input, length, out, out_len);
    if (out_len < length + TEGBALOWU_SHEET_ROOM) {
        must(given.refusal == 3 && given.count == 0, "an output that is too short is not refused");
        must(kept(out, 0, out_len + 1, filled), "a refused call changes its output");
    } else {
        must(given.refusal == 0, "an output that is long enough is refused");
        must(given.count <= length + TEGBALOWU_SHEET_ROOM, "the count is above the room");
        must(given.count == sheet_len, "the count is not that of the sheet");
        must(memcmp(out, sheet, sheet_len) == 0, "the bytes are not those of the sheet");
        must(kept(out, sheet_len, out_len + 1, filled), "a later byte changes");
    }
    free(out);
}

int LLVMFuzzerTestOneInput(const uint8_t *data, size_t size)
{
    size_t enough = size + TEGBALOWU_SHEET_ROOM;
    uint8_t *input = calloc(1, size + 1);
    char *sheet = malloc(enough);
    must(input != NULL && sheet != NULL, "no memory");
    if (size > 0)
        memcpy(input, data, size);
    size_t sheet_len = sheet_of(input, size, sheet, enough);
    try_call(input, size, 0, 0x5a, sheet, sheet_len);
    try_call(input, size, enough - 1, 0x5a, sheet, sheet_len);
    try_call(input, size, enough, 0xa5, sheet, sheet_len);
    try_call(input, size, enough + LONGER, 0x00, sheet, sheet_len);
    must(size == 0 || memcmp(input, data, size) == 0, "the input changes");
    free(sheet);
    free(input);
    return 0;
}
