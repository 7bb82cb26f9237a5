/*
 * The sheet program's main: how the program is used, its exit status, and the words for a line that breaks its
 * columns. What it reads, answers and writes is `tegbalowu_sheet` of crates/sheet_run_c, which answers the numbers of
 * status, reason and line; crates/sheet_requests/specs/Whole.antt defines them.
 *
 * tools/sheet/build compiles this with the toolchain's compiler, which has no headers, so the functions and the
 * numbers of the C library of x86-64 Linux are declared here. VERSION is the text of the file VERSION.
 */
enum { INPUT = 0, OUTPUT = 1, ERRORS = 2, SIGPIPE = 13 };

typedef void handler(int number);

handler *signal(int number, handler *what);
int isatty(int file);
int close(int file);
int strcmp(const char *a, const char *b);
unsigned long strlen(const char *text);
long write(int file, const char *bytes, unsigned long count);
int dprintf(int file, const char *format, ...);
void perror(const char *what);

typedef struct {
    unsigned int status;
    unsigned int reason;
    unsigned long line;
} end;

end tegbalowu_sheet(void);

static const char USAGE[] = "usage: sheet < REQUESTS > ANSWERS\n";
static const char NAMED[] = "sheet " VERSION "\n";

/* Why a line breaks its columns, by the number of the reason: crates/sheet_lines/specs/Reason.antt has the numbers. */
static const char *const REASONS[] = {
    "",
    "another line length: a request has 26 columns, a price 12",
    "desk: not a decimal number in 4 columns",
    "rule: not a decimal number in 4 columns",
    "n: not a decimal number in 6 columns",
    "m: not a decimal number in 6 columns",
    "bars: not a decimal number in 6 columns",
    "rule: not 1, 2 or 3",
    "bars: more than 512",
    "price: not a decimal number in 12 columns",
    "the input ends inside a request",
};

/* Writes the words and then the usage to standard error: the status of wrong use. */
static int wrong(const char *why)
{
    if (write(ERRORS, why, strlen(why)) >= 0)
        (void)write(ERRORS, USAGE, strlen(USAGE));
    return 2;
}

/* The status after a write that failed. */
static int unwritten(void)
{
    perror("sheet: writing");
    return 1;
}

/* Writes the words to standard output, and answers the status. */
static int say(const char *words)
{
    return write(OUTPUT, words, strlen(words)) < 0 ? unwritten() : 0;
}

int main(int count, char **words)
{
    /* A reader that goes away is a write that fails, not the end of the program: SIG_IGN is 1. */
    signal(SIGPIPE, (handler *)1);
    if (count == 2 && strcmp(words[1], "--help") == 0)
        return say(USAGE);
    if (count == 2 && strcmp(words[1], "--version") == 0)
        return say(NAMED);
    if (count > 1)
        return wrong("sheet: it takes no argument; ");
    if (isatty(INPUT))
        return wrong("sheet: standard input is a terminal; ");
    end ended = tegbalowu_sheet();
    if (ended.status == 1)
        return 1;
    /* Some file systems tell only now that they could not keep what was written. */
    if (close(OUTPUT) != 0)
        return unwritten();
    if (ended.status == 3)
        dprintf(ERRORS, "sheet: line %lu: %s\n", ended.line, REASONS[ended.reason]);
    return (int)ended.status;
}
