/*
 * Reads a recorded list from standard input: words with blanks or line feeds between them. Where the list is not in its
 * form, the program says why and ends with status 1.
 */
#ifndef LIST_H
#define LIST_H

#include <errno.h>
#include <stdbool.h>
#include <stdint.h>
#include <stdio.h>
#include <stdlib.h>
#include <string.h>

/* Ends the program: what is wrong, and the word at which that is seen. */
static inline _Noreturn void fail(const char *what, const char *word)
{
    fflush(stdout);
    fprintf(stderr, "%s %s\n", what, word);
    exit(1);
}

/* The next word, which is kept until the one after it is read. */
static inline const char *next_word(void)
{
    static char word[64];
    if (scanf("%63s", word) != 1)
        fail("the list breaks off", "");
    return word;
}

static inline bool is(const char *word, const char *other)
{
    return strcmp(word, other) == 0;
}

/* Reads one certain word. */
static inline void expect(const char *word)
{
    const char *found = next_word();
    if (!is(found, word)) {
        fprintf(stderr, "the list should have '%s': ", word);
        fail("it has", found);
    }
}

/* A number, of digits alone. */
static inline uint64_t number(int base)
{
    const char *word = next_word();
    char *end;
    errno = 0;
    unsigned long long value = strtoull(word, &end, base);
    if (*end != '\0' || errno != 0 || strchr("+-", word[0]))
        fail("the list should have a number: it has", word);
    return value;
}

/* A length or a count, in decimal. */
static inline uint64_t next_number(void)
{
    return number(10);
}

/* Some 64 bits, in hexadecimal: those of an f64, or of a whole number in two's complement. */
static inline uint64_t next_bits(void)
{
    return number(16);
}

/* Nothing stands behind the last record. */
static inline void expect_end(void)
{
    char more[2];
    if (scanf("%1s", more) == 1)
        fail("the list goes on after its last record, with", more);
}

static inline uint64_t bits_of(double x)
{
    uint64_t bits;
    memcpy(&bits, &x, sizeof bits);
    return bits;
}

static inline double f64_of(uint64_t bits)
{
    double x;
    memcpy(&x, &bits, sizeof x);
    return x;
}

/* The bits of an f64 as lists have them: those of one NaN for every NaN. */
static inline uint64_t one_nan(uint64_t bits)
{
    double x = f64_of(bits);
    return x != x ? 0x7ff8000000000000 : bits;
}

#endif
