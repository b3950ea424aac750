/* Inputs and timing for the rivals. The inputs are those of rust/inputs.rs, the timing that of rust/main.rs. */
#ifndef COMMON_H
#define COMMON_H
#include <stdint.h>
#include <stdio.h>
#include <time.h>

enum { COUNT = 8, LONGEST_BODY = 440, COMPARED = 100, RUNS = 40, SHORT = 150000 };

static const int MODULI[] = {4093, 1021};
static const int LENGTHS[] = {2, 22, 44, 64, 88, 132, 176, 220, 264, 308, 352, 396, 440};
enum { LENGTH_COUNT = sizeof LENGTHS / sizeof *LENGTHS };

static unsigned first_input(int modulus, int power) { return (1000 + 777 * power) % modulus; }
static unsigned second_input(int modulus, int power) { return (55 + 1777 * power) % modulus; }
static uint8_t body_byte(int place) { return (uint8_t)(11 + 37 * place); }

/* Eight groups of 11 bits, of a block of at most 11 bytes: the coefficients of its value at 4093. */
static void cut_block(const uint8_t *bytes, int length, unsigned out[COUNT])
{
    unsigned __int128 bits = 0;
    for (int k = 0; k < 11; k++)
        bits = bits << 8 | (k < length ? bytes[k] : 0);
    for (int k = 0; k < COUNT; k++)
        out[k] = (unsigned)(bits >> (77 - 11 * k)) & 2047;
}

/* Does that many turns, going on from the last result: no call repeats another one. */
typedef void (*work)(uint32_t turns);

static double nanoseconds(work run, uint32_t turns)
{
    struct timespec start, end;
    clock_gettime(CLOCK_MONOTONIC, &start);
    run(turns);
    clock_gettime(CLOCK_MONOTONIC, &end);
    return (end.tv_sec - start.tv_sec) * 1e9 + (end.tv_nsec - start.tv_nsec);
}

/* The nanoseconds of one operation, at best. */
static double best(work run, int operations)
{
    uint32_t turns = 1;
    while (nanoseconds(run, turns) < SHORT)
        turns *= 2;
    double shortest = nanoseconds(run, turns);
    for (int k = 1; k < RUNS; k++) {
        double time = nanoseconds(run, turns);
        if (time < shortest)
            shortest = time;
    }
    return shortest / turns / operations;
}

/* One line: row, side, nanoseconds, and the result after COMPARED turns as the plain Rust shows it. */
static void print_row(const char *name, int modulus, const char *side, double time, const unsigned result[COUNT])
{
    printf("%s field-%d\t%s\t%.3f\t", name, modulus, side, time);
    for (int k = 0; k < COUNT; k++)
        printf("%04x", result[k]);
    printf("\n");
}

#endif
