/*
 * Times single calls of the library by the size of the memories that they are lent, for bench/calls.
 * One line a call: its name, then nanoseconds, the mean of this run.
 */
#define _POSIX_C_SOURCE 199309L
#include <stdio.h>
#include <stdlib.h>
#include <time.h>

#include "tozhenab.h"

#define MOST_PERIPHERAL (TOZHENAB_PROCESSORS * TOZHENAB_PROCESSOR_WORDS)
#define FIELD 64

/*
 * An archive from before this call has none: its address is then null. An archive has one member,
 * so that a weak reference finds the call where it is there.
 */
#pragma weak tozhenab_central_turns

static uint64_t central[TOZHENAB_MEMORY_WORDS];
static uint16_t peripheral[MOST_PERIPHERAL];
/* A machine record begins with its central record, which the central calls are lent. */
static uint64_t machine[TOZHENAB_MACHINE_NUMBERS];
static uint64_t result[TOZHENAB_RUN_NUMBERS];

/* The words lent to the call that is timed. */
static size_t words, peripheral_words;

static uint64_t one_turn(void)
{
    return tozhenab_central_turn(central, words, machine, TOZHENAB_CENTRAL_NUMBERS);
}

static uint64_t many_turns(void)
{
    return tozhenab_central_turns(central, words, machine, TOZHENAB_CENTRAL_NUMBERS, 1000, result,
                                  TOZHENAB_MADE_NUMBERS);
}

static uint64_t peripheral_turn(void)
{
    return tozhenab_peripheral_turn(central, words, peripheral, peripheral_words, machine,
                                    TOZHENAB_MACHINE_NUMBERS, 0);
}

static uint64_t many_rounds(void)
{
    return tozhenab_run(central, words, peripheral, peripheral_words, machine,
                        TOZHENAB_MACHINE_NUMBERS, 1000, result, TOZHENAB_RUN_NUMBERS);
}

static double seconds(void)
{
    struct timespec now;
    clock_gettime(CLOCK_MONOTONIC, &now);
    return (double)now.tv_sec + 1e-9 * (double)now.tv_nsec;
}

/* Repeats the call for about a twentieth of a second. */
static void report(const char *name, size_t central_words, size_t processors, uint64_t (*call)(void))
{
    size_t calls = 0, batch = 1;
    double taken = 0;
    words = central_words;
    peripheral_words = processors * TOZHENAB_PROCESSOR_WORDS;
    while (taken < 0.05) {
        double begin = seconds();
        for (size_t i = 0; i < batch; i++) {
            if (call() != TOZHENAB_ACCEPTED) {
                fprintf(stderr, "%s was refused\n", name);
                exit(1);
            }
        }
        taken += seconds() - begin;
        calls += batch;
        batch *= 2;
    }
    printf("%s, %zu", name, words);
    if (processors != 0) {
        printf(" + %zu", peripheral_words);
    }
    printf(" words: %.0f\n", 1e9 * taken / (double)calls);
}

int main(void)
{
    static const size_t sizes[] = {FIELD, 4096, TOZHENAB_MEMORY_WORDS};
    /* The central word jumps to itself, 0400000000 in its upper half; so does each peripheral one, 0300. */
    central[0] = (uint64_t)0400000000 << 30;
    machine[TOZHENAB_CENTRAL_FL] = FIELD;
    for (size_t n = 0; n < TOZHENAB_PROCESSORS; n++) {
        peripheral[n * TOZHENAB_PROCESSOR_WORDS] = 0300;
    }
    for (size_t i = 0; i < sizeof sizes / sizeof *sizes; i++) {
        report("central turn", sizes[i], 0, one_turn);
    }
    if (tozhenab_central_turns != NULL) {
        for (size_t i = 0; i < sizeof sizes / sizeof *sizes; i++) {
            report("1,000 central turns", sizes[i], 0, many_turns);
        }
    }
    report("peripheral turn", FIELD, 1, peripheral_turn);
    report("peripheral turn", TOZHENAB_MEMORY_WORDS, TOZHENAB_PROCESSORS, peripheral_turn);
    report("run of 1,000 rounds", FIELD, 1, many_rounds);
    report("run of 1,000 rounds", TOZHENAB_MEMORY_WORDS, TOZHENAB_PROCESSORS, many_rounds);
    return 0;
}
