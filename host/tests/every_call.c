/* Makes each call of tozhenab.h, so that every declaration is tried against the archive: a call
 * that passed a slice or a number in another place would give another answer. */
#include "tozhenab.h"

#include <inttypes.h>
#include <stdio.h>
#include <string.h>

#define WORDS 0100
#define LENGTH(array) (sizeof(array) / sizeof((array)[0]))

static int failures = 0;

static void expect(const char *what, uint64_t found, uint64_t expected)
{
    if (found != expected) {
        printf("%s: %" PRIo64 " in place of %" PRIo64 "\n", what, found, expected);
        failures++;
    }
}

/* A memory with one program: its package at 0, its field of four words at 20 octal. The first word
 * sets X6 to 5 and stores it at 3; the next one stops. */
static void load(uint64_t *memory)
{
    memset(memory, 0, WORDS * sizeof memory[0]);
    memory[1] = UINT64_C(020) << 36;
    memory[2] = UINT64_C(4) << 36;
    memory[020] = UINT64_C(071600000055160000003);
}

static void exchange_and_central_turn(void)
{
    uint64_t memory[WORDS];
    uint64_t record[TOZHENAB_CENTRAL_NUMBERS] = {0};

    load(memory);
    expect("exchange past the end",
           tozhenab_exchange(memory, LENGTH(memory), record, LENGTH(record), 061),
           TOZHENAB_PACKAGE_PAST_END);
    expect("exchange", tozhenab_exchange(memory, LENGTH(memory), record, LENGTH(record), 0),
           TOZHENAB_ACCEPTED);
    expect("exchange: RA", record[TOZHENAB_CENTRAL_RA], 020);
    expect("exchange: FL", record[TOZHENAB_CENTRAL_FL], 4);
    expect("exchange: the package", memory[1], 0);
    expect("central turn of a short record",
           tozhenab_central_turn(memory, LENGTH(memory), record, LENGTH(record) - 1),
           TOZHENAB_RECORD_VALUE);
    expect("central turn", tozhenab_central_turn(memory, LENGTH(memory), record, LENGTH(record)),
           TOZHENAB_ACCEPTED);
    expect("central turn: P", record[TOZHENAB_CENTRAL_P], 1);
    expect("central turn: X6", record[TOZHENAB_CENTRAL_X + 6], 5);
    expect("central turn: A6", record[TOZHENAB_CENTRAL_A + 6], 3);
    expect("central turn: the word stored", memory[023], 5);
}

/* X6 = X1 + X2, floating, of an infinite X1 and then of an indefinite X2 too: stops 7 and 8 by the
 * bits of EM. A record may hold them, but not 6 or 9. */
static void stops_of_operands(void)
{
    uint64_t memory[WORDS];
    uint64_t record[TOZHENAB_CENTRAL_NUMBERS] = {0};
    uint64_t *stop = &record[TOZHENAB_CENTRAL_STOP];

    load(memory);
    memory[020] = UINT64_C(030612460004600046000);
    record[TOZHENAB_CENTRAL_RA] = 020;
    record[TOZHENAB_CENTRAL_FL] = 4;
    record[TOZHENAB_CENTRAL_EM] = 020000;
    record[TOZHENAB_CENTRAL_X + 1] = UINT64_C(03777) << 48;
    expect("sum of an infinite operand",
           tozhenab_central_turn(memory, LENGTH(memory), record, LENGTH(record)),
           TOZHENAB_ACCEPTED);
    expect("sum of an infinite operand: stop", *stop, 7);
    *stop = 0;
    record[TOZHENAB_CENTRAL_EM] = 060000;
    record[TOZHENAB_CENTRAL_X + 2] = UINT64_C(01777) << 48;
    expect("sum of an indefinite operand",
           tozhenab_central_turn(memory, LENGTH(memory), record, LENGTH(record)),
           TOZHENAB_ACCEPTED);
    expect("sum of an indefinite operand: stop", *stop, 8);
    expect("sum of an indefinite operand: X6", record[TOZHENAB_CENTRAL_X + 6], 0);
    expect("turn of a record with stop 8",
           tozhenab_central_turn(memory, LENGTH(memory), record, LENGTH(record)),
           TOZHENAB_ACCEPTED);
    *stop = 6;
    expect("turn of a record with stop 6",
           tozhenab_central_turn(memory, LENGTH(memory), record, LENGTH(record)),
           TOZHENAB_RECORD_VALUE);
    *stop = 9;
    expect("turn of a record with stop 9",
           tozhenab_central_turn(memory, LENGTH(memory), record, LENGTH(record)),
           TOZHENAB_RECORD_VALUE);
}

/* n turns and then k are n + k: one and four on one memory, five on another. */
static void central_turns(void)
{
    uint64_t memory[WORDS], other[WORDS];
    uint64_t record[TOZHENAB_CENTRAL_NUMBERS] = {0}, same[TOZHENAB_CENTRAL_NUMBERS];
    uint64_t made[TOZHENAB_MADE_NUMBERS] = {7};

    load(memory);
    load(other);
    record[TOZHENAB_CENTRAL_RA] = 020;
    record[TOZHENAB_CENTRAL_FL] = 4;
    memcpy(same, record, sizeof same);
    expect("one turn of many",
           tozhenab_central_turns(memory, LENGTH(memory), record, LENGTH(record), 1, made,
                                  LENGTH(made)),
           TOZHENAB_ACCEPTED);
    expect("one turn of many: turns", made[0], 1);
    expect("one turn of many: P", record[TOZHENAB_CENTRAL_P], 1);
    expect("one turn of many: stop", record[TOZHENAB_CENTRAL_STOP], 0);
    expect("four turns more",
           tozhenab_central_turns(memory, LENGTH(memory), record, LENGTH(record), 4, made,
                                  LENGTH(made)),
           TOZHENAB_ACCEPTED);
    expect("four turns more: turns up to the stop", made[0], 1);
    expect("four turns more: stop", record[TOZHENAB_CENTRAL_STOP], 1);
    expect("five turns",
           tozhenab_central_turns(other, LENGTH(other), same, LENGTH(same), 5, made, LENGTH(made)),
           TOZHENAB_ACCEPTED);
    expect("five turns: turns", made[0], 2);
    expect("five turns: the word stored", other[023], 5);
    expect("five turns: memory", (uint64_t)memcmp(memory, other, sizeof memory), 0);
    expect("five turns: record", (uint64_t)memcmp(record, same, sizeof record), 0);
    expect("turns of a stopped processor",
           tozhenab_central_turns(other, LENGTH(other), same, LENGTH(same), 5, made, LENGTH(made)),
           TOZHENAB_ACCEPTED);
    expect("turns of a stopped processor: turns", made[0], 0);
}

/* Each refusal of many turns, lowest number first: 65,536 of them are asked throughout. */
static void central_turns_refused(void)
{
    uint64_t memory[WORDS];
    uint64_t record[TOZHENAB_CENTRAL_NUMBERS] = {0};
    uint64_t made[TOZHENAB_MADE_NUMBERS] = {7};
    const uint64_t many = TOZHENAB_TURNS + 1;

    load(memory);
    memory[0] = UINT64_C(1) << 60;
    expect("many turns on no memory",
           tozhenab_central_turns(memory, 0, record, LENGTH(record) - 1, many, made, 0),
           TOZHENAB_CENTRAL_LENGTH);
    expect("many turns on a word of 61 bits",
           tozhenab_central_turns(memory, LENGTH(memory), record, LENGTH(record) - 1, many, made,
                                  0),
           TOZHENAB_CENTRAL_WORD);
    memory[0] = 0;
    expect("many turns of a short record",
           tozhenab_central_turns(memory, LENGTH(memory), record, LENGTH(record) - 1, many, made,
                                  0),
           TOZHENAB_RECORD_VALUE);
    expect("many turns in a short result",
           tozhenab_central_turns(memory, LENGTH(memory), record, LENGTH(record), many, made, 0),
           TOZHENAB_LIST_LENGTH);
    expect("many turns: a short result is kept", made[0], 7);
    expect("too many turns",
           tozhenab_central_turns(memory, LENGTH(memory), record, LENGTH(record), many, made,
                                  LENGTH(made)),
           TOZHENAB_TOO_MANY_TURNS);
    expect("too many turns: turns", made[0], 0);
}

static void run_program(void)
{
    uint64_t memory[WORDS];
    const uint64_t record[TOZHENAB_CENTRAL_NUMBERS] = {0};
    uint64_t ran[TOZHENAB_RAN_NUMBERS] = {7, 7};

    load(memory);
    expect("run of a program in a short result",
           tozhenab_run_program(memory, LENGTH(memory), record, LENGTH(record), 0, 5, ran,
                                LENGTH(ran) - 1),
           TOZHENAB_LIST_LENGTH);
    expect("run of a program: a short result is kept", ran[TOZHENAB_RAN_TURNS], 7);
    expect("run of a program past the end",
           tozhenab_run_program(memory, LENGTH(memory), record, LENGTH(record), 061, 5, ran,
                                LENGTH(ran)),
           TOZHENAB_PACKAGE_PAST_END);
    expect("refused run of a program: turns", ran[TOZHENAB_RAN_TURNS], 0);
    expect("refused run of a program: stop", ran[TOZHENAB_RAN_STOP], 0);
    expect("run of a program",
           tozhenab_run_program(memory, LENGTH(memory), record, LENGTH(record), 0, 5, ran,
                                LENGTH(ran)),
           TOZHENAB_ACCEPTED);
    expect("run of a program: turns", ran[TOZHENAB_RAN_TURNS], 2);
    expect("run of a program: stop", ran[TOZHENAB_RAN_STOP], 1);
    expect("run of a program: the word stored", memory[023], 5);
}

static void schedule(void)
{
    uint64_t memory[WORDS];
    const uint64_t record[TOZHENAB_CENTRAL_NUMBERS] = {0};
    const uint64_t jobs[] = {0};
    const uint64_t stint_jobs[] = {0, 0, 0};
    const uint64_t stint_turns[] = {0, 1, 7};
    uint64_t ran[LENGTH(stint_jobs) * TOZHENAB_RAN_NUMBERS];

    load(memory);
    expect("schedule with a stint of another job",
           tozhenab_schedule(memory, LENGTH(memory), record, LENGTH(record), jobs, LENGTH(jobs),
                             stint_turns, LENGTH(stint_turns), stint_jobs, LENGTH(stint_jobs), ran,
                             LENGTH(ran)),
           TOZHENAB_UNLISTED_JOB);
    expect("schedule",
           tozhenab_schedule(memory, LENGTH(memory), record, LENGTH(record), jobs, LENGTH(jobs),
                             stint_jobs, LENGTH(stint_jobs), stint_turns, LENGTH(stint_turns), ran,
                             LENGTH(ran)),
           TOZHENAB_ACCEPTED);
    expect("schedule: turns of the first stint", ran[TOZHENAB_RAN_TURNS], 0);
    expect("schedule: turns of the second stint",
           ran[TOZHENAB_RAN_NUMBERS + TOZHENAB_RAN_TURNS], 1);
    expect("schedule: stop of the third stint",
           ran[2 * TOZHENAB_RAN_NUMBERS + TOZHENAB_RAN_STOP], 1);
    expect("schedule: the word stored", memory[023], 5);
}

/* TOZHENAB_JOBS programs are accepted, and one more is not. Each has an empty field, so that its one
 * turn stops with 3. */
static void schedule_of_most_jobs(void)
{
    uint64_t memory[16 * (TOZHENAB_JOBS + 1)] = {0};
    const uint64_t record[TOZHENAB_CENTRAL_NUMBERS] = {0};
    uint64_t jobs[TOZHENAB_JOBS + 1];
    const uint64_t stint_jobs[] = {TOZHENAB_JOBS - 1};
    const uint64_t stint_turns[] = {5};
    uint64_t ran[TOZHENAB_RAN_NUMBERS] = {7, 7};
    size_t n;

    for (n = 0; n < LENGTH(jobs); n++)
        jobs[n] = 16 * n;
    expect("schedule of one job too many",
           tozhenab_schedule(memory, LENGTH(memory), record, LENGTH(record), jobs, LENGTH(jobs),
                             stint_jobs, LENGTH(stint_jobs), stint_turns, LENGTH(stint_turns), ran,
                             LENGTH(ran)),
           TOZHENAB_LIST_LENGTH);
    expect("schedule of one job too many: turns", ran[TOZHENAB_RAN_TURNS], 0);
    expect("schedule of most jobs",
           tozhenab_schedule(memory, LENGTH(memory), record, LENGTH(record), jobs, TOZHENAB_JOBS,
                             stint_jobs, LENGTH(stint_jobs), stint_turns, LENGTH(stint_turns), ran,
                             LENGTH(ran)),
           TOZHENAB_ACCEPTED);
    expect("schedule of most jobs: turns", ran[TOZHENAB_RAN_TURNS], 1);
    expect("schedule of most jobs: stop", ran[TOZHENAB_RAN_STOP], 3);
}

/* Processor 1 begins with LDN 05 and LDN 07; processor 0 stops at once, since 71 is left out. */
static void peripheral_turn_and_run(void)
{
    static uint16_t peripheral[2 * TOZHENAB_PROCESSOR_WORDS];
    uint64_t central[WORDS];
    uint64_t record[TOZHENAB_MACHINE_NUMBERS] = {0};
    uint64_t made[TOZHENAB_RUN_NUMBERS];

    load(central);
    record[TOZHENAB_CENTRAL_STOP] = 1;
    peripheral[0] = 07100;
    peripheral[TOZHENAB_PROCESSOR_WORDS] = 01405;
    peripheral[TOZHENAB_PROCESSOR_WORDS + 1] = 01407;
    expect("turn of a processor that is not there",
           tozhenab_peripheral_turn(central, LENGTH(central), peripheral, LENGTH(peripheral),
                                    record, LENGTH(record), 2),
           TOZHENAB_PERIPHERAL_LENGTH);
    expect("peripheral turn",
           tozhenab_peripheral_turn(central, LENGTH(central), peripheral, LENGTH(peripheral),
                                    record, LENGTH(record), 1),
           TOZHENAB_ACCEPTED);
    expect("peripheral turn: P", record[TOZHENAB_MACHINE_PROCESSOR(1) + TOZHENAB_PROCESSOR_P], 1);
    expect("peripheral turn: A", record[TOZHENAB_MACHINE_PROCESSOR(1) + TOZHENAB_PROCESSOR_A], 5);
    expect("run of too many rounds",
           tozhenab_run(central, LENGTH(central), peripheral, LENGTH(peripheral), record,
                        LENGTH(record), TOZHENAB_TURNS + 1, made, LENGTH(made)),
           TOZHENAB_TOO_MANY_TURNS);
    expect("run",
           tozhenab_run(central, LENGTH(central), peripheral, LENGTH(peripheral), record,
                        LENGTH(record), 1, made, LENGTH(made)),
           TOZHENAB_ACCEPTED);
    expect("run: rounds", made[0], 1);
    expect("run: clock", record[TOZHENAB_MACHINE_CLOCK], 1);
    expect("run: stop", record[TOZHENAB_MACHINE_PROCESSOR(0) + TOZHENAB_PROCESSOR_STOP], 36);
    expect("run: A", record[TOZHENAB_MACHINE_PROCESSOR(1) + TOZHENAB_PROCESSOR_A], 7);
}

static void put_take_and_drop(void)
{
    uint64_t record[TOZHENAB_MACHINE_NUMBERS] = {0};
    uint64_t *channel = record + TOZHENAB_MACHINE_CHANNEL(013);
    uint64_t taken[TOZHENAB_TAKEN_NUMBERS] = {7, 7};

    expect("put on an inactive channel", tozhenab_put(channel, TOZHENAB_CHANNEL_NUMBERS, 01234),
           TOZHENAB_PUT_UNMET);
    channel[TOZHENAB_CHANNEL_ACTIVE] = 1;
    expect("take from an empty channel",
           tozhenab_take(channel, TOZHENAB_CHANNEL_NUMBERS, taken, LENGTH(taken)),
           TOZHENAB_TAKE_UNMET);
    expect("refused take: the first of its result", taken[TOZHENAB_TAKEN_WORD], 7);
    expect("refused take: the second of its result", taken[TOZHENAB_TAKEN_MARK], 7);
    expect("put", tozhenab_put(channel, TOZHENAB_CHANNEL_NUMBERS, 01234), TOZHENAB_ACCEPTED);
    expect("put: full", channel[TOZHENAB_CHANNEL_FULL], 1);
    expect("take", tozhenab_take(channel, TOZHENAB_CHANNEL_NUMBERS, taken, LENGTH(taken)),
           TOZHENAB_ACCEPTED);
    expect("take: word", taken[TOZHENAB_TAKEN_WORD], 01234);
    expect("take: mark", taken[TOZHENAB_TAKEN_MARK], 0);
    expect("take: full", channel[TOZHENAB_CHANNEL_FULL], 0);
    expect("drop of a short channel", tozhenab_drop(channel, TOZHENAB_CHANNEL_NUMBERS - 1),
           TOZHENAB_RECORD_VALUE);
    expect("drop", tozhenab_drop(channel, TOZHENAB_CHANNEL_NUMBERS), TOZHENAB_ACCEPTED);
    expect("drop: active", channel[TOZHENAB_CHANNEL_ACTIVE], 0);
}

int main(void)
{
    exchange_and_central_turn();
    stops_of_operands();
    central_turns();
    central_turns_refused();
    run_program();
    schedule();
    schedule_of_most_jobs();
    peripheral_turn_and_run();
    put_take_and_drop();
    return failures == 0 ? 0 : 1;
}
