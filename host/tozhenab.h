/*
 * Tozhenab: a proved CDC 6600, called from C. Link with -lhost_calls; `host/archive` writes
 * target/staticlib/libhost_calls.a. The rules of the machine are those of document 01.
 *
 * Every call gives the number of a refusal, or TOZHENAB_ACCEPTED. Where more than one condition is
 * met, the lowest number is given. After a refusal the memories and the record are as they were.
 *
 * A slice is two arguments: a pointer, and the number of elements behind it.
 *
 * The host owes, for every slice: a pointer that is not null, aligned for its type and valid for
 * all of its elements, to read and, without const, to write; also where the number is 0 (any
 * aligned address will do there). Slices of one call do not overlap, but for slices that are only
 * read. No other thread uses them during the call. All else is tested: any length, any word, any
 * value of a record, any address and any count gets an answer.
 *
 * Slices of a wrong length have one rule: a memory is number 1 or 2, a record 5, any list or
 * result 6.
 *
 * A result slice may be longer than the result; its other elements keep their values. After a
 * refusal a result of counts (turns, stops, rounds) is 0 throughout, and that of tozhenab_take is
 * as it was. A result slice that is too short is as it was after any refusal.
 *
 * What a call costs: it tests every word of the memories that it is lent, whatever it then does. On
 * 131,072 words that takes more than a thousand times one turn. So step in batches, by
 * tozhenab_central_turns or tozhenab_run, or lend no more memory than the program needs.
 */
#ifndef TOZHENAB_H
#define TOZHENAB_H

#include <stddef.h>
#include <stdint.h>

#ifdef __cplusplus
extern "C" {
#endif

/* Refusals. Number 16 is the console program's; no call here gives it. */
#define TOZHENAB_ACCEPTED 0          /* carried out */
#define TOZHENAB_CENTRAL_LENGTH 1    /* central memory is not of 1 to 131,072 words */
#define TOZHENAB_PERIPHERAL_LENGTH 2 /* not 4,096 words for each of 1 to 10; no such processor */
#define TOZHENAB_CENTRAL_WORD 3      /* a central word over 60 bits */
#define TOZHENAB_PERIPHERAL_WORD 4   /* a peripheral word over 4,095 */
#define TOZHENAB_RECORD_VALUE 5      /* see "Records" */
#define TOZHENAB_LIST_LENGTH 6       /* lists of a schedule; a result slice that is too short */
#define TOZHENAB_UNLISTED_JOB 7      /* a stint of a job that is not listed */
#define TOZHENAB_TOO_MANY_TURNS 8    /* over 65,535 turns of a stint or call, or rounds of a run */
#define TOZHENAB_PACKAGE_PAST_END 9  /* an exchange package past the end of memory */
#define TOZHENAB_STRAY_BITS 10       /* a bit of a package that has to be zero is set */
#define TOZHENAB_FIELD_PAST_END 11   /* RA + FL of a package past the end of memory */
#define TOZHENAB_SHARED_WORD 12      /* two of the packages and fields share a word */
#define TOZHENAB_DEVICE_WORD 13      /* a put of a word over 4,095 */
#define TOZHENAB_PUT_UNMET 14        /* a put on a channel that is inactive or full */
#define TOZHENAB_TAKE_UNMET 15       /* a take from a channel that is inactive or empty */

/* Limits. */
#define TOZHENAB_MEMORY_WORDS 131072  /* most words of central memory */
#define TOZHENAB_PROCESSOR_WORDS 4096 /* words of each peripheral processor */
#define TOZHENAB_CHANNELS 12          /* channels 00 to 13 octal */
#define TOZHENAB_PROCESSORS 10        /* most peripheral processors */
#define TOZHENAB_JOBS 11              /* most jobs of a schedule */
#define TOZHENAB_STINTS 256           /* most stints of a schedule */
#define TOZHENAB_TURNS 65535          /* most turns of a stint or a call, most rounds of a run */

/*
 * Records. A record is a slice of numbers, in the order below. It is number 5 where the slice has
 * another length, a value is over its width, a stop is not listed for that processor, EM has a bit
 * outside 070000, B0 is not 0, a channel's flag is over 1, or RA + FL is past the end of memory.
 *
 * Central record. P, RA, FL, EM, A and B have 18 bits, X 60. The stop is 0, 1 to 5, 7 or 8; 0 is
 * running. An operand of a floating code that is infinite is stop 7 where EM has the bit 020000, and
 * one that is indefinite is stop 8 where it has 040000.
 */
#define TOZHENAB_CENTRAL_NUMBERS 29
#define TOZHENAB_CENTRAL_P 0
#define TOZHENAB_CENTRAL_RA 1
#define TOZHENAB_CENTRAL_FL 2
#define TOZHENAB_CENTRAL_EM 3
#define TOZHENAB_CENTRAL_A 4  /* A0 to A7 */
#define TOZHENAB_CENTRAL_B 12 /* B0 to B7 */
#define TOZHENAB_CENTRAL_X 20 /* X0 to X7 */
#define TOZHENAB_CENTRAL_STOP 28

/* Channel. The flags are 0 or 1; the mark says that the word, of 12 bits, is a function. */
#define TOZHENAB_CHANNEL_NUMBERS 4
#define TOZHENAB_CHANNEL_ACTIVE 0
#define TOZHENAB_CHANNEL_FULL 1
#define TOZHENAB_CHANNEL_MARK 2
#define TOZHENAB_CHANNEL_WORD 3

/* Peripheral processor. P has 12 bits, A 18. The stop is 0 or 31 to 36; 0 is running. */
#define TOZHENAB_PROCESSOR_NUMBERS 3
#define TOZHENAB_PROCESSOR_P 0
#define TOZHENAB_PROCESSOR_A 1
#define TOZHENAB_PROCESSOR_STOP 2

/*
 * Machine record: the central record, the clock (12 bits), twelve channels, ten processors. All ten
 * processors are tested for number 5; those without memory are not run and keep their values.
 */
#define TOZHENAB_MACHINE_NUMBERS 108
#define TOZHENAB_MACHINE_CLOCK 29
#define TOZHENAB_MACHINE_CHANNEL(n) (30 + TOZHENAB_CHANNEL_NUMBERS * (n))
#define TOZHENAB_MACHINE_PROCESSOR(n) (78 + TOZHENAB_PROCESSOR_NUMBERS * (n))

/* Results: the length that each takes, and what stands where. */
#define TOZHENAB_MADE_NUMBERS 1 /* of tozhenab_central_turns: turns, the stopping one included */
#define TOZHENAB_RAN_NUMBERS 2 /* of tozhenab_run_program, and of each stint of tozhenab_schedule */
#define TOZHENAB_RAN_TURNS 0   /* the turns made, the stopping one included */
#define TOZHENAB_RAN_STOP 1    /* the stop, or 0 where the turns were used up */
#define TOZHENAB_RUN_NUMBERS 1 /* of tozhenab_run: the rounds made */
#define TOZHENAB_TAKEN_NUMBERS 2 /* of tozhenab_take */
#define TOZHENAB_TAKEN_WORD 0
#define TOZHENAB_TAKEN_MARK 1 /* 1 where the word is a function */

/*
 * One turn of the central processor on its field; nothing changes where it is stopped. For more
 * than one, tozhenab_central_turns. record: a central record. Refusals 1, 3, 5.
 */
uint64_t tozhenab_central_turn(uint64_t *memory, size_t memory_length, uint64_t *record,
                               size_t record_length);

/*
 * Up to so many turns of the central processor on its field, as the record stands, without an
 * exchange jump; ends early at a stop. A stopped processor makes none, and nothing changes; where
 * fewer are made than asked, it is stopped. n turns and then k are n + k. record: a central record.
 * result: TOZHENAB_MADE_NUMBERS. Refusals 1, 3, 5, 6 (a short result), 8.
 */
uint64_t tozhenab_central_turns(uint64_t *memory, size_t memory_length, uint64_t *record,
                                size_t record_length, uint64_t turns, uint64_t *result,
                                size_t result_length);

/*
 * An exchange jump: swaps the package at the address with the registers and sets the central
 * processor running. record: a central record. Refusals 1, 3, 5, 9, 10, 11.
 */
uint64_t tozhenab_exchange(uint64_t *memory, size_t memory_length, uint64_t *record,
                           size_t record_length, uint64_t address);

/*
 * Runs the program of the package at the address: exchanges in, makes up to so many turns on its
 * field, ends early at a stop, exchanges out. record: a central record, which is only read.
 * result: TOZHENAB_RAN_NUMBERS. Refusals 1, 3, 5, 6 (a short result), 8 to 12.
 */
uint64_t tozhenab_run_program(uint64_t *memory, size_t memory_length, const uint64_t *record,
                              size_t record_length, uint64_t address, uint64_t turns,
                              uint64_t *result, size_t result_length);

/*
 * Runs 1 to TOZHENAB_JOBS programs in one memory by up to TOZHENAB_STINTS stints, in the order
 * listed. jobs: the addresses of the packages. stint_jobs, stint_turns: the job (from 0) and the
 * turns of each stint; both have one length. record: a central record, which is only read. result:
 * TOZHENAB_RAN_NUMBERS for each element of stint_jobs. Refusals 1, 3, 5 to 12.
 */
uint64_t tozhenab_schedule(uint64_t *memory, size_t memory_length, const uint64_t *record,
                           size_t record_length, const uint64_t *jobs, size_t jobs_length,
                           const uint64_t *stint_jobs, size_t stint_jobs_length,
                           const uint64_t *stint_turns, size_t stint_turns_length,
                           uint64_t *result, size_t result_length);

/*
 * One turn of the peripheral processor of this number, from 0; nothing changes where it is stopped.
 * peripheral: TOZHENAB_PROCESSOR_WORDS for each of 1 to 10 processors, in order. record: a machine
 * record. Refusals 1 to 5.
 */
uint64_t tozhenab_peripheral_turn(uint64_t *central, size_t central_length, uint16_t *peripheral,
                                  size_t peripheral_length, uint64_t *record,
                                  size_t record_length, uint64_t processor);

/*
 * Up to so many rounds: in each, the peripheral processors in rising number, a central turn, and
 * the clock. Ends early before a round in which all are stopped. peripheral and record as above.
 * result: TOZHENAB_RUN_NUMBERS. Refusals 1 to 5, 6 (a short result), 8.
 */
uint64_t tozhenab_run(uint64_t *central, size_t central_length, uint16_t *peripheral,
                      size_t peripheral_length, uint64_t *record, size_t record_length,
                      uint64_t rounds, uint64_t *result, size_t result_length);

/*
 * The device calls. channel: TOZHENAB_CHANNEL_NUMBERS, which may be the part of a machine record
 * from TOZHENAB_MACHINE_CHANNEL(n) on.
 *
 * tozhenab_put fills an active, empty channel with a word. Refusals 5, 13, 14.
 * tozhenab_take empties an active, full channel and gives its word and mark; taking a function also
 * makes the channel inactive. result: TOZHENAB_TAKEN_NUMBERS, written where a word is taken alone.
 * Refusals 5, 6 (a short result), 15.
 * tozhenab_drop makes any channel inactive and empty. Refusal 5.
 */
uint64_t tozhenab_put(uint64_t *channel, size_t channel_length, uint64_t word);
uint64_t tozhenab_take(uint64_t *channel, size_t channel_length, uint64_t *result,
                       size_t result_length);
uint64_t tozhenab_drop(uint64_t *channel, size_t channel_length);

#ifdef __cplusplus
}
#endif

#endif
