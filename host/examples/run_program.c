/* Runs the worked example of document 01: the package at 0, its field at 20 octal, five turns. */
#include "tozhenab.h"

#include <inttypes.h>
#include <stdio.h>

#define WORDS 0100

int main(void)
{
    uint64_t memory[WORDS] = {0};
    uint64_t record[TOZHENAB_CENTRAL_NUMBERS] = {0};
    uint64_t ran[TOZHENAB_RAN_NUMBERS];
    uint64_t refusal;
    unsigned address;

    memory[1] = UINT64_C(020) << 36;             /* RA */
    memory[2] = UINT64_C(4) << 36;               /* FL */
    memory[020] = UINT64_C(071600000055160000003); /* X6 = 5, A6 = 3; the next word stops */

    refusal = tozhenab_run_program(memory, WORDS, record, TOZHENAB_CENTRAL_NUMBERS, 0, 5, ran,
                                   TOZHENAB_RAN_NUMBERS);
    if (refusal != TOZHENAB_ACCEPTED) {
        printf("refused=%" PRIu64 "\n", refusal);
        return 0;
    }
    printf("turns=%" PRIo64 "\n", ran[TOZHENAB_RAN_TURNS]);
    printf("stop=%" PRIu64 "\n", ran[TOZHENAB_RAN_STOP]);
    for (address = 0; address < WORDS; address++)
        if (memory[address] != 0)
            printf("%o=%020" PRIo64 "\n", address, memory[address]);
    return 0;
}
