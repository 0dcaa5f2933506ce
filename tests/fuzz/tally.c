#include "tally.h"

#include "knitcauldron.h"

#include <stdio.h>

#define NUMBERS (KNIT_INVALID_ARG_WINDOW + 1)
#define STATUSES (KNIT_STATUS_EXPLICIT_TRAP + 1)

static uint64_t numbers[NUMBERS], statuses[STATUSES];

void count_number(uint64_t number)
{
    numbers[number]++;
}

void count_status(uint64_t status)
{
    if (status < STATUSES)
        statuses[status]++;
}

static void tell(const char *name, const uint64_t *counts, uint64_t count)
{
    uint64_t i;
    printf("fuzz: %s", name);
    for (i = 0; i < count; i++)
        if (counts[i] > 0)
            printf(" %llu:%llu", (unsigned long long)i, (unsigned long long)counts[i]);
    printf("\n");
}

void tell_tally(void)
{
    tell("answers", numbers, NUMBERS);
    tell("statuses", statuses, STATUSES);
}

static int occurred(const char *name, const uint64_t *counts, uint64_t i, uint64_t cases)
{
    if (counts[i] == 0)
        printf("fuzz: %s %llu never occurred in %llu cases\n", name, (unsigned long long)i, (unsigned long long)cases);
    return counts[i] > 0;
}

int all_occurred(uint64_t cases)
{
    int all = 1;
    uint64_t i;
    for (i = 0; i < NUMBERS; i++)
        all &= i == KNIT_TOO_LONG || occurred("answer", numbers, i, cases);
    for (i = 0; i < STATUSES; i++)
        all &= occurred("status", statuses, i, cases);
    return all;
}
