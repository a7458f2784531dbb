/* Makes a practice day of a plan with one vehicle, and writes its plan to standard output; a refusal goes to standard error as the program
 * site writes it: its number and both places. */
#include <inttypes.h>
#include <stdio.h>
#include <stdlib.h>

#include "site.h"

/* One byte more than the longest plan, so that a longer file is seen to be longer. */
static uint8_t plan[SITE_PLAN_MOST + 1], day[SITE_PRACTICE_LEAST];
static uint64_t numbers[SITE_NUMBERS];

static uint32_t number(const char *word) {
    char *end;
    unsigned long long value = strtoull(word, &end, 10);
    if (*word < '0' || *word > '9' || *end != 0 || value > UINT32_MAX) {
        fprintf(stderr, "%s: no number from 0 to %" PRIu32 "\n", word, UINT32_MAX);
        exit(2);
    }
    return (uint32_t)value;
}

int main(int count, char **words) {
    if (count != 4) {
        fprintf(stderr, "usage: %s one_vehicle.plan seed count > practice.plan\n", words[0]);
        return 2;
    }
    FILE *file = fopen(words[1], "rb");
    size_t length = file == NULL ? 0 : fread(plan, 1, sizeof plan, file);
    if (file == NULL || ferror(file)) {
        perror(words[1]);
        return 1;
    }
    fclose(file);
    uint32_t seed = number(words[2]), cars = number(words[3]);
    site_practice(plan, length, seed, cars, day, sizeof day, numbers);
    if (numbers[SITE_NUMBER] != 0) {
        fprintf(stderr, "%" PRIu64 " %" PRIu64 " %" PRIu64 "\n", numbers[SITE_NUMBER], numbers[SITE_PLACE], numbers[SITE_OTHER_PLACE]);
        return 1;
    }
    size_t written = length + (size_t)SITE_CAR_BYTES * (cars - 1);
    if (fwrite(day, written, 1, stdout) != 1 || fflush(stdout) != 0) {
        perror("standard output");
        return 1;
    }
    return 0;
}
