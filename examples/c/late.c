/* Books a late car into a dumped run, and makes the longer plan with which the run continues. What is asked for goes to standard output; a
 * refusal goes to standard error as the program site writes it: its number and both places. */
#include <inttypes.h>
#include <stdio.h>
#include <stdlib.h>
#include <string.h>

#include "site.h"

/* One byte more than the longest plan and than a car, so that a longer file is seen to be longer. Of a dump's file more than this is not
 * needed. */
enum { PLAN_ROOM = SITE_PLAN_MOST + 1, CAR_ROOM = SITE_CAR_BYTES + 1 };
static uint8_t plan[PLAN_ROOM + CAR_ROOM], car[CAR_ROOM], dump[SITE_DUMP_LEAST], new_dump[SITE_DUMP_LEAST];
static uint64_t numbers[SITE_NUMBERS];

static size_t read_file(const char *name, uint8_t *bytes, size_t room) {
    FILE *file = fopen(name, "rb");
    size_t length = file == NULL ? 0 : fread(bytes, 1, room, file);
    if (file == NULL || ferror(file)) {
        perror(name);
        exit(1);
    }
    fclose(file);
    return length;
}

static size_t count_at(const uint8_t *bytes) { return bytes[0] + 256u * bytes[1]; }

/* A header, 31 events a block, and five sessions a block. */
static size_t new_dump_length(void) { return 512 * (1 + (count_at(new_dump + 8) + 30) / 31 + (count_at(new_dump + 10) + 4) / 5); }

/* Adds one to a number of so many bytes, the lowest first. */
static void add_one(uint8_t *number, size_t bytes) {
    for (size_t k = 0; k < bytes && ++number[k] == 0; k++)
        ;
}

/* The length of the plan with the car behind its last block. Its header counts a vehicle more; so its check, which is a sum, is one more
 * too, and a check that was wrong stays wrong. */
static size_t add_car(size_t length, size_t car_length) {
    memcpy(plan + length, car, car_length);
    add_one(plan + 8, 2);
    add_one(plan + 508, 4);
    return length + car_length;
}

int main(int count, char **words) {
    if (count < 3 || count > 4) {
        fprintf(stderr, "usage: %s day.plan day.dump car.block > new.dump\n", words[0]);
        fprintf(stderr, "       %s day.plan car.block > longer.plan\n", words[0]);
        return 2;
    }
    size_t length = read_file(words[1], plan, PLAN_ROOM), car_length = read_file(words[count - 1], car, CAR_ROOM);
    if (count == 4) {
        size_t dumped = read_file(words[2], dump, sizeof dump);
        site_book_late(plan, length, dump, dumped, car, car_length, new_dump, sizeof new_dump, numbers);
    } else {
        length = add_car(length, car_length);
        site_check(plan, length, numbers);
    }
    if (numbers[SITE_NUMBER] != 0) {
        fprintf(stderr, "%" PRIu64 " %" PRIu64 " %" PRIu64 "\n", numbers[SITE_NUMBER], numbers[SITE_PLACE], numbers[SITE_OTHER_PLACE]);
        return 1;
    }
    size_t written = count == 4 ? fwrite(new_dump, new_dump_length(), 1, stdout) : fwrite(plan, length, 1, stdout);
    if (written != 1 || fflush(stdout) != 0) {
        perror("standard output");
        return 1;
    }
    return 0;
}
