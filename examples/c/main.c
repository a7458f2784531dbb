/* Runs a plan by steps and prints its sessions' count and energy, or the refusal. */
#include <inttypes.h>
#include <stdio.h>
#include <string.h>

#include "site.h"

/* Where session k of a book begins: five sessions of 96 bytes a block, behind the header's block. */
static const uint8_t *session_at(const uint8_t *book, uint64_t k) { return book + 512 * (1 + k / 5) + 96 * (k % 5); }

/* The energy of a session in kWh: 0 unless it is charged. Floats are little-endian, as on every machine that the library is for. */
static double energy_of(const uint8_t *session) {
    double energy;
    memcpy(&energy, session + 72, sizeof energy);
    return energy;
}

static void print_book(const uint8_t *book, const uint64_t numbers[SITE_NUMBERS]) {
    uint64_t sessions = numbers[SITE_OPEN] + numbers[SITE_CHARGED] + numbers[SITE_RENEGED] + numbers[SITE_BALKED];
    double energy = 0;
    for (uint64_t k = 0; k < sessions; k++)
        energy += energy_of(session_at(book, k));
    printf("%" PRIu64 " sessions, %" PRIu64 " charged, %.3f kWh, %s\n", sessions, numbers[SITE_CHARGED], energy,
           numbers[SITE_ENDED] ? "ended" : "not ended");
}

int main(int count, char **words) {
    /* One byte more than the longest plan, so that a longer file is seen to be longer. */
    static uint8_t plan[SITE_PLAN_MOST + 1], book[SITE_BOOK_LEAST];
    uint64_t numbers[SITE_NUMBERS];
    if (count != 2) {
        fprintf(stderr, "usage: %s day.plan\n", words[0]);
        return 2;
    }
    FILE *file = fopen(words[1], "rb");
    if (file == NULL) {
        perror(words[1]);
        return 1;
    }
    size_t length = fread(plan, 1, sizeof plan, file);
    if (ferror(file)) {
        perror(words[1]);
        return 1;
    }
    fclose(file);
    site_run(plan, length, SITE_STEPS, SITE_ALLOWANCE_MOST, book, sizeof book, numbers);
    if (numbers[SITE_NUMBER] != 0) {
        printf("refused by %" PRIu64 ", blocks %" PRIu64 " and %" PRIu64 "\n", numbers[SITE_NUMBER], numbers[SITE_PLACE], numbers[SITE_OTHER_PLACE]);
        return 1;
    }
    print_book(book, numbers);
    return 0;
}
