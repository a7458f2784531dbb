/* Panel boards beside a run by steps, whose lines tell when a car has left: prints what each cabinet shows after so many rounds, and clears
 * what is pending then. A refusal goes to standard error as the program site writes it: its number and both places. */
#include <inttypes.h>
#include <stdio.h>
#include <stdlib.h>
#include <string.h>

#include "site.h"

/* Operations: a cabinet's bytes are read and its line, and what is pending is cleared; a look has some rounds and then all cabinets; the
 * lines are enabled before the first. */
enum { CABINET = SITE_CABINET_BYTES + 2, LOOK = 1 + SITE_CHARGERS_MOST * CABINET, ENABLE = SITE_CHARGERS_MOST, LOOKS_MOST = 16 };
enum { SCRIPT = ENABLE + LOOKS_MOST * LOOK };

/* One byte more than the longest plan, so that a longer file is seen to be longer. */
static uint8_t plan[SITE_PLAN_MOST + 1], answers[2 * SCRIPT];
static uint64_t script[SCRIPT], numbers[SITE_NUMBERS];
static size_t operations;

static void add(enum site_operation kind, uint32_t argument, uint8_t byte) {
    script[operations++] = (uint64_t)kind | (uint64_t)byte << 8 | (uint64_t)argument << 32;
}

static void enable_lines(void) {
    for (uint32_t place = 0; place < SITE_CHARGERS_MOST; place++)
        add(SITE_OPERATION_WRITE, SITE_CABINET_BYTES * place + SITE_CABINET_ENABLE, SITE_CABINET_ENDED);
}

static void look(uint32_t rounds) {
    add(SITE_OPERATION_ROUNDS, rounds, 0);
    for (uint32_t place = 0; place < SITE_CHARGERS_MOST; place++) {
        uint32_t address = SITE_CABINET_BYTES * place;
        for (uint32_t k = 0; k < SITE_CABINET_BYTES; k++)
            add(SITE_OPERATION_READ, address + k, 0);
        add(SITE_OPERATION_LINE, place, 0);
        add(SITE_OPERATION_WRITE, address + SITE_CABINET_PENDING, SITE_CABINET_STARTED | SITE_CABINET_ENDED);
    }
}

static uint32_t number(const char *word) {
    char *end;
    unsigned long long value = strtoull(word, &end, 10);
    if (*word < '0' || *word > '9' || *end != 0 || value > UINT32_MAX) {
        fprintf(stderr, "%s: no number from 0 to %" PRIu32 "\n", word, UINT32_MAX);
        exit(2);
    }
    return (uint32_t)value;
}

/* The words say how many rounds are done at each look; they rise. */
static void write_script(char **words, int looks) {
    uint32_t done = 0;
    enable_lines();
    for (int k = 0; k < looks; k++) {
        uint32_t rounds = number(words[k]);
        if (rounds < done) {
            fprintf(stderr, "%s: fewer rounds than before\n", words[k]);
            exit(2);
        }
        look(rounds - done);
        done = rounds;
    }
}

static const char *status(uint8_t byte) {
    return byte & SITE_CABINET_CHARGING ? "charging" : byte & SITE_CABINET_IDLE ? "idle" : byte & SITE_CABINET_OCCUPIED ? "occupied" : "free";
}

static void print_cabinet(uint32_t place, const uint8_t *bytes, uint8_t line) {
    uint32_t vehicle;
    double energy;
    memcpy(&vehicle, bytes + SITE_CABINET_VEHICLE, sizeof vehicle);
    memcpy(&energy, bytes + SITE_CABINET_ENERGY, sizeof energy);
    printf("  cabinet %" PRIu32 ": %-8s  vehicle %4" PRIu32 "  %7.3f kWh%s%s%s\n", place, status(bytes[SITE_CABINET_STATUS]), vehicle, energy,
           bytes[SITE_CABINET_PENDING] & SITE_CABINET_STARTED ? ", started" : "",
           bytes[SITE_CABINET_PENDING] & SITE_CABINET_ENDED ? ", ended" : "", line ? ": line raised" : "");
}

/* The cabinets of the k-th look, as many as the plan has. */
static void print_look(int k) {
    const uint8_t *answer = answers + 2 * (ENABLE + LOOK * k + 1);
    for (uint32_t place = 0; place < SITE_CHARGERS_MOST && *answer == SITE_ACCESS_DONE; place++, answer += 2 * CABINET) {
        uint8_t bytes[SITE_CABINET_BYTES];
        for (size_t i = 0; i < SITE_CABINET_BYTES; i++)
            bytes[i] = answer[2 * i + 1];
        print_cabinet(place, bytes, answer[2 * SITE_CABINET_BYTES + 1]);
    }
}

int main(int count, char **words) {
    if (count < 3 || count > 2 + LOOKS_MOST) {
        fprintf(stderr, "usage: %s day.plan ROUNDS.., up to %d looks\n", words[0], LOOKS_MOST);
        return 2;
    }
    FILE *file = fopen(words[1], "rb");
    size_t length = file == NULL ? 0 : fread(plan, 1, sizeof plan, file);
    if (file == NULL || ferror(file)) {
        perror(words[1]);
        return 1;
    }
    fclose(file);
    write_script(words + 2, count - 2);
    site_panel(plan, length, script, operations, answers, sizeof answers, numbers);
    if (numbers[SITE_NUMBER] != 0) {
        fprintf(stderr, "%" PRIu64 " %" PRIu64 " %" PRIu64 "\n", numbers[SITE_NUMBER], numbers[SITE_PLACE], numbers[SITE_OTHER_PLACE]);
        return 1;
    }
    for (int k = 0; k < count - 2; k++) {
        printf("after %s rounds\n", words[2 + k]);
        print_look(k);
    }
    return 0;
}
