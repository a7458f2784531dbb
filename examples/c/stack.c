/* Measures how much stack the calls take: runs them on a thread whose stack was filled with a pattern, and looks how deep it was written.
 * Its exit status is 1 where a call takes more than site.h says. */
#define _GNU_SOURCE
#include <pthread.h>
#include <stdio.h>
#include <stdlib.h>
#include <string.h>

#include "site.h"

enum { STACK = 1 << 20, PATTERN = 0xa5, ADDRESSES = SITE_CABINET_BYTES * (SITE_CHARGERS_MOST + 1) };

static uint8_t plan[SITE_PLAN_MOST + 1], shorter[SITE_PLAN_MOST + 1];
static size_t length, shorter_length;
static uint8_t book[SITE_BOOK_LEAST], dump[SITE_DUMP_LEAST], new_dump[SITE_DUMP_LEAST], day[SITE_PRACTICE_LEAST];
static uint8_t answers[2 * (1 + 3 * ADDRESSES)];
static uint64_t script[1 + 3 * ADDRESSES];
static uint64_t numbers[SITE_NUMBERS], header[SITE_HEADER_NUMBERS], sessions[SITE_SESSIONS_MOST * SITE_SESSION_NUMBERS];
static uint8_t *stack, *top;

/* The stack that a call begins on, as near as a caller can tell. */
static void *check(void *none) {
    top = __builtin_frame_address(0);
    site_check(plan, length, numbers);
    return none;
}

static void *run(void *allowances) {
    top = __builtin_frame_address(0);
    for (const uint32_t *allowance = allowances; *allowance <= SITE_ALLOWANCE_MOST; allowance++)
        for (uint32_t engine = SITE_EVENTS; engine <= SITE_STEPS; engine++)
            site_run(plan, length, engine, *allowance, book, sizeof book, numbers);
    return NULL;
}

static void *dumping(void *allowances) {
    top = __builtin_frame_address(0);
    for (const uint32_t *allowance = allowances; *allowance <= SITE_ALLOWANCE_MOST; allowance++)
        site_dump(plan, length, SITE_EVENTS, *allowance, book, sizeof book, dump, sizeof dump, numbers);
    return NULL;
}

static void *continuing(void *allowances) {
    top = __builtin_frame_address(0);
    for (const uint32_t *further = allowances; *further <= SITE_ALLOWANCE_MOST; further++)
        site_continue(plan, length, dump, sizeof dump, *further, book, sizeof book, numbers);
    return NULL;
}

/* The plan's last vehicle comes late to the shorter plan. */
static void *booking(void *none) {
    const uint8_t *car = plan + shorter_length;
    top = __builtin_frame_address(0);
    site_book_late(shorter, shorter_length, dump, sizeof dump, car, length - shorter_length, new_dump, sizeof new_dump, numbers);
    return none;
}

/* The book that was written last: a header and five sessions a block, with the count at 4. */
static void *reading(void *none) {
    top = __builtin_frame_address(0);
    site_read_book(book, 512u * (1 + (book[4] + 4u) / 5), header, sessions, numbers);
    return none;
}

/* The shorter plan has one vehicle. */
static void *practicing(void *none) {
    top = __builtin_frame_address(0);
    for (uint32_t cars = SITE_VEHICLES_MOST + 1; cars > 0; cars--)
        site_practice(shorter, shorter_length, 1, cars, day, sizeof day, numbers);
    return none;
}

/* Some rounds, and then every address is read and written, and also taken as the place of a line. */
static void *playing(void *allowances) {
    top = __builtin_frame_address(0);
    for (uint64_t at = 0; at < ADDRESSES; at++)
        for (uint64_t kind = SITE_OPERATION_READ; kind <= SITE_OPERATION_LINE; kind++)
            script[3 * at + kind] = kind | 0xff << 8 | at << 32;
    for (const uint32_t *allowance = allowances; *allowance <= SITE_ALLOWANCE_MOST; allowance++) {
        script[0] = SITE_OPERATION_ROUNDS | (uint64_t)*allowance << 32;
        site_panel(plan, length, script, sizeof script / sizeof *script, answers, sizeof answers, numbers);
    }
    return NULL;
}

/* The bytes between where the calls began and the deepest byte that was written. */
static long depth(void *(*calls)(void *), void *with) {
    pthread_attr_t attributes;
    pthread_t thread;
    memset(stack, PATTERN, STACK);
    pthread_attr_init(&attributes);
    pthread_attr_setstack(&attributes, stack, STACK);
    if (pthread_create(&thread, &attributes, calls, with) != 0 || pthread_join(thread, NULL) != 0) {
        fprintf(stderr, "no thread can be started\n");
        exit(1);
    }
    uint8_t *deepest = stack;
    while (*deepest == PATTERN)
        deepest++;
    return top - deepest;
}

static long larger(long one, long other) { return one > other ? one : other; }

/* The most that continuing takes, over dumps after each of the allowances. */
static long most_of_continuing(uint32_t *allowances) {
    long most = 0;
    for (const uint32_t *allowance = allowances; *allowance <= SITE_ALLOWANCE_MOST; allowance++) {
        site_dump(plan, length, SITE_EVENTS, *allowance, book, sizeof book, dump, sizeof dump, numbers);
        most = larger(most, depth(continuing, allowances));
    }
    return most;
}

/* Makes the shorter plan, which is the plan without its last vehicles. Its header counts them no more; so its check, which is a sum, is
 * less by as much. Where one is left out, its block has the check that a late car needs. */
static void shorten(unsigned fewer) {
    uint32_t check;
    size_t bytes = (size_t)SITE_CAR_BYTES * fewer;
    shorter_length = length < bytes ? 0 : length - bytes;
    memcpy(shorter, plan, sizeof shorter);
    shorter[8] -= fewer;
    memcpy(&check, shorter + 508, sizeof check);
    check -= fewer;
    memcpy(shorter + 508, &check, sizeof check);
}

/* The most that a late booking takes, over dumps of the shorter plan after each of the allowances. */
static long most_of_booking(const uint32_t *allowance) {
    long most = 0;
    shorten(1);
    for (; *allowance <= SITE_ALLOWANCE_MOST; allowance++) {
        site_dump(shorter, shorter_length, SITE_EVENTS, *allowance, book, sizeof book, dump, sizeof dump, numbers);
        most = larger(most, depth(booking, NULL));
    }
    return most;
}

/* The most that reading takes, over the books of both engines under each of the allowances. */
static long most_of_reading(const uint32_t *allowance) {
    long most = 0;
    for (; *allowance <= SITE_ALLOWANCE_MOST; allowance++)
        for (uint32_t engine = SITE_EVENTS; engine <= SITE_STEPS; engine++) {
            site_run(plan, length, engine, *allowance, book, sizeof book, numbers);
            most = larger(most, depth(reading, NULL));
        }
    return most;
}

/* What a practice day takes, of the plan's first vehicle. */
static long most_of_practice(void) {
    shorten(plan[8] == 0 ? 0 : plan[8] - 1u);
    long taken = depth(practicing, NULL);
    if (numbers[SITE_NUMBER] != 0) {
        fprintf(stderr, "no practice day was written\n");
        exit(1);
    }
    return taken;
}

/* Prints what the calls take for the plan that was read. True if none takes more than site.h says. */
static int measure(const char *name) {
    uint32_t allowances[] = {0, 1, 10, 100, 40000, SITE_ALLOWANCE_MOST, SITE_ALLOWANCE_MOST + 1};
    const struct {
        const char *call;
        long taken, most;
    } measured[] = {
        {"site_check", depth(check, NULL), SITE_CHECK_STACK},
        {"site_run", depth(run, allowances), SITE_RUN_STACK},
        {"site_dump", depth(dumping, allowances), SITE_DUMP_STACK},
        {"site_continue", most_of_continuing(allowances), SITE_CONTINUE_STACK},
        {"site_book_late", most_of_booking(allowances), SITE_BOOK_LATE_STACK},
        {"site_read_book", most_of_reading(allowances), SITE_READ_BOOK_STACK},
        {"site_practice", most_of_practice(), SITE_PRACTICE_STACK},
        {"site_panel", depth(playing, allowances), SITE_PANEL_STACK},
    };
    int fine = 1;
    printf("%s, bytes of stack", name);
    for (size_t k = 0; k < sizeof measured / sizeof *measured; k++) {
        printf("%s %s %ld", k == 0 ? ":" : ",", measured[k].call, measured[k].taken);
        fine &= measured[k].taken <= measured[k].most;
    }
    printf("\n");
    return fine;
}

int main(int count, char **words) {
    if (count < 2 || posix_memalign((void **)&stack, 4096, STACK) != 0) {
        fprintf(stderr, "usage: %s day.plan..\n", words[0]);
        return 2;
    }
    for (int k = 1; k < count; k++) {
        FILE *file = fopen(words[k], "rb");
        if (file == NULL) {
            perror(words[k]);
            return 1;
        }
        length = fread(plan, 1, sizeof plan, file);
        fclose(file);
        if (!measure(words[k])) {
            fprintf(stderr, "%s: more stack than site.h says\n", words[k]);
            return 1;
        }
    }
    return 0;
}
