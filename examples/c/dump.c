/* Dumps a run by events and continues it. What is asked for goes to standard output; a refusal goes to standard error as the program
 * site writes it: its number and both places. */
#include <inttypes.h>
#include <stdio.h>
#include <stdlib.h>

#include "site.h"

/* One byte more than the longest plan, so that a longer file is seen to be longer. Of a dump's file more than this is not needed. */
static uint8_t plan[SITE_PLAN_MOST + 1], dump[SITE_DUMP_LEAST], book[SITE_BOOK_LEAST];
static uint64_t numbers[SITE_NUMBERS];

static size_t read_file(const char *name, uint8_t *bytes, size_t room) {
    FILE *file = fopen(name, "rb");
    size_t length = file == NULL ? 0 : fread(bytes, 1, room, file);
    if (file == NULL || ferror(file)) {
        perror(name);
        exit(1);
    }
    fclose(file);
    return length;
}

static uint32_t number(const char *word) {
    char *end;
    unsigned long long value = strtoull(word, &end, 10);
    if (*word < '0' || *word > '9' || *end != 0 || value > UINT32_MAX) {
        fprintf(stderr, "%s: no number from 0 to %" PRIu32 "\n", word, UINT32_MAX);
        exit(2);
    }
    return (uint32_t)value;
}

static size_t count_at(const uint8_t *bytes) { return bytes[0] + 256u * bytes[1]; }

/* How many bytes the sessions take, five a block. */
static size_t session_bytes(size_t sessions) { return 512 * ((sessions + 4) / 5); }

/* A header, 31 events a block, and the sessions. */
static size_t dump_length(void) { return 512 * (1 + (count_at(dump + 8) + 30) / 31) + session_bytes(count_at(dump + 10)); }

static size_t book_length(void) { return 512 + session_bytes(count_at(book + 4)); }

int main(int count, char **words) {
    if (count < 2 || count > 4) {
        fprintf(stderr, "usage: %s day.plan ALLOWANCE > day.dump\n", words[0]);
        fprintf(stderr, "       %s day.plan day.dump FURTHER > day.book\n", words[0]);
        fprintf(stderr, "       %s day.plan > day.book, of an unbroken run\n", words[0]);
        return 2;
    }
    size_t length = read_file(words[1], plan, sizeof plan);
    if (count == 2) {
        site_run(plan, length, SITE_EVENTS, SITE_ALLOWANCE_MOST, book, sizeof book, numbers);
    } else if (count == 3) {
        site_dump(plan, length, SITE_EVENTS, number(words[2]), book, sizeof book, dump, sizeof dump, numbers);
    } else {
        size_t dumped = read_file(words[2], dump, sizeof dump);
        site_continue(plan, length, dump, dumped, number(words[3]), book, sizeof book, numbers);
    }
    if (numbers[SITE_NUMBER] != 0) {
        fprintf(stderr, "%" PRIu64 " %" PRIu64 " %" PRIu64 "\n", numbers[SITE_NUMBER], numbers[SITE_PLACE], numbers[SITE_OTHER_PLACE]);
        return 1;
    }
    size_t written = count == 3 ? fwrite(dump, dump_length(), 1, stdout) : fwrite(book, book_length(), 1, stdout);
    if (written != 1 || fflush(stdout) != 0) {
        perror("standard output");
        return 1;
    }
    return 0;
}
