/* Reads a book back: prints the energy of each charged session, with its fleet if it has one, and the book's totals, or the refusal. */
#include <inttypes.h>
#include <stdio.h>
#include <string.h>

#include "site.h"

/* One byte more than the longest book, so that a longer file is seen to be longer. */
static uint8_t book[SITE_BOOK_MOST + 1];
static uint64_t header[SITE_HEADER_NUMBERS], sessions[SITE_SESSIONS_MOST * SITE_SESSION_NUMBERS], numbers[SITE_NUMBERS];

static double energy_of(const uint64_t *session) {
    double energy;
    memcpy(&energy, &session[SITE_SESSION_ENERGY], sizeof energy);
    return energy;
}

static void print_charged(const uint64_t *session) {
    printf("vehicle %" PRIu64, session[SITE_SESSION_VEHICLE]);
    if (session[SITE_SESSION_FLEET] != 0)
        printf(" of fleet %" PRIu64, session[SITE_SESSION_FLEET]);
    printf(": %.3f kWh\n", energy_of(session));
}

static void print_book(void) {
    uint64_t outcomes[SITE_OUTCOMES] = {0}, longest = 0;
    double energy = 0;
    for (uint64_t k = 0; k < header[SITE_HEADER_COUNT]; k++) {
        const uint64_t *session = sessions + SITE_SESSION_NUMBERS * k;
        outcomes[session[SITE_SESSION_OUTCOME]]++;
        if (session[SITE_SESSION_WAIT] > longest)
            longest = session[SITE_SESSION_WAIT];
        if (session[SITE_SESSION_OUTCOME] == SITE_OUTCOME_CHARGED) {
            energy += energy_of(session);
            print_charged(session);
        }
    }
    printf("%" PRIu64 " open, %" PRIu64 " charged, %" PRIu64 " reneged, %" PRIu64 " balked, %.3f kWh, longest wait %" PRIu64 " s\n",
           outcomes[SITE_OUTCOME_OPEN], outcomes[SITE_OUTCOME_CHARGED], outcomes[SITE_OUTCOME_RENEGED], outcomes[SITE_OUTCOME_BALKED],
           energy, longest);
}

int main(int count, char **words) {
    if (count != 2) {
        fprintf(stderr, "usage: %s day.book\n", words[0]);
        return 2;
    }
    FILE *file = fopen(words[1], "rb");
    if (file == NULL) {
        perror(words[1]);
        return 1;
    }
    size_t length = fread(book, 1, sizeof book, file);
    if (ferror(file)) {
        perror(words[1]);
        return 1;
    }
    fclose(file);
    site_read_book(book, length, header, sessions, numbers);
    if (numbers[SITE_NUMBER] != 0) {
        printf("refused by %" PRIu64 "\n", numbers[SITE_NUMBER]);
        return 1;
    }
    print_book();
    return 0;
}
