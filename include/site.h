/* The joined site engine for C and C++: check a plan, run it, dump a run, book a late car into it and continue it, read a book back, make a
 * practice day, play a script on the panel boards.
 *
 * `bash examples/link` proves the functions and makes target/staticlib/libcalls.a, for x86-64 Linux. It needs nothing
 * but memcpy, memmove and memset, so no further library is named:
 *
 *     cc main.c -Iinclude target/staticlib/libcalls.a
 *
 * docs/FORMATS.md describes the plan, the book and the dump byte by byte, the late booking, the practice day, the cabinets' registers, and
 * the refusals.
 *
 * What holds of every call:
 * - Every plan, every dump, every car and every book gets an answer, also one that is damaged or none at all. Nothing needs to
 *   be tested before a call.
 * - A call is a function of its arguments alone. It allocates nothing, keeps no pointer and has no state, so calls may run
 *   on several threads at once, each with its own buffers to write and its own `numbers`; what is only read may be shared.
 * - No pointer may be null, also where its length is 0. The buffers of one call may not overlap. `numbers`, `header`,
 *   `sessions` and `script` are aligned as uint64_t; `plan`, `book`, `dump`, `car`, `new_dump`, `day` and `answers` may begin
 *   anywhere.
 * - A refused call writes `numbers` and nothing else.
 * - Each call has its SITE_.._STACK, the most bytes of stack that it takes; examples/c/stack.c measures it against them. Give
 *   a thread that calls them 512 KiB or more: the usual 8 MiB is plenty, the 128 KiB of a thread under musl are too few.
 * - Floats are computed as C starts them: rounded to nearest, subnormal numbers kept. A program that was linked with
 *   -ffast-math changes that.
 */
#ifndef SITE_H
#define SITE_H

#include <stddef.h>
#include <stdint.h>

#ifdef __cplusplus
extern "C" {
#endif

/* Lengths in bytes: a longer plan is refused by 4, a car of another length too, a longer book to read by 15, a shorter buffer for
 * the book by 3, one for a dump by 13, one for a practice day by 19. */
#define SITE_PLAN_MOST 57856
#define SITE_CAR_BYTES 512
#define SITE_BOOK_MOST 7168
#define SITE_BOOK_LEAST 7168
#define SITE_DUMP_LEAST 16384
#define SITE_PRACTICE_LEAST 57856

/* A plan that counts more vehicles is refused by 6, a late car that would be one more by 17, a practice day of more by 19. */
#define SITE_VEHICLES_MOST 64

/* A plan that counts more chargers is refused by 6. */
#define SITE_CHARGERS_MOST 32

/* A book that counts more sessions is refused by 16. */
#define SITE_SESSIONS_MOST 64

/* A plan whose vehicle names a fleet above is refused by 7, and so is one whose header gives a fleet more queue places. A book whose session
 * has a fleet above is refused by 16. */
#define SITE_FLEETS_MOST 64
#define SITE_QUEUE_PLACES_MOST 64

/* The most stack that a call takes, in bytes. */
#define SITE_CHECK_STACK 24576
#define SITE_RUN_STACK 98304
#define SITE_DUMP_STACK 65536
#define SITE_CONTINUE_STACK 94208
#define SITE_BOOK_LATE_STACK 184320
#define SITE_READ_BOOK_STACK 4096
#define SITE_PRACTICE_STACK 24576
#define SITE_PANEL_STACK 106496

/* A larger allowance, also of further events, is refused by 2, and so is a script that asks for more rounds in all. */
#define SITE_ALLOWANCE_MOST 10000000

/* Engines; any other number is refused by 1, and so are steps where a dump is asked for. */
enum site_engine {
    SITE_EVENTS = 0, /* from event to event: fast, ignores the site limit */
    SITE_STEPS = 1   /* second by second: obeys the site limit, also one that is shared evenly */
};

/* Where the eleven numbers of an answer stand. */
enum site_number {
    SITE_NUMBER,         /* 0: fine; 1 to 19: refused, and all numbers after the two places are 0 */
    SITE_PLACE,          /* the block that a refusal names, the first being 1; 0 is none */
    SITE_OTHER_PLACE,    /* for 12 the charger's block beside the vehicle's */
    SITE_USED,           /* units used: events handled, or rounds of one second */
    SITE_ENDED,          /* 1: the run has ended; 0: its allowance is used up */
    SITE_YET_TO_ARRIVE,  /* vehicles whose arrival was not handled */
    SITE_QUEUED,         /* vehicles waiting when the run stopped */
    SITE_OPEN,           /* sessions in the book that are still open: only of a run by steps that has not ended */
    SITE_CHARGED,        /* sessions in the book: charged */
    SITE_RENEGED,        /* gave up waiting */
    SITE_BALKED,         /* drove on */
    SITE_NUMBERS         /* how many there are: 11 */
};

/* Where the four numbers of a book's header stand. */
enum site_header_number {
    SITE_HEADER_COUNT,   /* how many sessions */
    SITE_HEADER_ENGINE,  /* SITE_EVENTS or SITE_STEPS */
    SITE_HEADER_ENDED,   /* 1: the run has ended; 0: its allowance was used up */
    SITE_HEADER_USED,    /* units used */
    SITE_HEADER_NUMBERS  /* how many there are: 4 */
};

/* Where the sixteen numbers of a session stand. One that the outcome has not is 0. The last six are the bits of a double. */
enum site_session_number {
    SITE_SESSION_VEHICLE,          /* id */
    SITE_SESSION_PROFILE,          /* id */
    SITE_SESSION_CHARGER,          /* id */
    SITE_SESSION_CONNECTOR,        /* 1 CCS1, 2 CCS2, 3 CHAdeMO, 4 GB/T, 5 NACS */
    SITE_SESSION_OUTCOME,          /* one of enum site_outcome */
    SITE_SESSION_FLEET,            /* 1 to SITE_FLEETS_MOST; 0: none */
    SITE_SESSION_ARRIVAL,          /* s */
    SITE_SESSION_PLUGIN,           /* s */
    SITE_SESSION_UNPLUG,           /* s */
    SITE_SESSION_WAIT,             /* s */
    SITE_SESSION_CHARGE_DURATION,  /* s */
    SITE_SESSION_IDLE,             /* s */
    SITE_SESSION_PEAK,             /* kW */
    SITE_SESSION_ENERGY,           /* kWh */
    SITE_SESSION_SOC_START,        /* state of charge */
    SITE_SESSION_SOC_END,          /* state of charge */
    SITE_SESSION_NUMBERS           /* how many there are: 16 */
};

/* What became of a session's vehicle. */
enum site_outcome {
    SITE_OUTCOME_OPEN,     /* 0: plugged in when the run stopped */
    SITE_OUTCOME_CHARGED,  /* 1 */
    SITE_OUTCOME_RENEGED,  /* 2: gave up waiting */
    SITE_OUTCOME_BALKED,   /* 3: drove on */
    SITE_OUTCOMES          /* how many there are: 4 */
};

/* What an operation of a script does. Its number has the kind in bits 0 and 1, the byte to write in bits 8 to 15, and its argument in
 * bits 32 to 63: how many rounds, an address, or for a line the charger's place in the plan, from 0. Other bits are not looked at. */
enum site_operation {
    SITE_OPERATION_ROUNDS,  /* 0: so many rounds of one second; once the run has ended they do nothing */
    SITE_OPERATION_READ,    /* 1: reads the byte at an address */
    SITE_OPERATION_WRITE,   /* 2: writes the byte to an address */
    SITE_OPERATION_LINE     /* 3: whether a cabinet's line is raised */
};

/* What an operation answers. One that is refused changes nothing, and the script goes on. */
enum site_access {
    SITE_ACCESS_DONE = 0,
    SITE_ACCESS_OUTSIDE = 20,   /* the address lies outside the cabinets, or the plan has no such charger */
    SITE_ACCESS_READ_ONLY = 21  /* the byte cannot be written; tested after 20 */
};

/* Where the bytes of a cabinet stand. Those of the charger at place k, from 0, begin at address SITE_CABINET_BYTES * k. */
enum site_cabinet_byte {
    SITE_CABINET_STATUS,       /* 0: bits of enum site_cabinet_status, 0 at a free cabinet */
    SITE_CABINET_PENDING,      /* 1: bits of enum site_cabinet_event that came; ones that are written clear them */
    SITE_CABINET_ENABLE,       /* 2: bits of enum site_cabinet_event, 0 at first; other bits that are written are dropped */
    SITE_CABINET_VEHICLE = 4,  /* 4: 32 bits, lowest byte first: the id of the vehicle that stands there, 0 at a free cabinet */
    SITE_CABINET_ENERGY = 8,   /* 8: a double, lowest byte first: what it was charged so far in kWh, 0 at a free cabinet */
    SITE_CABINET_BYTES = 16    /* how many there are; byte 3 is 0 */
};

enum site_cabinet_status {
    SITE_CABINET_OCCUPIED = 1,
    SITE_CABINET_CHARGING = 2,
    SITE_CABINET_IDLE = 4
};

enum site_cabinet_event {
    SITE_CABINET_STARTED = 1,  /* a car was plugged in */
    SITE_CABINET_ENDED = 2     /* the charger was freed */
};

/* Checks a plan without running it.
 *
 * plan, plan_length    the plan's bytes; read only
 * numbers              all eleven are written: refusals 4 to 12 with their places, or zeros for a plan that would be run
 *
 * Of a plan that is not refused it is proved: at a charger of lower rated power the same car, or one of the same profile, start
 * and target, takes no less time to charge, peaks no higher, and takes the same energy, bit for bit. A run by events
 * has just these numbers in its book.
 */
void site_check(const uint8_t *plan, size_t plan_length, uint64_t numbers[SITE_NUMBERS]);

/* Checks a plan, runs it, and writes its book.
 *
 * plan, plan_length    the plan's bytes; read only
 * engine               SITE_EVENTS or SITE_STEPS
 * allowance            units after which the run stops, at most SITE_ALLOWANCE_MOST: events to handle, or seconds to go
 *                      through. Under a larger allowance every closed session stays where and as it is in the book
 * book, book_length    at least SITE_BOOK_LEAST bytes. A book of n sessions takes 512 * (1 + (n + 4) / 5) bytes, n being
 *                      the sum of SITE_OPEN to SITE_BALKED; bytes behind it stay as they were
 * numbers              all eleven are written: refusals 1 to 12, or how the run went
 */
void site_run(const uint8_t *plan, size_t plan_length, uint32_t engine, uint32_t allowance, uint8_t *book, size_t book_length,
              uint64_t numbers[SITE_NUMBERS]);

/* Runs a plan by events as site_run does, and dumps the state after the last handled event beside the book.
 *
 * plan, plan_length    the plan's bytes; read only
 * engine               SITE_EVENTS
 * allowance            events after which the run stops, at most SITE_ALLOWANCE_MOST
 * book, book_length    as in site_run
 * dump, dump_length    at least SITE_DUMP_LEAST bytes. A dump of e events and n sessions, the 16-bit numbers at its bytes 8
 *                      and 10, takes 512 * (1 + (e + 30) / 31 + (n + 4) / 5) bytes; bytes behind it stay as they were
 * numbers              all eleven are written: refusals 1, 2, 3, 13 and 4 to 12, tested in this order, or how the run went
 */
void site_dump(const uint8_t *plan, size_t plan_length, uint32_t engine, uint32_t allowance, uint8_t *book, size_t book_length,
               uint8_t *dump, size_t dump_length, uint64_t numbers[SITE_NUMBERS]);

/* Continues a dumped run. Book and numbers are those of the unbroken run by events up to the dump's handled count and the
 * further events together; units used count from the run's start.
 *
 * plan, plan_length    the bytes of the plan that was dumped; read only
 * dump, dump_length    bytes that begin with the dump; read only. Those behind it are not read
 * further              events to handle from there, at most SITE_ALLOWANCE_MOST
 * book, book_length    as in site_run
 * numbers              all eleven are written: refusals 2 to 12 and 14, tested in this order, or how the run went. 14: the
 *                      bytes do not begin with the dump of this plan after the handled count that they name
 */
void site_continue(const uint8_t *plan, size_t plan_length, const uint8_t *dump, size_t dump_length, uint32_t further, uint8_t *book,
                   size_t book_length, uint64_t numbers[SITE_NUMBERS]);

/* Books a late car into a dumped run: writes the dump of the longer plan, which is the plan with the car as its last vehicle, after the
 * same handled count. What the run has done by then stands in it unchanged: queue, busy chargers, sessions and units used. Its events
 * are those of the dump, with the car's arrival and renege at their places. Continued by site_continue with the longer plan, the
 * run has the numbers and the book of one that was planned in full. An ended run takes a car too.
 *
 * The caller makes the longer plan, as examples/c/late.c does: one vehicle more at bytes 8 and 9 of the header, the header's check
 * made again, and the car's block behind the last one. The queue places of the fleets, at bytes 24 to 87 of the header, stay; so the
 * car's fleet, at bytes 60 and 61 of its block, has those of the plan.
 *
 * plan, plan_length          the bytes of the plan that was dumped; read only
 * dump, dump_length          bytes that begin with the dump; read only. Those behind it are not read
 * car, car_length            the car's block, a vehicle's with the check of its place behind the plan's last block, of
 *                            SITE_CAR_BYTES bytes; read only
 * new_dump, new_dump_length  at least SITE_DUMP_LEAST bytes. The new dump's length is told as in site_dump; bytes behind it stay
 *                            as they were
 * numbers                    all eleven are written: refusals 13, 4 to 12, 14, 17, 18, and then 4 to 12 of the longer plan, tested in
 *                            this order, or zeros. 17: there are SITE_VEHICLES_MOST vehicles already. 18: the car's arrival is
 *                            not later than the last handled event; where none was handled any arrival will do
 */
void site_book_late(const uint8_t *plan, size_t plan_length, const uint8_t *dump, size_t dump_length, const uint8_t *car,
                    size_t car_length, uint8_t *new_dump, size_t new_dump_length, uint64_t numbers[SITE_NUMBERS]);

/* Reads a book back. It accepts just the books that can be written for some list of up to SITE_SESSIONS_MOST sessions, and gives
 * these bit for bit. A field may hold any bits where no rule says otherwise, so a float may be a NaN.
 *
 * book, book_length    the book's blocks, and nothing behind them; read only
 * header               its four numbers
 * sessions             sixteen numbers for each session, in the book's order; those of session k, the first being 0, begin at
 *                      SITE_SESSION_NUMBERS * k. All 1,024 are written: those behind the last session are 0
 * numbers              all eleven are written: refusals 15 and 16, tested in this order, or zeros
 */
void site_read_book(const uint8_t *book, size_t book_length, uint64_t header[SITE_HEADER_NUMBERS],
                    uint64_t sessions[SITE_SESSIONS_MOST * SITE_SESSION_NUMBERS], uint64_t numbers[SITE_NUMBERS]);

/* Makes a practice day: a plan with `count` copies of the one vehicle of a plan, whose ids count from 1. What is drawn from the seed for each is
 * its arrival, a whole second from 0 to 86,399, its start, from 0 to 511/1024, and its target, from 512/1024 to 1023/1024; all else is the
 * vehicle's. Equal seeds, plans and counts give equal bytes on every machine. site_check takes the written plan, or refuses it by 12.
 *
 * plan, plan_length  the bytes of a plan with one vehicle; read only
 * seed               any number but 0
 * count              how many cars: 1 to SITE_VEHICLES_MOST
 * day, day_length    at least SITE_PRACTICE_LEAST bytes. The written plan is longer than the plan by SITE_CAR_BYTES for each car but the
 *                    first; bytes behind it stay as they were
 * numbers            all eleven are written: refusals 4 to 12 of the plan, and then 19, or zeros. 19: the seed is 0, `count` is out of
 *                    its limits, `day` is too short, or the plan has no vehicle or more than one
 */
void site_practice(const uint8_t *plan, size_t plan_length, uint32_t seed, uint32_t count, uint8_t *day, size_t day_length,
                   uint64_t numbers[SITE_NUMBERS]);

/* Plays a script on the panel boards of a site, beside a run by steps from its start. A board shows a cabinet as SITE_CABINET_BYTES
 * bytes. Reads and writes fall between rounds, and the run is the one that site_run makes.
 *
 * It is proved that a pending bit is set exactly if its event came after the bit was cleared last, or came at all where it was never
 * cleared. A charger that is freed and takes a waiting car in the same round has both events. A cabinet's line is raised while
 * its pending and its enable share a bit.
 *
 * plan, plan_length        the plan's bytes; read only
 * script, script_length    the operations, and how many there are; read only. As many are played as have room in `answers`
 * answers, answers_length  two bytes for each operation played: one of enum site_access, and the byte that was read, or 1 for a line
 *                          that is raised, else 0. Bytes behind them stay as they were
 * numbers                  all eleven are written: refusals 2 and 4 to 12, tested in this order, or zeros. 2: the operations played
 *                          ask for more than SITE_ALLOWANCE_MOST rounds in all
 */
void site_panel(const uint8_t *plan, size_t plan_length, const uint64_t *script, size_t script_length, uint8_t *answers,
                size_t answers_length, uint64_t numbers[SITE_NUMBERS]);

#ifdef __cplusplus
}
#endif

#endif
