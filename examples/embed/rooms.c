/* The rooms of coater.h on large plans: 512 slots, 32 jobs, every report `more` or `none`. For each plan it prints the two
 * output lengths; status 1 where an output does not fit its room, or a call with one byte too little writes anything. */
#include <stdio.h>
#include <string.h>

#include "coater.h"

enum { SLOTS = 512, JOBS = 32, TEXT = 65536, LONGEST_STEP = 28, LONGEST_JOB = 13, LONGEST_INTERVAL = 31, INTERVALS = 2 * JOBS + 1 };

/* step=511,32,H,-16384,-16384  job=32,W,512  interval=511,512,-16384,-16384: no spare is below minus 32 times 512. */
_Static_assert(SLOTS * LONGEST_STEP + JOBS * LONGEST_JOB <= COATER_RUN_ROOM, "a line for each slot and each job");
_Static_assert(INTERVALS * LONGEST_INTERVAL + 9 <= COATER_CHECK_ROOM, "a line for each interval and the answer");

static char text[TEXT];
static size_t length;
static uint8_t kinds[SLOTS];
static uint8_t out[COATER_RUN_ROOM + COATER_CHECK_ROOM];

struct job {
    const char *level;
    int release, deadline, lo, hi;
};

static struct job jobs[JOBS];
static int table[SLOTS];

static void line(const char *key, int number) { length += (size_t)sprintf(text + length, "%s=%d\n", key, number); }

static void write_plan(void) {
    length = 0;
    line("slots", SLOTS);
    line("jobs", JOBS);
    for (int k = 0; k < JOBS; k++) {
        length += (size_t)sprintf(text + length, "level=%s\n", jobs[k].level);
        line("release", jobs[k].release);
        line("deadline", jobs[k].deadline);
        line("lo", jobs[k].lo);
        line("hi", jobs[k].hi);
    }
    for (int s = 0; s < SLOTS; s++) {
        line("slot", table[s]);
    }
}

/* 65 intervals: each job's window stands alone, with a gap before it and one after the last. */
static void apart(void) {
    memset(table, 0, sizeof table);
    for (int k = 0; k < JOBS; k++) {
        jobs[k] = (struct job){k % 2 ? "LO" : "HI", 16 * k + 8, 16 * k + 15, 3, k % 2 ? 3 : 4};
        for (int s = 0; s < 3; s++) {
            table[16 * k + 8 + s] = k + 1;
        }
    }
}

/* Debts: job 1 is HI over the whole table and overruns in slot 1; the LO jobs then wait, and their spares fall below 0. */
static void in_debt(void) {
    memset(table, 0, sizeof table);
    jobs[0] = (struct job){"HI", 0, SLOTS, 2, 70};
    table[0] = table[1] = 1;
    for (int k = 1; k < JOBS; k++) {
        int first = 14 * (k - 1) + 2;
        jobs[k] = (struct job){"LO", k % 2 ? 0 : first, SLOTS, 14, 14};
        for (int s = 0; s < 14; s++) {
            table[first + s] = k + 1;
        }
    }
}

/* The report lines for every slot: `more` where a job runs, `none` where the slot is idle. */
static int report_all(void) {
    size_t places[2];
    size_t plan = length;
    for (int s = 0; s < SLOTS; s++) {
        kinds[s] = COATER_MORE;
        if (embed_walk((const uint8_t *)text, plan, kinds, (size_t)s + 1, places) == 13) {
            kinds[s] = COATER_NONE;
        }
        length += (size_t)sprintf(text + length, "report=%d,%s\n", s, kinds[s] == COATER_MORE ? "more" : "none");
    }
    return embed_walk((const uint8_t *)text, plan, kinds, SLOTS, places) == 0;
}

typedef size_t call(const uint8_t *, size_t, uint8_t *, size_t);

/* The output's length where it fits `room`, ends in LF and leaves the rest alone, and a short room is left alone; else 0. */
static size_t tried(call *output, size_t room, size_t least) {
    memset(out, '.', sizeof out);
    if (output((const uint8_t *)text, length, out, least - 1) != 0 || memchr(out, '\n', sizeof out) != NULL) {
        return 0;
    }
    size_t printed = output((const uint8_t *)text, length, out, room);
    for (size_t at = printed; at < sizeof out; at++) {
        if (out[at] != '.') {
            return 0;
        }
    }
    return printed > 0 && printed <= room && out[printed - 1] == '\n' ? printed : 0;
}

static int plan(const char *name, void (*made)(void)) {
    made();
    write_plan();
    size_t checked = tried(embed_check, COATER_CHECK_ROOM, COATER_CHECK_ROOM);
    int accepted = report_all();
    size_t ran = tried(embed_run, COATER_RUN_ROOM, 1);
    int exact = tried(embed_run, ran, ran) == ran;
    printf("%s: check %zu of %d bytes, run %zu of %d bytes\n", name, checked, COATER_CHECK_ROOM, ran, COATER_RUN_ROOM);
    return accepted && checked > 0 && ran > 0 && exact;
}

int main(void) { return plan("65 intervals", apart) & plan("spares below 0", in_debt) ? 0 : 1; }
