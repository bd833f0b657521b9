/* The worked program of document 01 through the C library: its setup, its nine frames and its clear; a tenth frame; the counters; two refusals. */
#include "transomrib.h"
#include <inttypes.h>
#include <stdio.h>
#include <stdlib.h>

static uint8_t input[512];
static size_t filled;

static void put(uint64_t value, int width) {
    for (int i = width - 1; i >= 0; i--)
        input[filled++] = (uint8_t)(value >> (8 * i));
}

static void arrival(uint64_t time, uint32_t handle, uint8_t priority, uint16_t msdu) {
    put(9, 1), put(0, 1), put(time, 8), put(handle, 4), put(priority, 1), put(0, 1), put(msdu, 2);
}

static void records(void) {
    /* gate 0: open, null, no blocks, base time 0 */
    put(3, 1), put(0, 1), put(1, 1), put(8, 1), put(0, 1), put(0, 1), put(0, 8);
    /* group 0: residence 10,000; scheduler 0: 10^9 bit/s, burst 1000 */
    put(6, 1), put(0, 1), put(10000, 4);
    put(7, 1), put(0, 1), put(0, 1), put(1000000000, 8), put(1000, 4);
    /* filter 0: handle 7, any priority, gate 0, max SDU 500, oversize block, no meter, scheduler 0 */
    put(2, 1), put(0, 1), put(0, 1), put(7, 4), put(8, 1), put(0, 1), put(500, 2), put(1, 1), put(255, 1), put(0, 1);
    /* start: 8 traffic classes */
    put(8, 1), put(8, 1);
    for (int i = 0; i < 5; i++)
        arrival(0, 7, 3, 500);
    arrival(2000, 7, 3, 501);
    arrival(2000, 7, 3, 500);
    /* clear: the oversize flag of filter 0 */
    put(10, 1), put(1, 1), put(0, 1);
    arrival(2000, 7, 3, 500);
    arrival(2000, 9, 0, 500);
    /* the bucket is full again by now */
    arrival(20000, 7, 3, 100);
}

int main(void) {
    /* on the heap and just as long as they must be, so that a sanitizer sees a step outside */
    struct transomrib_filter *table = calloc(TRANSOMRIB_ROWS, sizeof *table);
    struct transomrib_bank *bank = calloc(1, sizeof *bank);
    struct transomrib_lists *lists = calloc(1, sizeof *lists);
    if (!table || !bank || !lists)
        return 1;
    records();

    size_t at = 0;
    int taken = 0, arrivals = 0;
    while (at < filled) {
        struct transomrib_reply r = transomrib_take(table, TRANSOMRIB_ROWS, bank, lists, input + at, filled - at);
        if (r.verdict == TRANSOMRIB_REFUSED) {
            printf("refused %d at %zu\n", r.number, at);
            return 1;
        }
        if (r.verdict == TRANSOMRIB_DROPPED)
            printf("%d drop %d\n", ++arrivals, r.number);
        if (r.verdict == TRANSOMRIB_PASSED && r.timed)
            printf("%d pass %d %d %d %" PRIu64 "\n", ++arrivals, r.priority, r.traffic_class, r.drop_mark, r.eligible);
        if (r.verdict == TRANSOMRIB_PASSED && !r.timed)
            printf("%d pass %d %d %d -\n", ++arrivals, r.priority, r.traffic_class, r.drop_mark);
        at += r.used;
        taken++;
    }
    printf("end %d\n", taken);

    static const char *const names[] = {"MatchingFrames", "PassingSDU", "NotPassingSDU", "PassingFrames", "NotPassingFrames", "REDFrames", "oversize flag",
                                        "invalid-receive flag", "octets flag", "red flag", "DiscardedFrames"};
    for (uint32_t what = TRANSOMRIB_MATCHING_FRAMES; what <= TRANSOMRIB_DISCARDED_FRAMES; what++)
        printf("%s of 0: %" PRIu64 "\n", names[what - 1], transomrib_read(bank, what, 0));
    printf("no such name: %" PRIu64 ", past the table: %" PRIu64 "\n", transomrib_read(bank, 12, 0), transomrib_read(bank, TRANSOMRIB_MATCHING_FRAMES, 64));

    /* a table that is a row short, and an arrival before the last one */
    struct transomrib_reply r = transomrib_take(table, TRANSOMRIB_ROWS - 1, bank, lists, input, filled);
    printf("refused %d, %" PRIu64 " octets\n", r.number, r.used);
    filled = 0;
    arrival(1999, 7, 3, 500);
    r = transomrib_take(table, TRANSOMRIB_ROWS, bank, lists, input, filled);
    printf("refused %d, %" PRIu64 " octets\n", r.number, r.used);

    free(table), free(bank), free(lists);
    return 0;
}
