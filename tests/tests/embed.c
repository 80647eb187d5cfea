/* Calls the archive's functions from C and prints what they return. */

#include <stdio.h>
#include <string.h>

#include "tramcheck.h"

#define ZONES 4

static int32_t work[TRAMCHECK_WORKSPACE(ZONES)];

/* One line: kind, fault, value and the fifteen times. */
static void print_line(uint32_t kind, size_t fault, size_t value,
                       const int64_t times[TRAMCHECK_DEPARTURES])
{
    printf("%u %zu %zu:", (unsigned)kind, fault, value);
    for (int i = 0; i < TRAMCHECK_DEPARTURES; i++)
        printf(" %lld", (long long)times[i]);
    printf("\n");
}

/* The same, led by the parts of a second that the times are in. */
static void print_parts(size_t parts, uint32_t kind, size_t fault,
                        size_t value,
                        const int64_t times[TRAMCHECK_DEPARTURES])
{
    printf("of %zu: ", parts);
    print_line(kind, fault, value, times);
}

/* How many numbers of the workspace are not 0. */
static size_t not_zero(void)
{
    size_t count = 0;
    for (size_t i = 0; i < TRAMCHECK_WORKSPACE(ZONES); i++)
        count += work[i] != 0;
    return count;
}

int main(void)
{
    static const uint8_t bytes[] = {0x20, 0x40, 0x03, 0xC0};
    size_t fault, value, parts;
    int64_t times[TRAMCHECK_DEPARTURES];

    memset(work, 1, sizeof work);
    uint32_t kind = tramcheck_verdict(bytes, sizeof bytes, ZONES, work,
                                      TRAMCHECK_WORKSPACE(ZONES), &fault,
                                      &value, &parts, times);
    print_parts(parts, kind, fault, value, times);
    printf("%d %zu\n", kind == TRAMCHECK_REACHED, not_zero());

    /* The same case unpacked, then with a target that is never met. */
    uint8_t present[TRAMCHECK_ENTRIES] = {0};
    uint8_t strict[TRAMCHECK_ENTRIES] = {0};
    int64_t values[TRAMCHECK_ENTRIES] = {0};
    present[0] = 1;
    values[0] = 60;
    kind = tramcheck_verdict_unpacked(1, 1, present, strict, values, ZONES,
                                      work, TRAMCHECK_WORKSPACE(ZONES), &fault,
                                      &value, &parts, times);
    print_parts(parts, kind, fault, value, times);
    present[TRAMCHECK_TARGET] = 1;
    values[TRAMCHECK_TARGET] = -1;
    present[TRAMCHECK_TARGET + 1] = 1;
    kind = tramcheck_verdict_unpacked(1, 1, present, strict, values, ZONES,
                                      work, TRAMCHECK_WORKSPACE(ZONES), &fault,
                                      &value, &parts, times);
    print_parts(parts, kind, fault, value, times);
    printf("%d\n", kind == TRAMCHECK_NEVER);

    /* Now the target can be met, and both patterns name the clock, so that
     * nothing is known later. */
    present[TRAMCHECK_TARGET] = 0;
    present[TRAMCHECK_START] = 1;
    kind = tramcheck_verdict_unpacked(1, 1, present, strict, values, ZONES,
                                      work, TRAMCHECK_WORKSPACE(ZONES), &fault,
                                      &value, &parts, times);
    print_parts(parts, kind, fault, value, times);
    printf("%d\n", kind == TRAMCHECK_CLEAR);

    /* A run over ten cycles, and one that is refused. */
    int64_t start[TRAMCHECK_DEPARTURES] = {-7};
    kind = tramcheck_run(1, present, values, start, 10, &fault, &value, times);
    print_line(kind, fault, value, times);
    kind = tramcheck_run(1, present, values, start, 65, &fault, &value, times);
    print_line(kind, fault, value, times);
    printf("%d\n", kind == TRAMCHECK_REFUSED);

    /* The first case read, written to an output with a byte more, and to one
     * that is too short. */
    size_t n, horizon;
    uint8_t out[TRAMCHECK_BYTES_WIDE] = {1, 2, 3, 4, 5};
    memset(strict, 1, sizeof strict);
    kind = tramcheck_read(bytes, sizeof bytes, &n, &horizon, present, strict,
                          values, &fault, &value);
    printf("%u %zu %zu: %zu %zu, %u %u %lld\n", (unsigned)kind, fault, value,
           n, horizon, present[0], strict[0], (long long)values[0]);
    kind = tramcheck_write(n, horizon, present, strict, values, out, 5, &fault,
                           &value);
    printf("%u %zu %zu: %d %u\n", (unsigned)kind, fault, value,
           memcmp(out, bytes, sizeof bytes), out[4]);
    kind = tramcheck_write(n, horizon, present, strict, values, out, 3, &fault,
                           &value);
    printf("%u %zu %zu\n", (unsigned)kind, fault, value);
    printf("%d\n", TRAMCHECK_DONE);

    /* The same case in the wide form, and back. */
    uint8_t wide[5], old[sizeof bytes];
    kind = tramcheck_to_wide(bytes, sizeof bytes, wide, sizeof wide, &fault,
                             &value);
    printf("%u %zu %zu: %02X %02X %02X %02X %02X\n", (unsigned)kind, fault,
           value, wide[0], wide[1], wide[2], wide[3], wide[4]);
    kind = tramcheck_to_old(wide, sizeof wide, old, sizeof old, &fault,
                            &value);
    printf("%u %zu %zu: %d\n", (unsigned)kind, fault, value,
           memcmp(old, bytes, sizeof bytes));

    /* From 0 to 90 in one cycle: not with a time of 60, but with 90, as a
     * preview tells before the commit. The row may not be emptied. */
    memset(present + TRAMCHECK_START, 1, 2);
    memset(present + TRAMCHECK_TARGET, 1, 2);
    values[TRAMCHECK_TARGET] = -90;
    values[TRAMCHECK_TARGET + 1] = 90;
    for (int64_t time = 60; time <= 90; time += 30) {
        kind = tramcheck_preview(n, horizon, present, strict, values, 1, 1, 1,
                                 time, ZONES, work,
                                 TRAMCHECK_WORKSPACE(ZONES), &fault, &value,
                                 &parts, times);
        print_parts(parts, kind, fault, value, times);
    }
    for (int blank = 0; blank < 2; blank++) {
        kind = tramcheck_commit(n, horizon, present, strict, values, 1, 1,
                                !blank, 90, &fault, &value);
        printf("%u %zu %zu: %u %lld\n", (unsigned)kind, fault, value,
               present[0], (long long)values[0]);
    }

    /* From between 0 and 1 to between 90 and 91, all of them strict: in halves
     * of a second, as is the run. The old form has no place for such bounds. */
    memset(strict + TRAMCHECK_START, 1, 2);
    memset(strict + TRAMCHECK_TARGET, 1, 2);
    values[TRAMCHECK_START + 1] = 1;
    values[TRAMCHECK_TARGET + 1] = 91;
    kind = tramcheck_verdict_unpacked(1, 1, present, strict, values, ZONES,
                                      work, TRAMCHECK_WORKSPACE(ZONES), &fault,
                                      &value, &parts, times);
    print_parts(parts, kind, fault, value, times);
    memcpy(start, times, sizeof start);
    kind = tramcheck_run_parts(1, present, strict, values, start, 1, &fault,
                               &value, &parts, times);
    print_parts(parts, kind, fault, value, times);
    kind = tramcheck_write(n, horizon, present, strict, values, out, 0, &fault,
                           &value);
    printf("%u %zu %zu\n", (unsigned)kind, fault, value);

    /* The wide form has: written, read again, and its verdict. */
    kind = tramcheck_write_wide(n, horizon, present, strict, values, out,
                                sizeof out, &fault, &value);
    printf("%u %zu %zu\n", (unsigned)kind, fault, value);
    size_t length = value;
    memset(strict, 0, sizeof strict);
    kind = tramcheck_read(out, length, &n, &horizon, present, strict, values,
                          &fault, &value);
    printf("%u %zu %zu: %zu %zu, %u %u %lld\n", (unsigned)kind, fault, value,
           n, horizon, present[TRAMCHECK_TARGET + 1],
           strict[TRAMCHECK_TARGET + 1],
           (long long)values[TRAMCHECK_TARGET + 1]);
    kind = tramcheck_verdict(out, length, ZONES, work,
                             TRAMCHECK_WORKSPACE(ZONES), &fault, &value,
                             &parts, times);
    print_parts(parts, kind, fault, value, times);

    /* The same without a table: in halves of a second at cycle 1, then without
     * a step, and over more cycles than there may be. */
    kind = tramcheck_decide(n, horizon, present, strict, values, 64, 1, &fault,
                            &value, &parts, times);
    print_parts(parts, kind, fault, value, times);
    kind = tramcheck_decide(n, horizon, present, strict, values, 64, 0, &fault,
                            &value, &parts, times);
    print_parts(parts, kind, fault, value, times);
    printf("%d\n", kind == TRAMCHECK_UNDECIDED);
    kind = tramcheck_decide(n, horizon, present, strict, values, 4097, 1,
                            &fault, &value, &parts, times);
    print_parts(parts, kind, fault, value, times);

    /* From 0 to one second more than 4,096 cycles take: at none of them. Then a
     * target that no time is in. */
    memset(strict, 0, sizeof strict);
    values[0] = 60;
    values[TRAMCHECK_START + 1] = 0;
    values[TRAMCHECK_TARGET] = -245761;
    values[TRAMCHECK_TARGET + 1] = 245761;
    kind = tramcheck_decide(n, horizon, present, strict, values, 4096, 4096,
                            &fault, &value, &parts, times);
    print_parts(parts, kind, fault, value, times);
    printf("%d\n", kind == TRAMCHECK_CLEAR);
    values[TRAMCHECK_TARGET + 1] = 245760;
    kind = tramcheck_decide(n, horizon, present, strict, values, 4096, 0,
                            &fault, &value, &parts, times);
    print_parts(parts, kind, fault, value, times);
    printf("%d\n", kind == TRAMCHECK_NEVER);

    /* Fifteen departures, each by itself and 60 seconds later in each cycle:
     * a run, and what both writers say. */
    n = TRAMCHECK_DEPARTURES;
    memset(present, 0, sizeof present);
    for (size_t i = 0; i < n; i++) {
        present[i * n + i] = 1;
        values[i * n + i] = 60;
        start[i] = (int64_t)i;
    }
    kind = tramcheck_run(n, present, values, start, 64, &fault, &value, times);
    print_line(kind, fault, value, times);
    kind = tramcheck_write(n, horizon, present, strict, values, out,
                           sizeof out, &fault, &value);
    printf("%u %zu %zu\n", (unsigned)kind, fault, value);
    kind = tramcheck_write_wide(n, horizon, present, strict, values, out, 0,
                                &fault, &value);
    printf("%u %zu %zu\n", (unsigned)kind, fault, value);
    return 0;
}
