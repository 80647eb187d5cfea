/* For archives from before there were decisions, which a comparison does not ask
 * for, and, with SEVEN defined, from before there were fifteen departures: the
 * function that the benchmark compares, by today's name and with today's arrays.
 * `compare.sh` adds it to such an archive. Copying the arrays takes about 0.1
 * microseconds a call. */

#include <stdint.h>
#include <stdlib.h>
#include <string.h>

/* What a comparison does not call. */
#define LEFT_OUT(name) \
    void name(void) { abort(); }

LEFT_OUT(tramcheck_decide_15)

#ifdef SEVEN

/* The places of an archive for up to seven departures, and today's. */
enum { TIMES = 49, BOUNDS = 56, ENTRIES = 161, DEPARTURES = 7 };
enum { START_NOW = 225, TARGET_NOW = 465, DEPARTURES_NOW = 15 };

uint32_t tramcheck_verdict_unpacked(
    size_t n, size_t horizon, const uint8_t *present, const uint8_t *strict,
    const int64_t *values, size_t capacity, int32_t *work, size_t work_length,
    size_t *fault, size_t *value, size_t *parts, int64_t *start);

static void shorten(char *to, const char *from, size_t size)
{
    memcpy(to, from, TIMES * size);
    memcpy(to + TIMES * size, from + START_NOW * size, BOUNDS * size);
    memcpy(to + (TIMES + BOUNDS) * size, from + TARGET_NOW * size,
           BOUNDS * size);
}

uint32_t tramcheck_verdict_unpacked_15(
    size_t n, size_t horizon, const uint8_t *present, const uint8_t *strict,
    const int64_t *values, size_t capacity, int32_t *work, size_t work_length,
    size_t *fault, size_t *value, size_t *parts, int64_t *start)
{
    uint8_t old_present[ENTRIES], old_strict[ENTRIES];
    int64_t old_values[ENTRIES];
    shorten((char *)old_present, (const char *)present, sizeof *present);
    shorten((char *)old_strict, (const char *)strict, sizeof *strict);
    shorten((char *)old_values, (const char *)values, sizeof *values);
    memset(start, 0, DEPARTURES_NOW * sizeof *start);
    return tramcheck_verdict_unpacked(n, horizon, old_present, old_strict,
                                      old_values, capacity, work, work_length,
                                      fault, value, parts, start);
}

LEFT_OUT(tramcheck_verdict_15)
LEFT_OUT(tramcheck_preview_15)
LEFT_OUT(tramcheck_commit_15)
LEFT_OUT(tramcheck_run_15)
LEFT_OUT(tramcheck_run_parts_15)
LEFT_OUT(tramcheck_write_15)
LEFT_OUT(tramcheck_write_wide_15)
LEFT_OUT(tramcheck_to_wide)
LEFT_OUT(tramcheck_to_old)
LEFT_OUT(tramcheck_read_15)

#endif
