/* What a header for seven departures made of a call. It must not link: the
 * array is too short for what the archive writes. */

#include <stddef.h>
#include <stdint.h>

uint32_t tramcheck_run(size_t n, const uint8_t present[161],
                       const int64_t values[161], const int64_t start[7],
                       size_t cycle, size_t *fault, size_t *value,
                       int64_t times[7]);

int main(void)
{
    static const uint8_t present[161];
    static const int64_t values[161], start[7];
    size_t fault, value;
    int64_t times[7];
    return (int)tramcheck_run(1, present, values, start, 0, &fault, &value,
                              times);
}
