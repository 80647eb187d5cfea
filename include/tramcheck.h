/* Verdicts on tram networks: a static library, proved in Rattle. Link libembed.a.
 *
 * The functions ask nothing of the numbers that they are given: any input that is not within the limits is refused. As in any C interface, a
 * pointer must point to as many elements as its parameter says, and what a function writes must not overlap anything else that it is lent.
 * A length may be 0, and then its pointer is not read. No function keeps anything between calls or allocates; all return. A call takes less than
 * 1 MiB of the stack.
 *
 * Each function returns what the verdict is and sets
 *   *fault    the fault's number, 1 to 16, where it is TRAMCHECK_REFUSED, else 0. Number 12 (bound too large) is reserved and not returned: it is proved
 *             that no bound can be too large;
 *   *value    k for TRAMCHECK_REACHED, N for TRAMCHECK_CLEAR, 0 for TRAMCHECK_NEVER, what the fault returns for TRAMCHECK_REFUSED:
 *             its place, the cycle of 11 (table full), the departure of 13, the bytes needed of 14, or 0;
 *             from tramcheck_decide the number of cycles that were asked for where it is TRAMCHECK_CLEAR, and where it is TRAMCHECK_UNDECIDED the
 *             cycle at which the steps ran out;
 *             for TRAMCHECK_DONE the number of bytes written or read, 0 for a change committed;
 *   *parts    D, the parts of a second in which the start is handed back: 1 if no bound of the two patterns is strict, else n + 1; 0 for every verdict
 *             other than TRAMCHECK_REACHED, for TRAMCHECK_UNDECIDED too;
 *   the fifteen times  a start that reaches the target, in Dths of a second, the latest of its zone: departures 1 to n in turn, each the latest possible
 *             given those before it, the earliest if there is no latest, 0 if there is neither, where less than b seconds is at most b * D - 1 parts;
 *             0 beyond n and for every other verdict.
 *
 * A start need not be in whole seconds: a verdict speaks of all starts in Dths of a second, for every whole D from 1 up. Where one of them reaches the
 * target at a cycle, one in (n + 1)ths does, and if no bound is strict, one in whole seconds.
 *
 * A packed case has one of two forms. The old form has up to 7 departures and no strict bound. The wide form, which begins with three zero bits, has up
 * to 15 departures and a mark for each bound. Whatever reads a packed case tells the form by its first three bits; a case has one encoding in each form.
 */
#ifndef TRAMCHECK_H
#define TRAMCHECK_H

#include <stddef.h>
#include <stdint.h>

#ifdef __cplusplus
extern "C" {
#endif

enum {
    TRAMCHECK_REFUSED = 0,
    TRAMCHECK_REACHED = 1,
    TRAMCHECK_CLEAR = 2,
    TRAMCHECK_NEVER = 3,
    TRAMCHECK_DONE = 4,
    TRAMCHECK_UNDECIDED = 5
};

/* The functions' names for the linker. They are others than before there were fifteen departures: the arrays are longer, so what was compiled with an
 * older header must not be linked. Source needs no change but to be compiled again. */
#define tramcheck_verdict tramcheck_verdict_15
#define tramcheck_verdict_unpacked tramcheck_verdict_unpacked_15
#define tramcheck_decide tramcheck_decide_15
#define tramcheck_preview tramcheck_preview_15
#define tramcheck_commit tramcheck_commit_15
#define tramcheck_run tramcheck_run_15
#define tramcheck_run_parts tramcheck_run_parts_15
#define tramcheck_write tramcheck_write_15
#define tramcheck_write_wide tramcheck_write_wide_15
#define tramcheck_read tramcheck_read_15

/* The most departures. */
#define TRAMCHECK_DEPARTURES 15

/* The entries of an unpacked case. For n departures, entry e of the table (row by row, n * n of them) is at e, entry e of the start pattern (the
 * pairs i, j from 0 to n, i not j, by i, then by j, n * (n + 1) of them) at TRAMCHECK_START + e, of the target pattern at TRAMCHECK_TARGET + e.
 * An entry counts where its number in present is not 0; all others are ignored. A bound b that counts says that x(i) - x(j) is less than b where its
 * number in strict is not 0, and at most b where that is 0; the numbers in strict of times and of entries that do not count are ignored. */
#define TRAMCHECK_ENTRIES 705
#define TRAMCHECK_START 225
#define TRAMCHECK_TARGET 465

/* A workspace that is long enough for z zones, whatever the case. Shorter is enough for n below 15: 2 * z * (n + 1) * (n + 1). */
#define TRAMCHECK_WORKSPACE(z) ((size_t)2 * (z) * 256)

/* The verdict on a packed case of either form, with a table of capacity zones, 1 to 4,096. The workspace is left as it was by faults 1 to 10, and all
 * zero otherwise, whatever its length. Places are bit numbers. A case in the old form has no strict bounds, so that its start is in whole seconds. */
uint32_t tramcheck_verdict(const uint8_t *bytes, size_t length, size_t capacity, int32_t *work, size_t work_length, size_t *fault,
                           size_t *value, size_t *parts, int64_t start[TRAMCHECK_DEPARTURES]);

/* The same on an unpacked case. Places are entry numbers: of the table, or of the start pattern followed by the target pattern. */
uint32_t tramcheck_verdict_unpacked(size_t n, size_t horizon, const uint8_t present[TRAMCHECK_ENTRIES],
                                    const uint8_t strict[TRAMCHECK_ENTRIES], const int64_t values[TRAMCHECK_ENTRIES], size_t capacity,
                                    int32_t *work, size_t work_length, size_t *fault, size_t *value, size_t *parts,
                                    int64_t start[TRAMCHECK_DEPARTURES]);

/* The exact answer on an unpacked case, over cycles 1 to cycles. It needs no workspace, and there is no table that can be full. The horizon is the case's
 * own N: it is judged as ever, and otherwise not used. Faults in this order: the case's own, 2 to 6; 3 for cycles outside 1 to 4,096. steps is how many
 * columns may be tried, in all cycles together; 10,000,000 for a caller without a wish. Returns
 *   TRAMCHECK_REACHED    with the first cycle at which a start reaches the target, and such a start. It is one of its own, and may be another than that
 *                        of tramcheck_verdict;
 *   TRAMCHECK_CLEAR      with cycles in *value: none of these cycles is one;
 *   TRAMCHECK_NEVER      there is no such cycle, without end;
 *   TRAMCHECK_UNDECIDED  with the cycle k at which the steps ran out: nothing is met at cycles 1 to k - 1, and nothing is said of the others;
 *   TRAMCHECK_REFUSED    for a fault.
 * A call takes less than 256 KiB of the stack. */
uint32_t tramcheck_decide(size_t n, size_t horizon, const uint8_t present[TRAMCHECK_ENTRIES], const uint8_t strict[TRAMCHECK_ENTRIES],
                          const int64_t values[TRAMCHECK_ENTRIES], size_t cycles, size_t steps, size_t *fault, size_t *value,
                          size_t *parts, int64_t start[TRAMCHECK_DEPARTURES]);

/* The verdict on an unpacked case with the time in one row and column, both counted from 1, replaced, or blanked where has is 0. Faults in this order: the
 * case's own, 2 to 6, in the entry that would be replaced too; 15 for a row or column outside 1 to n; of the changed time 4 or 5; 9; 10. The arrays are only
 * read; the workspace is left as it was by all of these, and all zero otherwise. */
uint32_t tramcheck_preview(size_t n, size_t horizon, const uint8_t present[TRAMCHECK_ENTRIES], const uint8_t strict[TRAMCHECK_ENTRIES],
                           const int64_t values[TRAMCHECK_ENTRIES], size_t row, size_t column, uint8_t has, int64_t time, size_t capacity,
                           int32_t *work, size_t work_length, size_t *fault, size_t *value, size_t *parts,
                           int64_t start[TRAMCHECK_DEPARTURES]);

/* Changes that time where it stands, at (row - 1) * n + (column - 1): present is set to 1, or to 0 where has is 0, and values to time; every other number
 * of both arrays stays as it was, and strict is only read. Returns TRAMCHECK_DONE, with 0 in *value, or TRAMCHECK_REFUSED for the faults that a preview
 * judges before 9; a refusal leaves both arrays as they were. */
uint32_t tramcheck_commit(size_t n, size_t horizon, uint8_t present[TRAMCHECK_ENTRIES], const uint8_t strict[TRAMCHECK_ENTRIES],
                          int64_t values[TRAMCHECK_ENTRIES], size_t row, size_t column, uint8_t has, int64_t time, size_t *fault,
                          size_t *value);

/* A run: the times of a cycle from 0 to 64, from start times on, all in whole seconds. Returns TRAMCHECK_REACHED, with the cycle in *value and its times
 * in times, or TRAMCHECK_REFUSED. Patterns are ignored. */
uint32_t tramcheck_run(size_t n, const uint8_t present[TRAMCHECK_ENTRIES], const int64_t values[TRAMCHECK_ENTRIES],
                       const int64_t start[TRAMCHECK_DEPARTURES], size_t cycle, size_t *fault, size_t *value,
                       int64_t times[TRAMCHECK_DEPARTURES]);

/* The same with start times and times of the cycle in Dths of a second, and D in *parts: 1, or n + 1 if a bound of the case's two patterns is strict, as
 * for the start of a verdict; 0 on a refusal. It judges what a run judges, and asks of the patterns only whether a bound is strict. */
uint32_t tramcheck_run_parts(size_t n, const uint8_t present[TRAMCHECK_ENTRIES], const uint8_t strict[TRAMCHECK_ENTRIES],
                             const int64_t values[TRAMCHECK_ENTRIES], const int64_t start[TRAMCHECK_DEPARTURES], size_t cycle,
                             size_t *fault, size_t *value, size_t *parts, int64_t times[TRAMCHECK_DEPARTURES]);

/* Writes an unpacked case in the old packed form to the front of out; the bytes behind stay as they were. Returns TRAMCHECK_DONE, with the number of
 * bytes, at most TRAMCHECK_BYTES, in *value, or TRAMCHECK_REFUSED for what is no case or has no place in the old form, in this order: 2; 16 with place 0
 * for n over 7; 3; 4 and 5; bound by bound 6, and then 16, with the place of 6, for a strict one; and last 14, for an out that is too short. A refusal
 * leaves all of out as it was. With an out_length of 0, fault 14 tells the bytes needed. */
#define TRAMCHECK_BYTES 426
uint32_t tramcheck_write(size_t n, size_t horizon, const uint8_t present[TRAMCHECK_ENTRIES], const uint8_t strict[TRAMCHECK_ENTRIES],
                         const int64_t values[TRAMCHECK_ENTRIES], uint8_t *out, size_t out_length, size_t *fault, size_t *value);

/* The same in the wide form, which has a place for every case: at most TRAMCHECK_BYTES_WIDE bytes, faults 2 to 6, then 14. */
#define TRAMCHECK_BYTES_WIDE 1916
uint32_t tramcheck_write_wide(size_t n, size_t horizon, const uint8_t present[TRAMCHECK_ENTRIES], const uint8_t strict[TRAMCHECK_ENTRIES],
                              const int64_t values[TRAMCHECK_ENTRIES], uint8_t *out, size_t out_length, size_t *fault, size_t *value);

/* Converts a packed case in the old form to the wide form, and back where that loses nothing; the bytes go to the front of out, and those behind stay as
 * they were. Returns TRAMCHECK_DONE, with the number of bytes in *value, or TRAMCHECK_REFUSED for the faults of reading that form, 2 if the case is in the
 * other form; going back for 16, with n over 7 at bit 3 or the first strict bound at its field's bit; then for 14, an out that is too short. A refusal
 * leaves all of out as it was. There and back gives the same bytes, and so does back and there. */
uint32_t tramcheck_to_wide(const uint8_t *bytes, size_t length, uint8_t *out, size_t out_length, size_t *fault, size_t *value);
uint32_t tramcheck_to_old(const uint8_t *bytes, size_t length, uint8_t *out, size_t out_length, size_t *fault, size_t *value);

/* Reads a packed case of either form and hands it back unpacked: 1 in present where an entry is there, else 0, and 0 in values where there is none; 1 in
 * strict where a bound is strict, else 0, so that in the old form it is 0 all over. Places are bit numbers. Returns TRAMCHECK_DONE, with the number of
 * bytes in *value, or TRAMCHECK_REFUSED, and then n, the horizon and every entry are 0. */
uint32_t tramcheck_read(const uint8_t *bytes, size_t length, size_t *n, size_t *horizon, uint8_t present[TRAMCHECK_ENTRIES],
                        uint8_t strict[TRAMCHECK_ENTRIES], int64_t values[TRAMCHECK_ENTRIES], size_t *fault, size_t *value);

#ifdef __cplusplus
}
#endif

#endif
