/*
 * Tests of ctc_contest.h from C and C++: the constants of the header, questions worked
 * out by hand, and numbers above their limits. Every question within the limits is
 * compared with a search of the game elsewhere.
 */
#include "ctc_contest.h"

#include <stdint.h>
#include <stdio.h>

static int passed, failed;

static void expect(uint32_t gap, uint32_t writes, uint32_t stores, uint32_t spoilings,
                   uint32_t answer, const char *name)
{
    uint32_t said = ctc_contest(gap, writes, stores, spoilings);
    if (said == answer) {
        printf("ok %s\n", name);
        passed++;
    } else {
        printf("FAILED %s: %u, and not %u\n", name, (unsigned)said, (unsigned)answer);
        failed++;
    }
}

/* a call whose arguments are the header's constants: its answer is no refusal, and one above each is */
static void at_a_limit(void)
{
    const uint32_t w = CTC_CONTEST_WRITES_LIMIT, n = CTC_CONTEST_STORES_LIMIT, f = CTC_CONTEST_SPOILINGS_LIMIT;
    expect(CTC_GAP_IMPROPER, w, n, f, 3, "all numbers at their limits");
    expect(CTC_GAP_IMPROPER + 1, 0, 0, 0, CTC_REFUSED_LIMIT, "a gap above its limit");
    expect(CTC_GAP_PROPER, w + 1, n, 0, CTC_REFUSED_LIMIT, "writes above their limit");
    expect(CTC_GAP_PROPER, 0, n + 1, 0, CTC_REFUSED_LIMIT, "stores above their limit, with nothing to finish");
    expect(CTC_GAP_PROPER, 1, n, f + 1, CTC_REFUSED_LIMIT, "spoilings above their limit");
}

int main(void)
{
    expect(0, 0, 0, 8, 1, "nothing to finish: yes, and no store");
    expect(1, 0, 32, 0, 1, "the same from an improper gap");
    expect(0, 3, 3, 0, 2, "three stores for three writes");
    expect(0, 3, 2, 0, 0, "two stores for three writes");
    expect(0, 1, 3, 1, 2, "write, skip reverse and write");
    expect(0, 1, 2, 1, 0, "no store left for the second write");
    expect(1, 1, 4, 1, 3, "skip reverse first from an improper gap");
    expect(1, 1, 3, 1, 0, "one store more from an improper gap");
    expect(0, 1, 32, 0, 2, "a write where both stores win");
    expect(0, 8, 24, 8, 2, "eight plus twice eight");
    expect(0, 8, 23, 8, 0, "one less");
    at_a_limit();
    expect(UINT32_MAX, UINT32_MAX, UINT32_MAX, UINT32_MAX, 20, "the largest numbers");
    expect(0, 1, UINT32_MAX, 0, 20, "the largest number of stores");
    expect(256, 1, 1, 0, 20, "a gap whose low byte is 0");
    expect(0, 1, 1, 0, CTC_CONTEST_WRITE, "the name of a write");
    expect(1, 1, 2, 0, CTC_CONTEST_SKIP_REVERSE, "the name of a skip reverse");
    expect(0, 0, 0, 0, CTC_CONTEST_YES, "the name of a yes alone");
    expect(0, 1, 0, 0, CTC_CONTEST_NO, "the name of a no");
    expect(2, 0, 0, 0, 20, "the number of the refusal");
    printf("%d passed, %d failed\n", passed, failed);
    return failed != 0;
}
