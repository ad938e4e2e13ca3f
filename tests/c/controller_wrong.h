/*
 * Wrong versions of the library behind ctc_controller.h, one at a time, by functions that
 * stand before its own. A test that includes this after the header, with WRONG defined,
 * calls the version whose number is in `wrong`; 0 is the library as it is. Each must be
 * found by the tests: one that none finds is a hole in them.
 */
#ifndef CONTROLLER_WRONG_H
#define CONTROLLER_WRONG_H

#include "ctc_controller.h"

#include <stdbool.h>
#include <stdint.h>
#include <string.h>

enum wrong_version {
    RIGHT,
    CODE_AND_MOTION,
    COUNT_BYTES,
    EARLIER_RECORD,
    RECORD_AGAIN,
    STRING_AND_ORDER,
    ONE_BYTE_LESS,
    ONE_BYTE_MORE,
    REFUSED_STATE,
    REFUSED_ANSWER,
    REFUSED_SPACE,
    REFUSED_CHECK,
    REPORT_LOST,
    CHECK_BYTES_LOST,
    SERVED_LOST,
    QUEUED_LOST,
    REFUSALS_16_AND_17,
    JOB_OF_TWO_BITS,
    BROKEN_AS_TAKEN,
    HAND_AS_TICK,
    OPERAND_REVERSED,
    PLACE_LOST,
    PLACE_OF_32_BITS,
    LENGTH_OF_32_BITS,
    MARK_OF_ONE_BIT,
    ANY_LAYOUT,
    FLAG_OF_TWO,
    ANY_PHASE,
    ANY_OPERATION,
    FRESH_KEEPS_QUEUES,
    WRONG_VERSIONS
};

static const char *const wrong_names[WRONG_VERSIONS] = {
    [RIGHT] = "the library as it is",
    [CODE_AND_MOTION] = "code and motion exchanged in an answer",
    [COUNT_BYTES] = "the bytes of a count exchanged in an answer",
    [EARLIER_RECORD] = "the record of an earlier answer told",
    [RECORD_AGAIN] = "a record told again by the next call",
    [STRING_AND_ORDER] = "strings and orders exchanged",
    [ONE_BYTE_LESS] = "one byte less given",
    [ONE_BYTE_MORE] = "one byte more written than is given",
    [REFUSED_STATE] = "a refused call writes the state",
    [REFUSED_ANSWER] = "a refused call writes the answer",
    [REFUSED_SPACE] = "a refused call writes the lent space",
    [REFUSED_CHECK] = "a refused call writes the check store",
    [REPORT_LOST] = "a report is not kept",
    [CHECK_BYTES_LOST] = "the check store is not written",
    [SERVED_LOST] = "the job served last is not kept",
    [QUEUED_LOST] = "a queued store is not kept",
    [REFUSALS_16_AND_17] = "refusals 16 and 17 exchanged",
    [JOB_OF_TWO_BITS] = "job 4 taken as job 0",
    [BROKEN_AS_TAKEN] = "broken carries out what is offered",
    [HAND_AS_TICK] = "a hand with nothing queued reviews",
    [OPERAND_REVERSED] = "the operand of a queued store from its last byte",
    [PLACE_LOST] = "a bad byte's place not looked at",
    [PLACE_OF_32_BITS] = "a place of 32 bits",
    [LENGTH_OF_32_BITS] = "the length of the check store of 32 bits",
    [MARK_OF_ONE_BIT] = "a mark flag of 2 taken as none",
    [ANY_LAYOUT] = "another layout number taken",
    [FLAG_OF_TWO] = "a flag of 2 taken as 1",
    [ANY_PHASE] = "a phase that does not exist taken as the first",
    [ANY_OPERATION] = "an operation that does not exist taken as the first",
    [FRESH_KEEPS_QUEUES] = "a fresh state with the queues that were there",
};

static int wrong;

/* What a call was handed, and the last record that an answer told. */
static struct {
    ctc_state state;
    uint8_t check[CTC_CHECK_LENGTH];
    bool has_record;
    uint8_t record[5];
} wrong_kept;

/* The places of the state that this needs, as the table of the header has them. */
enum { WRONG_PHASE = 49, WRONG_HELD = 50, WRONG_QUEUES = 59, WRONG_QUEUE = 41, WRONG_SERVED = 223 };

static void wrong_before(ctc_state *state, const uint8_t *check, ctc_size check_len)
{
    wrong_kept.state = *state;
    if (check_len == CTC_CHECK_LENGTH) {
        memcpy(wrong_kept.check, check, CTC_CHECK_LENGTH);
    }
    if (wrong == ANY_LAYOUT) {
        state->bytes[0] = CTC_LAYOUT;
    }
    for (int place = 26; wrong == FLAG_OF_TWO && place <= 29; place++) {
        state->bytes[place] = state->bytes[place] != 0;
    }
    if (wrong == ANY_PHASE && state->bytes[WRONG_PHASE] > 6) {
        memset(state->bytes + WRONG_PHASE, 0, WRONG_QUEUES - WRONG_PHASE);
    }
    if (wrong == ANY_OPERATION && state->bytes[WRONG_PHASE] == 5 &&
        state->bytes[WRONG_HELD] > 11) {
        state->bytes[WRONG_HELD] = 0;
    }
}

static void wrong_record(ctc_answer *answer)
{
    uint8_t told[5];
    memcpy(told, answer->bytes + 7, sizeof told);
    if (wrong == CODE_AND_MOTION && told[0] != 0) {
        answer->bytes[8] = told[2];
        answer->bytes[9] = told[1];
    } else if (wrong == COUNT_BYTES && told[0] != 0) {
        answer->bytes[10] = told[4];
        answer->bytes[11] = told[3];
    } else if (wrong_kept.has_record &&
               ((wrong == EARLIER_RECORD && told[0] != 0) ||
                (wrong == RECORD_AGAIN && told[0] == 0))) {
        memcpy(answer->bytes + 7, wrong_kept.record, sizeof told);
    }
    wrong_kept.has_record = told[0] != 0 || (wrong == EARLIER_RECORD && wrong_kept.has_record);
    if (told[0] != 0) {
        memcpy(wrong_kept.record, told, sizeof told);
    }
}

static uint32_t wrong_after(uint32_t refusal, ctc_state *state, ctc_answer *answer, uint8_t *space,
                            ctc_size space_len, uint8_t *check, ctc_size check_len)
{
    if (refusal != CTC_DONE) {
        if (wrong == REFUSED_STATE) {
            state->bytes[26] ^= 1;
        } else if (wrong == REFUSED_ANSWER) {
            answer->bytes[7] = 0;
        } else if (wrong == REFUSED_SPACE && space_len > 0) {
            space[0] ^= 0xFF;
        } else if (wrong == REFUSED_CHECK && check_len == CTC_CHECK_LENGTH) {
            check[0] ^= 0xFF;
        } else if (wrong == REFUSALS_16_AND_17 && refusal >= CTC_REFUSED_STORE) {
            return CTC_REFUSED_STORE + CTC_REFUSED_QUEUE_FULL - refusal;
        }
        return refusal;
    }
    uint32_t given = ctc_given(answer);
    if (wrong == ONE_BYTE_LESS && given > 0) {
        given--;
        answer->bytes[12] = (uint8_t)(given >> 24);
        answer->bytes[13] = (uint8_t)(given >> 16);
        answer->bytes[14] = (uint8_t)(given >> 8);
        answer->bytes[15] = (uint8_t)given;
    } else if (wrong == ONE_BYTE_MORE && given < space_len) {
        space[given] = 0;
    } else if (wrong == STRING_AND_ORDER && answer->bytes[0] >= CTC_ACTION_STRING) {
        answer->bytes[0] ^= 1;
    } else if (wrong == CHECK_BYTES_LOST && check_len == CTC_CHECK_LENGTH) {
        memcpy(check, wrong_kept.check, CTC_CHECK_LENGTH);
    }
    wrong_record(answer);
    return refusal;
}

static inline uint32_t wrong_fresh(ctc_state *state)
{
    const ctc_state before = *state;
    uint32_t refusal = ctc_fresh(state);
    if (wrong == FRESH_KEEPS_QUEUES) {
        memcpy(state->bytes + WRONG_QUEUES, before.bytes + WRONG_QUEUES, 4 * WRONG_QUEUE);
    }
    return refusal;
}

static inline uint32_t wrong_byte(ctc_state *state, uint8_t byte, ctc_answer *answer)
{
    wrong_before(state, NULL, 0);
    return wrong_after(ctc_byte(state, byte, answer), state, answer, NULL, 0, NULL, 0);
}

static inline uint32_t wrong_taken(ctc_state *state, ctc_answer *answer)
{
    wrong_before(state, NULL, 0);
    return wrong_after(ctc_taken(state, answer), state, answer, NULL, 0, NULL, 0);
}

static inline uint32_t wrong_broken(ctc_state *state, ctc_answer *answer)
{
    wrong_before(state, NULL, 0);
    bool taken = wrong == BROKEN_AS_TAKEN && state->bytes[WRONG_PHASE] == 1;
    return wrong_after(taken ? ctc_taken(state, answer) : ctc_broken(state, answer), state, answer,
                       NULL, 0, NULL, 0);
}

static inline uint32_t wrong_report(ctc_state *state, uint8_t drive, uint8_t report,
                                    ctc_answer *answer)
{
    wrong_before(state, NULL, 0);
    uint32_t refusal = ctc_report(state, drive, report, answer);
    if (wrong == REPORT_LOST) {
        *state = wrong_kept.state;
    }
    return wrong_after(refusal, state, answer, NULL, 0, NULL, 0);
}

static inline uint32_t wrong_data(ctc_state *state, const uint8_t *host, ctc_size host_len,
                                  ctc_size place, uint8_t *space, ctc_size space_len,
                                  uint8_t *check, ctc_size check_len, ctc_answer *answer)
{
    wrong_before(state, check, check_len);
    if (wrong == PLACE_LOST) {
        place = CTC_NO_PLACE;
    } else if (wrong == PLACE_OF_32_BITS) {
        place = (uint32_t)place;
    }
    ctc_size used = wrong == LENGTH_OF_32_BITS ? (uint32_t)check_len : check_len;
    uint32_t refusal =
        ctc_data(state, host, host_len, place, space, space_len, check, used, answer);
    return wrong_after(refusal, state, answer, space, space_len, check, check_len);
}

static inline uint32_t wrong_result(ctc_state *state, uint8_t code, uint8_t mark, uint8_t late,
                                    const uint8_t *image, ctc_size image_len, const uint8_t *marks,
                                    ctc_size marks_len, uint8_t *space, ctc_size space_len,
                                    uint8_t *check, ctc_size check_len, ctc_answer *answer)
{
    wrong_before(state, check, check_len);
    mark = wrong == MARK_OF_ONE_BIT ? mark & 1 : mark;
    ctc_size used = wrong == LENGTH_OF_32_BITS ? (uint32_t)check_len : check_len;
    uint32_t refusal = ctc_result(state, code, mark, late, image, image_len, marks, marks_len,
                                  space, space_len, check, used, answer);
    return wrong_after(refusal, state, answer, space, space_len, check, check_len);
}

static inline uint32_t wrong_tick(ctc_state *state, ctc_answer *answer)
{
    wrong_before(state, NULL, 0);
    return wrong_after(ctc_tick(state, answer), state, answer, NULL, 0, NULL, 0);
}

static inline uint32_t wrong_reset(ctc_state *state, ctc_answer *answer)
{
    wrong_before(state, NULL, 0);
    return wrong_after(ctc_reset(state, answer), state, answer, NULL, 0, NULL, 0);
}

static inline uint32_t wrong_queue(ctc_state *state, uint8_t job, uint8_t address, uint8_t first,
                                   uint8_t second, uint8_t third, uint8_t fourth,
                                   ctc_answer *answer)
{
    wrong_before(state, NULL, 0);
    job = wrong == JOB_OF_TWO_BITS ? job & 3 : job;
    uint32_t refusal =
        wrong == OPERAND_REVERSED
            ? ctc_queue(state, job, address, fourth, third, second, first, answer)
            : ctc_queue(state, job, address, first, second, third, fourth, answer);
    if (wrong == QUEUED_LOST) {
        *state = wrong_kept.state;
    }
    return wrong_after(refusal, state, answer, NULL, 0, NULL, 0);
}

static inline uint32_t wrong_hand(ctc_state *state, ctc_answer *answer)
{
    bool queued = false;
    wrong_before(state, NULL, 0);
    for (int job = 0; job < 4; job++) {
        queued = queued || state->bytes[WRONG_QUEUES + job * WRONG_QUEUE] != 0;
    }
    uint32_t refusal =
        wrong == HAND_AS_TICK && !queued ? ctc_tick(state, answer) : ctc_hand(state, answer);
    if (wrong == SERVED_LOST) {
        state->bytes[WRONG_SERVED] = wrong_kept.state.bytes[WRONG_SERVED];
    }
    return wrong_after(refusal, state, answer, NULL, 0, NULL, 0);
}

#define ctc_fresh wrong_fresh
#define ctc_byte wrong_byte
#define ctc_taken wrong_taken
#define ctc_broken wrong_broken
#define ctc_report wrong_report
#define ctc_data wrong_data
#define ctc_result wrong_result
#define ctc_tick wrong_tick
#define ctc_reset wrong_reset
#define ctc_queue wrong_queue
#define ctc_hand wrong_hand

#endif
