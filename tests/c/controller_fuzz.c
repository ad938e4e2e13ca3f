/*
 * The functions of ctc_controller.h on any bytes, and the lines of controller_play.c. Calls
 * and lines are made from bytes: those that a coverage-guided fuzzer chooses (tests/fuzz),
 * or, with FIXED_RUN defined, random ones, the same in every run.
 *
 * The archive has no instrumentation, the rules below have: so it is their cases that the
 * fuzzer looks for. They are what the header says of every call: which bytes are a state
 * and which refusal a call has, as far as no image is looked into; that a refused call
 * writes nothing; that one that is carried out leaves a state in range, tells what the
 * state then shows, and touches no other drive and no other queue. All that a call is
 * handed ends at a page that nobody may touch, or begins behind one.
 *
 * Of lines: what is read has the form of one of the ten; and a line that is made of fields
 * is read where they fit, and does what the call with these fields does.
 *
 * The fixed run finds each of the 29 wrong versions of controller_wrong.h and of the nine
 * wrong players that tests/controller makes; the fuzzer found each of the 29 in ten seconds.
 */
#define _DEFAULT_SOURCE /* for MAP_ANONYMOUS */

#include <stdbool.h>
#include <stdint.h>
#include <stdio.h>
#include <stdlib.h>
#include <string.h>
#include <sys/mman.h>
#include <unistd.h>

/* the player as it is, with its own state and spaces; WRONG has it and this call wrong versions */
#define main controller_play_main
#include "controller_play.c"
#undef main

/* ---- what went wrong */

static const char *complaint;

static void must(bool holds, const char *rule)
{
    if (!holds && complaint == NULL) {
        complaint = rule;
    }
}

/* ---- input: the fuzzer's bytes, and zeros behind them */

struct source {
    const uint8_t *data;
    size_t left;
};

static uint8_t take(struct source *from)
{
    if (from->left == 0) {
        return 0;
    }
    from->left--;
    return *from->data++;
}

/* One of the values, or now and then any byte. */
static uint8_t take_of(struct source *from, const uint8_t *values, size_t count)
{
    uint8_t byte = take(from);
    return byte % 8 == 7 ? take(from) : values[(byte / 8) % count];
}
#define TAKE_OF(from, ...) take_of(from, (const uint8_t[]){__VA_ARGS__}, sizeof(const uint8_t[]){__VA_ARGS__})

/* ---- memory between two pages that nobody may touch */

struct region {
    uint8_t *first;
    size_t size;
};

enum { STATE_AT, ANSWER_AT, SPACE_AT, CHECK_AT, HOST_AT, MARKS_AT, REGIONS };
static struct region regions[REGIONS];

static void make_region(struct region *region, size_t wanted)
{
    size_t page = (size_t)sysconf(_SC_PAGESIZE);
    region->size = (wanted + page - 1) / page * page;
    uint8_t *whole = mmap(NULL, region->size + 2 * page, PROT_NONE, MAP_PRIVATE | MAP_ANONYMOUS, -1, 0);
    if (whole == MAP_FAILED || mprotect(whole + page, region->size, PROT_READ | PROT_WRITE) != 0) {
        fprintf(stderr, "controller_fuzz: no memory\n");
        exit(2);
    }
    region->first = whole + page;
}

static void make_regions(void)
{
    static const size_t wanted[REGIONS] = {CTC_STATE_LENGTH, CTC_ANSWER_LENGTH,     CTC_IMAGE_LENGTH_MOST,
                                           1024,             CTC_IMAGE_LENGTH_MOST, 512};
    for (int number = 0; number < REGIONS && regions[number].first == NULL; number++) {
        make_region(&regions[number], wanted[number]);
    }
}

/* So many bytes that begin behind a fence, or end before one; those next to them hold what tells a write. */
enum { BESIDE = 32 };

static uint8_t *placed(int number, size_t length, bool at_end)
{
    struct region *region = &regions[number];
    size_t spare = region->size - length < BESIDE ? region->size - length : BESIDE;
    uint8_t *first = at_end ? region->first + region->size - length : region->first;
    memset(at_end ? first - spare : first, UNTOUCHED, length + spare);
    return first;
}

static bool beside_untouched(int number, const uint8_t *first, size_t length)
{
    struct region *region = &regions[number];
    size_t spare = region->size - length < BESIDE ? region->size - length : BESIDE;
    return untouched(first == region->first ? first + length : first - spare, spare);
}

/* ---- the rules: which bytes are a state, by the header's table */

enum { PHASE_AT = 49, HELD_AT = 50, QUEUES_AT = 59, QUEUE_LENGTH = 41, SERVED_AT = 223, SELECTED_AT = 25 };
enum { COLLECTING, ACK_OFFERED, SENDING, GO_OFFERED, DATA_AWAITED, RESULT_AWAITED, END_OFFERED };

static bool drives_in_range(const uint8_t *bytes)
{
    for (int drive = 0; drive < 4; drive++) {
        const uint8_t *six = bytes + 1 + 6 * drive;
        if (six[2] > 3) {
            return false;
        }
        if (six[3] > 1) {
            return false;
        }
        if (six[4] > 3) {
            return false;
        }
        if (six[5] > 1) {
            return false;
        }
    }
    return true;
}

static bool flags_in_range(const uint8_t *bytes)
{
    for (int place = 26; place <= 29; place++) {
        if (bytes[place] > 1) {
            return false;
        }
    }
    for (int place = 34; place <= 40; place++) {
        if (bytes[place] > 1) {
            return false;
        }
    }
    return true;
}

/* How many bytes a string from the host has by its lead; 0 where there is no such lead. */
static unsigned string_length(uint8_t lead)
{
    return lead == 0x62 ? 4 : lead == 0x64 ? 8 : 0;
}

static bool phase_in_range(const uint8_t *held, uint8_t phase)
{
    switch (phase) {
    case COLLECTING:
        return held[0] == 0 || held[0] < string_length(held[1]);
    case ACK_OFFERED:
        return held[0] != 0 && held[0] == string_length(held[1]);
    case SENDING:
        return held[0] <= 3 && held[7] <= 4;
    case GO_OFFERED:
    case DATA_AWAITED:
        return true;
    case RESULT_AWAITED:
        return held[0] <= 11;
    case END_OFFERED:
        return held[0] <= 1;
    default:
        return false;
    }
}

static bool in_range(const uint8_t *bytes)
{
    if (bytes[0] != 1) {
        return false;
    }
    if (!drives_in_range(bytes)) {
        return false;
    }
    if (!flags_in_range(bytes)) {
        return false;
    }
    if (bytes[SELECTED_AT] > 3 || bytes[30] > 31 || bytes[31] > 3 || bytes[SERVED_AT] > 3) {
        return false;
    }
    for (int job = 0; job < 4; job++) {
        if (bytes[QUEUES_AT + QUEUE_LENGTH * job] > 8) {
            return false;
        }
    }
    return phase_in_range(bytes + HELD_AT, bytes[PHASE_AT]);
}

static bool is_idle(const uint8_t *bytes)
{
    return bytes[PHASE_AT] == COLLECTING && bytes[HELD_AT] == 0;
}

static const uint8_t *selected_drive(const uint8_t *bytes)
{
    return bytes + 1 + 6 * bytes[SELECTED_AT];
}

/* ---- a call */

enum function { BYTE, TAKEN, BROKEN, REPORT, DATA, RESULT, TICK, RESET, QUEUE, HAND, FUNCTIONS };

struct call {
    enum function function;
    uint8_t byte;       /* byte; the report; the address of a queued store; the code */
    uint8_t number;     /* drive, job; mark */
    uint8_t late;
    uint8_t operand[4]; /* of a queued store */
    ctc_size host_len;  /* of a result the image */
    ctc_size marks_len, place, space_len, check_len;
    bool at_end;
};

static size_t image_length(size_t count, bool gcr)
{
    size_t blockettes = (count + 255) / 256;
    return !gcr ? 2 + count : count == 0 ? 2 : 2 + 256 * (blockettes + 2);
}

/* The count of the store that is held at a place. */
static size_t store_count(const uint8_t *store)
{
    return (size_t)store[3] << 8 | store[4];
}

/* The refusal by the rules, or 99 where it hangs on the codes, flags, image and marks of a result. */
enum { BY_RESULT = 99 };

static uint32_t rule_refusal(const uint8_t *bytes, const struct call *call)
{
    if (!in_range(bytes)) {
        return 1;
    }
    uint8_t phase = bytes[PHASE_AT];
    bool busy = phase == DATA_AWAITED || phase == RESULT_AWAITED;
    switch (call->function) {
    case BYTE:
    case BROKEN:
        return busy ? 2 : 0;
    case TAKEN:
        return phase == ACK_OFFERED ? 0 : 2;
    case REPORT:
        return call->number > 3 ? 5 : 0;
    case DATA:
        if (phase != DATA_AWAITED) {
            return 3;
        }
        if (call->check_len != 512) {
            return 6;
        }
        if (call->space_len < image_length(store_count(bytes + HELD_AT), selected_drive(bytes)[3] == 1)) {
            return 11;
        }
        return call->place < call->host_len || call->place == 65791 ? 0 : 15;
    case RESULT:
        return phase != RESULT_AWAITED ? 3 : call->check_len != 512 ? 6 : BY_RESULT;
    case TICK:
    case HAND:
        return is_idle(bytes) ? 0 : 4;
    case RESET:
        return 0;
    case QUEUE:
        if (call->number > 3 || (call->byte & 0x08) == 0 || (call->byte & 0x70) == 0) {
            return 16;
        }
        return bytes[QUEUES_AT + QUEUE_LENGTH * call->number] == 8 ? 17 : 0;
    default:
        return 0;
    }
}

/* All that was there before the call. */
static struct {
    uint8_t state[CTC_STATE_LENGTH], answer[CTC_ANSWER_LENGTH], check[1024];
} held;

static uint32_t make_call(const struct call *call, uint8_t *state_bytes, uint8_t *answer_bytes, uint8_t *lent,
                          uint8_t *store, const uint8_t *bytes, const uint8_t *mark_bytes)
{
    ctc_state *now = (ctc_state *)(void *)state_bytes;
    ctc_answer *told = (ctc_answer *)(void *)answer_bytes;
    switch (call->function) {
    case BYTE:
        return ctc_byte(now, call->byte, told);
    case TAKEN:
        return ctc_taken(now, told);
    case BROKEN:
        return ctc_broken(now, told);
    case REPORT:
        return ctc_report(now, call->number, call->byte, told);
    case DATA:
        return ctc_data(now, bytes, call->host_len, call->place, lent, call->space_len, store, call->check_len,
                        told);
    case RESULT:
        return ctc_result(now, call->byte, call->number, call->late, bytes, call->host_len, mark_bytes,
                          call->marks_len, lent, call->space_len, store, call->check_len, told);
    case TICK:
        return ctc_tick(now, told);
    case RESET:
        return ctc_reset(now, told);
    case QUEUE:
        return ctc_queue(now, call->number, call->byte, call->operand[0], call->operand[1], call->operand[2],
                         call->operand[3], told);
    default:
        return ctc_hand(now, told);
    }
}

/* ---- what must hold after a call that was carried out */

static void queues_hold(const struct call *call, const uint8_t *now)
{
    unsigned shorter = 0;
    for (int job = 0; job < 4; job++) {
        const uint8_t *old = held.state + QUEUES_AT + QUEUE_LENGTH * job, *new = now + QUEUES_AT + QUEUE_LENGTH * job;
        if (call->function == QUEUE && call->number == job) {
            must(new[0] == old[0] + 1, "a queued store makes its queue one longer");
            const uint8_t *last = new[0] >= 1 && new[0] <= 8 ? new + 1 + 5 * (new[0] - 1) : old;
            must(last[0] == call->byte && memcmp(last + 1, call->operand, 4) == 0,
                 "a queued store stands last in its queue");
            must(memcmp(old + 1, new + 1, 5 * (size_t)old[0]) == 0, "stores before it stay");
        } else if (call->function == HAND && new[0] != old[0]) {
            must(new[0] + 1 == old[0], "a hand takes one store");
            must(memcmp(old + 6, new + 1, 5 * (size_t)new[0]) == 0, "the first store of a queue is handed over");
            must(now[SERVED_AT] == job, "the job of that store is the one served last");
            shorter++;
        } else {
            must(memcmp(old, new, 1 + 5 * (size_t)old[0]) == 0, "a call changes another queue");
        }
    }
    must(shorter <= 1, "a hand takes a store of two jobs");
    if (shorter == 0) {
        must(now[SERVED_AT] == held.state[SERVED_AT], "the job served last changes without a hand");
    }
    if (call->function == HAND && shorter == 0) {
        for (int job = 0; job < 4; job++) {
            must(held.state[QUEUES_AT + QUEUE_LENGTH * job] == 0, "a hand passes over a store");
        }
        must(memcmp(now, held.state, PHASE_AT) == 0 && now[PHASE_AT] == COLLECTING,
             "a hand with nothing queued does something");
    }
}

static bool may_reset(const struct call *call)
{
    /* a store of operation 0 by the link; none of a queue, but any bytes may stand in one */
    return call->function == RESET || call->function == TAKEN || call->function == HAND;
}

static void drives_hold(const struct call *call, const uint8_t *now)
{
    for (int drive = 0; drive < 4; drive++) {
        const uint8_t *old = held.state + 1 + 6 * drive, *new = now + 1 + 6 * drive;
        if (call->function == REPORT && drive == call->number) {
            must(new[0] == call->byte, "a report is not kept");
            must((call->byte & 0x20) != 0 ? new[4] == old[4] : new[4] == 3, "another gap after a report");
            must(new[2] == old[2] && new[3] == old[3] && new[5] == old[5], "a report changes more");
            continue;
        }
        must(new[0] == old[0], "a call changes what a drive reported");
        must(new[1] == old[1] || new[1] == old[0], "a review copies another report");
        if (drive != now[SELECTED_AT] && !may_reset(call)) {
            must(memcmp(old + 2, new + 2, 4) == 0, "a call changes a drive that is not selected");
        }
    }
}

static void action_holds(const struct call *call, const uint8_t *now, const ctc_answer *told)
{
    const uint8_t *six = ctc_six(told), *drive = selected_drive(now);
    uint8_t sum = 0;
    size_t used = ctc_action(told) == 0 ? 0 : ctc_action(told) == 1 ? 1 : 6;
    for (size_t place = 0; place < 6; place++) {
        sum ^= six[place];
        must(place < used || six[place] == 0, "no zeros behind what is to be done");
    }
    switch (ctc_action(told)) {
    case CTC_ACTION_NOTHING:
        break;
    case CTC_ACTION_BYTE:
        must(ctc_offered(told) == 0x06 || ctc_offered(told) == 0x15 || ctc_offered(told) == 0x47 ||
                 ctc_offered(told) == 0x45,
             "a byte is offered that is none of four");
        break;
    case CTC_ACTION_STRING: /* one that was under way may hold any bytes */
        must(held.state[PHASE_AT] == SENDING ||
                 (sum == 0 && (six[0] == 0x66 || six[0] == 0x68 || six[0] == 0x69)),
             "a string with another lead or check byte");
        must(now[PHASE_AT] == SENDING && memcmp(now + HELD_AT + 1, six, 6) == 0, "a string that is not the one held");
        break;
    case CTC_ACTION_ORDER:
        must(call->function == TAKEN || call->function == HAND || call->function == DATA, "an order by another call");
        must(six[1] == now[SELECTED_AT] && six[2] == drive[2] && six[3] == drive[3],
             "an order for another drive, track or density");
        must(now[PHASE_AT] == RESULT_AWAITED && memcmp(now + HELD_AT + 4, six + 4, 2) == 0,
             "an order with another operand");
        must((drive[0] & 0x22) == 0x22 || call->function == DATA, "an order for a drive without a tape");
        break;
    default:
        must(false, "an action that does not exist");
    }
}

static void answer_holds(const struct call *call, const uint8_t *now, const ctc_answer *told)
{
    ctc_size given = ctc_given(told);
    if (call->function != DATA && call->function != RESULT) {
        must(given == 0, "bytes are given of no space");
    } else {
        must(given <= call->space_len, "more is given than was lent");
        must(call->function != DATA ||
                 given == image_length(store_count(held.state + HELD_AT), selected_drive(held.state)[3] == 1),
             "another length of the image");
    }
    must(ctc_settled(told) <= 1, "a settled flag that does not exist");
    if (ctc_settled(told) == 1) {
        must(ctc_settled_code(told) == now[30] && ctc_settled_motion(told) == now[31] &&
                 ctc_settled_count(told) == ((uint32_t)now[32] << 8 | now[33]),
             "a record that the state does not show");
        must(call->function == TAKEN || call->function == HAND || call->function == RESULT ||
                 ((call->function == BYTE || call->function == BROKEN) && held.state[PHASE_AT] == GO_OFFERED),
             "a record told by another call");
    } else {
        must(told->bytes[8] == 0 && told->bytes[9] == 0 && told->bytes[10] == 0 && told->bytes[11] == 0,
             "no zeros where no record is told");
        must(call->function != RESULT, "a result that settles nothing");
    }
    if (call->function == RESULT) {
        must(now[29] == (call->number != 0 && (selected_drive(now)[0] & 0x20) != 0), "another mark than the one met");
    }
    action_holds(call, now, told);
}

/* ---- one call with all that must hold of it */

static uint64_t made, done_calls, refused_by[18];

static uint32_t checked_call(const struct call *call, uint8_t *state_bytes, struct source *from)
{
    static uint8_t kept_check[512];
    size_t check_len = call->check_len > 1024 ? 512 : (size_t)call->check_len;
    size_t bytes_len = (size_t)call->host_len, space_len = (size_t)call->space_len;
    uint8_t *now = placed(STATE_AT, CTC_STATE_LENGTH, call->at_end);
    uint8_t *told = placed(ANSWER_AT, CTC_ANSWER_LENGTH, call->at_end);
    uint8_t *lent = placed(SPACE_AT, space_len, call->at_end);
    uint8_t *store = placed(CHECK_AT, check_len, call->at_end);
    uint8_t *bytes = placed(HOST_AT, bytes_len, call->at_end);
    uint8_t *mark_bytes = placed(MARKS_AT, (size_t)call->marks_len, call->at_end);
    memcpy(now, state_bytes, CTC_STATE_LENGTH);
    memcpy(store, kept_check, check_len < 512 ? check_len : 512);
    for (size_t place = 0; place < bytes_len && place < 64; place++) {
        bytes[place] = take(from);
    }
    for (size_t place = 0; place < call->marks_len; place++) {
        mark_bytes[place] = TAKE_OF(from, 15, 15, 15, 15, 15, 1, 9, 15);
    }
    if (call->function == RESULT && bytes_len >= 2) { /* the count that the image's length asks for */
        bool gcr = state_bytes[SELECTED_AT] < 4 && selected_drive(state_bytes)[3] == 1;
        size_t count = !gcr ? bytes_len - 2 : bytes_len < 770 ? 0 : (bytes_len - 2) - 512;
        bytes[0] = (uint8_t)(count >> 9 | (count & 1) << 7);
        bytes[1] = (uint8_t)(count >> 1);
    }
    memcpy(held.state, now, sizeof held.state);
    memcpy(held.answer, told, sizeof held.answer);
    memcpy(held.check, store, check_len);

    uint32_t expected = rule_refusal(held.state, call);
    uint32_t refusal = make_call(call, now, told, lent, store, bytes, mark_bytes);
    made++;
    must(expected == BY_RESULT ? refusal == 0 || (refusal >= 7 && refusal <= 10) : refusal == expected,
         "another refusal than the rules say");
    must(beside_untouched(STATE_AT, now, CTC_STATE_LENGTH) &&
             beside_untouched(ANSWER_AT, told, CTC_ANSWER_LENGTH) &&
             beside_untouched(SPACE_AT, lent, space_len) && beside_untouched(CHECK_AT, store, check_len),
         "written beside what was lent");
    refused_by[refusal < 18 ? refusal : 17]++;
    size_t given = 0;
    if (refusal != 0) {
        must(memcmp(now, held.state, sizeof held.state) == 0, "a refused call writes the state");
        must(memcmp(told, held.answer, sizeof held.answer) == 0, "a refused call writes the answer");
        must(memcmp(store, held.check, check_len) == 0, "a refused call writes the check store");
    } else {
        ctc_answer copy;
        done_calls++;
        memcpy(&copy, told, sizeof copy);
        must(in_range(now), "a call leaves no state in range");
        answer_holds(call, now, &copy);
        if (complaint == NULL) {
            queues_hold(call, now);
            if (call->function != RESET) {
                drives_hold(call, now);
            }
            given = ctc_given(&copy);
            if (call->function == DATA && selected_drive(now)[3] == 1 && given > 512) {
                must(memcmp(store, lent + given - 512, 512) == 0, "a check store without the image's checks");
            }
        }
    }
    if (given < space_len) { /* all bytes alike: each is the one before it */
        must(lent[given] == UNTOUCHED && memcmp(lent + given, lent + given + 1, space_len - given - 1) == 0,
             "a call writes space that it does not give");
    }
    memcpy(state_bytes, now, CTC_STATE_LENGTH);
    memcpy(kept_check, store, check_len < 512 ? check_len : 512);
    return refusal;
}

/* ---- calls from bytes */

static enum function fitting(const uint8_t *bytes, uint8_t byte)
{
    static const enum function by_phase[7][4] = {
        [COLLECTING] = {QUEUE, HAND, HAND, TICK},    [ACK_OFFERED] = {TAKEN, TAKEN, BROKEN, TAKEN},
        [SENDING] = {BYTE, BYTE, BYTE, BROKEN},      [GO_OFFERED] = {BYTE, BYTE, BYTE, BROKEN},
        [DATA_AWAITED] = {DATA, DATA, DATA, REPORT}, [RESULT_AWAITED] = {RESULT, RESULT, RESULT, REPORT},
        [END_OFFERED] = {BYTE, BYTE, BROKEN, BYTE},
    };
    return bytes[PHASE_AT] > 6 ? (enum function)(byte % FUNCTIONS) : by_phase[bytes[PHASE_AT]][byte % 4];
}

static struct call call_from(struct source *from, const uint8_t *bytes)
{
    struct call call = {0};
    uint8_t kind = take(from);
    call.function = kind % 4 == 0 ? (enum function)(kind / 4 % FUNCTIONS) : fitting(bytes, kind / 4);
    call.at_end = kind & 0x80;
    call.check_len = 512;
    call.place = 65791;
    bool gcr = bytes[SELECTED_AT] < 4 && selected_drive(bytes)[3] == 1;
    size_t count;
    switch (call.function) {
    case BYTE:
        call.byte = TAKE_OF(from, 0x06, 0x62, 0x64, 0x15, 0x06);
        break;
    case REPORT:
        call.number = TAKE_OF(from, 0, 1, 2, 3);
        call.byte = TAKE_OF(from, 0x22, 0x22, 0x23, 0x32, 0x2A, 0xA2, 0x02, 0x26);
        break;
    case QUEUE:
        call.number = TAKE_OF(from, 0, 1, 2, 3);
        call.byte = TAKE_OF(from, 0x38, 0x49, 0x5A, 0x6B, 0xB9, 0xC8, 0xD9, 0x4C);
        call.operand[0] = TAKE_OF(from, 0, 0, 0x40, 0x80);
        call.operand[1] = TAKE_OF(from, 0, 1, 255);
        call.operand[2] = TAKE_OF(from, 0, 0, 1, 255);
        call.operand[3] = TAKE_OF(from, 0x00, 0x0B, 0x0D, 0x10, 0x20, 0x21, 0x22, 0x24);
        break;
    case DATA:
        count = store_count(bytes + HELD_AT);
        call.host_len = (ctc_size)(count + TAKE_OF(from, 0, 0, 1, 2)) % 65793;
        call.place = take(from) % 2 == 0 ? 65791 : take(from);
        call.place += take(from) % 16 == 15 ? (ctc_size)1 << 32 : 0;
        call.space_len = image_length(count, gcr) - (take(from) % 8 == 7);
        call.check_len = take(from) % 16 == 15 ? (ctc_size)take(from) + 400 : 512;
        call.check_len += take(from) % 16 == 15 ? (ctc_size)1 << 32 : 0;
        break;
    case RESULT:
        call.byte = TAKE_OF(from, 0, 0, 0, 0x07, 0x0C, 0x10, 0x13, 0x17);
        call.number = TAKE_OF(from, 0, 0, 0, 1);
        call.late = TAKE_OF(from, 0, 0, 1, 3);
        count = take(from) % 4 == 3 ? (size_t)take(from) << 8 | take(from) : take(from);
        if (bytes[HELD_AT] == 2) { /* a supplied count */
            count = store_count(bytes + HELD_AT + 1);
        }
        switch (take(from) % 4) {
        case 0: /* a record */
            call.host_len = image_length(count, gcr);
            call.marks_len = gcr && count > 0 ? (count + 255) / 256 + 2 : 0;
            break;
        case 1:
            call.host_len = 2;
            break;
        case 2:
            call.host_len = count % 1000;
            call.marks_len = take(from);
            break;
        default:
            break;
        }
        call.space_len = take(from) % 2 == 0 ? CTC_COUNT_LIMIT : take(from);
        break;
    default:
        break;
    }
    return call;
}

/* A string of the host, byte by byte, with its check byte right or, now and then, wrong; and then it is taken. */
static void string_from(struct source *from, uint8_t *bytes)
{
    bool stores = take(from) % 4 != 0;
    uint8_t string[8] = {stores ? 0x64 : 0x62, TAKE_OF(from, 0x39, 0x49, 0x59, 0x69, 0xC9, 0xD9, 0x10, 0x40), 0};
    size_t length = stores ? 8 : 4;
    for (size_t place = 2; stores && place < 6; place++) {
        string[place] = TAKE_OF(from, 0, 0, 0, 0x0D, 0x10, 0x40, 0x80, 0x20);
    }
    for (size_t place = 0; place < length - 1; place++) {
        string[length - 1] ^= string[place];
    }
    string[length - 1] ^= take(from) % 16 == 15;
    for (size_t place = 0; place < length && complaint == NULL; place++) {
        checked_call(&(struct call){.function = BYTE, .byte = string[place], .at_end = place % 2}, bytes, from);
    }
    checked_call(&(struct call){.function = take(from) % 8 == 7 ? BROKEN : TAKEN}, bytes, from);
}

/* A state of any bytes, or a fresh one with a few bytes changed; then calls. */
static void play_calls(struct source *from)
{
    uint8_t bytes[CTC_STATE_LENGTH];
    uint8_t kind = take(from);
    memset(bytes, UNTOUCHED, sizeof bytes);
    if (kind % 4 == 3) {
        for (size_t place = 0; place < sizeof bytes; place++) {
            bytes[place] = take(from);
        }
    } else {
        ctc_state fresh;
        memset(&fresh, UNTOUCHED, sizeof fresh);
        ctc_fresh(&fresh);
        memcpy(bytes, fresh.bytes, sizeof bytes);
        must(in_range(bytes), "a fresh state out of range");
        for (int number = 0; number < 4; number++) { /* tapes, half of them in GCR, and now and then long queues */
            bytes[1 + 6 * number] = 0x22;
            bytes[1 + 6 * number + 3] = number % 2 == 1;
            bytes[QUEUES_AT + QUEUE_LENGTH * number] = kind >= 0xE0 ? 7 : 0;
        }
        for (int changes = kind / 4 % 8; changes > 0; changes--) {
            bool of_phase = take(from) % 3 == 0;
            uint8_t place = of_phase ? TAKE_OF(from, PHASE_AT, HELD_AT, HELD_AT + 1, HELD_AT + 7) : take(from);
            bytes[place % CTC_STATE_LENGTH] = TAKE_OF(from, 0, 1, 2, 3, 4, 5, 6, 8);
        }
    }
    /* what is no state stays none: each function once is enough */
    int most = in_range(bytes) ? 40 : 10;
    for (int calls = 0; calls < most && from->left > 0 && complaint == NULL; calls++) {
        if (is_idle(bytes) && take(from) % 4 == 0) {
            string_from(from, bytes);
            continue;
        }
        struct call call = call_from(from, bytes);
        if (checked_call(&call, bytes, from) == 0) {
            /* what was left is taken by every function */
            must(checked_call(&(struct call){.function = REPORT, .byte = bytes[1]}, bytes, from) == 0,
                 "a state that a call left is refused");
        }
    }
}

/* ---- lines */

static uint64_t lines_read, lines_unread;

/* How many fields each form has behind its letter. */
static int fields_of(uint8_t form)
{
    static const char forms[] = "BTXSDRKZQH";
    static const int fields[] = {1, 0, 0, 2, 1, 6, 0, 0, 3, 0};
    const char *found = form == 0 ? NULL : strchr(forms, form);
    return found == NULL ? -1 : fields[found - forms];
}

static void play_line(const uint8_t *line, size_t length, bool jobs)
{
    uint32_t refusal = 77;
    before_call();
    bool read = called((struct text){line, length}, jobs, &refusal);
    if (!read) {
        lines_unread++;
        must(refusal == 77 && memcmp(&state, &state_before, sizeof state) == 0, "an unreadable line makes a call");
        return;
    }
    lines_read++;
    int commas = 0;
    for (size_t place = 1; place < length; place++) {
        uint8_t letter = line[place];
        commas += letter == ',';
        must(letter == ',' || (letter >= '0' && letter <= '9') || (letter >= 'A' && letter <= 'F'),
             "a line with another letter is read");
    }
    must(length > 0 && commas == fields_of(line[0]), "a line with other fields is read");
    must(jobs || (line[0] != 'Q' && line[0] != 'H'), "a line of jobs is read in a session without them");
}

static void play_lines(struct source *from)
{
    bool jobs = take(from) % 2 == 0;
    ctc_fresh(&state);
    memset(check, 0, sizeof check);
    while (from->left > 0 && complaint == NULL) {
        size_t length = 0;
        while (length < from->left && from->data[length] != '\n') {
            length++;
        }
        /* a copy of this length, so that the sanitizer sees a byte that is read behind it */
        uint8_t *line = malloc(length + 1);
        if (line == NULL) {
            return;
        }
        memcpy(line + 1, from->data, length);
        play_line(line + 1, length, jobs);
        free(line);
        from->data += length;
        from->left -= length;
        take(from);
    }
}

/* A line is made of fields, and the call with these fields is made too: both must do the same. */
static void play_made_line(struct source *from)
{
    static uint8_t line[LINE_MOST], bytes[1024];
    static const char digits[] = "0123456789ABCDEF";
    uint8_t byte = take(from), operand[4] = {take(from), take(from), take(from), take(from)};
    enum function function = (enum function)(take(from) % FUNCTIONS);
    unsigned number = take(from) + (take(from) % 16 == 0 ? 256u : 0); /* of a drive, a job, late flags: at most 255 */
    size_t length = take(from), marks_len = take(from) % 70, at;      /* at most 66 marks */
    bool fits = true;
    char text[64];
    if (function == RESULT && take(from) % 2 == 0) { /* one that is taken: nothing was read, or a mark was met */
        byte = TAKE_OF(from, 0, 0, 0, 7, 9);
        number = take(from) % 5;
        length = marks_len = 0;
    }
    struct call call = {.function = function, .byte = byte, .number = (uint8_t)number, .place = 65791,
                        .host_len = length, .marks_len = marks_len, .check_len = 512};
    memcpy(call.operand, operand, 4);
    for (size_t place = 0; place < sizeof bytes; place++) { /* marks stand from 512 on */
        bytes[place] = place < 16 ? take(from) : place < 512 ? (uint8_t)(place * 37) : 15;
    }
    bytes[512 + byte % 66] = take(from);
    switch (function) {
    case BYTE:
        snprintf(text, sizeof text, "B,%02X", byte);
        break;
    case REPORT:
        snprintf(text, sizeof text, "S,%u,%02X", number, byte);
        fits = number <= 255;
        break;
    case DATA:
        snprintf(text, sizeof text, "D,");
        break;
    case RESULT:
        call.number = operand[0] & 1;
        call.late = (uint8_t)number;
        call.space_len = operand[1];
        snprintf(text, sizeof text, "R,%02X,%u,%u,", byte, operand[0] & 1u, number);
        fits = number <= 255 && marks_len <= 66;
        break;
    case QUEUE:
        snprintf(text, sizeof text, "Q,%u,%02X,%02X%02X%02X%02X", number, byte, operand[0], operand[1], operand[2],
                 operand[3]);
        fits = number <= 255;
        break;
    default:
        snprintf(text, sizeof text, "%c", "BTXSDRKZQH"[function]);
    }
    at = strlen(text);
    memcpy(line, text, at);
    for (size_t place = 0; (function == DATA || function == RESULT) && place < length; place++) {
        line[at++] = (uint8_t)digits[bytes[place] >> 4];
        line[at++] = (uint8_t)digits[bytes[place] & 15];
    }
    if (function == RESULT) {
        line[at++] = ',';
        for (size_t place = 0; place < marks_len; place++) {
            line[at++] = (uint8_t)digits[bytes[512 + place] >> 4];
            line[at++] = (uint8_t)digits[bytes[512 + place] & 15];
        }
        snprintf(text, sizeof text, ",%u", operand[1]);
        memcpy(line + at, text, strlen(text));
        at += strlen(text);
    }
    static uint8_t lent[SPACE_MOST], store[512];
    uint8_t copy[CTC_STATE_LENGTH], told[CTC_ANSWER_LENGTH];
    uint32_t refusal = 77;
    before_call();
    memcpy(copy, state.bytes, sizeof copy);
    memcpy(told, answer.bytes, sizeof told);
    memcpy(store, check, sizeof store);
    memset(lent, UNTOUCHED, sizeof lent);
    if (function == DATA) {
        call.space_len = SPACE_MOST;
    }
    bool read = called((struct text){line, at}, true, &refusal);
    must(read == fits, "a line whose fields fit is not read, or one whose fields do not fit is");
    if (!fits) {
        lines_unread++;
        return;
    }
    uint32_t expected = make_call(&call, copy, told, lent, store, bytes, bytes + 512);
    must(refusal == expected, "a line has another refusal than its call");
    must(memcmp(copy, state.bytes, sizeof copy) == 0 && memcmp(told, answer.bytes, sizeof told) == 0 &&
             memcmp(store, check, sizeof store) == 0 && memcmp(lent, space, sizeof lent) == 0,
         "a line does something else than its call");
    lines_read++;
}

static void play_made_lines(struct source *from)
{
    ctc_fresh(&state);
    memset(check, 0, sizeof check);
    /* drives with tapes, and a store under way, so that data and results are taken too */
    for (uint8_t drive = 0; drive < 4; drive++) {
        ctc_report(&state, drive, 0x22, &answer);
    }
    if (take(from) % 2 == 0) {
        state.bytes[PHASE_AT] = TAKE_OF(from, DATA_AWAITED, RESULT_AWAITED);
        state.bytes[HELD_AT + 4] = take(from);
    }
    for (int lines = 0; lines < 8 && from->left > 0 && complaint == NULL; lines++) {
        play_made_line(from);
    }
}

/* ---- one input */

static void play_input(const uint8_t *data, size_t size)
{
    struct source from = {data, size};
    complaint = NULL;
    make_regions();
    switch (take(&from) % 8) {
    case 0:
    case 1:
        play_lines(&from);
        break;
    case 2:
        play_made_lines(&from);
        break;
    default:
        play_calls(&from);
    }
}

#ifndef FIXED_RUN

int LLVMFuzzerTestOneInput(const uint8_t *data, size_t size);

int LLVMFuzzerTestOneInput(const uint8_t *data, size_t size)
{
#ifdef WRONG
    const char *version = getenv("WRONG_VERSION");
    wrong = version == NULL ? 0 : atoi(version);
#endif
    play_input(data, size);
    if (complaint != NULL) {
        fprintf(stderr, "controller_fuzz: %s\n", complaint);
        abort();
    }
    return 0;
}

#else

static int passed, failed;

static void tell(bool holds, const char *name, const char *detail)
{
    printf("%s %s%s%s\n", holds ? "ok" : "FAILED", name, holds ? "" : ": ", holds ? "" : detail);
    if (holds) {
        passed++;
    } else {
        failed++;
    }
}

static uint64_t seed = 80001978;

static uint8_t random_byte(void)
{
    seed = seed * 6364136223846793005u + 1442695040888963407u;
    return (uint8_t)(seed >> 56);
}

/* So many inputs of a kind: the first of them that goes against a rule is told, and ends the run. */
static void inputs(const char *name, uint8_t kind, int count, const char *letters)
{
    static uint8_t data[1200];
    if (failed > 0) {
        return;
    }
    for (int number = 0; number < count; number++) {
        size_t size = 300 + 3u * random_byte();
        for (size_t place = 0; place < size; place++) {
            data[place] = letters == NULL ? random_byte() : (uint8_t)letters[random_byte() % strlen(letters)];
        }
        data[0] = kind;
        play_input(data, size);
        if (complaint != NULL) {
            printf("  input %d\n", number);
            tell(false, name, complaint);
            return;
        }
    }
    tell(true, name, "");
}

int main(int count, char **words)
{
    static const uint8_t zeros[1 + 1 + CTC_STATE_LENGTH + 40] = {3, 3};
#ifdef WRONG
    wrong = count == 2 ? atoi(words[1]) : 0;
#else
    (void)words;
    if (count != 1) {
        fprintf(stderr, "usage: controller_fuzz\n");
        return 2;
    }
#endif
    play_input(zeros, sizeof zeros);
    tell(complaint == NULL && done_calls == 0 && refused_by[1] > 0, "memory of zeros is refused with 1",
         complaint == NULL ? "taken" : complaint);
    inputs("lines of any bytes", 0, 500, NULL);
    inputs("lines of letters that lines have", 0, 1000, "BTXSDRKZQH,,,,,,0123456789ABCDEF\n\n\n\n\n\n\n\n");
    inputs("lines made of fields, as their calls", 2, 3000, NULL);
    inputs("calls on any bytes", 3, 20000, NULL);
    printf("  %llu calls, of which %llu were carried out; %llu lines read, %llu not; refusals",
           (unsigned long long)made, (unsigned long long)done_calls, (unsigned long long)lines_read,
           (unsigned long long)lines_unread);
    bool each = lines_read > 0 && lines_unread > 0;
    for (unsigned refusal = 1; refusal < 18; refusal++) {
        bool none = refusal == 12 || refusal == 13 || refusal == 14; /* those are of records */
        each = each && none == (refused_by[refusal] == 0);
        printf(" %llu", (unsigned long long)refused_by[refusal]);
    }
    printf("\n");
    tell(each, "each refusal was there, and no other", "one is missing, or too many");
    printf("%d passed, %d failed\n", passed, failed);
    return failed != 0;
}

#endif
