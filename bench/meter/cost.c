/*
 * What a call through C costs beside the same call in Rattle, on x86-64: one call of each kind that is carried out,
 * through ctc_controller.h, by the dispatcher's own function, which is dispatcher_.. here, and, of the eight that it
 * passes on, by the controller's own, controller_... A line for each: its name and the nanoseconds of these, 0 for what
 * there is not. Under callgrind there is no line, but a part for each call, named by the call and 'C', 'dispatcher' or
 * 'controller', and one for each part of a call through C, layout_.., named by it and 'layout'.
 */
#define _POSIX_C_SOURCE 199309L
#include "ctc_controller.h"
#include "ctc_records.h"

#include <stdbool.h>
#include <stdint.h>
#include <stdio.h>
#include <stdlib.h>
#include <string.h>
#include <time.h>

#include <valgrind/callgrind.h>

/*
 * What Rattle's functions take: values by pointer, a slice as its place and length. A room is more than any value
 * needs; a dispatcher is less than DISPATCHER bytes, and a controller less than CONTROLLER. Records have LONG.
 */
enum { ROOM = 1024, DISPATCHER = 240, CONTROLLER = 72, LONG = 256 };
struct room {
    _Alignas(16) uint8_t bytes[ROOM];
};
bool layout_is_state(const uint8_t *state);
void layout_state_of(struct room *dispatcher, const uint8_t *state);
void layout_put_state_bytes(const struct room *dispatcher, uint8_t *state);
bool layout_has_sound_queues(const uint8_t *state);
void layout_controller_of(struct room *controller, const uint8_t *state);
void layout_put_controller_bytes(const struct room *controller, uint8_t *state);

/* The calls that are passed on: `of` is dispatcher or controller. */
#define PASSED_ON(of)                                                                                      \
    void of##_byte(struct room *left, struct room *it, uint8_t byte);                                      \
    void of##_taken(struct room *left, struct room *it);                                                   \
    void of##_broken(struct room *left, struct room *it);                                                  \
    void of##_report(struct room *left, struct room *it, uint8_t drive, uint8_t report);                   \
    void of##_data(struct room *left, struct room *it, const uint8_t *of_host, uint64_t of_hosts,          \
                   uint64_t place, uint8_t *lent, uint64_t lents, uint8_t *for_check, uint64_t checks);    \
    void of##_result(struct room *left, struct room *it, uint8_t code, bool mark, uint8_t late,            \
                     const uint8_t *of_image, uint64_t images, const uint8_t *of_marks, uint64_t markses,  \
                     uint8_t *lent, uint64_t lents, uint8_t *for_check, uint64_t checks);                  \
    void of##_tick(struct room *left, struct room *it);                                                    \
    void of##_reset(struct room *left, struct room *it)

PASSED_ON(dispatcher);
PASSED_ON(controller);
void dispatcher_queue(struct room *left, struct room *it, uint8_t job, const uint8_t *of_store);
void dispatcher_hand(struct room *left, struct room *it);

static ctc_state begin, state;
static ctc_answer answer;
static struct room begin_dispatcher, begin_controller, self, reply;
static uint8_t host[LONG], image[2 + LONG + 512], marks[3], space[2 + LONG + 512], check[CTC_CHECK_LENGTH];

static _Noreturn void stop(const char *what, const char *name)
{
    fprintf(stderr, "cost: %s: %s\n", name, what);
    exit(3);
}

/* ---- the state before each call: an idle controller with a tape in drive 0 */

static void done(uint32_t refusal)
{
    if (refusal != CTC_DONE) {
        stop("a call before it is refused", "a state");
    }
}

static void idle(void)
{
    done(ctc_fresh(&begin));
    begin.bytes[4] = CTC_DENSITY_GCR; /* of drive 0, in the layout of a state */
    done(ctc_report(&begin, 0, CTC_REPORT_INSTALLED | CTC_REPORT_SELECTABLE | CTC_REPORT_BOT, &answer));
}

/* A load of primary, whose ACK is offered. */
static void loaded(void)
{
    static const uint8_t string[] = {0x62, 0x10, 0x00, 0x72};
    idle();
    for (size_t place = 0; place < sizeof string; place++) {
        done(ctc_byte(&begin, string[place], &answer));
    }
}

/* A read of drive 0 is queued; or awaits its result. */
static void queued(void)
{
    idle();
    done(ctc_queue(&begin, 0, 0x48, 0, 0, 0, 0, &answer));
}

static void reading(void)
{
    queued();
    done(ctc_hand(&begin, &answer));
    done(ctc_build(host, LONG, CTC_DENSITY_GCR, CTC_NO_PLACE, image, sizeof image));
    memset(marks, CTC_MARK_GOOD, sizeof marks);
}

/* A write of 256 bytes to drive 0 awaits its data. */
static void writing(void)
{
    idle();
    done(ctc_queue(&begin, 0, 0x58, 0, 0, LONG >> 8, LONG & 255, &answer));
    done(ctc_hand(&begin, &answer));
    done(ctc_byte(&begin, CTC_ACK, &answer));
}

/* ---- the calls, each way */

enum { THROUGH_C, BY_DISPATCHER, BY_CONTROLLER, WAYS };
static const char *const ways[WAYS] = {"C", "dispatcher", "controller"};
static uint32_t refusal;

#define CALL(name, in_c, in_rattle)        \
    static void through_c_##name(void)     \
    {                                      \
        refusal = ctc_##name in_c;         \
    }                                      \
    static void by_dispatcher_##name(void) \
    {                                      \
        dispatcher_##name in_rattle;       \
    }
#define PASSED(name, in_c, in_rattle)      \
    CALL(name, in_c, in_rattle)            \
    static void by_controller_##name(void) \
    {                                      \
        controller_##name in_rattle;       \
    }

static const uint8_t store[] = {0x48, 0, 0, 0, 0};

PASSED(byte, (&state, 0x62, &answer), (&reply, &self, 0x62))
PASSED(taken, (&state, &answer), (&reply, &self))
PASSED(broken, (&state, &answer), (&reply, &self))
PASSED(report, (&state, 0, 0x22, &answer), (&reply, &self, 0, 0x22))
PASSED(data, (&state, host, sizeof host, CTC_NO_PLACE, space, sizeof space, check, sizeof check, &answer),
       (&reply, &self, host, sizeof host, CTC_NO_PLACE, space, sizeof space, check, sizeof check))
PASSED(result,
       (&state, 0, 0, 0, image, sizeof image, marks, sizeof marks, space, sizeof space, check, sizeof check,
        &answer),
       (&reply, &self, 0, false, 0, image, sizeof image, marks, sizeof marks, space, sizeof space, check,
        sizeof check))
PASSED(tick, (&state, &answer), (&reply, &self))
PASSED(reset, (&state, &answer), (&reply, &self))
CALL(queue, (&state, 0, store[0], store[1], store[2], store[3], store[4], &answer), (&reply, &self, 0, store))
CALL(hand, (&state, &answer), (&reply, &self))

#define EACH(name, before) {#name, before, {through_c_##name, by_dispatcher_##name, by_controller_##name}}
static const struct call {
    const char *name;
    void (*before)(void);
    void (*way[WAYS])(void); /* NULL where there is none */
} calls[] = {
    EACH(byte, idle),
    EACH(taken, loaded),
    EACH(broken, loaded),
    EACH(report, idle),
    EACH(data, writing),
    EACH(result, reading),
    EACH(tick, idle),
    EACH(reset, idle),
    {"queue", idle, {through_c_queue, by_dispatcher_queue, NULL}},
    {"hand", queued, {through_c_hand, by_dispatcher_hand, NULL}},
};
enum { CALLS = sizeof calls / sizeof calls[0] };

/* What each way begins with. */
static void copy_state(void)
{
    memcpy(&state, &begin, sizeof state);
}

static void copy_dispatcher(void)
{
    memcpy(&self, &begin_dispatcher, DISPATCHER);
}

static void copy_controller(void)
{
    memcpy(&self, &begin_controller, CONTROLLER);
}

static void (*const copies[WAYS])(void) = {copy_state, copy_dispatcher, copy_controller};

/*
 * Rattle's reply holds the next dispatcher or controller somewhere. Written, the queues being those from before where
 * it is a controller, it must be the state that the call through C left. What is none is not to be written, so that
 * its first drive is looked at before.
 */
static bool same_state(int way)
{
    enum { DRIVE = 5, PLACES = 64 };
    struct room next;
    (way == BY_DISPATCHER ? layout_state_of : layout_controller_of)(&self, state.bytes);
    for (size_t place = 0; place < PLACES; place += 4) {
        memcpy(next.bytes, reply.bytes + place, DISPATCHER);
        if (memcmp(self.bytes, next.bytes, DRIVE) == 0) {
            ctc_state written = begin;
            (way == BY_DISPATCHER ? layout_put_state_bytes : layout_put_controller_bytes)(&next, written.bytes);
            if (memcmp(&written, &state, sizeof state) == 0) {
                return true;
            }
        }
    }
    return false;
}

/* ---- time */

static void nothing(void)
{
}

static double now(void)
{
    struct timespec time;
    clock_gettime(CLOCK_MONOTONIC, &time);
    return (double)time.tv_sec * 1e9 + (double)time.tv_nsec;
}

enum { TURNS = 1000, TIMES = 1000 };

static void time_way(void (*copy)(void), void (*call)(void), double *least)
{
    double from = now();
    for (int turn = 0; turn < TURNS; turn++) {
        copy();
        call();
    }
    double took = (now() - from) / TURNS;
    *least = took < *least ? took : *least;
}

/* The least times of each way, in turns, less what copying takes. */
static void time_ways(const struct call *call)
{
    double took[WAYS], copied[WAYS];
    for (int way = 0; way < WAYS; way++) {
        took[way] = copied[way] = 1e18;
    }
    for (int time = 0; time < TIMES; time++) {
        for (int way = 0; way < WAYS; way++) {
            if (call->way[way] != NULL) {
                time_way(copies[way], call->way[way], took + way);
            }
            time_way(copies[way], nothing, copied + way);
        }
    }
    printf("%s", call->name);
    for (int way = 0; way < WAYS; way++) {
        printf(" %.1f", call->way[way] != NULL ? took[way] - copied[way] : 0);
    }
    printf("\n");
}

/* ---- all */

static void end_part(const char *what, const char *of)
{
    char text[32];
    snprintf(text, sizeof text, "%s %s", what, of);
    CALLGRIND_DUMP_STATS_AT(text);
}

static void compare(const struct call *call)
{
    call->before();
    layout_state_of(&begin_dispatcher, begin.bytes);
    layout_controller_of(&begin_controller, begin.bytes);
    CALLGRIND_DUMP_STATS_AT("before");
    for (int way = 0; way < WAYS; way++) {
        if (call->way[way] == NULL) {
            continue;
        }
        copies[way]();
        call->way[way]();
        end_part(call->name, ways[way]);
        if (way == THROUGH_C && refusal != CTC_DONE) {
            stop("refused through C", call->name);
        }
        if (way != THROUGH_C && !same_state(way)) {
            stop("Rattle and C leave different states", call->name);
        }
        CALLGRIND_DUMP_STATS_AT("before");
    }
    if (RUNNING_ON_VALGRIND == 0) {
        time_ways(call);
    }
}

/* What a call through C does beside the call in Rattle. */
static void parts(void)
{
    queued();
    copy_state();
    CALLGRIND_DUMP_STATS_AT("before");
    bool sound = layout_is_state(begin.bytes);
    end_part("is_state", "layout");
    layout_state_of(&self, begin.bytes);
    end_part("state_of", "layout");
    layout_put_state_bytes(&self, state.bytes);
    end_part("put_state_bytes", "layout");
    sound = layout_has_sound_queues(begin.bytes) && sound;
    end_part("has_sound_queues", "layout");
    layout_controller_of(&self, begin.bytes);
    end_part("controller_of", "layout");
    layout_put_controller_bytes(&self, state.bytes);
    end_part("put_controller_bytes", "layout");
    if (!sound || memcmp(&state, &begin, sizeof state) != 0) {
        stop("not read and written as it was", "a state");
    }
}

int main(void)
{
    for (size_t place = 0; place < sizeof host; place++) {
        host[place] = (uint8_t)(place * 7 + 1);
    }
    for (size_t k = 0; k < CALLS; k++) {
        compare(calls + k);
    }
    parts();
    return 0;
}
