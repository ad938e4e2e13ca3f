/*
 * Four threads, each with a controller of its own, play calls at once: each must end with
 * the bytes that it ends with alone. Compiled with -fsanitize=thread too, which tells of
 * two threads that touch the same byte; the library's own accesses it does not see, but
 * those that it makes by memcpy and the like, and those of this program.
 *
 *     threads_test            each thread has all of its own
 *     threads_test VERSION    1 two threads share a state, 2 a check store, 3 lent space:
 *                             the sanitizer must tell of each
 */
#define _POSIX_C_SOURCE 200809L /* for barriers */

#include "ctc_controller.h"

#include <pthread.h>
#include <stdbool.h>
#include <stdint.h>
#include <stdio.h>
#include <stdlib.h>
#include <string.h>

enum { THREADS = 4, CALLS = 10000, SPACE = 2000 };
enum { SHARED_STATE = 1, SHARED_CHECK, SHARED_SPACE };

/* What a controller is lent. */
struct lent {
    ctc_state state;
    uint8_t check[CTC_CHECK_LENGTH], space[SPACE];
};

static struct lent all[THREADS];

struct player {
    ctc_state *state;
    uint8_t *check, *space;
    ctc_answer answer;
    uint64_t random, sum, carried_out;
};

static uint8_t next(struct player *player)
{
    player->random = player->random * 6364136223846793005u + 1442695040888963407u;
    return (uint8_t)(player->random >> 56);
}

static void add(struct player *player, const uint8_t *bytes, size_t length)
{
    for (size_t place = 0; place < length; place++) {
        player->sum = (player->sum ^ bytes[place]) * 1099511628211u;
    }
}

/* A store for any drive, mostly one that moves its tape; short writes and reads in both densities. */
static uint32_t queue(struct player *player)
{
    static const uint8_t operations[8] = {0x38, 0x38, 0x48, 0xC8, 0x58, 0xD8, 0x68, 0x38};
    static const uint8_t controls[8] = {0x00, 0x01, 0x0C, 0x0D, 0x10, 0x20, 0x24, 0x09};
    uint8_t address = (uint8_t)(operations[next(player) % 8] + next(player) % 4);
    uint8_t last = (address & 0x70) == 0x30 ? controls[next(player) % 8] : next(player);
    return ctc_queue(player->state, next(player) % 4, address, next(player) % 8 == 0 ? 0x40 : 0, 0, 0, last,
                     &player->answer);
}

static uint32_t result(struct player *player)
{
    static const uint8_t codes[8] = {0, 0, 0, 0, 7, 9, 12, 23};
    uint8_t image[2 + 3 * 256] = {0x00, 0x03, 'T', 'A', 'P', 'E', 'S', '!'};
    uint8_t marks[3] = {15, 15, next(player) % 4 == 0 ? 3 : 15};
    uint8_t kind = next(player) % 4;
    ctc_size image_len = kind == 0 ? 0 : kind == 1 ? 2 : kind == 2 ? 8 : sizeof image;
    return ctc_result(player->state, codes[next(player) % 8], 0, next(player) % 4, image, image_len, marks,
                      kind == 3 ? 3 : 0, player->space, SPACE, player->check, CTC_CHECK_LENGTH, &player->answer);
}

/* A call that the phase awaits, mostly. */
static uint32_t call(struct player *player)
{
    enum { PHASE = 49 };
    uint8_t host[300];
    uint8_t phase = next(player) % 8 == 0 ? next(player) % 7 : player->state->bytes[PHASE];
    switch (phase) {
    case 0:
        return next(player) % 4 == 0   ? ctc_report(player->state, next(player) % 4, 0x22, &player->answer)
               : next(player) % 3 == 0 ? ctc_tick(player->state, &player->answer)
               : next(player) % 2 == 0 ? ctc_hand(player->state, &player->answer)
                                       : queue(player);
    case 1:
        return ctc_taken(player->state, &player->answer);
    case 4:
        memset(host, next(player), sizeof host);
        return ctc_data(player->state, host, next(player), CTC_NO_PLACE, player->space, SPACE, player->check,
                        CTC_CHECK_LENGTH, &player->answer);
    case 5:
        return result(player);
    default:
        return ctc_byte(player->state, next(player) % 8 == 0 ? 0x15 : 0x06, &player->answer);
    }
}

static void play(struct player *player)
{
    if (ctc_fresh(player->state) != CTC_DONE) {
        return;
    }
    memset(player->check, 0, CTC_CHECK_LENGTH);
    for (int number = 0; number < CALLS; number++) {
        memset(player->space, 0xA5, SPACE);
        memset(&player->answer, 0xA5, sizeof player->answer);
        uint32_t refusal = call(player);
        player->carried_out += refusal == CTC_DONE;
        add(player, (const uint8_t *)&refusal, sizeof refusal);
        add(player, player->state->bytes, CTC_STATE_LENGTH);
        add(player, player->answer.bytes, CTC_ANSWER_LENGTH);
        add(player, player->check, CTC_CHECK_LENGTH);
        add(player, player->space, 64);
        if (number % 64 == 0) { /* a state may be kept elsewhere meanwhile */
            ctc_state kept = *player->state;
            memset(player->state, 0, sizeof kept);
            *player->state = kept;
        }
    }
}

static pthread_barrier_t start;

static void *play_at_once(void *player)
{
    pthread_barrier_wait(&start);
    play(player);
    return NULL;
}

static struct player player_of(int number, int version)
{
    int other = number == 1 ? 0 : number;
    return (struct player){.state = &all[version == SHARED_STATE ? other : number].state,
                           .check = all[version == SHARED_CHECK ? other : number].check,
                           .space = all[version == SHARED_SPACE ? other : number].space,
                           .random = (uint64_t)number * 77 + 1978};
}

int main(int count, char **words)
{
    int version = count == 2 ? atoi(words[1]) : 0;
    struct player alone[THREADS], beside[THREADS];
    pthread_t threads[THREADS];
    int passed = 0, failed = 0;
    if (count > 2 || version < 0 || version > SHARED_SPACE) {
        fprintf(stderr, "usage: threads_test [VERSION]\n");
        return 2;
    }
    for (int number = 0; number < THREADS; number++) {
        alone[number] = player_of(number, 0);
        play(&alone[number]);
        beside[number] = player_of(number, version);
    }
    if (pthread_barrier_init(&start, NULL, THREADS) != 0) {
        fprintf(stderr, "threads_test: no barrier\n");
        return 1;
    }
    for (int number = 0; number < THREADS; number++) {
        if (pthread_create(&threads[number], NULL, play_at_once, &beside[number]) != 0) {
            fprintf(stderr, "threads_test: no thread\n");
            return 1;
        }
    }
    for (int number = 0; number < THREADS; number++) {
        pthread_join(threads[number], NULL);
    }
    for (int number = 0; number < THREADS; number++) {
        bool alike = alone[number].sum == beside[number].sum && alone[number].carried_out > CALLS / 2;
        printf("%s thread %d: %d calls, %llu carried out%s\n", alike ? "ok" : "FAILED", number, (int)CALLS,
               (unsigned long long)beside[number].carried_out, alike ? "" : ", and not as alone");
        passed += alike;
        failed += !alike;
    }
    printf("%d passed, %d failed\n", passed, failed);
    return failed != 0;
}
