// The controller's header from C++: calls that link, and its inline functions.
#include "ctc_controller.h"

#include <array>
#include <cstddef>
#include <cstdint>
#include <cstdio>

static_assert(sizeof(ctc_state) == 224 && alignof(ctc_state) == 1, "the state");
static_assert(sizeof(ctc_answer) == 16 && alignof(ctc_answer) == 1, "the answer");
static_assert(sizeof(ctc_size) == 8, "a length");

// Document 01's load of primary.
static bool load()
{
    const std::array<std::uint8_t, 4> bytes{0x62, 0x10, 0x00, 0x72};
    const std::array<std::uint8_t, 6> reply{0x66, 0x80, 0x00, 0x00, 0x04, 0xE2};
    ctc_state state;
    ctc_answer answer;
    bool right = ctc_fresh(&state) == CTC_DONE;
    for (const std::uint8_t byte : bytes) {
        right = right && ctc_byte(&state, byte, &answer) == CTC_DONE;
    }
    right = right && ctc_action(&answer) == CTC_ACTION_BYTE && ctc_offered(&answer) == CTC_ACK;
    right = right && ctc_taken(&state, &answer) == CTC_DONE;
    right = right && ctc_action(&answer) == CTC_ACTION_STRING;
    for (std::size_t place = 0; place < reply.size(); place++) {
        right = right && ctc_six(&answer)[place] == reply[place];
    }
    return right && ctc_byte(&state, CTC_ACK, &answer) == CTC_DONE;
}

// A store of drive 4 by a job: its record is code 01.
static bool job()
{
    ctc_state state;
    ctc_answer answer;
    return ctc_fresh(&state) == CTC_DONE &&
           ctc_queue(&state, 3, 0x4C, 0, 0, 0, 0, &answer) == CTC_DONE &&
           ctc_hand(&state, &answer) == CTC_DONE && ctc_settled(&answer) == 1 &&
           ctc_settled_code(&answer) == 1 && ctc_settled_motion(&answer) == 0 &&
           ctc_settled_count(&answer) == 0 && ctc_given(&answer) == 0;
}

// Memory of zeros is no state.
static bool zeros()
{
    ctc_state state{};
    ctc_answer answer{};
    return ctc_tick(&state, &answer) == CTC_REFUSED_DAMAGED;
}

int main()
{
    const int passed = load() + job() + zeros();
    std::printf("%d passed, %d failed\n", passed, 3 - passed);
    return passed == 3 ? 0 : 1;
}
