/*
 * board: a board's loop around ctc_controller.h, made to be copied from. Link bytes come
 * in, actions go out, orders go to four motors, and their results come back.
 *
 *     cc -I include examples/board.c target/staticlib/libfirmware.a -o board && ./board
 *
 * The first half is the board. The second half is what a PC has in place of a link and
 * four drives: a board has its own functions of these names. There it prints a short
 * exchange, which examples/board.txt has too.
 */
#include "ctc_controller.h"

#include <stdbool.h>
#include <stdint.h>
#include <stdio.h>
#include <string.h>

/* ---- what the board asks of its hardware. No function waits: each says what there is now. */

enum host_act { HOST_IS_SILENT, HOST_SENDS_BYTE, HOST_TAKES_ACK, HOST_BREAKS_OFF };

struct host_event {
    enum host_act act;
    uint8_t byte;
    bool bad_parity;
};

/* What came of an order, as ctc_result takes it. */
struct outcome {
    uint8_t code, mark, late;
    const uint8_t *image;
    uint32_t image_len;
    const uint8_t *marks;
    uint32_t marks_len;
};

struct motor;
static struct motor *motor_of(uint8_t drive);
static bool motor_reports(struct motor *motor, uint8_t *report); /* whether a report is new */
static void motor_reports_again(struct motor *motor);
static void motor_starts(struct motor *motor, const uint8_t order[6], const uint8_t *image,
                         uint32_t image_len);
static bool motor_ended(struct motor *motor, struct outcome *outcome);
static void motor_stops(struct motor *motor);

static bool link_resets(void); /* the link's reset line */
static struct host_event link_next(void);
static void link_says(const uint8_t *bytes, uint32_t length);
static void link_delivers(const uint8_t *bytes, uint32_t length);

/* ---- what the board keeps. All of it is static: the library allocates nothing. */

static ctc_state state;
static ctc_answer answer;
/* The longest image fits, so that no write is refused with 11, and no read overflows here. */
static uint8_t space[CTC_IMAGE_LENGTH_MOST];
/* The check bytes of the last GCR record, for which the host may ask later: the same in every call. */
static uint8_t check[CTC_CHECK_LENGTH];
/* The bytes for a write: 255 that are thrown away and the longest record. */
static uint8_t host[255 + CTC_COUNT_LIMIT];
static uint32_t host_len;
static ctc_size bad_place = CTC_NO_PLACE;
/* The motor whose result is awaited. */
static struct motor *moving;

static void stop_all(void)
{
    host_len = 0;
    bad_place = CTC_NO_PLACE;
    moving = NULL;
    for (uint8_t drive = 0; drive < 4; drive++) {
        motor_stops(motor_of(drive));
    }
}

/* Also after damage: what drives reported and what jobs queued is lost with the state. */
static void begin_anew(void)
{
    stop_all();
    ctc_fresh(&state);
    memset(check, 0, sizeof check);
    for (uint8_t drive = 0; drive < 4; drive++) {
        motor_reports_again(motor_of(drive));
    }
}

/* Every call goes through here: what it returned, and then the one action of its answer. */
static void carry_out(uint32_t refusal)
{
    if (refusal == CTC_REFUSED_DAMAGED) {
        begin_anew(); /* memory was hit: no call would ever be taken again */
        return;
    }
    if (refusal != CTC_DONE) {
        return; /* it came at a wrong time or did not fit: nothing changed, and the answer is old */
    }
    const uint8_t *six = ctc_six(&answer);
    if (ctc_action(&answer) != CTC_ACTION_ORDER && ctc_given(&answer) > 0) {
        link_delivers(space, ctc_given(&answer)); /* what was read comes before its EOR */
    }
    switch (ctc_action(&answer)) {
    case CTC_ACTION_BYTE: /* of ACK the host says by a line of the link that it takes it: ctc_taken */
        link_says(six, 1);
        break;
    case CTC_ACTION_STRING:
        link_says(six, 6);
        break;
    case CTC_ACTION_ORDER: /* the image of a write stands in the space; other orders have none */
        moving = motor_of(six[1]);
        motor_starts(moving, six, space, ctc_given(&answer));
        break;
    default:
        break;
    }
}

static void result(const struct outcome *outcome)
{
    uint32_t refusal =
        ctc_result(&state, outcome->code, outcome->mark, outcome->late, outcome->image,
                   outcome->image_len, outcome->marks, outcome->marks_len, space, sizeof space,
                   check, sizeof check, &answer);
    if (refusal >= CTC_REFUSED_CODE) { /* against the rules: the store would wait for ever */
        refusal = ctc_result(&state, CTC_CODE_TAPE_GONE, 0, 0, NULL, 0, NULL, 0, space,
                             sizeof space, check, sizeof check, &answer);
    }
    carry_out(refusal);
}

static void hand_over_data(void)
{
    uint32_t refusal = ctc_data(&state, host, host_len, bad_place, space, sizeof space, check,
                                sizeof check, &answer);
    host_len = 0;
    bad_place = CTC_NO_PLACE;
    carry_out(refusal);
}

static void from_host(struct host_event event)
{
    bool gathers = ctc_phase(&state) == CTC_PHASE_DATA;
    if (event.act == HOST_TAKES_ACK) {
        carry_out(ctc_taken(&state, &answer));
    } else if (event.act == HOST_BREAKS_OFF && gathers) {
        hand_over_data(); /* zeros fill, and the host is told of the underflow */
    } else if (event.act == HOST_BREAKS_OFF) {
        carry_out(ctc_broken(&state, &answer));
    } else if (!gathers) {
        carry_out(ctc_byte(&state, event.byte, &answer));
    } else if (host_len < sizeof host) {
        if (event.bad_parity && bad_place == CTC_NO_PLACE) {
            bad_place = host_len; /* the first is the one that counts */
        }
        host[host_len++] = event.byte;
    }
}

/* One turn of the loop: what is the case, the most pressing first. */
static void turn(void)
{
    struct outcome outcome = {0};
    uint8_t report;
    if (link_resets()) { /* taken in every phase; a motion under way has no result any more */
        stop_all();
        carry_out(ctc_reset(&state, &answer));
    }
    for (uint8_t drive = 0; drive < 4; drive++) { /* at any time: a tape may go while it moves */
        if (motor_reports(motor_of(drive), &report)) {
            carry_out(ctc_report(&state, drive, report, &answer));
        }
    }
    if (moving != NULL) {
        if (motor_ended(moving, &outcome)) {
            moving = NULL;
            result(&outcome);
        }
        return; /* the link waits: a byte from it would be refused now, and lost */
    }
    if (ctc_phase(&state) == CTC_PHASE_RESULT) {
        /* check bytes: nothing was ordered, and code 0 has them delivered. A motion that is
           awaited while nothing moves is one of before a restart */
        outcome.code = ctc_awaits_check_bytes(&state) ? CTC_CODE_NO_ERROR : CTC_CODE_TAPE_GONE;
        result(&outcome);
    } else if (ctc_phase(&state) == CTC_PHASE_DATA && host_len >= ctc_data_length(&state)) {
        hand_over_data(); /* at once where no bytes are needed */
    } else {
        struct host_event event = link_next();
        if (event.act != HOST_IS_SILENT) {
            from_host(event);
        } else { /* both are refused with 4 unless all is idle */
            carry_out(ctc_hand(&state, &answer));
            carry_out(ctc_tick(&state, &answer)); /* tells a host that enabled it of new reports */
        }
    }
}

/* The board's own jobs queue their stores, which take their turn while the host is silent. */
static void rewind_all(void)
{
    for (uint8_t job = 0; job < 4; job++) {
        uint8_t address = (uint8_t)(0x38 + job); /* operation 3, of the drive of this number */
        carry_out(ctc_queue(&state, job, address, 0, 0, 0, CTC_ORDER_REWIND, &answer));
    }
}

/* ---- the simulation: four drives whose tapes hold one record each, and a host with a script */

struct motor {
    uint8_t report;
    bool told;
    int turns; /* until the motion ends */
    uint8_t order[6];
    uint8_t tape[CTC_IMAGE_LENGTH_MOST];
    uint32_t length;
};

enum { LOADED = CTC_REPORT_INSTALLED | CTC_REPORT_SELECTABLE };

static struct motor motors[4];

static void print_bytes(const char *who, const uint8_t *bytes, uint32_t length)
{
    uint32_t sum = 0, shown = length <= 8 ? length : 8;
    printf("%-8s", who);
    for (uint32_t place = 0; place < length; place++) {
        sum += bytes[place];
        if (place < shown) {
            printf(" %02X", (unsigned)bytes[place]);
        }
    }
    if (shown < length) {
        printf(" .. %u bytes, sum %u", (unsigned)length, (unsigned)sum);
    }
    printf("\n");
}

static struct motor *motor_of(uint8_t drive)
{
    return &motors[drive & 3];
}

static void print_motor(const struct motor *motor, const uint8_t *bytes, uint32_t length)
{
    char who[] = "motor 0";
    who[6] = (char)('0' + (motor - motors));
    print_bytes(who, bytes, length);
}

static bool motor_reports(struct motor *motor, uint8_t *report)
{
    bool is_new = !motor->told;
    motor->told = true;
    *report = motor->report;
    if (is_new) {
        print_motor(motor, report, 1);
    }
    return is_new;
}

static void motor_reports_again(struct motor *motor)
{
    motor->told = false;
}

static void motor_starts(struct motor *motor, const uint8_t order[6], const uint8_t *image,
                         uint32_t image_len)
{
    print_motor(motor, order, 6);
    memcpy(motor->order, order, 6);
    motor->turns = 2;
    if (order[0] == CTC_ORDER_WRITE) {
        print_bytes("  writes", image, image_len);
        memcpy(motor->tape, image, image_len);
        motor->length = image_len;
    }
}

static bool motor_ended(struct motor *motor, struct outcome *outcome)
{
    static uint8_t marks[258];
    memset(marks, 15, sizeof marks); /* every blockette was read well */
    if (--motor->turns > 0) {
        return false;
    }
    if (motor->order[0] == CTC_ORDER_REWIND) {
        motor->report = LOADED | CTC_REPORT_BOT;
        motor->told = false;
    } else if (motor->order[0] == CTC_ORDER_READ) {
        outcome->image = motor->tape;
        outcome->image_len = motor->length;
        outcome->marks = marks;
        outcome->marks_len = motor->order[3] == 1 ? (motor->length - 2) / 256 : 0;
    }
    return true;
}

static void motor_stops(struct motor *motor)
{
    if (motor->turns > 0) {
        printf("motor %d  stops\n", (int)(motor - motors));
    }
    motor->turns = 0;
}

/*
 * What the host does: S sends a store, L a load, D the data, B the data with its third byte
 * bad; T takes the ACK and A accepts, both when the board has said something; R resets. M is
 * no doing of the host: memory is hit.
 */
static const struct {
    const char *why, *acts;
    uint8_t bytes[5]; /* the address, and of a store the operand */
    const char *data;
} script[] = {
    {"drive 1 is to write GCR", "ST", {0x39, 0, 0, 0, 0x0D}, ""},
    {"five bytes are written on drive 1", "STADA", {0x59, 0, 0, 0, 5}, "HELLO"},
    {"they are read back, with an interrupt: secondary, then primary", "STAAA", {0xC9}, ""},
    {"the check bytes of that record", "STA", {0x49, 0x40}, ""},
    {"drive 2, MFM: one byte is thrown away, and the third is bad", "STABA", {0x5A, 0, 1, 0, 4}, "BADLY"},
    {"primary says so in bit 16", "LTA", {0x10}, ""},
    {"the state is damaged: it is made afresh, and all drives report", "M", {0}, ""},
    {"the four reports", "LTA", {0x40}, ""},
    {"a reset while drive 3 writes: nothing comes of it", "STADR", {0x5B, 0, 0, 0, 5}, "NEVER"},
    {"primary", "LTA", {0x10}, ""},
};

enum { ROWS = sizeof script / sizeof script[0] };
static unsigned row, done, sent; /* of the row so many acts, and of the act so many bytes */
static bool heard;

static void next_act(void)
{
    done++;
    if (script[row].acts[done] == 0) {
        row++;
        done = 0;
    }
}

static bool link_resets(void)
{
    bool resets = row < ROWS && script[row].acts[done] == 'R' && moving != NULL;
    if (resets) {
        printf("host     resets\n");
        next_act();
    }
    return resets;
}

/* The bytes of a store, a load or a write, one at each turn. */
static struct host_event next_byte(char act)
{
    const uint8_t *b = script[row].bytes;
    uint8_t store[8] = {0x64, b[0], b[1], b[2], b[3], b[4], 0, 0}, load[4] = {0x62, b[0], 0, 0};
    const uint8_t *bytes = act == 'S' ? store : act == 'L' ? load : (const uint8_t *)script[row].data;
    uint32_t length = act == 'S' ? 8 : act == 'L' ? 4 : 5;
    for (int place = 0; place < 7; place++) { /* the check byte makes the XOR of all zero */
        store[7] ^= store[place];
    }
    load[3] = load[0] ^ load[1];
    if (sent == 0) {
        print_bytes("host", bytes, length);
    }
    struct host_event event = {HOST_SENDS_BYTE, bytes[sent], act == 'B' && sent == 2};
    sent = sent + 1 < length ? sent + 1 : 0;
    return event;
}

static struct host_event link_next(void)
{
    struct host_event event = {HOST_IS_SILENT, 0, false};
    bool ready = row < ROWS;
    for (int drive = 0; drive < 4; drive++) {
        ready = ready && (motors[drive].report & CTC_REPORT_BOT) != 0;
    }
    char act = ready ? script[row].acts[done] : 0;
    if (!ready || act == 'R' || ((act == 'T' || act == 'A') && !heard)) {
        return event;
    }
    if (done == 0 && sent == 0) {
        printf("\n-- %s\n", script[row].why);
    }
    heard = false;
    if (act == 'T') {
        printf("host     takes it\n");
        event.act = HOST_TAKES_ACK;
    } else if (act == 'A') {
        event = (struct host_event){HOST_SENDS_BYTE, CTC_ACK, false};
        print_bytes("host", &event.byte, 1);
    } else if (act == 'M') {
        state.bytes[49] ^= 0x80;
    } else {
        event = next_byte(act);
    }
    if (sent == 0) {
        next_act();
    }
    return event;
}

static void link_says(const uint8_t *bytes, uint32_t length)
{
    print_bytes("board", bytes, length);
    heard = true;
}

static void link_delivers(const uint8_t *bytes, uint32_t length)
{
    print_bytes("  reads", bytes, length);
}

int main(void)
{
    for (int drive = 0; drive < 4; drive++) {
        motors[drive].report = LOADED | CTC_REPORT_POSITION_UNKNOWN;
    }
    printf("-- the drives report, and the board's jobs rewind them\n");
    begin_anew();
    rewind_all();
    /* a board's loop has no end; this one gives up where the host waits for what never comes */
    for (int turns = 0; row < ROWS && turns < 1000; turns++) {
        turn();
    }
    return row < ROWS || fflush(stdout) != 0;
}
