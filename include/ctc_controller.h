/*
 * ctc_controller.h: the BTI-8000 cartridge controller for firmware: the link to the
 * host, four drives, and the queues of four jobs.
 *
 * The functions do no input and no output. A board calls one for what happened (a byte
 * came from the host, a drive reported, an operation ended) and carries out the one
 * action that the answer names (offer a byte to the host, send it a string of six
 * bytes, order a motion), or none. examples/board.c is such a board, made to be copied
 * from. Link with libfirmware.a (x86-64), or with the libctc.a that tools/cross makes for
 * another processor; installed, pkg-config has it as ctc-controller:
 *
 *     cc -I include examples/board.c target/staticlib/libfirmware.a
 *     cc board.c $(pkg-config --cflags --libs ctc-controller)
 *
 * A STORE'S WAY. Its eight bytes come by ctc_byte, the last of which offers ACK, and
 * ctc_taken carries it out; or ctc_queue queues it, and ctc_hand carries it out. What
 * comes next the answer says, or ctc_phase where there is no action:
 *
 *   - a motion order: the drive moves, and its end is told by ctc_result;
 *   - GO offered, of a write: the host accepts by ctc_byte with CTC_ACK, and then
 *     CTC_PHASE_DATA: its bytes are gathered, ctc_data_length of them or fewer where it
 *     runs out, and ctc_data orders the move;
 *   - CTC_PHASE_RESULT without an order, of check bytes: ctc_result with code 0;
 *   - EOR offered, or a string: the host accepts by ctc_byte with CTC_ACK;
 *   - CTC_PHASE_COLLECTING: the store has ended, at once where its code was settled
 *     without a move.
 *
 * WHAT A RESULT MAY BE. Orders and codes are hexadecimal; a whole image has in GCR one
 * mark for each blockette, in MFM none. What is against this table is refused with 7, 8
 * or 9.
 *
 *   order  operation               codes                                mark   image
 *    40    read                    0 7 8 9 A C D E F 10 11 12 13 17     with 0 whole (*)
 *     -    check bytes             0                                    no     none
 *    80    read, supplied count    0 7 8 9 A 13 14 17                   no     whole (+)
 *    50    write                   0 7 8 9 B C D E F 10 11 12 13 14 17  no     none
 *    60    erase                   0 6 7 8 17                           no     none
 *    10    rewind                  0 6 7                                no     none
 *    11    fast forward            0 6 7                                no     none
 *    20    skip forward            0 7 8 9 A C D E F 10 11 12 13 17     with 0 whole (*)
 *    21    skip reverse            0 7 9 C D E 18                       with 0 count (#)
 *    22    search forward          0 7 8 9 A C D E F 10 11 12 13 17     at 0   none
 *    23    search reverse          0 7 9 C D E 18                       at 0   none
 *    24    write mark              0 7 8 9 B C D 17                     no     none
 *
 *   with 0: may be told with code 0 alone, and at 0: is told with code 0 and no other
 *   (*) with codes 0, 10, 11 and 12 where no mark is told, else none
 *   (+) with code 0, of the length that the supplied count gives; none where that is 0
 *   (#) in GCR two count bytes with code 0 where no mark is told, else none
 *
 * THE STATE is CTC_STATE_LENGTH bytes that the caller keeps. ctc_fresh makes one; every
 * other function reads it and, where it is not refused, writes the next one in its place.
 * Nothing is kept elsewhere: a state may be copied, stored over a restart, and compared
 * byte by byte.
 *
 * ANY BYTES ARE TAKEN FOR A STATE, as memory is after a fault. What no field can mean
 * (another layout, a phase, a kind, an operation or a flag that does not exist) and a
 * field out of its range are CTC_REFUSED_DAMAGED. Memory of zeros is refused.
 *
 * The layout is stable. Its number stands first: a later release reads a state of this
 * layout, or refuses it.
 *
 *   place  bytes  field                                             range
 *     0      1    the number of the layout                          1
 *     1     24    drives 0 to 3, six bytes each:
 *                   report; its copy of the last review             any
 *                   track                                           0-3
 *                   density                                         0-1
 *                   gap                                             0-3
 *                   guard                                           0-1
 *    25      1    the selected drive                                0-3
 *    26      1    changed                                           0-1
 *    27      1    enable                                            0-1
 *    28      1    retry                                             0-1
 *    29      1    mark                                              0-1
 *    30      1    code                                              0-31
 *    31      1    motion                                            0-3
 *    32      2    count, high byte first                            any
 *    34      7    host parity, overflow, underflow, write data
 *                 late, read data late, supplied count, count
 *                 valid: primary's bits 16 to 22                    0-1
 *    41      4    tertiary                                          any
 *    45      4    quintary                                          any
 *    49      1    the phase                                         0-6
 *    50      9    what the phase holds:
 *                   0 collecting, 1 ACK offered: how many bytes of
 *                     a string have come, and eight bytes
 *                   2 sending: kind 0-3 (reply to a load, secondary
 *                     update, interrupt of a completion, of a
 *                     change), six bytes, noes 0-4
 *                   3 GO offered, 4 data awaited: a store
 *                   5 result awaited: operation 0-11 (read, check
 *                     bytes, read with a supplied count, write,
 *                     erase, rewind, fast forward, skip forward,
 *                     skip reverse, search forward, search
 *                     reverse, write mark), a store
 *                   6 EOR offered: interrupt asked 0-1
 *                 and behind it bytes that are written as 0 and
 *                 not looked at
 *    59    164    the queues of jobs 0 to 3, 41 bytes each:
 *                   its length                                      0-8
 *                   eight stores of five bytes: address, operand    any
 *   223      1    the job served last                               0-3
 *
 * AN ANSWER is CTC_ANSWER_LENGTH bytes. The functions at the end of this header read it.
 *
 *   place  bytes  field
 *     0      1    what is to be done: CTC_ACTION_NOTHING, _BYTE, _STRING or _ORDER
 *     1      6    the byte, the string or the order, and zeros behind it
 *     7      1    1 where the call settled the code of a store, else 0
 *     8      1    that store's code
 *     9      1    its motion
 *    10      2    its count, high byte first
 *    12      4    how many bytes of the lent space the call gives, high byte first
 *
 * FOR EVERY FUNCTION
 *
 *   - It returns CTC_DONE (0), or the number of the refusal; where several apply, the
 *     lowest number.
 *   - A refused call changes nothing: state, answer, space and check store are as they
 *     were.
 *   - state and answer point to one of each. A pointer that comes with a length may be
 *     null where the length is 0.
 *   - What a call writes (state, answer, space, check) must share no byte with anything
 *     else that is handed to the same call. What it only reads may overlap.
 *   - Any value of any argument is taken: what does not fit is refused.
 *   - Several threads may call at once, each with a state of its own. Nothing is
 *     allocated, and there is no data but the caller's.
 *
 * A length is 64 bits wide on every processor (ctc_size).
 */
#ifndef CTC_CONTROLLER_H
#define CTC_CONTROLLER_H

#include <stdint.h>

/* The version of this header and of the library, as the file VERSION has it. */
#define CTC_VERSION "3.0.0"

/* A length or a place. */
typedef uint64_t ctc_size;

/* The number of the layout, and the lengths of a state and an answer. */
#define CTC_LAYOUT 1
#define CTC_STATE_LENGTH 224
#define CTC_ANSWER_LENGTH 16

typedef struct {
    uint8_t bytes[CTC_STATE_LENGTH];
} ctc_state;

typedef struct {
    uint8_t bytes[CTC_ANSWER_LENGTH];
} ctc_answer;

/* What the functions return. */
#define CTC_DONE 0u
#define CTC_REFUSED_DAMAGED 1u      /* the bytes are no state, or a field is out of range */
#define CTC_REFUSED_LINK 2u         /* a link call while data or a result is awaited, or taken with no ACK offered */
#define CTC_REFUSED_TRANSFER 3u     /* data or a result that is not awaited */
#define CTC_REFUSED_NOT_IDLE 4u     /* a tick or a handing while the controller is not idle */
#define CTC_REFUSED_DRIVE 5u        /* a drive above 3 */
#define CTC_REFUSED_CHECK 6u        /* a check store that is not CTC_CHECK_LENGTH bytes */
#define CTC_REFUSED_CODE 7u         /* a code that the operation does not report */
#define CTC_REFUSED_FLAGS 8u        /* a mark flag against its rule, or late flags above 3 */
#define CTC_REFUSED_LENGTH 9u       /* a wrong length of image or marks */
#define CTC_REFUSED_MARK 10u        /* a mark that is neither 1-9 nor 15 */
#define CTC_REFUSED_SPACE 11u       /* the space for the image is too short */
#define CTC_REFUSED_PLACE 15u       /* a place that has no byte and is not CTC_NO_PLACE */
#define CTC_REFUSED_STORE 16u       /* a job above 3, a store naming no drive, or a reset store */
#define CTC_REFUSED_QUEUE_FULL 17u  /* the queue of the job holds eight stores */

/* The length of the check store, and of the longest image and record. */
#define CTC_CHECK_LENGTH 512
#define CTC_COUNT_LIMIT 65535
#define CTC_IMAGE_LENGTH_MOST 66050

/* The place that says that no byte came with bad parity: 65,535 plus 256. */
#define CTC_NO_PLACE 65791

/* What an answer has the board do. */
#define CTC_ACTION_NOTHING 0u
#define CTC_ACTION_BYTE 1u    /* offer the host a byte: ACK, NACK, GO or EOR */
#define CTC_ACTION_STRING 2u  /* send the host a string of six bytes */
#define CTC_ACTION_ORDER 3u   /* order a motion: operation, drive, track, density, last two operand bytes */

/* The bytes that are offered. The host takes ACK (ctc_taken); it accepts GO, EOR and a string by sending CTC_ACK. */
#define CTC_ACK 0x06u
#define CTC_NACK 0x15u
#define CTC_GO 0x47u
#define CTC_END_OF_RECORD 0x45u

/* The bits of a report. */
#define CTC_REPORT_BOT 1u
#define CTC_REPORT_SELECTABLE 2u
#define CTC_REPORT_POSITION_UNKNOWN 4u
#define CTC_REPORT_PROTECTED 8u
#define CTC_REPORT_BOT_WARNING 16u
#define CTC_REPORT_INSTALLED 32u
#define CTC_REPORT_EOT_WARNING 64u
#define CTC_REPORT_EOT 128u

/* Codes: of a result those of the table above; 0x01 to 0x05, 0x15 and 0x16 the controller gives
 * itself, and 0x07 and 0x13 it may put in place of a result's. */
#define CTC_CODE_NO_ERROR 0x00u
#define CTC_CODE_ILLEGAL_DRIVE 0x01u
#define CTC_CODE_ILLEGAL_STORE 0x02u
#define CTC_CODE_ILLEGAL_TRACK 0x03u
#define CTC_CODE_ILLEGAL_MOTION 0x04u
#define CTC_CODE_NO_GO 0x05u
#define CTC_CODE_END_NOT_FOUND 0x06u              /* the end of the tape was not found in time */
#define CTC_CODE_TAPE_GONE 0x07u                  /* no tape is installed any more */
#define CTC_CODE_LOAD_POINT_LATE 0x08u
#define CTC_CODE_SYNC_LATE 0x09u
#define CTC_CODE_GAP_UNEXPECTED 0x0Au
#define CTC_CODE_DROP_OUT 0x0Bu                   /* during a write */
#define CTC_CODE_IDENTIFICATION_LATE 0x0Cu
#define CTC_CODE_IDENTIFICATION_BAD 0x0Du
#define CTC_CODE_COUNT_CHECK_BAD 0x0Eu
#define CTC_CODE_MFM_DATA_BAD 0x0Fu
#define CTC_CODE_REVERSE_COUNT_BAD 0x10u          /* GCR */
#define CTC_CODE_TRAILING_IDENTIFICATION_BAD 0x11u
#define CTC_CODE_TRAILING_SYNC_BAD 0x12u
#define CTC_CODE_BLOCKETTE_NUMBER_WRONG 0x13u     /* GCR */
#define CTC_CODE_SUPPLIED_COUNT_NOT_FOUND 0x14u   /* GCR */
#define CTC_CODE_RECOVERABLE 0x15u                /* GCR: at most one bad blockette of each parity */
#define CTC_CODE_UNRECOVERABLE 0x16u              /* GCR: two bad blockettes of one parity */
#define CTC_CODE_EOT_UNEXPECTED 0x17u
#define CTC_CODE_BOT_UNEXPECTED 0x18u

/* The motion of a settled store. */
#define CTC_MOTION_NONE 0u     /* the tape stands in the gap where it stood */
#define CTC_MOTION_FORWARD 1u
#define CTC_MOTION_REVERSE 2u
#define CTC_MOTION_LOST 3u     /* where it stands is not known */

/* The phase of a state: what is collected, offered, sent or awaited. */
#define CTC_PHASE_COLLECTING 0u  /* a string from the host; idle where none of it has come */
#define CTC_PHASE_ACK 1u         /* ACK is offered */
#define CTC_PHASE_SENDING 2u     /* a string is on its way to the host */
#define CTC_PHASE_GO 3u          /* GO is offered */
#define CTC_PHASE_DATA 4u        /* ctc_data is awaited */
#define CTC_PHASE_RESULT 5u      /* ctc_result is awaited */
#define CTC_PHASE_EOR 6u         /* EOR is offered */

/* The operation of a motion order, its first byte. */
#define CTC_ORDER_REWIND 0x10u
#define CTC_ORDER_FAST_FORWARD 0x11u
#define CTC_ORDER_SKIP_FORWARD 0x20u
#define CTC_ORDER_SKIP_REVERSE 0x21u
#define CTC_ORDER_SEARCH_FORWARD 0x22u
#define CTC_ORDER_SEARCH_REVERSE 0x23u
#define CTC_ORDER_WRITE_MARK 0x24u
#define CTC_ORDER_READ 0x40u
#define CTC_ORDER_WRITE 0x50u
#define CTC_ORDER_ERASE 0x60u
#define CTC_ORDER_READ_SUPPLIED 0x80u

#ifdef __cplusplus
extern "C" {
#endif

/*
 * Makes a fresh state, whatever the bytes were: drives with report 4 (position
 * unknown), track 0, MFM, the tape's place lost; drive 0 selected, changed set, enable
 * clear; nothing queued. Returns CTC_DONE.
 */
uint32_t ctc_fresh(ctc_state *state);

/* A byte comes from the host. Refused: 1, 2. */
uint32_t ctc_byte(ctc_state *state, uint8_t byte, ctc_answer *answer);

/* The host takes the ACK that is offered: its string is carried out. Refused: 1, 2. */
uint32_t ctc_taken(ctc_state *state, ctc_answer *answer);

/* The host breaks off. Refused: 1, 2. */
uint32_t ctc_broken(ctc_state *state, ctc_answer *answer);

/* A drive, 0 to 3, reports: CTC_REPORT_.. bits. Refused: 1, 5. */
uint32_t ctc_report(ctc_state *state, uint8_t drive, uint8_t report, ctc_answer *answer);

/*
 * The host's bytes for a write, whose GO was accepted. The image of the record is put
 * at the start of space, ctc_given(answer) bytes of it, and the answer orders the
 * write.
 *
 *   host, host_len     the bytes as the host sent them, those to be thrown away
 *                      included; where they are too few, zeros fill
 *   place              which of them came with bad parity, counted from 0, or
 *                      CTC_NO_PLACE
 *   space, space_len   the space for the image; CTC_IMAGE_LENGTH_MOST is always enough
 *   check, check_len   the check store, CTC_CHECK_LENGTH bytes, the same from call to
 *                      call: check blockette 1 of the last GCR transfer, then 0
 *
 * Refused: 1, 3, 6, 11, 15.
 */
uint32_t ctc_data(ctc_state *state, const uint8_t *host, ctc_size host_len, ctc_size place,
                  uint8_t *space, ctc_size space_len, uint8_t *check, ctc_size check_len,
                  ctc_answer *answer);

/*
 * What came of the operation that was ordered, or of check bytes. What a read delivers
 * is put at the start of space, ctc_given(answer) bytes of it, as many as fit.
 *
 *   code, mark, late    the code; whether a mark was met, 0 or any other value for
 *                       yes; late flags, 1 write data late, 2 read data late, 3 both
 *   image, image_len    what was read: the whole image, two count bytes, or nothing
 *   marks, marks_len    one mark for each GCR blockette of the image
 *   space, space_len    the space for the bytes to the host
 *   check, check_len    the check store, CTC_CHECK_LENGTH bytes
 *
 * Refused: 1, 3, 6, 7, 8, 9, 10.
 */
uint32_t ctc_result(ctc_state *state, uint8_t code, uint8_t mark, uint8_t late,
                    const uint8_t *image, ctc_size image_len,
                    const uint8_t *marks, ctc_size marks_len,
                    uint8_t *space, ctc_size space_len, uint8_t *check, ctc_size check_len,
                    ctc_answer *answer);

/* Time passes while nothing is under way. Refused: 1, 4. */
uint32_t ctc_tick(ctc_state *state, ctc_answer *answer);

/* A reset. Reports, queues and the job served last stay. Refused: 1. */
uint32_t ctc_reset(ctc_state *state, ctc_answer *answer);

/*
 * A job, 0 to 3, queues a store that names its drive: its address and its operand's
 * four bytes. Refused: 1, 16, 17.
 */
uint32_t ctc_queue(ctc_state *state, uint8_t job, uint8_t address, uint8_t first,
                   uint8_t second, uint8_t third, uint8_t fourth, ctc_answer *answer);

/*
 * The store whose turn it is is carried out, as if its ACK had just been taken; where
 * nothing is queued, nothing is done. Refused: 1, 4.
 */
uint32_t ctc_hand(ctc_state *state, ctc_answer *answer);

/* ---- reading an answer */

/* What is to be done: CTC_ACTION_.. */
static inline uint32_t ctc_action(const ctc_answer *answer)
{
    return answer->bytes[0];
}

/* The byte that is offered, where it is CTC_ACTION_BYTE. */
static inline uint8_t ctc_offered(const ctc_answer *answer)
{
    return answer->bytes[1];
}

/* The six bytes of a string or an order. */
static inline const uint8_t *ctc_six(const ctc_answer *answer)
{
    return answer->bytes + 1;
}

/* The parts of an order: CTC_ORDER_.., drive, track, density (0 MFM, 1 GCR), and the last two operand bytes. */
static inline uint8_t ctc_order_operation(const ctc_answer *answer)
{
    return answer->bytes[1];
}

static inline uint8_t ctc_order_drive(const ctc_answer *answer)
{
    return answer->bytes[2];
}

static inline uint8_t ctc_order_track(const ctc_answer *answer)
{
    return answer->bytes[3];
}

static inline uint8_t ctc_order_density(const ctc_answer *answer)
{
    return answer->bytes[4];
}

static inline uint32_t ctc_order_operand(const ctc_answer *answer)
{
    return (uint32_t)answer->bytes[5] << 8 | answer->bytes[6];
}

/* Whether the call settled the code of a store, and then its code, motion and count. */
static inline uint32_t ctc_settled(const ctc_answer *answer)
{
    return answer->bytes[7];
}

static inline uint8_t ctc_settled_code(const ctc_answer *answer)
{
    return answer->bytes[8];
}

static inline uint8_t ctc_settled_motion(const ctc_answer *answer)
{
    return answer->bytes[9];
}

static inline uint32_t ctc_settled_count(const ctc_answer *answer)
{
    return (uint32_t)answer->bytes[10] << 8 | answer->bytes[11];
}

/* How many bytes of the lent space the call gives. */
static inline uint32_t ctc_given(const ctc_answer *answer)
{
    return (uint32_t)answer->bytes[12] << 24 | (uint32_t)answer->bytes[13] << 16 |
           (uint32_t)answer->bytes[14] << 8 | answer->bytes[15];
}

/* ---- reading a state */

/* What is collected, offered, sent or awaited: CTC_PHASE_.. */
static inline uint32_t ctc_phase(const ctc_state *state)
{
    return state->bytes[49];
}

/*
 * In CTC_PHASE_DATA, how many bytes the write asks the host for: those to be thrown away, and the
 * record's count.
 */
static inline uint32_t ctc_data_length(const ctc_state *state)
{
    return state->bytes[52] + ((uint32_t)state->bytes[53] << 8 | state->bytes[54]);
}

/* In CTC_PHASE_RESULT, whether it is of check bytes, for which nothing was ordered. */
static inline uint32_t ctc_awaits_check_bytes(const ctc_state *state)
{
    return state->bytes[50] == 1;
}

#ifdef __cplusplus
}
#endif

#endif
