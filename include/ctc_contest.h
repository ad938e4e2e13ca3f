/*
 * ctc_contest.h: how many stores a job may need before the cartridge is pulled.
 *
 * Driver against tape, as a contest. The driver has to finish some good writes with
 * some stores, from a gap that is proper or improper; the tape may spoil some of the
 * writes. The driver may write only in a proper gap. A good write leaves the gap
 * proper; a spoiled one costs its store, finishes nothing, and leaves the gap
 * improper. A skip reverse costs a store, always works, and makes the gap proper. The
 * driver forces all writes if he can finish them however the tape answers.
 * Link with libcontest.a (x86-64); installed, pkg-config has it as ctc-contest:
 *
 *     cc -I include tool.c target/staticlib/libcontest.a
 *     cc tool.c $(pkg-config --cflags --libs ctc-contest)
 *
 * Any value of any argument is taken: what is above its limit is refused. Nothing is
 * kept between calls, so several threads may call at once.
 */
#ifndef CTC_CONTEST_H
#define CTC_CONTEST_H

#include <stdint.h>

/* The version of this header and of the library, as the file VERSION has it. */
#define CTC_VERSION "3.0.0"

/* The gap from which the contest begins. */
#define CTC_GAP_PROPER 0u
#define CTC_GAP_IMPROPER 1u

/* The most good writes, stores, and writes that the tape may spoil. */
#define CTC_CONTEST_WRITES_LIMIT 8u
#define CTC_CONTEST_STORES_LIMIT 32u
#define CTC_CONTEST_SPOILINGS_LIMIT 8u

/* What ctc_contest returns. */
#define CTC_CONTEST_NO 0u            /* the driver cannot force all writes */
#define CTC_CONTEST_YES 1u           /* he can: there is no write to finish, and no store */
#define CTC_CONTEST_WRITE 2u         /* he can, and a winning play begins with a write */
#define CTC_CONTEST_SKIP_REVERSE 3u  /* he can, and it begins with a skip reverse */
#define CTC_REFUSED_LIMIT 20u        /* a number above its limit */

#ifdef __cplusplus
extern "C" {
#endif

/*
 * Whether the driver can force all writes, and the first store of a play that wins
 * however the tape answers. He can exactly where there is no write to finish, or there
 * are at least writes + 2 * spoilings stores, and one more from an improper gap.
 *
 *   gap         CTC_GAP_PROPER or CTC_GAP_IMPROPER
 *   writes      the good writes to finish
 *   stores      the stores that may be spent
 *   spoilings   the writes that the tape may spoil
 *
 * Returns
 *   CTC_REFUSED_LIMIT (20)        gap is above 1, writes or spoilings above 8, or
 *                                 stores above 32; this is tested before all else
 *   CTC_CONTEST_NO (0)            he cannot
 *   CTC_CONTEST_YES (1)           writes is 0
 *   CTC_CONTEST_WRITE (2)         he can: first a write; given wherever a write wins,
 *                                 also where a skip reverse would win too
 *   CTC_CONTEST_SKIP_REVERSE (3)  he can: first a skip reverse
 */
uint32_t ctc_contest(uint32_t gap, uint32_t writes, uint32_t stores,
                     uint32_t spoilings);

#ifdef __cplusplus
}
#endif

#endif
