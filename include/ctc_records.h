/*
 * ctc_records.h: tape records of the BTI-8000 cartridge controller.
 *
 * The builder turns record bytes into the image that goes on tape; the restorer
 * turns a GCR image, some of whose blockettes were read badly, back into the
 * record bytes. A merge makes one GCR image out of two passes over a record, in
 * which different blockettes were read badly. Whether the check blockettes of a GCR
 * image fit its data, ctc_verify tells. Link with librecords.a (x86-64), or with the
 * libctc.a that tools/cross makes for another processor; installed, pkg-config has it as
 * ctc-records:
 *
 *     cc -I include tool.c target/staticlib/librecords.a
 *     cc tool.c $(pkg-config --cflags --libs ctc-records)
 *
 * THE IMAGE of a record of c bytes, c from 0 to CTC_COUNT_LIMIT
 *
 *   - Two count bytes: c rotated right by one bit as a 16-bit number, high byte
 *     first. 5 is 80 02, 3 is 80 01, 256 is 00 80 (hexadecimal).
 *   - In MFM: the c bytes. Length 2 + c.
 *   - In GCR: n data blockettes of 256 bytes, n being c / 256 rounded up. They
 *     are numbered n-1, the first on tape, down to 0; the last is filled up with
 *     zeros. Then check blockette 1, the XOR of the odd-numbered data blockettes,
 *     and check blockette 0, the XOR of the even-numbered ones.
 *     Length 2 + 256 * (n + 2).
 *   - A record of 0 bytes is the two count bytes alone, in GCR too.
 *
 * MARKS say how each GCR blockette was read: one byte for each of the n + 2
 * blockettes in tape order, check blockettes included. 1 to 9 is an error, 15
 * (CTC_MARK_GOOD) is good. MFM images and records of 0 bytes have no marks.
 *
 * The parity of a blockette is that of its number: check blockette 1 is odd,
 * check blockette 0 is even. One bad odd and one bad even blockette can be
 * restored; two bad ones of one parity cannot.
 *
 * FOR EVERY FUNCTION
 *
 *   - Any length and any byte value is taken: what does not fit is refused.
 *   - A null pointer is allowed exactly where its length is 0.
 *   - A space that a call writes must share no byte with anything else that is
 *     handed to the same call, another such space included. What a call only
 *     reads may overlap.
 *   - A refused call writes nothing. A call that is carried out writes only the
 *     bytes it gives; every other byte of the lent space keeps its value. What
 *     is handed over as const is never changed.
 *   - Where several refusals apply, the one that the function lists first is
 *     returned.
 *   - Nothing is kept between calls, so several threads may call at once, each
 *     with its own space to be written.
 *
 * A length is 64 bits wide on every processor (ctc_size).
 */
#ifndef CTC_RECORDS_H
#define CTC_RECORDS_H

#include <stddef.h>
#include <stdint.h>

/* The version of this header and of the library, as the file VERSION has it. */
#define CTC_VERSION "3.0.0"

/* A length or a place. */
typedef uint64_t ctc_size;

/* The most bytes that a record may have: all that its 16-bit count can say. */
#define CTC_COUNT_LIMIT 65535

/* Bytes in a blockette. */
#define CTC_BLOCKETTE_LENGTH 256

/* The most marks that a record has: 258, 256 of them for data blockettes. */
#define CTC_MARKS_MOST \
    ((CTC_COUNT_LIMIT + CTC_BLOCKETTE_LENGTH - 1) / CTC_BLOCKETTE_LENGTH + 2)

/* The length of the longest image: 66,050 bytes. */
#define CTC_IMAGE_MOST (2 + CTC_BLOCKETTE_LENGTH * CTC_MARKS_MOST)

/* What ctc_image_count gives for an image that is too short to have a count. */
#define CTC_NO_COUNT 65536

/* The place that says that no byte came with bad parity: 65,535 plus 256. */
#define CTC_NO_PLACE 65791

/* Densities. Every value other than CTC_DENSITY_MFM counts as GCR. */
#define CTC_DENSITY_MFM 0
#define CTC_DENSITY_GCR 1

/* The mark of a blockette that was read well, and the marks that are errors. */
#define CTC_MARK_GOOD 15
#define CTC_MARK_ERROR_LEAST 1
#define CTC_MARK_ERROR_MOST 9

/* What ctc_build, ctc_restore, ctc_merge, ctc_scan and ctc_verify return. */
#define CTC_DONE 0u
#define CTC_REFUSED_LENGTH 9u         /* more bytes than the limit, or a wrong length */
#define CTC_REFUSED_MARK 10u          /* a mark that is neither 1-9 nor 15 */
#define CTC_REFUSED_SPACE 11u         /* the space to be written is too short */
#define CTC_REFUSED_UNRESTORABLE 12u  /* two bad blockettes of one parity */
#define CTC_REFUSED_COUNTS 13u        /* two passes with different counts */
#define CTC_REFUSED_UNLIKE 14u        /* a blockette good in both passes, and unlike */
#define CTC_REFUSED_PLACE 15u         /* a place with no byte that is not CTC_NO_PLACE */

/* What ctc_verify returns beside: bits of their own, which no refusal has. */
#define CTC_UNFIT_EVEN 32u  /* check blockette 0 is not the XOR of its data */
#define CTC_UNFIT_ODD 64u   /* check blockette 1 is not */

/* The report of ctc_scan: three entries of mark, kind and number. */
#define CTC_REPORT_LENGTH 9
#define CTC_REPORT_ODD 0   /* where the entry of the first odd error starts */
#define CTC_REPORT_EVEN 3  /* ... of the first even error */
#define CTC_REPORT_STOP 6  /* ... of the blockette that stopped the scan */
#define CTC_KIND_DATA 1
#define CTC_KIND_CHECK 2

#ifdef __cplusplus
extern "C" {
#endif

/*
 * Builds the image of a record. Where a byte came with bad parity, it is written as it
 * came and every byte of the record after it as zero; count and length stay, and the
 * check blockettes are those of what is written.
 *
 *   bytes, bytes_len   the record; its count is bytes_len
 *   density            CTC_DENSITY_MFM, or any other value for GCR
 *   place              which byte came with bad parity, counted from 0, or
 *                      CTC_NO_PLACE
 *   image, image_len   the space for the image; it may be longer than the image
 *
 * Returns
 *   CTC_DONE (0)              the first ctc_image_length(bytes_len, density)
 *                             bytes of image are the image, the others unchanged
 *   CTC_REFUSED_LENGTH (9)    bytes_len is above CTC_COUNT_LIMIT
 *   CTC_REFUSED_SPACE (11)    image_len is less than the length of the image
 *   CTC_REFUSED_PLACE (15)    place is neither below bytes_len nor CTC_NO_PLACE
 * When refused, all of image is unchanged.
 */
uint32_t ctc_build(const uint8_t *bytes, ctc_size bytes_len, uint8_t density,
                   ctc_size place, uint8_t *image, ctc_size image_len);

/*
 * Restores the bytes of a record from its GCR image. A bad data blockette is
 * given as the XOR of the check blockette of its parity and the other data
 * blockettes of that parity. Good blockettes are given as they are: whether the
 * check blockettes fit them is not looked at, which ctc_verify does. A bad check
 * blockette alone needs no repair.
 *
 *   image, image_len   the whole image, of exactly the length its count asks for
 *   marks, marks_len   exactly one mark for each blockette, in tape order
 *   out, out_len       the space for the record bytes; it may be longer
 *
 * Returns, c being the image's count,
 *   CTC_DONE (0)              the first c bytes of out are the record, the others
 *                             unchanged
 *   CTC_REFUSED_LENGTH (9)    image_len is below 2, or is not
 *                             ctc_image_length(c, GCR), or marks_len is not
 *                             ctc_mark_count(c, GCR)
 *   CTC_REFUSED_MARK (10)     a mark is neither 1-9 nor 15
 *   CTC_REFUSED_SPACE (11)    out_len is less than c
 *   CTC_REFUSED_UNRESTORABLE (12)  two blockettes of one parity are bad
 * When refused, all of out is unchanged.
 */
uint32_t ctc_restore(const uint8_t *image, ctc_size image_len,
                     const uint8_t *marks, ctc_size marks_len,
                     uint8_t *out, ctc_size out_len);

/*
 * Merges two passes over a record, each a GCR image with its marks, into one image
 * with its marks. A blockette, check blockettes included, comes from the first pass
 * if that marks it good, else from the second if that does, else from the first;
 * its mark comes with it. So it is bad only where both passes had it bad, and
 * ctc_restore may give a record that it gives from neither pass alone. Whether the
 * check blockettes fit is not looked at: ctc_verify tells it of the merged image.
 *
 *   first, first_len      the whole image of the first pass, of exactly the length
 *                         its count asks for
 *   first_marks, first_marks_len
 *                         exactly one mark for each of its blockettes, in tape order
 *   second, second_len, second_marks, second_marks_len
 *                         the same of the second pass
 *   image, image_len      the space for the merged image; it may be longer
 *   marks, marks_len      the space for its marks; it may be longer
 *
 * Returns, c being the count of both passes,
 *   CTC_DONE (0)              the first ctc_image_length(c, GCR) bytes of image are
 *                             the merged image, the first ctc_mark_count(c, GCR)
 *                             bytes of marks its marks, the others of both unchanged
 *   CTC_REFUSED_LENGTH (9)    of a pass, the length of the image is below 2, or is
 *                             not what the image's own count asks for, or the
 *                             number of marks is not
 *   CTC_REFUSED_MARK (10)     a mark of a pass is neither 1-9 nor 15
 *   CTC_REFUSED_COUNTS (13)   the counts of the passes differ
 *   CTC_REFUSED_UNLIKE (14)   a blockette is good in both passes, and its bytes in
 *                             one are not those in the other
 *   CTC_REFUSED_SPACE (11)    image_len is less than the length of the image, or
 *                             marks_len less than the number of its marks
 * Each is looked for in both passes before the next, and 11 comes last. When
 * refused, all of image and all of marks are unchanged.
 */
uint32_t ctc_merge(const uint8_t *first, ctc_size first_len,
                   const uint8_t *first_marks, ctc_size first_marks_len,
                   const uint8_t *second, ctc_size second_len,
                   const uint8_t *second_marks, ctc_size second_marks_len,
                   uint8_t *image, ctc_size image_len,
                   uint8_t *marks, ctc_size marks_len);

/*
 * Tells whether the check blockettes of a GCR image fit its data: whether check
 * blockette 1 is the XOR of the odd-numbered data blockettes, and check blockette 0
 * that of the even-numbered ones. The parities are told apart, and each as the image
 * stands; marks are not looked at.
 *
 * Every GCR image that ctc_build gives fits in both. With the bytes of one blockette
 * changed, of data or of check, its parity does not fit and the other one does. Two
 * or more changed blockettes of one parity are not told where their changes cancel
 * out by XOR.
 *
 * Of a parity whose marks are all good, an answer that it does not fit means that a
 * blockette with a good mark is damaged. Of a parity with a bad mark it means nothing:
 * with one, ctc_restore makes that data blockette out of the check, and nothing is left
 * to hold the others to.
 *
 *   image, image_len   the whole image, of exactly the length its count asks for
 *
 * Returns, c being the image's count,
 *   CTC_DONE (0)              both fit; so it is for a record of 0 bytes, which has
 *                             no check blockettes
 *   CTC_REFUSED_LENGTH (9)    image_len is below 2, or is not
 *                             ctc_image_length(c, GCR)
 *   CTC_UNFIT_EVEN (32)       check blockette 0 does not fit, 1 does
 *   CTC_UNFIT_ODD (64)        check blockette 1 does not fit, 0 does
 *   CTC_UNFIT_EVEN | CTC_UNFIT_ODD (96)  neither does
 */
uint32_t ctc_verify(const uint8_t *image, ctc_size image_len);

/*
 * The length of the image of a record of `count` bytes, from 2 to CTC_IMAGE_MOST;
 * 0 where the count is above CTC_COUNT_LIMIT.
 */
ctc_size ctc_image_length(ctc_size count, uint8_t density);

/*
 * The number of marks of a record of `count` bytes: n + 2 in GCR, up to
 * CTC_MARKS_MOST; 0 in MFM, for a count of 0, and where the count is above
 * CTC_COUNT_LIMIT.
 */
ctc_size ctc_mark_count(ctc_size count, uint8_t density);

/*
 * The count that the first two bytes of an image say, from 0 to CTC_COUNT_LIMIT.
 * The length of the image is not held to it. CTC_NO_COUNT (65,536) where image_len
 * is below 2.
 */
ctc_size ctc_image_count(const uint8_t *image, ctc_size image_len);

/*
 * Walks the marks in tape order and reports the first odd error, the first even
 * error, and the blockette at which the walk stopped: the first one that is the
 * second bad one of its parity. Errors after the stop are not seen. A record can
 * be restored where nothing stopped the walk.
 *
 *   marks, marks_len     marks of any number and any value; every value other
 *                        than CTC_MARK_GOOD is an error. The last mark is that of
 *                        check blockette 0, the one before it that of check
 *                        blockette 1, and those before are of data blockettes
 *   report, report_len   the space for the report; it may be longer
 *
 * The report has three entries, at CTC_REPORT_ODD, CTC_REPORT_EVEN and
 * CTC_REPORT_STOP. Each is three bytes: the mark, the kind (CTC_KIND_DATA or
 * CTC_KIND_CHECK) and the number of the blockette, or 0 0 0 where there is none.
 * Numbers go to 255 in a record; with more than CTC_MARKS_MOST marks they are
 * taken modulo 256. The kind tells an entry from none, since a mark of 0 is an
 * error here.
 *
 * Returns
 *   CTC_DONE (0)              the first CTC_REPORT_LENGTH bytes of report are the
 *                             report, the others unchanged
 *   CTC_REFUSED_SPACE (11)    report_len is less than CTC_REPORT_LENGTH; all of
 *                             report is unchanged
 */
uint32_t ctc_scan(const uint8_t *marks, ctc_size marks_len,
                  uint8_t *report, ctc_size report_len);

#ifdef __cplusplus
}
#endif

#endif
