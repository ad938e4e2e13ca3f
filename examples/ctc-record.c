/*
 * ctc record: builds, merges, verifies and restores tape records, file to file.
 *
 * An example of the library's use, to be copied from. The library decides what
 * is legal: the tool hands it whatever the files hold and puts its refusals into
 * words.
 */
#define _XOPEN_SOURCE 700 /* for mkstemp, realpath and what POSIX says of files */

#include "ctc_records.h"

#include <errno.h>
#include <fcntl.h>
#include <limits.h>
#include <stdbool.h>
#include <stdint.h>
#include <stdio.h>
#include <stdlib.h>
#include <string.h>
#include <sys/stat.h>
#include <unistd.h>

enum { STATUS_DONE = 0, STATUS_FAILED = 1, STATUS_USAGE = 2 };

/* tools/record takes both texts from here, to print them before the library is there. */
static const char usage[] =
    "usage: ctc record build DENSITY BYTES-FILE IMAGE-FILE [PLACE]\n"
    "       ctc record bytes DENSITY IMAGE-FILE BYTES-FILE\n"
    "       ctc record restore IMAGE-FILE MARKS-FILE BYTES-FILE\n"
    "       ctc record merge FIRST FIRST-MARKS SECOND SECOND-MARKS IMAGE-FILE MARKS-FILE\n"
    "       ctc record verify IMAGE-FILE\n"
    "       ctc record show IMAGE-FILE DENSITY [MARKS-FILE]\n"
    "       ctc record --help | --version\n";

static const char help[] =
    "\n"
    "build    writes the image of the record that BYTES-FILE holds.\n"
    "bytes    undoes build: writes the bytes of the record whose image IMAGE-FILE holds.\n"
    "restore  does so for a GCR image that was read with errors. One bad odd-numbered\n"
    "         and one bad even-numbered blockette are made good.\n"
    "merge    writes one image and its marks out of two passes over a GCR record: the\n"
    "         images FIRST and SECOND with their marks. A blockette is bad only where\n"
    "         both passes had it bad.\n"
    "verify   tells whether the check blockettes of a GCR image fit its data: check\n"
    "         blockette 1 is the XOR of the odd-numbered data blockettes, check\n"
    "         blockette 0 that of the even-numbered ones. It knows of no marks.\n"
    "show     prints the count, the blockettes and every error of an image, and of a\n"
    "         GCR image whether its check blockettes fit.\n"
    "\n"
    "Of an odd or even check blockette nothing can be told where a blockette of its\n"
    "parity is marked bad. Where all of a parity are marked good and the check does\n"
    "not fit, a blockette is damaged though its mark is good: restore and bytes gcr\n"
    "then warn on standard error, and write the bytes as they are.\n"
    "\n"
    "DENSITY     mfm or gcr\n"
    "PLACE       which byte came with bad parity, counted from 0: those after it are\n"
    "            written as zeros. Without it, or where it is 65791, none did\n"
    "MARKS-FILE  one byte for each GCR blockette in tape order, check blockettes\n"
    "            included: 15 is good, 1 to 9 is an error. The word good in place of\n"
    "            a file that is read stands for all good; a file of that name is ./good\n"
    "\n"
    "A file - is standard input or standard output, each of them for one file. What\n"
    "is written is never a file that is read, and an earlier file is replaced whole\n"
    "or not at all, of two files neither before both are whole; it keeps its mode.\n"
    "\n"
    "Exit status: 0 done; 1 refused, or a check that verify finds not to fit, or a\n"
    "file could not be read or written; 2 wrong usage. A refused call writes no file.\n";

/* What was read of a file. */
struct input {
    const char *path;
    uint8_t *bytes;
    size_t length;
    struct stat about; /* all zeros where no file was read */
};

static bool is(const char *word, const char *other)
{
    return strcmp(word, other) == 0;
}

static int wrong_usage(const char *message)
{
    fprintf(stderr, "ctc record: %s\n%s", message, usage);
    return STATUS_USAGE;
}

static void file_failed(const char *action, const char *path, int cause)
{
    fprintf(stderr, "ctc record: cannot %s %s: %s\n", action, path, strerror(cause));
}

static const char *refusal_in_words(uint32_t refusal)
{
    switch (refusal) {
    case CTC_REFUSED_LENGTH:
        return "wrong length";
    case CTC_REFUSED_MARK:
        return "a mark that is neither 1-9 nor 15";
    case CTC_REFUSED_SPACE:
        return "too little space for the answer";
    case CTC_REFUSED_UNRESTORABLE:
        return "two bad blockettes of one parity: merge this pass with another";
    case CTC_REFUSED_COUNTS:
        return "the counts of the two passes differ";
    case CTC_REFUSED_UNLIKE:
        return "a blockette that is good in both passes, and unlike";
    case CTC_REFUSED_PLACE:
        return "a place at which there is no byte";
    default:
        return "unknown refusal";
    }
}

/* Starts the message of a refusal; the caller ends it with a detail or a newline. */
static void say_refusal(const char *path, uint32_t refusal)
{
    fprintf(stderr, "ctc record: %s: refusal %lu (%s)", path, (unsigned long)refusal,
            refusal_in_words(refusal));
}

/*
 * Reads a file, but no more than `most` bytes. Callers ask for one byte more than
 * is legal, so a file that is too long, or endless, is refused by its length.
 */
static bool read_input(struct input *input, size_t most)
{
    bool standard = is(input->path, "-");
    FILE *file = standard ? stdin : fopen(input->path, "rb");
    if (standard) {
        input->path = "standard input";
    }
    if (file == NULL) {
        file_failed("open", input->path, errno);
        return false;
    }
    input->length = fread(input->bytes, 1, most, file);
    int cause = ferror(file) || fstat(fileno(file), &input->about) != 0 ? errno : 0;
    fclose(file);
    if (cause != 0) {
        file_failed("read", input->path, cause);
        return false;
    }
    return true;
}

/* Tells whether two are one file. A terminal or a pipe may be both: nothing in it can be lost. */
static bool same_file(const struct stat *one, const struct stat *other)
{
    return (S_ISREG(one->st_mode) || S_ISBLK(one->st_mode)) && one->st_dev == other->st_dev &&
           one->st_ino == other->st_ino;
}

static void say_same(const char *one, const char *other)
{
    fprintf(stderr, "ctc record: %s and %s are the same file: nothing was written\n", one, other);
}

/*
 * Tells whether what is to be written is a file that was read, by whatever name,
 * and says so.
 */
static bool was_read(const char *path, const struct stat *output, const struct input *const *inputs)
{
    for (; *inputs != NULL; inputs++) {
        if (same_file(&(*inputs)->about, output)) {
            say_same((*inputs)->path, path);
            return true;
        }
    }
    return false;
}

static bool write_all(int file, const uint8_t *bytes, size_t length)
{
    while (length > 0) {
        ssize_t written = write(file, bytes, length);
        if (written < 0 && errno != EINTR) {
            return false;
        }
        if (written > 0) {
            bytes += written;
            length -= (size_t)written;
        }
    }
    return true;
}

/*
 * What is to be written. A plain file is replaced, the one that a link leads to in
 * place of the link: the bytes go to a temporary file beside it, which takes its
 * name once they are all on the disk. What is no plain file (a device, a pipe,
 * standard output) is written in place.
 */
struct output {
    const char *path;
    const uint8_t *bytes;
    size_t length;
    struct stat earlier; /* all zeros where there is nothing yet */
    bool in_place;
    int file; /* open, where it is written in place */
    char place[PATH_MAX];
    char temporary[PATH_MAX]; /* empty where there is none */
    bool made;                /* the file was not there, and is there empty now */
    bool written;
};

/* The length of a path's folder with its slash; 0: it names none. */
static int folder_length(const char *path)
{
    const char *slash = strrchr(path, '/');
    return slash == NULL ? 0 : (int)(slash - path) + 1;
}

/* Finds where an output goes; tells whether it may be written and is none of the inputs. */
static bool open_output(struct output *output, const struct input *const *inputs)
{
    const char *path = output->path;
    bool standard = is(path, "-") || is(path, "/dev/stdout");
    struct stat link;

    /* opened, but not emptied: this tells whether it may be written */
    output->file = standard ? STDOUT_FILENO : open(path, O_WRONLY | O_NOCTTY);
    if (output->file < 0 && errno == ENOENT) {
        if (lstat(path, &link) != 0) {
            snprintf(output->place, sizeof output->place, "%s", path);
            return true;
        }
        /* a link to a file that is not there yet */
        output->file = open(path, O_WRONLY | O_CREAT | O_NOCTTY, 0666);
        output->made = output->file >= 0;
    }
    if (standard) {
        output->path = "standard output";
    }
    if (output->file < 0 || fstat(output->file, &output->earlier) != 0) {
        file_failed("write", output->path, errno);
        return false;
    }
    output->in_place = standard || !S_ISREG(output->earlier.st_mode);
    if (!output->in_place) {
        close(output->file);
        if (realpath(path, output->place) == NULL) {
            file_failed("write", path, errno);
            return false;
        }
    }
    return !was_read(output->path, &output->earlier, inputs);
}

static bool stat_folder(const char *path, struct stat *folder)
{
    char name[PATH_MAX];
    snprintf(name, sizeof name, "%.*s.", folder_length(path), path);
    return stat(name, folder) == 0;
}

/* Tells whether two outputs are one file, also one that is not there yet, and says so. */
static bool one_output(const struct output *one, const struct output *other)
{
    struct stat folder, other_folder;
    bool same = same_file(&one->earlier, &other->earlier) ||
                (!one->in_place && !other->in_place &&
                 is(one->place + folder_length(one->place),
                    other->place + folder_length(other->place)) &&
                 stat_folder(one->place, &folder) && stat_folder(other->place, &other_folder) &&
                 folder.st_dev == other_folder.st_dev && folder.st_ino == other_folder.st_ino);
    if (same) {
        say_same(one->path, other->path);
    }
    return same;
}

/*
 * Fills the temporary file of an output. It has the mode and, where that is allowed,
 * the owner of the earlier file.
 */
static bool fill_temporary(struct output *output)
{
    const struct stat *earlier = &output->earlier;
    bool replaces = S_ISREG(earlier->st_mode);
    mode_t mask = umask(0);
    umask(mask);

    snprintf(output->temporary, sizeof output->temporary, "%.*sctc-record.part.XXXXXX",
             folder_length(output->place), output->place);
    int file = mkstemp(output->temporary);
    if (file < 0) {
        file_failed("make a file beside", output->path, errno);
        output->temporary[0] = '\0';
        return false;
    }
    if (replaces && fchown(file, earlier->st_uid, earlier->st_gid) != 0 &&
        fchown(file, (uid_t)-1, earlier->st_gid) != 0) {
        /* root alone can give files away, and a group only its members */
    }
    bool done = fchmod(file, replaces ? earlier->st_mode & 0777 : 0666 & ~mask) == 0 &&
                write_all(file, output->bytes, output->length) && fsync(file) == 0;
    int cause = errno;
    if (close(file) != 0 && done) {
        done = false;
        cause = errno;
    }
    if (!done) {
        file_failed("write", output->path, cause);
    }
    return done;
}

/* Writes an output in place, or gives its temporary file the name. */
static bool finish_output(struct output *output)
{
    output->written = output->in_place
                          ? write_all(output->file, output->bytes, output->length) &&
                                close(output->file) == 0
                          : rename(output->temporary, output->place) == 0;
    if (!output->written) {
        file_failed("write", output->path, errno);
    }
    return output->written;
}

/* Removes what an output that is not written has left. */
static void clear_output(const struct output *output)
{
    if (output->temporary[0] != '\0') {
        unlink(output->temporary);
    }
    if (output->made && output->place[0] != '\0') {
        unlink(output->place);
    }
}

/*
 * Writes outputs, one or two, that are none of the inputs, a list that ends with
 * NULL. All are opened and all temporary files are filled before any is written;
 * and what is written in place comes first, since it may still fail for its bytes.
 */
static bool write_outputs(struct output *outputs, int count, const struct input *const *inputs)
{
    bool done = true;
    for (int i = 0; i < count; i++) {
        done = done && open_output(outputs + i, inputs);
    }
    done = done && (count == 1 || !one_output(outputs, outputs + 1));
    for (int i = 0; i < count; i++) {
        done = done && (outputs[i].in_place || fill_temporary(outputs + i));
    }
    for (int i = 0; i < count; i++) {
        done = done && (!outputs[i].in_place || finish_output(outputs + i));
    }
    for (int i = 0; i < count; i++) {
        done = done && (outputs[i].in_place || finish_output(outputs + i));
    }
    for (int i = 0; i < count && !done; i++) {
        if (outputs[i].written) {
            fprintf(stderr, "ctc record: %s is written already\n", outputs[i].path);
        } else {
            clear_output(outputs + i);
        }
    }
    return done;
}

static bool write_output(const char *path, const uint8_t *bytes, size_t length,
                         const struct input *const *inputs)
{
    struct output output = {.path = path, .bytes = bytes, .length = length};
    return write_outputs(&output, 1, inputs);
}

static bool read_density(const char *word, uint8_t *density)
{
    if (is(word, "mfm")) {
        *density = CTC_DENSITY_MFM;
        return true;
    }
    if (is(word, "gcr")) {
        *density = CTC_DENSITY_GCR;
        return true;
    }
    return false;
}

static const char *density_name(uint8_t density)
{
    return density == CTC_DENSITY_MFM ? "MFM" : "GCR";
}

/* Too large a number becomes the largest that there is: the library refuses either. */
static bool read_place(const char *word, size_t *place)
{
    if (*word == '\0' || word[strspn(word, "0123456789")] != '\0') {
        return false;
    }
    *place = (size_t)strtoull(word, NULL, 10);
    return true;
}

/*
 * Reads the marks of a record of `count` bytes; the word good stands for marks that
 * are all good.
 */
static bool read_marks(struct input *marks, size_t most, size_t count)
{
    if (!is(marks->path, "good")) {
        return read_input(marks, most);
    }
    marks->length = ctc_mark_count(count, CTC_DENSITY_GCR);
    memset(marks->bytes, CTC_MARK_GOOD, marks->length);
    return true;
}

/*
 * Tells whether image and marks have the lengths that the image's count asks for,
 * and if not, says which one is at fault. No marks (NULL) are not looked at.
 */
static bool lengths_fit(const struct input *image, const struct input *marks, uint8_t density)
{
    size_t count = ctc_image_count(image->bytes, image->length);
    size_t image_length = ctc_image_length(count, density);
    size_t mark_count = ctc_mark_count(count, density);

    if (count == CTC_NO_COUNT) {
        say_refusal(image->path, CTC_REFUSED_LENGTH);
        fprintf(stderr, ": an image has at least 2 bytes\n");
        return false;
    }
    if (image->length != image_length) { /* no image says a count above CTC_COUNT_LIMIT */
        say_refusal(image->path, CTC_REFUSED_LENGTH);
        fprintf(stderr, ": its count %zu asks for an image of %zu bytes in %s, and it has %s%zu\n",
                count, image_length, density_name(density),
                image->length > CTC_IMAGE_MOST ? "more than " : "",
                image->length > CTC_IMAGE_MOST ? (size_t)CTC_IMAGE_MOST : image->length);
        uint8_t other = density == CTC_DENSITY_MFM ? CTC_DENSITY_GCR : CTC_DENSITY_MFM;
        if (image->length == ctc_image_length(count, other)) {
            fprintf(stderr, "ctc record: %s is a whole %s image%s\n", image->path, density_name(other),
                    other == CTC_DENSITY_MFM ? ", whose bytes 'ctc record bytes mfm' writes" : "");
        }
        return false;
    }
    if (marks != NULL && marks->length != mark_count) {
        say_refusal(marks->path, CTC_REFUSED_LENGTH);
        fprintf(stderr, ": the image's count %zu asks for %zu marks, and there are %s%zu\n", count,
                mark_count, marks->length > CTC_MARKS_MOST ? "more than " : "",
                marks->length > CTC_MARKS_MOST ? (size_t)CTC_MARKS_MOST : marks->length);
        return false;
    }
    return true;
}

/* Tells whether every mark is legal, and if not, says which one is the first that is not. */
static bool marks_legal(const struct input *marks)
{
    for (size_t place = 0; place < marks->length; place++) {
        uint8_t mark = marks->bytes[place];
        bool is_error = mark >= CTC_MARK_ERROR_LEAST && mark <= CTC_MARK_ERROR_MOST;
        if (mark != CTC_MARK_GOOD && !is_error) {
            say_refusal(marks->path, CTC_REFUSED_MARK);
            fprintf(stderr, ": byte %zu is %d\n", place + 1, mark);
            return false;
        }
    }
    return true;
}

/* By parity, which is 1 for odd and 0 for even: of a blockette, that of how many stand behind it. */
static const uint32_t unfit_parity[] = {CTC_UNFIT_EVEN, CTC_UNFIT_ODD};

/* Goes to the next bad blockette of a parity; SIZE_MAX is before the first. */
static bool next_bad(const struct input *marks, size_t parity, size_t *place)
{
    while (++*place < marks->length) {
        size_t behind = marks->length - 1 - *place;
        if (behind % 2 == parity && marks->bytes[*place] != CTC_MARK_GOOD) {
            return true;
        }
    }
    return false;
}

static bool any_bad(const struct input *marks, size_t parity)
{
    size_t place = SIZE_MAX;
    return next_bad(marks, parity, &place);
}

/* Warns of each parity that does not fit though all of it is marked good. */
static void warn_of_checks(const struct input *image, const struct input *marks)
{
    uint32_t told = ctc_verify(image->bytes, image->length);
    for (size_t parity = 2; parity-- > 0;) {
        if ((told & unfit_parity[parity]) != 0 && !any_bad(marks, parity)) {
            fprintf(stderr,
                    "ctc record: %s: warning: check blockette %zu does not fit the %s data "
                    "blockettes: one that is marked good is damaged\n",
                    image->path, parity, parity == 1 ? "odd" : "even");
        }
    }
}

/* One reading of a GCR record, with room for a byte more than is legal. */
struct pass {
    struct input image, marks;
    uint8_t image_bytes[CTC_IMAGE_MOST + 1];
    uint8_t mark_bytes[CTC_MARKS_MOST + 1];
};

static bool read_pass(struct pass *pass, const char *image_path, const char *marks_path)
{
    pass->image = (struct input){.path = image_path, .bytes = pass->image_bytes};
    pass->marks = (struct input){.path = marks_path, .bytes = pass->mark_bytes};
    return read_input(&pass->image, sizeof pass->image_bytes) &&
           read_marks(&pass->marks, sizeof pass->mark_bytes,
                      ctc_image_count(pass->image.bytes, pass->image.length));
}

/* Tells whether a pass shows what the library refused, and says where. */
static bool said_of_pass(const struct pass *pass, uint32_t refusal)
{
    return (refusal == CTC_REFUSED_LENGTH &&
            !lengths_fit(&pass->image, &pass->marks, CTC_DENSITY_GCR)) ||
           (refusal == CTC_REFUSED_MARK && !marks_legal(&pass->marks));
}

static int build(uint8_t density, const char *bytes_path, const char *image_path, size_t place)
{
    static uint8_t bytes[CTC_COUNT_LIMIT + 1];
    static uint8_t image[CTC_IMAGE_MOST];
    struct input record = {.path = bytes_path, .bytes = bytes};

    if (!read_input(&record, sizeof bytes)) {
        return STATUS_FAILED;
    }
    uint32_t refusal =
        ctc_build(record.bytes, record.length, density, place, image, sizeof image);
    if (refusal != CTC_DONE) {
        say_refusal(record.path, refusal);
        if (refusal == CTC_REFUSED_LENGTH) {
            fprintf(stderr, ": a record has at most %d bytes", CTC_COUNT_LIMIT);
        } else if (refusal == CTC_REFUSED_PLACE) {
            fprintf(stderr, ": place %zu, counted from 0, of %zu bytes", place, record.length);
        }
        fputc('\n', stderr);
        return STATUS_FAILED;
    }
    size_t length = ctc_image_length(record.length, density);
    const struct input *inputs[] = {&record, NULL};
    return write_output(image_path, image, length, inputs) ? STATUS_DONE : STATUS_FAILED;
}

static int restore(const char *image_path, const char *marks_path, const char *bytes_path)
{
    static struct pass pass;
    static uint8_t bytes[CTC_COUNT_LIMIT];
    const struct input *image = &pass.image, *marks = &pass.marks;

    if (!read_pass(&pass, image_path, marks_path)) {
        return STATUS_FAILED;
    }
    uint32_t refusal = ctc_restore(image->bytes, image->length, marks->bytes, marks->length, bytes,
                                   sizeof bytes);
    if (refusal == CTC_DONE) {
        size_t count = ctc_image_count(image->bytes, image->length);
        const struct input *inputs[] = {image, marks, NULL};
        warn_of_checks(image, marks);
        return write_output(bytes_path, bytes, count, inputs) ? STATUS_DONE : STATUS_FAILED;
    }
    if (!said_of_pass(&pass, refusal)) {
        say_refusal(image->path, refusal);
        fputc('\n', stderr);
    }
    return STATUS_FAILED;
}

/* Says of two whole passes which count or which blockette the library refused. */
static void say_of_both(const struct pass *first, const struct pass *second, uint32_t refusal)
{
    const struct input *one = &first->image, *other = &second->image;
    size_t blockettes = second->marks.length, place = 0;

    say_refusal(other->path, refusal);
    if (refusal == CTC_REFUSED_COUNTS) {
        fprintf(stderr, ": its count is %zu, and that of %s is %zu",
                ctc_image_count(other->bytes, other->length), one->path,
                ctc_image_count(one->bytes, one->length));
    }
    while (refusal == CTC_REFUSED_UNLIKE && place < blockettes) {
        size_t start = 2 + CTC_BLOCKETTE_LENGTH * place;
        size_t behind = blockettes - 1 - place;
        if (first->marks.bytes[place] == CTC_MARK_GOOD &&
            second->marks.bytes[place] == CTC_MARK_GOOD &&
            memcmp(one->bytes + start, other->bytes + start, CTC_BLOCKETTE_LENGTH) != 0) {
            fprintf(stderr, ": %s blockette %zu is not as in %s", behind < 2 ? "check" : "data",
                    behind < 2 ? behind : behind - 2, one->path);
            break;
        }
        place++;
    }
    fputc('\n', stderr);
}

/* The paths of the first pass, of the second, and of what is written, image and marks each time. */
static int merge(char **paths)
{
    static struct pass first, second;
    static uint8_t image[CTC_IMAGE_MOST];
    static uint8_t marks[CTC_MARKS_MOST];

    if (!read_pass(&first, paths[0], paths[1]) || !read_pass(&second, paths[2], paths[3])) {
        return STATUS_FAILED;
    }
    uint32_t refusal = ctc_merge(first.image.bytes, first.image.length,
                                 first.marks.bytes, first.marks.length,
                                 second.image.bytes, second.image.length,
                                 second.marks.bytes, second.marks.length,
                                 image, sizeof image, marks, sizeof marks);
    if (refusal == CTC_DONE) {
        size_t count = ctc_image_count(image, sizeof image);
        struct output outputs[] = {
            {.path = paths[4], .bytes = image, .length = ctc_image_length(count, CTC_DENSITY_GCR)},
            {.path = paths[5], .bytes = marks, .length = ctc_mark_count(count, CTC_DENSITY_GCR)},
        };
        const struct input *inputs[] = {&first.image, &first.marks, &second.image, &second.marks,
                                        NULL};
        return write_outputs(outputs, 2, inputs) ? STATUS_DONE : STATUS_FAILED;
    }
    if (!said_of_pass(&first, refusal) && !said_of_pass(&second, refusal)) {
        say_of_both(&first, &second, refusal);
    }
    return STATUS_FAILED;
}

/* The library restores GCR alone: in MFM the record's bytes stand behind the count as they are. */
static int bytes_of(uint8_t density, const char *image_path, const char *bytes_path)
{
    static uint8_t image_bytes[CTC_IMAGE_MOST + 1];
    struct input image = {.path = image_path, .bytes = image_bytes};

    if (density != CTC_DENSITY_MFM) {
        return restore(image_path, "good", bytes_path);
    }
    if (!read_input(&image, sizeof image_bytes) || !lengths_fit(&image, NULL, CTC_DENSITY_MFM)) {
        return STATUS_FAILED;
    }
    const struct input *inputs[] = {&image, NULL};
    return write_output(bytes_path, image.bytes + 2, image.length - 2, inputs) ? STATUS_DONE
                                                                             : STATUS_FAILED;
}

/*
 * Prints of each check blockette whether it fits; of one with a bad blockette in its
 * parity, that nothing can be told. Tells whether none is found not to fit.
 */
static bool show_checks(const struct input *image, const struct input *marks)
{
    static const char *const names[] = {"even check", "odd check"};
    uint32_t told = ctc_verify(image->bytes, image->length);
    bool fit = true;
    for (size_t parity = 2; parity-- > 0;) {
        bool unfit = (told & unfit_parity[parity]) != 0, bad = any_bad(marks, parity);
        printf("%-13s %s\n", names[parity],
               bad     ? "cannot be told, a blockette is bad"
               : unfit ? "does not fit"
                       : "fits");
        fit = fit && (bad || !unfit);
    }
    return fit;
}

/* Prints every bad blockette, odd ones first, in tape order: a merge is planned from them. */
static void show_errors(const struct input *marks)
{
    static const char *const names[] = {"even error", "odd error"};
    for (size_t parity = 2; parity-- > 0;) {
        size_t place = SIZE_MAX;
        if (!any_bad(marks, parity)) {
            printf("%-13s none\n", names[parity]);
        }
        while (next_bad(marks, parity, &place)) {
            size_t behind = marks->length - 1 - place;
            printf("%-13s %s blockette %zu, mark %d\n", names[parity],
                   behind < 2 ? "check" : "data", behind < 2 ? behind : behind - 2,
                   marks->bytes[place]);
        }
    }
}

/* Tells whether what is printed would go into a file that was read, and says so. */
static bool prints_into(const struct input *const *inputs)
{
    struct stat output;
    return fstat(STDOUT_FILENO, &output) == 0 && was_read("standard output", &output, inputs);
}

static int verify(const char *image_path)
{
    static uint8_t image_bytes[CTC_IMAGE_MOST + 1];
    struct input image = {.path = image_path, .bytes = image_bytes};
    const struct input no_marks = {.length = 0};
    const struct input *inputs[] = {&image, NULL};

    if (!read_input(&image, sizeof image_bytes) || !lengths_fit(&image, NULL, CTC_DENSITY_GCR) ||
        prints_into(inputs)) {
        return STATUS_FAILED;
    }
    if (ctc_image_count(image.bytes, image.length) == 0) {
        printf("%-13s none\n", "checks");
        return STATUS_DONE;
    }
    return show_checks(&image, &no_marks) ? STATUS_DONE : STATUS_FAILED;
}

static int show(const char *image_path, uint8_t density, const char *marks_path)
{
    static uint8_t image_bytes[CTC_IMAGE_MOST + 1];
    static uint8_t mark_bytes[CTC_MARKS_MOST + 1];
    struct input image = {.path = image_path, .bytes = image_bytes};
    struct input marks = {.path = marks_path, .bytes = mark_bytes};
    const struct input *inputs[] = {&image, &marks, NULL};

    if (!read_input(&image, sizeof image_bytes)) {
        return STATUS_FAILED;
    }
    size_t count = ctc_image_count(image.bytes, image.length);
    if (marks_path != NULL && !read_marks(&marks, sizeof mark_bytes, count)) {
        return STATUS_FAILED;
    }
    if (!lengths_fit(&image, marks_path == NULL ? NULL : &marks, density) || !marks_legal(&marks)) {
        return STATUS_FAILED;
    }
    if (prints_into(inputs)) {
        return STATUS_FAILED;
    }

    size_t blockettes = ctc_mark_count(count, density);
    printf("%-13s %zu\n", "count", count);
    printf("%-13s %zu bytes, %s\n", "image", image.length, density_name(density));
    if (blockettes == 0) {
        printf("%-13s none\n", "blockettes");
    } else {
        printf("%-13s %zu data, 2 check\n", "blockettes", blockettes - 2);
        show_checks(&image, &marks);
    }
    if (marks_path != NULL) {
        uint8_t report[CTC_REPORT_LENGTH];
        uint32_t refusal = ctc_scan(marks.bytes, marks.length, report, sizeof report);
        if (refusal != CTC_DONE) {
            say_refusal(marks.path, refusal);
            fputc('\n', stderr);
            return STATUS_FAILED;
        }
        bool stopped = report[CTC_REPORT_STOP + 1] != 0;
        show_errors(&marks);
        printf("%-13s %s\n", "restorable", stopped ? "no" : "yes");
    }
    return STATUS_DONE;
}

/* Answers by the words alone where they are wrong. */
static int run(int count, char **words)
{
    const char *verb = count > 1 ? words[1] : "";
    uint8_t density;

    if (is(verb, "--help") || is(verb, "-h")) {
        printf("%s%s", usage, help);
        return STATUS_DONE;
    }
    if (is(verb, "--version")) {
        printf("ctc record %s\n", CTC_VERSION);
        return STATUS_DONE;
    }
    if (is(verb, "build")) {
        size_t place = CTC_NO_PLACE;
        if (count != 5 && count != 6) {
            return wrong_usage("build takes three or four words");
        }
        if (!read_density(words[2], &density)) {
            return wrong_usage("DENSITY is mfm or gcr");
        }
        if (count == 6 && !read_place(words[5], &place)) {
            return wrong_usage("PLACE is a number from 0 on");
        }
        return build(density, words[3], words[4], place);
    }
    if (is(verb, "bytes")) {
        if (count != 5) {
            return wrong_usage("bytes takes three words");
        }
        if (!read_density(words[2], &density)) {
            return wrong_usage("DENSITY is mfm or gcr");
        }
        return bytes_of(density, words[3], words[4]);
    }
    if (is(verb, "restore")) {
        if (count != 5) {
            return wrong_usage("restore takes three words");
        }
        if (is(words[2], "-") && is(words[3], "-")) {
            return wrong_usage("image and marks cannot both be standard input");
        }
        return restore(words[2], words[3], words[4]);
    }
    if (is(verb, "merge")) {
        int standard = 0;
        if (count != 8) {
            return wrong_usage("merge takes six words");
        }
        for (int i = 2; i < 6; i++) {
            standard += is(words[i], "-");
        }
        if (standard > 1) {
            return wrong_usage("standard input can be one file alone");
        }
        if (is(words[6], "-") && is(words[7], "-")) {
            return wrong_usage("image and marks cannot both be standard output");
        }
        if (is(words[7], "good")) {
            return wrong_usage("good is no file to be written: a file of that name is ./good");
        }
        return merge(words + 2);
    }
    if (is(verb, "verify")) {
        if (count != 3) {
            return wrong_usage("verify takes one word");
        }
        return verify(words[2]);
    }
    if (is(verb, "show")) {
        if (count != 4 && count != 5) {
            return wrong_usage("show takes two or three words");
        }
        if (!read_density(words[3], &density)) {
            return wrong_usage("DENSITY is mfm or gcr");
        }
        if (count == 5 && is(words[2], "-") && is(words[4], "-")) {
            return wrong_usage("image and marks cannot both be standard input");
        }
        return show(words[2], density, count == 5 ? words[4] : NULL);
    }
    return wrong_usage(
        "the first word is build, bytes, restore, merge, verify, show, --help or --version");
}

int main(int count, char **words)
{
    int status = run(count, words);
    /* what was printed counts only if it also arrived */
    if (fflush(stdout) != 0 || ferror(stdout)) {
        file_failed("write", "standard output", errno);
        return STATUS_FAILED;
    }
    return status;
}
