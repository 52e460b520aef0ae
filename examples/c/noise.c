/* How much rounding takes in each band of a set, over a sound: for comparing band sets.
 *
 *   noise SET < frames
 *
 * SET is a file of thirty whole numbers, A, B, G of each band in turn, with blanks or line ends
 * between. The frames are signed 16 bits, left then right, low byte first. Each band has a section
 * for each side, cleared at the start and stepped on 256 times each sample. Printed is a line for
 * each band, over the words of both sides:
 *
 *   mean       the mean of the remainders: rounding that leans to one side
 *   mean size  the mean of their sizes: how much is taken at a time
 *   largest    the largest size
 *
 * in units of 2^-22 of a word's unit, so at most 2,097,152 in size; means are rounded to whole
 * numbers, halves to even. These sections feed nothing back; those of bands 0 to 3 of a unit do:
 * what rounding takes there is given to the next step.
 *
 * Exit status: 0, or the number of the refusal, with its band: 7, 8, 9, 10. A tail of one to three
 * bytes is 5, after the lines of the whole frames. 64 is wrong use, no frames among it, 74 an input
 * or output fault. Messages go to standard error. */
#include <errno.h>
#include <stdio.h>
#include <stdlib.h>
#include <string.h>

#include "fonddrys.h"

enum { WRONG_USE = 64, IO_FAULT = 74, SIDES = 2, BUFFER_BYTES = 16384 * FONDDRYS_FRAME_BYTES };

/* A band's sections, and their remainders up to now. */
struct band {
    fonddrys_section sections[SIDES];
    int64_t sum, sizes, largest;
};

/* ---- Messages. Each gives the exit status. */

static int io_fault(const char *name)
{
    (void)fprintf(stderr, "noise: %s: %s\n", name, strerror(errno));
    return IO_FAULT;
}

static int wrong_use(const char *why)
{
    (void)fprintf(stderr, "noise: %s\nusage: noise SET < frames\n", why);
    return WRONG_USE;
}

/* ---- The band set */

/* Makes the bands of a set, their sections cleared. */
static int make_bands(const int32_t set[FONDDRYS_SET_NUMBERS], struct band bands[FONDDRYS_BANDS])
{
    for (int i = 0; i < FONDDRYS_BANDS; i++) {
        const int32_t *word = set + 3 * i;
        const fonddrys_section cleared = {word[0], word[1], word[2], 0, 0, 0, 0};
        const uint32_t refusal = fonddrys_band_refusal(word[0], word[1], word[2]);
        if (refusal != FONDDRYS_ACCEPTED) {
            (void)fprintf(stderr, "noise: band %d: refused, %u\n", i, (unsigned)refusal);
            return (int)refusal;
        }
        bands[i] = (struct band){{cleared, cleared}, 0, 0, 0};
    }
    return 0;
}

/* Reads a whole number. One beyond 32 bits counts as the nearest within, which is no word either.
 * Gives 0 where the text is none. */
static int read_number(const char *text, int32_t *number)
{
    char *end;
    const long long read = strtoll(text, &end, 10);
    *number = (int32_t)(read < INT32_MIN ? INT32_MIN : read > INT32_MAX ? INT32_MAX : read);
    return *end == '\0';
}

/* Reads the numbers of the file, and makes their bands. */
static int read_set(FILE *file, const char *name, struct band bands[FONDDRYS_BANDS])
{
    int32_t set[FONDDRYS_SET_NUMBERS + 1]; /* one more, to find a set that is too long */
    char text[64];
    int count = 0;
    while (count <= FONDDRYS_SET_NUMBERS && fscanf(file, "%63s", text) == 1) {
        if (!read_number(text, &set[count])) {
            return wrong_use("the set has something else than whole numbers");
        }
        count++;
    }
    if (ferror(file)) {
        return io_fault(name);
    }
    if (count != FONDDRYS_SET_NUMBERS) {
        (void)fprintf(stderr, "noise: refused, %d: the set isn't thirty numbers\n",
                      FONDDRYS_SET_LENGTH);
        return FONDDRYS_SET_LENGTH;
    }
    return make_bands(set, bands);
}

static int open_set(const char *name, struct band bands[FONDDRYS_BANDS])
{
    FILE *file = fopen(name, "r");
    if (file == NULL) {
        return io_fault(name);
    }
    const int status = read_set(file, name, bands);
    return fclose(file) == 0 || status != 0 ? status : io_fault(name);
}

/* ---- The sound */

/* The sample of a side: low byte first. */
static int32_t sample(const uint8_t *frame, int side)
{
    const int32_t bits = frame[2 * side] + 256 * frame[2 * side + 1];
    return bits < 32768 ? bits : bits - 65536;
}

/* Steps a band's sections on a frame. The band is accepted and 256 times a sample is a word, so no
 * step is refused. */
static void step_band(struct band *band, const uint8_t *frame)
{
    for (int side = 0; side < SIDES; side++) {
        const int64_t remainder =
            fonddrys_section_step(&band->sections[side], 256 * sample(frame, side)).remainder;
        const int64_t size = remainder < 0 ? -remainder : remainder;
        band->sum += remainder;
        band->sizes += size;
        band->largest = size > band->largest ? size : band->largest;
    }
}

/* Steps the bands on standard input. frames is then the count of whole frames, and tail that of the
 * bytes behind them, 0 to 3. */
static int hear(struct band bands[FONDDRYS_BANDS], int64_t *frames, size_t *tail)
{
    static uint8_t input[BUFFER_BYTES];
    size_t count;
    do { /* fread gives less than it is asked for at the end only */
        count = fread(input, 1, sizeof input, stdin);
        if (ferror(stdin)) {
            return io_fault("standard input");
        }
        *tail = count % FONDDRYS_FRAME_BYTES;
        *frames += (int64_t)(count / FONDDRYS_FRAME_BYTES);
        for (size_t at = 0; at + *tail < count; at += FONDDRYS_FRAME_BYTES) {
            for (int i = 0; i < FONDDRYS_BANDS; i++) {
                step_band(&bands[i], input + at);
            }
        }
    } while (count == sizeof input);
    return 0;
}

/* ---- The lines */

/* sum / count, rounded to the nearest whole number, halves to even. */
static int64_t mean(int64_t sum, int64_t count)
{
    const int64_t over = (sum % count + count) % count;
    const int64_t below = (sum - over) / count;
    return below + (over > count - over || (over == count - over && below % 2 != 0));
}

static int print(const struct band bands[FONDDRYS_BANDS], int64_t words)
{
    (void)printf("band      mean  mean size    largest\n");
    for (int i = 0; i < FONDDRYS_BANDS; i++) {
        (void)printf("%4d%10lld%11lld%11lld\n", i, (long long)mean(bands[i].sum, words),
                     (long long)mean(bands[i].sizes, words), (long long)bands[i].largest);
    }
    return fclose(stdout) == 0 ? 0 : io_fault("standard output");
}

int main(int argc, char **argv)
{
    struct band bands[FONDDRYS_BANDS];
    int64_t frames = 0;
    size_t tail = 0;
    if (argc != 2) {
        return wrong_use("one file is asked for");
    }
    int status = open_set(argv[1], bands);
    if (status == 0) {
        status = hear(bands, &frames, &tail);
    }
    if (status == 0 && frames == 0) {
        return wrong_use("no frames");
    }
    if (status == 0) {
        status = print(bands, SIDES * frames);
    }
    if (status == 0 && tail != 0) {
        (void)fprintf(stderr, "noise: refused, %d: the input ends inside a frame\n",
                      FONDDRYS_INPUT_LENGTH);
        status = FONDDRYS_INPUT_LENGTH;
    }
    return status;
}
