/* Plays a sound through a strip sheet, or writes a sheet of the house set, over the static library.
 *
 *   transfer SHEET_IN SHEET_OUT < frames > sound
 *   transfer --house SHEET_OUT [SIDE BAND POSITION]...
 *
 * The first reads SHEET_IN, plays standard input to standard output, and writes the sheet after it
 * to SHEET_OUT: a later run continues from there. The second gives each level order to the cleared
 * house unit (SIDE 0 left, 1 right, 2 both; BAND 0 to 9, or 10 for the volume; POSITION 0 to 31).
 *
 * Exit status: 0, or the number of the library's refusal; 64 for wrong use, 74 for an input or
 * output fault. Messages go to standard error. A tail of one to three bytes gives 5 after the whole
 * frames are played and the sheet is written; after any other status but 0, no sheet is written. */
#include <ctype.h>
#include <errno.h>
#include <stdio.h>
#include <stdlib.h>
#include <string.h>

#include "fonddrys.h"

enum { WRONG_USE = 64, IO_FAULT = 74, BUFFER_BYTES = 16384 * FONDDRYS_FRAME_BYTES };

static const char *const reasons[] = {
    "accepted",
    "no such side and band",
    "position over 31",
    "factor not finite",
    "factor outside its range",
    "input bytes no multiple of four",
    "output shorter than input",
    "a set that isn't thirty numbers",
    "A of a band outside its range",
    "B of a band outside its range",
    "G of a band outside its range",
    "a sheet that is neither 1,200 nor 1,128 bytes",
    "wrong letter or line end",
    "field badly written",
    "number outside its range",
    "a number that is no word",
};

/* ---- Messages. Each gives the exit status; it stands even where the message can't be written. */

static int refused(uint32_t refusal)
{
    (void)fprintf(stderr, "transfer: refused, %u: %s\n", (unsigned)refusal, reasons[refusal]);
    return (int)refusal;
}

static int io_fault(const char *name)
{
    (void)fprintf(stderr, "transfer: %s: %s\n", name, strerror(errno));
    return IO_FAULT;
}

static int wrong_use(void)
{
    (void)fputs("usage: transfer SHEET_IN SHEET_OUT < frames > sound\n"
                "       transfer --house SHEET_OUT [SIDE BAND POSITION]...\n",
                stderr);
    return WRONG_USE;
}

/* ---- Sheets */

/* Reads the sheet of that name into the unit. */
static int read_sheet(const char *name, fonddrys_unit *unit)
{
    uint8_t bytes[FONDDRYS_SHEET_BYTES + 1]; /* one more, to find a file that is too long */
    FILE *file = fopen(name, "rb");
    if (file == NULL) {
        return io_fault(name);
    }
    size_t count = fread(bytes, 1, sizeof bytes, file);
    int failed = ferror(file);
    if (fclose(file) != 0 || failed) {
        return io_fault(name);
    }
    uint32_t refusal = fonddrys_sheet_read(unit, bytes, count);
    return refusal == FONDDRYS_ACCEPTED ? 0 : refused(refusal);
}

/* Reports a fault in making the file of that name, and removes what is left of it. */
static int abandon(const char *name, const char *leftover)
{
    int status = io_fault(name);
    return remove(leftover) == 0 ? status : io_fault(leftover);
}

/* Writes bytes to the file temporary, and then gives it the name. */
static int write_renamed(const char *name, const char *temporary, const uint8_t *bytes,
                         size_t count)
{
    FILE *file = fopen(temporary, "wb");
    if (file == NULL) {
        return io_fault(temporary);
    }
    int failed = fwrite(bytes, 1, count, file) != count;
    if (fclose(file) != 0 || failed) {
        return abandon(temporary, temporary);
    }
    return rename(temporary, name) == 0 ? 0 : abandon(name, temporary);
}

/* Writes the unit's sheet under that name, by way of NAME.tmp: either the whole sheet is there, or
 * what was there before. */
static int write_sheet(const char *name, const fonddrys_unit *unit)
{
    uint8_t bytes[FONDDRYS_SHEET_BYTES];
    size_t count = fonddrys_sheet_write(unit, bytes, sizeof bytes);
    if (count == 0) {
        return refused(FONDDRYS_UNFIT);
    }
    size_t length = strlen(name);
    char *temporary = malloc(length + sizeof ".tmp");
    if (temporary == NULL) {
        return io_fault(name);
    }
    memcpy(temporary, name, length);
    memcpy(temporary + length, ".tmp", sizeof ".tmp");
    int status = write_renamed(name, temporary, bytes, count);
    free(temporary);
    return status;
}

/* ---- Playing */

/* Plays count bytes to standard output. */
static int play_block(fonddrys_unit *unit, const uint8_t *input, size_t count)
{
    static uint8_t output[BUFFER_BYTES];
    uint32_t refusal = fonddrys_block(unit, input, count, output, sizeof output);
    if (refusal != FONDDRYS_ACCEPTED) {
        return refused(refusal);
    }
    return fwrite(output, 1, count, stdout) == count ? 0 : io_fault("standard output");
}

/* Plays the whole frames of standard input, and closes standard output. tail is then the count of
 * the bytes behind the frames, 0 to 3. */
static int play_input(fonddrys_unit *unit, size_t *tail)
{
    static uint8_t input[BUFFER_BYTES];
    size_t count;
    do { /* fread gives less than it is asked for at the end only */
        count = fread(input, 1, sizeof input, stdin);
        if (ferror(stdin)) {
            return io_fault("standard input");
        }
        *tail = count % FONDDRYS_FRAME_BYTES;
        int status = play_block(unit, input, count - *tail);
        if (status != 0) {
            return status;
        }
    } while (count == sizeof input);
    return fclose(stdout) == 0 ? 0 : io_fault("standard output");
}

static int transfer(const char *sheet_in, const char *sheet_out)
{
    fonddrys_unit unit;
    size_t tail = 0;
    int status = read_sheet(sheet_in, &unit);
    if (status == 0) {
        status = play_input(&unit, &tail);
    }
    if (status == 0) {
        status = write_sheet(sheet_out, &unit);
    }
    if (status == 0 && tail != 0) {
        status = refused(FONDDRYS_INPUT_LENGTH);
    }
    return status;
}

/* ---- The house sheet */

/* Reads a decimal number; one above most counts as most. Gives 0 where the text is no number. */
static int read_number(const char *text, unsigned long most, unsigned long *number)
{
    char *end;
    if (!isdigit((unsigned char)text[0])) {
        return 0;
    }
    *number = strtoul(text, &end, 10);
    if (*number > most) {
        *number = most;
    }
    return *end == '\0';
}

/* Gives the order that three arguments name. Every number that is over the library's own range for
 * it is refused as its largest is. */
static int give_order(fonddrys_unit *unit, char *const *argument)
{
    unsigned long side;
    unsigned long band;
    unsigned long position;
    if (!read_number(argument[0], UINT32_MAX, &side) ||
        !read_number(argument[1], UINT32_MAX, &band) ||
        !read_number(argument[2], UINT8_MAX, &position)) {
        return wrong_use();
    }
    uint32_t refusal =
        fonddrys_order_position(unit, (uint32_t)side, (uint32_t)band, (uint8_t)position);
    return refusal == FONDDRYS_ACCEPTED ? 0 : refused(refusal);
}

static int house(const char *sheet_out, char *const *orders, int order_count)
{
    int32_t set[FONDDRYS_SET_NUMBERS];
    fonddrys_unit unit;
    fonddrys_house_set(set);
    uint32_t refusal = fonddrys_load(&unit, set, FONDDRYS_SET_NUMBERS);
    int status = refusal == FONDDRYS_ACCEPTED ? 0 : refused(refusal);
    for (int i = 0; status == 0 && i < order_count; i++) {
        status = give_order(&unit, orders + 3 * i);
    }
    return status == 0 ? write_sheet(sheet_out, &unit) : status;
}

int main(int argc, char **argv)
{
    if (argc >= 3 && argc % 3 == 0 && strcmp(argv[1], "--house") == 0) {
        return house(argv[2], argv + 3, (argc - 3) / 3);
    }
    if (argc == 3) {
        return transfer(argv[1], argv[2]);
    }
    return wrong_use();
}
