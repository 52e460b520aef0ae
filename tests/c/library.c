/* Tests of the C interface: each routine of fonddrys.h is called accepted, with a check of what it
 * leaves, and once for each of its refusals, with a check that nothing lent has changed. Prints a
 * line for each check that failed, and the counts; the exit status is 1 if any failed. */
#include "fonddrys.h"

#include <math.h>
#include <stdio.h>
#include <stdlib.h>
#include <string.h>

#define COUNT(array) (sizeof(array) / sizeof(array)[0])

static unsigned checks, failures;

/* Checks of a number, and of an object byte by byte; row is that of a table. */
#define CHECK(row, got, want) check(__LINE__, row, #got, (int64_t)(got), (int64_t)(want))
#define SAME(row, got, want) CHECK(row, memcmp(&(got), &(want), sizeof(got)), 0)

static void check(int line, size_t row, const char *what, int64_t got, int64_t want)
{
    checks++;
    if (got != want) {
        failures++;
        printf("library.c:%d: row %u: %s is %lld, not %lld\n", line, (unsigned)row, what,
               (long long)got, (long long)want);
    }
}

/* The cleared unit of ten bands of 31 Hz, but for the volume and its target, x1 on the left, and on
 * the left each y1 and the remainders that are fed back. A negative volume makes it unfit. */
static fonddrys_unit unit_with(int32_t volume, int32_t x1, int32_t y1, int32_t remainder)
{
    static const int32_t hz31[3] = {6606, 4181093, 8375315};
    fonddrys_unit unit = {{0}};
    unit.numbers[FONDDRYS_AT_VOLUME] = volume;
    unit.numbers[FONDDRYS_AT_VOLUME_TARGET] = volume;
    unit.numbers[FONDDRYS_AT_X1(FONDDRYS_LEFT)] = x1;
    for (int band = 0; band < FONDDRYS_BANDS; band++) {
        memcpy(unit.numbers + FONDDRYS_AT_ALPHA(band), hz31, sizeof hz31);
        unit.numbers[FONDDRYS_AT_Y1(FONDDRYS_LEFT, band)] = y1;
    }
    for (int band = 0; band < FONDDRYS_FEEDBACK_BANDS; band++) {
        unit.numbers[FONDDRYS_AT_REMAINDER(FONDDRYS_LEFT, band)] = remainder;
    }
    return unit;
}

static void test_arithmetic(void)
{
    CHECK(0, fonddrys_nearest(6291456, 22), 2);
    CHECK(0, fonddrys_limit(FONDDRYS_WORD_MIN, FONDDRYS_WORD_MAX, 8388608), 8388607);
    CHECK(0, fonddrys_level_moved(0, 8388607, FONDDRYS_GAIN_SLOPE), 839);
}

/* A set with the band of a row in its last place, and then sets of other lengths. A refused set
 * leaves the cleared house unit. */
static void test_bands(void)
{
    static const struct {
        int32_t band[3];
        size_t count;
        uint32_t band_refusal, load_refusal;
    } rows[] = {
        {{6606, 4181093, 8375315}, 30, 0, 0}, {{-1, 0, 0}, 30, 8, 8},
        {{0, 4194304, 0}, 30, 9, 9},          {{0, 0, 4194304}, 30, 10, 10},
        {{6606, 4181093, 8375315}, 29, 0, 7}, {{-1, 0, 0}, 31, 8, 7},
    };
    static const int32_t first[6] = {6606, 4181093, 8375315, 13191, 4167923, 8361900};
    fonddrys_unit house = {{0}};
    fonddrys_house_set(house.numbers + FONDDRYS_AT_ALPHA(0));
    CHECK(0, memcmp(house.numbers + FONDDRYS_AT_ALPHA(0), first, sizeof first), 0);
    for (size_t i = 0; i < COUNT(rows); i++) {
        const int32_t *band = rows[i].band;
        const fonddrys_unit loaded = unit_with(0, 0, 0, 0);
        fonddrys_unit unit = unit_with(-1, 1, 1, 1);
        int32_t set[31];
        memcpy(set, loaded.numbers + FONDDRYS_AT_ALPHA(0), sizeof set);
        memcpy(set + 27, band, 3 * sizeof band[0]);
        CHECK(i, fonddrys_band_refusal(band[0], band[1], band[2]), rows[i].band_refusal);
        CHECK(i, fonddrys_load(&unit, set, rows[i].count), rows[i].load_refusal);
        SAME(i, unit, *(rows[i].load_refusal == 0 ? &loaded : &house));
    }
}

/* Orders to a unit with the volume's target and one of a gain at 7: accepted, the number at the
 * place is then the target. */
static const struct order {
    enum { POSITION, FACTOR, MUTE } kind;
    uint32_t side, band;
    uint8_t position;
    float factor;
    uint32_t want;
    int32_t place, target;
} orders[] = {
    {POSITION, 1, 9, 31, 0, 0, FONDDRYS_AT_GAIN_TARGET(1, 9), 8380215},
    {POSITION, 0, 10, 32, 0, 1, 0, 0},
    {POSITION, 2, 10, 32, 0, 2, 0, 0},
    {FACTOR, 2, 10, 0, 0.5f, 0, FONDDRYS_AT_VOLUME_TARGET, 4194304},
    {FACTOR, 3, 0, 0, NAN, 1, 0, 0},
    {FACTOR, 2, 0, 0, INFINITY, 3, 0, 0},
    {FACTOR, 2, 0, 0, 1.0f, 4, 0, 0},
    {MUTE, 0, 3, 0, 0, 0, FONDDRYS_AT_GAIN_TARGET(0, 3), -8388608},
    {MUTE, 2, 10, 0, 0, 0, FONDDRYS_AT_VOLUME_TARGET, 0},
    {MUTE, 2, 11, 0, 0, 1, 0, 0},
};

static uint32_t give(const struct order *order, fonddrys_unit *unit)
{
    return order->kind == POSITION
               ? fonddrys_order_position(unit, order->side, order->band, order->position)
           : order->kind == FACTOR
               ? fonddrys_order_factor(unit, order->side, order->band, order->factor)
               : fonddrys_order_mute(unit, order->side, order->band);
}

static void test_orders(void)
{
    for (size_t i = 0; i < COUNT(orders); i++) {
        const fonddrys_unit unfit = unit_with(-1, 0, 0, 1);
        fonddrys_unit refused = unfit;
        fonddrys_unit unit = unit_with(7, 0, 0, 1);
        unit.numbers[FONDDRYS_AT_GAIN_TARGET(0, 3)] = 7;
        fonddrys_unit want = unit;
        if (orders[i].want == 0) {
            want.numbers[orders[i].place] = orders[i].target;
        }
        CHECK(i, give(&orders[i], &unit), orders[i].want);
        SAME(i, unit, want);
        CHECK(i, give(&orders[i], &refused), 14);
        SAME(i, refused, unfit);
    }
}

/* The frame (1000, 0), at half the volume, with a remainder to begin with. */
static void test_blocks(void)
{
    static const struct {
        int32_t volume;
        size_t count, room;
        uint32_t want;
        uint8_t output[5];
    } rows[] = {
        {4194304, 4, 5, 0, {244, 1, 0, 0, 165}},
        {-1, 3, 2, 14, {165, 165, 165, 165, 165}},
        {4194304, 3, 2, 5, {165, 165, 165, 165, 165}},
        {4194304, 4, 3, 6, {165, 165, 165, 165, 165}},
    };
    static const uint8_t frame[4] = {232, 3, 0, 0};
    for (size_t i = 0; i < COUNT(rows); i++) {
        fonddrys_unit unit = unit_with(rows[i].volume, 0, 0, -1000);
        const fonddrys_unit want =
            rows[i].want == 0 ? unit_with(4194304, 256000, 403, 830488) : unit;
        uint8_t output[5] = {165, 165, 165, 165, 165};
        CHECK(i, fonddrys_block(&unit, frame, rows[i].count, output, rows[i].room), rows[i].want);
        SAME(i, output, rows[i].output);
        SAME(i, unit, want);
    }
}

/* Which remainders a fit unit may have. */
static void test_remainders(void)
{
    static const struct {
        int band;
        int32_t remainder;
        uint32_t want;
    } rows[] = {
        {0, -2097152, 1}, {3, 2097152, 1}, {0, -2097153, 0}, {3, 2097153, 0}, {4, 1, 0}, {9, -1, 0},
    };
    for (size_t i = 0; i < COUNT(rows); i++) {
        for (int side = FONDDRYS_LEFT; side <= FONDDRYS_RIGHT; side++) {
            fonddrys_unit unit = unit_with(0, 0, 0, 0);
            unit.numbers[FONDDRYS_AT_REMAINDER(side, rows[i].band)] = rows[i].remainder;
            CHECK(i, fonddrys_unit_fit(&unit), rows[i].want);
        }
    }
}

/* The short sheet of a unit, whose lines end after four fields, reads as it with remainders 0. */
static void test_short_sheet(void)
{
    const fonddrys_unit unit = unit_with(0, 256000, 403, 831488);
    const fonddrys_unit want = unit_with(0, 256000, 403, 0);
    fonddrys_unit back = unit_with(-1, 1, 1, 1);
    uint8_t sheet[FONDDRYS_SHEET_BYTES];
    size_t column = 0, count = 0;
    CHECK(0, fonddrys_sheet_write(&unit, sheet, sizeof sheet), FONDDRYS_SHEET_BYTES);
    for (size_t i = 0; i < sizeof sheet; i++) {
        const uint8_t byte = sheet[i];
        if (column < 37 || byte == '\n') {
            sheet[count++] = byte;
        }
        column = byte == '\n' ? 0 : column + 1;
    }
    CHECK(0, count, FONDDRYS_SHORT_SHEET_BYTES);
    CHECK(0, fonddrys_sheet_read(&back, sheet, count), 0);
    SAME(0, back, want);
}

/* A sheet is written and read back. Then a text is put over it, and it is refused. */
static void test_sheets(void)
{
    static const struct {
        size_t place, count;
        const char *text;
        uint32_t want;
    } rows[] = {
        {0, 1199, "V", 11},           {0, 1200, "W", 12},          {1, 1200, "       00", 13},
        {1, 1200, "       -1", 14},   {21, 1200, "       -1", 8},  {30, 1200, "  4194304", 9},
        {39, 1200, "  8375397", 10},  {310, 1201, "L", 11},        {376, 1200, "       -0", 13},
        {376, 1200, "  2097153", 14}, {0, 1127, "V", 11},          {0, 1128, "V", 12},
        {0, 1129, "V", 11},
    };
    static const uint8_t blank[FONDDRYS_SHEET_BYTES + 1];
    const fonddrys_unit unfit = unit_with(-1, 0, 0, 0), unit = unit_with(0, 256000, 403, 831488);
    fonddrys_unit back = unfit;
    uint8_t sheet[FONDDRYS_SHEET_BYTES + 1] = {0};
    CHECK(0, fonddrys_sheet_write(&unit, sheet, FONDDRYS_SHEET_BYTES - 1), 0);
    CHECK(0, fonddrys_sheet_write(&unfit, sheet, sizeof sheet), 0);
    SAME(0, sheet, blank);
    CHECK(0, fonddrys_sheet_write(&unit, sheet, sizeof sheet), FONDDRYS_SHEET_BYTES);
    CHECK(0, memcmp(sheet + 310, "L   256000        0        0\nS      403 ", 40), 0);
    CHECK(0, memcmp(sheet + 376, "   831488\nS", 11), 0);
    CHECK(0, sheet[FONDDRYS_SHEET_BYTES], 0);
    CHECK(0, fonddrys_sheet_read(&back, sheet, FONDDRYS_SHEET_BYTES), 0);
    SAME(0, back, unit);
    CHECK(0, fonddrys_unit_fit(&back), 1);
    CHECK(0, fonddrys_unit_fit(&unfit), 0);
    for (size_t i = 0; i < COUNT(rows); i++) {
        uint8_t changed[sizeof sheet];
        back = unfit;
        memcpy(changed, sheet, sizeof sheet);
        memcpy(changed + rows[i].place, rows[i].text, strlen(rows[i].text));
        CHECK(i, fonddrys_sheet_read(&back, changed, rows[i].count), rows[i].want);
        SAME(i, back, unfit);
    }
}

/* The file of a frame is written and read back. Then a text is put over it, and it is refused. */
static void test_waves(void)
{
    static const struct {
        size_t place, count;
        const char *text;
        uint32_t want;
    } rows[] = {
        {0, 48, "RIFX", 16},  {0, 11, "RIFF", 16}, {22, 48, "\1", 17}, {36, 48, "DATA", 18},
        {40, 48, "\10", 18}, {40, 48, "\3", 5},
    };
    static const uint8_t blank[49], frame[4] = {232, 3, 0, 0};
    static const uint8_t file[49] = "RIFF(\0\0\0WAVEfmt \20\0\0\0\1\0\2\0\104\254\0\0"
                                    "\20\261\2\0\4\0\20\0data\4\0\0\0\350\3\0";
    uint8_t buffer[49] = {0};
    const size_t most = FONDDRYS_WAVE_DATA_MAX;
    uint8_t *many = calloc(most + 4, 1); /* takes no memory as long as nothing is written to it */
    CHECK(0, many != NULL, 1);
    if (many != NULL) {
        CHECK(0, fonddrys_wave_write(many, most, buffer, sizeof buffer), 6);
        CHECK(0, fonddrys_wave_write(many, most + 4, buffer, sizeof buffer), 5);
        free(many);
    }
    CHECK(0, fonddrys_wave_write(frame, 3, buffer, 2), 5);
    CHECK(0, fonddrys_wave_write(frame, 4, buffer, 47), 6);
    SAME(0, buffer, blank);
    CHECK(0, fonddrys_wave_write(frame, 4, buffer, sizeof buffer), 0);
    SAME(0, buffer, file);
    CHECK(0, fonddrys_wave_refusal(file, 48), 0);
    CHECK(0, fonddrys_wave_from(file, 48), FONDDRYS_WAVE_HEADING_BYTES);
    CHECK(0, fonddrys_wave_size(file, 48), 4);
    for (size_t i = 0; i < COUNT(rows); i++) {
        uint8_t changed[sizeof file];
        memcpy(changed, file, sizeof file);
        memcpy(changed + rows[i].place, rows[i].text, strlen(rows[i].text));
        memcpy(buffer, changed, sizeof file);
        CHECK(i, fonddrys_wave_refusal(changed, rows[i].count), rows[i].want);
        CHECK(i, fonddrys_wave_from(changed, rows[i].count), 0);
        CHECK(i, fonddrys_wave_size(changed, rows[i].count), 0);
        SAME(i, changed, buffer);
    }
}

/* Steps with A = 2^22 and G = 5, so that S is 2^22 * (x - x2) + 5 * y1: one that limits and leaves 5,
 * and one that leaves -5. Then a refused one for each number. */
static void test_section(void)
{
    static const struct {
        fonddrys_section section;
        int32_t x, y, remainder;
        uint32_t limited, refusal;
        fonddrys_section after;
    } rows[] = {
        {{4194304, 0, 5, 7, -1, 1, 0}, 8388607, 8388607, 5, 1, 0,
         {4194304, 0, 5, 8388607, 7, 8388607, 1}},
        {{4194304, 0, 5, 7, 1, -1, 0}, 3, 2, -5, 0, 0, {4194304, 0, 5, 3, 7, 2, -1}},
        {{-1, 0, 0, 0, 0, 0, 0}, 0, 0, 0, 0, 8, {-1, 0, 0, 0, 0, 0, 0}},
        {{0, 4194304, 0, 0, 0, 0, 0}, 0, 0, 0, 0, 9, {0, 4194304, 0, 0, 0, 0, 0}},
        {{0, 0, 4194304, 0, 0, 0, 0}, 0, 0, 0, 0, 10, {0, 0, 4194304, 0, 0, 0, 0}},
        {{1, 2, 3, 4, 5, 6, 8388608}, 0, 0, 0, 0, 15, {1, 2, 3, 4, 5, 6, 8388608}},
    };
    for (size_t i = 0; i < COUNT(rows); i++) {
        fonddrys_section section = rows[i].section;
        fonddrys_step step = fonddrys_section_step(&section, rows[i].x);
        CHECK(i, step.y, rows[i].y);
        CHECK(i, step.remainder, rows[i].remainder);
        CHECK(i, step.limited, rows[i].limited);
        CHECK(i, step.refusal, rows[i].refusal);
        SAME(i, section, rows[i].after);
    }
}

static void test_preview(void)
{
    static const struct {
        int32_t alpha, beta, gamma, words[2];
        size_t result_count, remainder_count;
        uint32_t want;
        int32_t results[3], remainders[3];
    } rows[] = {
        {6606, 4181093, 8375315, {256000, 256000}, 3, 2, 0, {403, 1208, 7}, {831488, -331287, 9}},
        {6606, 4181093, 8375315, {256000, 256000}, 2, 3, 0, {403, 1208, 7}, {831488, -331287, 9}},
        {-1, 0, 0, {0, 8388608}, 1, 1, 8, {7, 7, 7}, {9, 9, 9}},
        {0, 4194304, 0, {0, 8388608}, 1, 1, 9, {7, 7, 7}, {9, 9, 9}},
        {0, 0, 4194304, {0, 8388608}, 1, 1, 10, {7, 7, 7}, {9, 9, 9}},
        {1, 2, 3, {0, 8388608}, 1, 3, 6, {7, 7, 7}, {9, 9, 9}},
        {1, 2, 3, {0, 8388608}, 3, 1, 6, {7, 7, 7}, {9, 9, 9}},
        {1, 2, 3, {0, 8388608}, 2, 2, 15, {7, 7, 7}, {9, 9, 9}},
    };
    for (size_t i = 0; i < COUNT(rows); i++) {
        int32_t results[3] = {7, 7, 7}, remainders[3] = {9, 9, 9};
        uint32_t refusal =
            fonddrys_preview(rows[i].alpha, rows[i].beta, rows[i].gamma, rows[i].words, 2, results,
                             rows[i].result_count, remainders, rows[i].remainder_count);
        CHECK(i, refusal, rows[i].want);
        SAME(i, results, rows[i].results);
        SAME(i, remainders, rows[i].remainders);
    }
}

int main(void)
{
    test_arithmetic();
    test_bands();
    test_orders();
    test_blocks();
    test_remainders();
    test_short_sheet();
    test_sheets();
    test_waves();
    test_section();
    test_preview();
    printf("library.c: %u checks, %u failed\n", checks, failures);
    return failures == 0 ? 0 : 1;
}
