/* Fonddrys, a ten-band stereo equaliser for sound archives: the C interface of its static
 * library, libexports.a. C99 or C++; the archive needs memcpy and memset, and nothing else.
 *
 * In these comments a word is a whole number from -8,388,608 to 8,388,607 (24 bits, unit 2^-23);
 * "rounded" is to the nearest whole number, halves to even; "limited" is brought into a range.
 *
 * What holds for every routine:
 *
 * - Each answers every value of its arguments. A bad one gets a refusal, by its number: the first
 *   that applies, in the order in which the routine's comment lists them. A refused call changes
 *   nothing that was lent to it, except that fonddrys_load then stores the cleared house unit.
 * - No pointer is null, and each is aligned for its type. A list is a pointer and a count of its
 *   entries; with a count of 0 the pointer still isn't null, and nothing is read or written there.
 * - What is lent in one call doesn't overlap: a block can't be played in place.
 * - Nothing is allocated, nothing lent is kept after the call, and nothing is global. Threads may
 *   call at once, each on a unit and buffers of its own.
 * - Blocks, previews and orders by factor are worked in double precision. They need what a C
 *   program finds at its start, rounding to nearest and no traps; what is rounded raises the
 *   inexact flag. Flush-to-zero and denormals-are-zero may be set, and every result is the same,
 *   but that with the second the volume takes a subnormal factor below zero for zero, which is
 *   refused without it. A host that changes the rounding mode gets samples, results, remainders and
 *   targets other than those promised, and nothing worse: answers are the same, units stay fit, and
 *   nothing else is written. */
#ifndef FONDDRYS_H
#define FONDDRYS_H

#include <stddef.h>
#include <stdint.h>

#ifdef __cplusplus
extern "C" {
#endif

enum {
    FONDDRYS_BANDS = 10,               /* of a unit; each side has a section for each */
    FONDDRYS_FEEDBACK_BANDS = 4,       /* those from band 0 on that feed their remainder back */
    FONDDRYS_SET_NUMBERS = 30,         /* of a band set: A, B, G of each band in turn */
    FONDDRYS_UNIT_NUMBERS = 138,       /* of a unit */
    FONDDRYS_SHEET_BYTES = 1200,       /* of a strip sheet */
    FONDDRYS_SHORT_SHEET_BYTES = 1128, /* of one without remainders, which is still read */
    FONDDRYS_FRAME_BYTES = 4,          /* left, then right, signed 16 bits each, low byte first */
    FONDDRYS_WAVE_HEADING_BYTES = 44,  /* of a wave file as it is written */
    FONDDRYS_WORD_MIN = -8388608,
    FONDDRYS_WORD_MAX = 8388607,
    FONDDRYS_POSITION_MAX = 31,
    FONDDRYS_GAIN_SLOPE = 839,         /* how far a gain moves in a frame */
    FONDDRYS_VOLUME_SLOPE = 419        /* how far the volume does */
};

/* The side and the band that a level order names. */
enum {
    FONDDRYS_LEFT = 0,
    FONDDRYS_RIGHT = 1,
    FONDDRYS_BOTH = 2,
    FONDDRYS_VOLUME = 10 /* in place of a band, with FONDDRYS_BOTH only */
};

/* The answers, by the refusal's number. */
enum {
    FONDDRYS_ACCEPTED = 0,
    FONDDRYS_NO_PLACE = 1,      /* no such side and band */
    FONDDRYS_POSITION_OVER = 2, /* position over 31 */
    FONDDRYS_NOT_FINITE = 3,    /* factor not finite */
    FONDDRYS_FACTOR_RANGE = 4,  /* factor outside its range */
    FONDDRYS_INPUT_LENGTH = 5,  /* input bytes no multiple of four; too many for a wave file */
    FONDDRYS_OUTPUT_SHORT = 6,  /* output, or a preview's buffer, too short for what it is to hold */
    FONDDRYS_SET_LENGTH = 7,    /* a set that isn't thirty numbers */
    FONDDRYS_ALPHA = 8,         /* A isn't from 0 to 8,388,607 */
    FONDDRYS_BETA = 9,          /* B isn't from -4,194,303 to 4,194,303 */
    FONDDRYS_GAMMA = 10,        /* |G| isn't less than 4,194,304 + B */
    FONDDRYS_SHEET_LENGTH = 11, /* a sheet that is neither 1,200 nor 1,128 bytes */
    FONDDRYS_LINE_MARK = 12,    /* wrong letter or line end */
    FONDDRYS_FIELD_FORM = 13,   /* field badly written */
    FONDDRYS_UNFIT = 14,        /* number outside its range, in a sheet or in a unit */
    FONDDRYS_NOT_WORD = 15,     /* a number that is no word */
    FONDDRYS_NO_WAVE = 16,      /* no RIFF or WAVE heading */
    FONDDRYS_WAVE_FORMAT = 17,  /* fmt chunk that differs, isn't whole, or is missing */
    FONDDRYS_NO_DATA = 18       /* no data chunk, or one that isn't whole */
};

/* ---- Units and band sets ------------------------------------------------------------------ */

/* A unit: 138 numbers, in the order below. The library takes the address of the first number,
 * which is the struct's own. A unit is copied by assignment, holds no pointer, and needs no
 * release. It is fit where each number has its range.
 *
 *   from  numbers                               range
 *      0  volume, its target                    0 to 8,388,607
 *      2  A, B, G of each of ten bands          an accepted band (8, 9 and 10 above)
 *     32  left: x1, x2                          words, multiples of 256
 *     34  left: flag                            0; 1 from the first time a section limited
 *     35  left, of each of ten sections:
 *         y1, y2, gain, its target,             words
 *         remainder                             -2,097,152 to 2,097,152 in bands 0 to 3;
 *                                               0 in bands 4 to 9
 *     85  right: the same 53 numbers as from 32 */
typedef struct {
    int32_t numbers[FONDDRYS_UNIT_NUMBERS];
} fonddrys_unit;

/* Where a number stands in a unit; band is 0 to 9, side 0 or 1. */
#define FONDDRYS_AT_VOLUME 0
#define FONDDRYS_AT_VOLUME_TARGET 1
#define FONDDRYS_AT_ALPHA(band) (2 + 3 * (band))
#define FONDDRYS_AT_BETA(band) (3 + 3 * (band))
#define FONDDRYS_AT_GAMMA(band) (4 + 3 * (band))
#define FONDDRYS_AT_X1(side) (32 + 53 * (side))
#define FONDDRYS_AT_X2(side) (33 + 53 * (side))
#define FONDDRYS_AT_FLAG(side) (34 + 53 * (side))
#define FONDDRYS_AT_Y1(side, band) (35 + 53 * (side) + 5 * (band))
#define FONDDRYS_AT_Y2(side, band) (36 + 53 * (side) + 5 * (band))
#define FONDDRYS_AT_GAIN(side, band) (37 + 53 * (side) + 5 * (band))
#define FONDDRYS_AT_GAIN_TARGET(side, band) (38 + 53 * (side) + 5 * (band))
#define FONDDRYS_AT_REMAINDER(side, band) (39 + 53 * (side) + 5 * (band))

/* 0 for an accepted band, else 8, 9 or 10. */
uint32_t fonddrys_band_refusal(int32_t alpha, int32_t beta, int32_t gamma);

/* Fills set with the house set: 31, 62, 125, 250, 500, 1000, 2000, 4000, 8000 and 16000 Hz. */
void fonddrys_house_set(int32_t set[FONDDRYS_SET_NUMBERS]);

/* Loads a band set of count numbers: unit, whose contents aren't read, is then the cleared unit
 * that holds the set, all its other numbers 0. Its volume being 0, it is silent until an order.
 * Answers 0, or 7; then, band by band, 8, 9, 10. Refused, unit is the cleared house unit. */
uint32_t fonddrys_load(fonddrys_unit *unit, const int32_t *set, size_t count);

/* 1 where the unit is fit, else 0. */
uint32_t fonddrys_unit_fit(const fonddrys_unit *unit);

/* ---- Level orders ------------------------------------------------------------------------- */

/* An order sets the target of a band's gain, on the named side or on both, or that of the volume;
 * in each frame played from then on, the level moves towards it. side is 0 to 2 and band 0 to 9,
 * or side 2 and band 10 for the volume. */

/* To a position, 0 to 31. The target of a band is (position - 16) times 558,681 from 16 up, and
 * times 104,857 below; that of the volume is position times 270,600. Answers 0, or 14, 1, 2. */
uint32_t fonddrys_order_position(fonddrys_unit *unit, uint32_t side, uint32_t band,
                                 uint8_t position);

/* To a factor, from -1 to below 1 for a band and from 0 to below 1 for the volume; minus zero is
 * zero. The target is factor times 2^23, rounded, limited to 8,388,607.
 * Answers 0, or 14, 1, 3, 4. */
uint32_t fonddrys_order_factor(fonddrys_unit *unit, uint32_t side, uint32_t band, float factor);

/* To mute. The target of a band is -8,388,608: a band of the house set then nearly cancels the
 * sound at its centre. That of the volume is 0. Answers 0, or 14, 1. */
uint32_t fonddrys_order_mute(fonddrys_unit *unit, uint32_t side, uint32_t band);

/* ---- Blocks of frames --------------------------------------------------------------------- */

/* Plays a block of frames through the unit. input_count, in bytes, is a multiple of 4, and may be
 * 0; output_count is at least that. As many bytes of output are then the sound; those behind keep
 * their contents. A sound gives the same bytes however it is divided into blocks. The sections of
 * bands 0 to 3 feed their remainder back: it is added to S in the next frame, and a frame in which
 * the section limits leaves 0. Answers 0, or 14, 5, 6. */
uint32_t fonddrys_block(fonddrys_unit *unit, const uint8_t *input, size_t input_count,
                        uint8_t *output, size_t output_count);

/* ---- Strip sheets ------------------------------------------------------------------------- */

/* Writes the unit's sheet to the front of buffer, and gives the count of its bytes, 1,200; those
 * behind keep their contents. From a buffer of fewer bytes (count), or for an unfit unit, it gives
 * 0 and writes nothing. */
size_t fonddrys_sheet_write(const fonddrys_unit *unit, uint8_t *buffer, size_t count);

/* Reads a sheet of count bytes, 1,200 or 1,128: unit, whose contents aren't read, is then the one
 * that it carries. A sheet of 1,128 bytes carries no remainders, and they are 0. Answers 0, or 11;
 * then, from the first byte on, 12, 13 or 14; a C line is tested for 8, 9, 10 after its three
 * fields, in place of 14 and ahead of its line end. */
uint32_t fonddrys_sheet_read(fonddrys_unit *unit, const uint8_t *bytes, size_t count);

/* ---- Wave files --------------------------------------------------------------------------- */

/* RIFF/WAVE files of PCM (format 1), two sides, 44,100 frames a second and 16 bits. Their data is
 * frames as a block takes them. */

/* The most bytes of data that a file is written with. */
#define FONDDRYS_WAVE_DATA_MAX 4294967256u

/* Reads a file of count bytes: 0 where its data can be played, else the refusal's number. The first
 * fmt chunk and the first data chunk count. Other chunks are passed over, and the pad byte behind
 * each odd size; the RIFF size isn't used. A fmt chunk fits with 16 bytes or more, 176,400 bytes a
 * second and four bytes a frame. Answers 0, or 16; then 17 where fmt doesn't fit, runs past the
 * file, or isn't there when data comes; 18 where the file ends without data, or data runs past it;
 * 5 where data is no multiple of four bytes. */
uint32_t fonddrys_wave_refusal(const uint8_t *file, size_t count);

/* Where the data begins, in bytes from the front of the file; 0 after a refusal. */
size_t fonddrys_wave_from(const uint8_t *file, size_t count);

/* The count of the data's bytes, which may be 0; 0 after a refusal too. */
size_t fonddrys_wave_size(const uint8_t *file, size_t count);

/* Writes a file to the front of buffer: a plain heading of 44 bytes, then the frames. Bytes behind
 * keep their contents. Answers 0, or 5 where frames_count, in bytes, is no multiple of four or more
 * than FONDDRYS_WAVE_DATA_MAX; then 6 where buffer_count is less than 44 + frames_count. */
uint32_t fonddrys_wave_write(const uint8_t *frames, size_t frames_count, uint8_t *buffer,
                             size_t buffer_count);

/* ---- A section alone ---------------------------------------------------------------------- */

/* A section: its band, the two earlier inputs and the two earlier results. Cleared, the last four
 * are 0. The library takes it as seven numbers in this order. */
typedef struct {
    int32_t alpha, beta, gamma;
    int32_t x1, x2;
    int32_t y1, y2;
} fonddrys_section;

/* No padding: else the section isn't seven numbers, and this array has no size. */
typedef char fonddrys_section_is_seven_numbers[sizeof(fonddrys_section) == 28 ? 1 : -1];

/* What a step gives. */
typedef struct {
    int32_t y;         /* the result, a word */
    int32_t remainder; /* what rounding took, from -2,097,152 to 2,097,152 */
    uint32_t limited;  /* 1 where the section has limited, else 0 */
    uint32_t refusal;  /* 0; else the refusal's number, and the three above are 0 */
} fonddrys_step;

/* No padding: else the answer isn't four numbers, and this array has no size. */
typedef char fonddrys_step_is_four_numbers[sizeof(fonddrys_step) == 16 ? 1 : -1];

/* Steps the section on x, a word. With S = A * (x - x2) + G * y1 - B * y2, y is S / 2^22, rounded,
 * then limited to a word. The remainder is S less 2^22 times the rounded number, before limiting;
 * a section alone doesn't keep it, and feeds none back. Refusals: 8, 9, 10, then 15 where x, x1,
 * x2, y1 or y2 is no word. */
fonddrys_step fonddrys_section_step(fonddrys_section *section, int32_t x);

/* ---- The floating preview ----------------------------------------------------------------- */

/* Previews a section: the results and the remainders of the band's section, from a cleared start,
 * over a list of words, worked in floating point and equal to those of fonddrys_section_step. They
 * fill the fronts of results and of remainders; entries behind keep their contents. Answers 0, or
 * 8, 9, 10, then 6 where result_count or remainder_count is less than word_count, then 15 where a
 * number of the list is no word. */
uint32_t fonddrys_preview(int32_t alpha, int32_t beta, int32_t gamma, const int32_t *words,
                          size_t word_count, int32_t *results, size_t result_count,
                          int32_t *remainders, size_t remainder_count);

/* ---- Arithmetic --------------------------------------------------------------------------- */

/* v / 2^shift, rounded; shift is any number. */
int64_t fonddrys_nearest(int64_t v, uint32_t shift);

/* low where v is less than low, else high where v is more than high, else v. */
int64_t fonddrys_limit(int64_t low, int64_t high, int64_t v);

/* A level's present number moved towards its target by slope, or by the whole distance where that
 * is less. */
int32_t fonddrys_level_moved(int32_t present, int32_t target, uint32_t slope);

#ifdef __cplusplus
}
#endif

#endif
