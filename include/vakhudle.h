/* The block coder's C interface. Link target/staticlib/libabi.a, which `rt staticlib abi` proves and writes.
 *
 * Every function returns 0 or a count where the call is accepted, and minus one of the numbers below where it is refused; a refused call
 * changes no byte that it was lent. A slice is a pointer and a length; the pointer is not null, also where the length is 0. Slices that a
 * function writes may not overlap with any other of the same call. */
#ifndef VAKHUDLE_H
#define VAKHUDLE_H

#include <stddef.h>
#include <stdint.h>

#ifdef __cplusplus
extern "C" {
#endif

enum vakhudle_refusal {
    VAKHUDLE_FIELD_NUMBER = 1,      /* the field number is not 2 to 9 */
    VAKHUDLE_CURVE_COEFFICIENT = 2, /* a coefficient of the curve is not below q */
    VAKHUDLE_SINGULAR = 3,          /* the curve is singular */
    VAKHUDLE_POINT_COUNT = 4,       /* n is not 2 to 288, or the coordinate lists differ in length */
    VAKHUDLE_OFF_CURVE = 5,         /* a point is outside the field or off the curve */
    VAKHUDLE_REPEATED_POINT = 6,    /* a point is listed twice */
    VAKHUDLE_DIMENSION = 7,         /* k is not 1 to n - 1 */
    VAKHUDLE_LENGTH = 8,            /* a lent list or buffer has the wrong length */
    VAKHUDLE_PLACE = 9,             /* a place is not 1 to n */
    VAKHUDLE_REPEATED_PLACE = 10,   /* a place stands twice */
    VAKHUDLE_SYMBOL = 11,           /* a symbol or coefficient is not below q */
    VAKHUDLE_DEPENDENT = 12,        /* the places are dependent */
    VAKHUDLE_TOO_FEW = 13,          /* there are fewer than k places */
    VAKHUDLE_NO_CODEWORD = 14,      /* no codeword agrees */
    VAKHUDLE_INDEPENDENT = 15,      /* the places are not dependent */
    VAKHUDLE_READING = 16,          /* a reading or mean is out of range */
    VAKHUDLE_NEVER_PACKED = 17,     /* bits that packing never writes */
    VAKHUDLE_STAMP_ORDER = 18,      /* a stamp is not greater than the one before */
    VAKHUDLE_HOUR = 19,             /* an hour is out of range */
    VAKHUDLE_SHEET_SHAPE = 20,      /* a job sheet of another shape */
    VAKHUDLE_TOO_FAR = 21,          /* no codeword is near enough */
    VAKHUDLE_NO_RUN = 22,           /* no run of hours gives the rolling state, or the hour is not the next */
    VAKHUDLE_BUDGET = 23            /* the budget is not 1 to 65,535 */
};

/* Field number m, 2 to 8, is the field of q = 2^m elements, whose symbols have m bits, with the modulus 7, B, 13, 25, 43, 89, 11D (hexadecimal). Field
 * number 9 is the other field of 256 elements, with the modulus 11B; its symbols have 8 bits. */

/* The products of two lists of symbols, element by element: out[i] = a[i] * b[i] in the field. Refuses 1, then 8 if the lengths differ. */
int32_t vakhudle_products(uint8_t field, const uint8_t *a, size_t a_len, const uint8_t *b, size_t b_len, uint8_t *out, size_t out_len);

/* All affine points of the curve Y^2 + g1 XY + g3 Y = X^3 + g2 X^2 + g4 X + g6, by X, then Y. Both buffers hold 288 bytes; those past the count
 * keep their values. Returns the count. Refuses 1, 2, 3, 8. */
int32_t vakhudle_points(uint8_t field, uint8_t g1, uint8_t g2, uint8_t g3, uint8_t g4, uint8_t g6, uint8_t *xs, size_t xs_len, uint8_t *ys,
                        size_t ys_len);

/* The mean of an hour with fewer than 45 readings. */
#define VAKHUDLE_ABSENT 32767

/* The means of means_out_len hours, at most 153, from the hour first on. Stamps are minutes, ascending, and name the
 * minute's end: hour h holds stamps 60h + 1 to 60h + 60, and stamp 0 is in no hour. Readings and means are tenths of a degree, -2,000 to 20,000; halves
 * are rounded away from zero. Refuses 8, 19 (first above 71,000,000), 18, 19 (a stamp outside the hours), 16, each sought over the whole list before
 * the next. */
int32_t vakhudle_means(const uint32_t *stamps, size_t stamps_len, const int16_t *readings, size_t readings_len, uint32_t first,
                       int16_t *means_out, size_t means_out_len);

/* The length of a rolling state, which is all that a rolling mean needs of a run of hours. Bytes 0 to 47 have the means of the last 24 hours, the newest
 * first, two bytes each, in Pack's 15 bits: the mean plus 2,000, or 32,767 where it is absent, as it is for hours before the first. Bytes 48 to 55 have
 * the number of the hour that comes next, 1 to 4,294,967,296, and 0 before the first hour. Bytes 56 to 63 are 0. All numbers have their lowest byte first.
 * A state has no second form: bytes that no run gives, 64 zeros among them, are refused as 22. States stay in service over later versions. */
#define VAKHUDLE_ROLLING_STATE 64

/* The state before the first hour. Refuses 8. */
int32_t vakhudle_rolling_fresh(uint8_t *state_out, size_t state_out_len);

/* The next hour, with its mean or VAKHUDLE_ABSENT: replaces the state by the new one, and writes the rolling mean, the only entry of rolling_out. It
 * is the mean of the present hours among the last 24, this one included, or among all so far if they are fewer; rounded as an hourly mean is, and
 * VAKHUDLE_ABSENT where fewer than 18 are present. The first hour is at most 71,000,000, and each later one is one more than the last, up to
 * 4,294,967,295. Refuses 8, 16 (a mean out of range and not VAKHUDLE_ABSENT), 22 (no run of accepted hours, not even an empty one, gives the state, or
 * the hour is not the next). */
int32_t vakhudle_rolling(uint8_t *state, size_t state_len, uint32_t hour, int16_t mean, int16_t *rolling_out, size_t rolling_out_len);

/* The least length of the buffer for the answer to a job sheet: no answer is longer. */
#define VAKHUDLE_SHEET_ROOM 4096

/* The answer to a job sheet, which may be any bytes: its text at the front of out, and its length. A sheet that is refused is answered in the text;
 * the call refuses 8 alone, an out of less than VAKHUDLE_SHEET_ROOM bytes. */
int32_t vakhudle_sheet(const uint8_t *text, size_t text_len, uint8_t *out, size_t out_len);

/* A code is a field, a curve, the n points of the places 1 to n, and a dimension k. Every function below takes one, tests it first, and
 * refuses 1, 2, 3, 4, 5, 6, 7 in this order: "code". */

/* The n symbols of the function with these k coefficients, in order of weight: 1, X, Y, X^2, XY, .. Refuses code, 8, 11. */
int32_t vakhudle_plain(uint8_t field, uint8_t g1, uint8_t g2, uint8_t g3, uint8_t g4, uint8_t g6, const uint8_t *xs, size_t xs_len,
                       const uint8_t *ys, size_t ys_len, size_t k, const uint8_t *coefficients, size_t coefficients_len, uint8_t *symbols_out,
                       size_t symbols_out_len);

/* The heard places, ascending. The mask has 40 bytes, place p at bit (p - 1) mod 8, lowest bit 0, of byte (p - 1) div 8; the buffer holds 288
 * places, and those past the count keep their values. Returns the count. Refuses code, 8, 9 (a set bit past n). */
int32_t vakhudle_heard(uint8_t field, uint8_t g1, uint8_t g2, uint8_t g3, uint8_t g4, uint8_t g6, const uint8_t *xs, size_t xs_len,
                       const uint8_t *ys, size_t ys_len, size_t k, const uint8_t *mask, size_t mask_len, uint16_t *places_out,
                       size_t places_out_len);

/* Packs k * b div 15 means, 15 bits each, into k symbols of b bits: b is the field number, and 8 for field 9. Refuses code, 8, 16 (a mean out of
 * range and not VAKHUDLE_ABSENT). */
int32_t vakhudle_pack(uint8_t field, uint8_t g1, uint8_t g2, uint8_t g3, uint8_t g4, uint8_t g6, const uint8_t *xs, size_t xs_len,
                      const uint8_t *ys, size_t ys_len, size_t k, const int16_t *means, size_t means_len, uint8_t *symbols_out,
                      size_t symbols_out_len);

/* The k * b div 15 means that were packed into k symbols of b bits. Refuses code, 8, 11, 17. */
int32_t vakhudle_unpack(uint8_t field, uint8_t g1, uint8_t g2, uint8_t g3, uint8_t g4, uint8_t g6, const uint8_t *xs, size_t xs_len,
                        const uint8_t *ys, size_t ys_len, size_t k, const uint8_t *symbols, size_t symbols_len, int16_t *means_out,
                        size_t means_out_len);

/* The functions from here on are lent a working space of VAKHUDLE_WORKING_SPACE bytes or more, with any content. After acceptance that many of
 * its bytes are zero and the rest is untouched; a shorter one is refused as 8. A place p is the p-th point, from 1 on; the message symbol at
 * index i belongs to the i-th place of its list. */
#define VAKHUDLE_WORKING_SPACE 8192

/* The k coefficients of the codeword with these n symbols. Refuses code, 8, 11, 14. */
int32_t vakhudle_recover(uint8_t field, uint8_t g1, uint8_t g2, uint8_t g3, uint8_t g4, uint8_t g6, const uint8_t *xs, size_t xs_len,
                         const uint8_t *ys, size_t ys_len, size_t k, const uint8_t *symbols, size_t symbols_len, uint8_t *coefficients_out,
                         size_t coefficients_out_len, uint8_t *work, size_t work_len);

/* The k coefficients of the function whose value at the i-th of k places, in any order, is the i-th symbol of the message. Refuses code, 8, 9,
 * 10, 11, 12. */
int32_t vakhudle_systematic_function(uint8_t field, uint8_t g1, uint8_t g2, uint8_t g3, uint8_t g4, uint8_t g6, const uint8_t *xs, size_t xs_len,
                                     const uint8_t *ys, size_t ys_len, size_t k, const uint16_t *places, size_t places_len,
                                     const uint8_t *message, size_t message_len, uint8_t *coefficients_out, size_t coefficients_out_len,
                                     uint8_t *work, size_t work_len);

/* The n symbols of the codeword whose symbol at the i-th of k places, in any order, is the i-th of the message. Refuses code, 8, 9, 10, 11, 12. */
int32_t vakhudle_systematic_word(uint8_t field, uint8_t g1, uint8_t g2, uint8_t g3, uint8_t g4, uint8_t g6, const uint8_t *xs, size_t xs_len,
                                 const uint8_t *ys, size_t ys_len, size_t k, const uint16_t *places, size_t places_len, const uint8_t *message,
                                 size_t message_len, uint8_t *symbols_out, size_t symbols_out_len, uint8_t *work, size_t work_len);

/* The k rows of n symbols one after the other: row i, from 0 on, is the codeword whose symbol is 1 at the i-th of k places, in any order, and 0 at
 * the others. symbols_out_len is k * n. Refuses code, 8, 9, 10, 12. */
int32_t vakhudle_matrix(uint8_t field, uint8_t g1, uint8_t g2, uint8_t g3, uint8_t g4, uint8_t g6, const uint8_t *xs, size_t xs_len,
                        const uint8_t *ys, size_t ys_len, size_t k, const uint16_t *places, size_t places_len, uint8_t *symbols_out,
                        size_t symbols_out_len, uint8_t *work, size_t work_len);

/* The k coefficients of the function with leading coefficient 1 that is zero at all of k dependent places. Refuses code, 8, 9, 10, 15. */
int32_t vakhudle_relation(uint8_t field, uint8_t g1, uint8_t g2, uint8_t g3, uint8_t g4, uint8_t g6, const uint8_t *xs, size_t xs_len,
                          const uint8_t *ys, size_t ys_len, size_t k, const uint16_t *places, size_t places_len, uint8_t *coefficients_out,
                          size_t coefficients_out_len, uint8_t *work, size_t work_len);

/* Of ranked_len places, best first and at most n, the first k that are not dependent, in their order: ranks 1 to k, or ranks 1 to k - 1 and k +
 * 1. Whatever numbers the ranks are given that never rise, no k of these places that are not dependent have a larger total. Refuses code, 8, 9,
 * 10, 13, 12 (just k places, and dependent). */
int32_t vakhudle_pick(uint8_t field, uint8_t g1, uint8_t g2, uint8_t g3, uint8_t g4, uint8_t g6, const uint8_t *xs, size_t xs_len,
                      const uint8_t *ys, size_t ys_len, size_t k, const uint16_t *ranked, size_t ranked_len, uint16_t *places_out,
                      size_t places_out_len, uint8_t *work, size_t work_len);

/* The n symbols of the codeword that has these symbols at these places, k to n of them. Refuses code, 8, 9, 10, 11, 13, 12 (just k places, and
 * dependent), 14. */
int32_t vakhudle_rebuild(uint8_t field, uint8_t g1, uint8_t g2, uint8_t g3, uint8_t g4, uint8_t g6, const uint8_t *xs, size_t xs_len,
                         const uint8_t *ys, size_t ys_len, size_t k, const uint16_t *places, size_t places_len, const uint8_t *symbols,
                         size_t symbols_len, uint8_t *symbols_out, size_t symbols_out_len, uint8_t *work, size_t work_len);

/* The n symbols of the codeword that differs from the n received ones in at most t places: t is (n - k - 2) div 2, and 0 where n - k is 1. There is
 * never more than one. Returns the count of places changed. Refuses code, 8, 11, 21. */
int32_t vakhudle_correct(uint8_t field, uint8_t g1, uint8_t g2, uint8_t g3, uint8_t g4, uint8_t g6, const uint8_t *xs, size_t xs_len,
                         const uint8_t *ys, size_t ys_len, size_t k, const uint8_t *received, size_t received_len, uint8_t *symbols_out,
                         size_t symbols_out_len, uint8_t *work, size_t work_len);

/* The cheapest codeword within a budget of 1 to 65,535 tries. Each of the n received symbols has a trust, 0 to 255; a codeword costs the total trust of
 * the places where it differs from the received ones. All places are ranked by trust, higher first, equal trust by lower place, and k of them picked as
 * vakhudle_pick does. Tried is the codeword that agrees with the received symbols at the picked places, then those with one picked place changed, then
 * two. Single places go from the last picked to the first, each with its symbol exclusive-or 1, 2 up to q - 1; pairs go by their later picked place,
 * then the earlier, in that same direction, and for each pair by the change at the later place, 1 up to q - 1, and within it by that at the earlier.
 * Of equally cheap codewords the one tried first is written. figures_out has its cost, the tries made, which are the budget or all of these tries if they
 * are fewer, and the gap: the cost less the least total trust that any untried change of picked places has, of however many places, and 0 if that is
 * negative or nothing is untried. No codeword is cheaper by more than the gap, and a larger budget never gives a dearer one. figures_out_len is
 * VAKHUDLE_FIGURES. Refuses code, 8, 11, 23. */
#define VAKHUDLE_FIGURES 3
int32_t vakhudle_best(uint8_t field, uint8_t g1, uint8_t g2, uint8_t g3, uint8_t g4, uint8_t g6, const uint8_t *xs, size_t xs_len,
                      const uint8_t *ys, size_t ys_len, size_t k, const uint8_t *received, size_t received_len, const uint8_t *trusts,
                      size_t trusts_len, uint32_t budget, uint8_t *symbols_out, size_t symbols_out_len, uint32_t *figures_out,
                      size_t figures_out_len, uint8_t *work, size_t work_len);

#ifdef __cplusplus
}
#endif

#endif
