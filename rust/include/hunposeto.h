/* The proved reader, check, lowering and layout as C functions: the exports of the crate `bridge_c`.
 *
 * A slice is an address and a count of elements; an address is never null, also where the count is 0. What is lent for
 * writing may not overlap anything else that is lent to the same call. Nothing lent is kept.
 *
 * Each function answers a code: 0 where all is good, else the number of the refusal (docs/FORMAT.md). It fills `out` on
 * every call: with the parts named below, or with the refusal's place. What is left of the six is 0.
 * A refusal leaves every other lent thing as it was.
 *
 * Among doubles there is one NaN. Where `out` has the bits of a double (hunposeto_angle, hunposeto_point, hunposeto_circle and
 * hunposeto_arc), a NaN is 7ff8000000000000, whatever its bits were. Which bits a NaN has in `values` is not told.
 * Records and rows hold bits and not doubles, and a row has those of its record. */
#ifndef HUNPOSETO_H
#define HUNPOSETO_H

#include <stddef.h>
#include <stdint.h>

#ifdef __cplusplus
extern "C" {
#endif

#define HUNPOSETO_PARTS 6
#define HUNPOSETO_RECORD 28        /* bytes of a record */
#define HUNPOSETO_MOST_RECORDS 1800
#define HUNPOSETO_ROW 44           /* bytes of a row */

/* Reads a page, which may leave text over; the second, the whole text. out: instructions, guesses, stop place. */
uint64_t hunposeto_read(const uint8_t *text, size_t text_len, uint8_t *records, size_t records_len, uint64_t out[6]);
uint64_t hunposeto_read_whole(const uint8_t *text, size_t text_len, uint8_t *records, size_t records_len, uint64_t out[6]);

/* Label q, from 0, of the 28 bytes of one record. out: its start in the text and its length. The code is always 0; a bad
 * record or label number has the empty part 0, 0. */
uint64_t hunposeto_label(const uint8_t *text, size_t text_len, const uint8_t *record, size_t record_len, size_t q, uint64_t out[6]);

/* The angle of the 28 bytes of one record. out: 1 for degrees or 2 for radians, the bits of the number. */
uint64_t hunposeto_angle(const uint8_t *text, size_t text_len, const uint8_t *record, size_t record_len, uint64_t out[6]);

/* The check of a drawing. out: points, circles, arcs, rows. */
uint64_t hunposeto_check(const uint8_t *text, size_t text_len, const uint8_t *records, size_t records_len, uint64_t out[6]);

/* Lowers a drawing from the next id. out: points, circles, arcs, stage, next id, rows. It fills 2 * points + 3 * circles + 6 * arcs
 * slots, each with an id and a value, and HUNPOSETO_ROW bytes for each row. */
uint64_t hunposeto_lower(const uint8_t *text, size_t text_len, const uint8_t *records, size_t records_len, uint32_t next,
                         uint32_t *ids, size_t ids_len, double *values, size_t values_len, uint8_t *rows, size_t rows_len,
                         uint64_t out[6]);

/* A layout is its counts and its stage: 0 points, 1 circles, 2 arcs, 3 done. The empty one is 0, 0, 0, 0. */

/* Pushes. out: points, circles, arcs, stage, next id. */
uint64_t hunposeto_push_point(size_t points, size_t circles, size_t arcs, size_t stage, uint32_t next, uint32_t *ids, size_t ids_len,
                              double *values, size_t values_len, double x, double y, uint64_t out[6]);
uint64_t hunposeto_push_circle(size_t points, size_t circles, size_t arcs, size_t stage, uint32_t next, uint32_t *ids, size_t ids_len,
                               double *values, size_t values_len, double x, double y, double radius, uint64_t out[6]);
uint64_t hunposeto_push_arc(size_t points, size_t circles, size_t arcs, size_t stage, uint32_t next, uint32_t *ids, size_t ids_len,
                            double *values, size_t values_len, double ax, double ay, double bx, double by, double cx, double cy,
                            uint64_t out[6]);

/* The next stage. out: points, circles, arcs, stage. */
uint64_t hunposeto_done(size_t points, size_t circles, size_t arcs, size_t stage, uint64_t out[6]);

/* The ids of shape i. out: x, y of a point; center x, y and radius of a circle; x, y of start, end and center of an arc.
 * hunposeto_arc_ids looks right after the points, as the old program does; hunposeto_arc_slot_ids where the arcs are. */
uint64_t hunposeto_point_ids(size_t points, size_t circles, size_t arcs, size_t stage, const uint32_t *ids, size_t ids_len, size_t i, uint64_t out[6]);
uint64_t hunposeto_circle_ids(size_t points, size_t circles, size_t arcs, size_t stage, const uint32_t *ids, size_t ids_len, size_t i, uint64_t out[6]);
uint64_t hunposeto_arc_ids(size_t points, size_t circles, size_t arcs, size_t stage, const uint32_t *ids, size_t ids_len, size_t i, uint64_t out[6]);
uint64_t hunposeto_arc_slot_ids(size_t points, size_t circles, size_t arcs, size_t stage, const uint32_t *ids, size_t ids_len, size_t i, uint64_t out[6]);

/* Shape i read out of the values. out: the bits of its numbers, in the order of its ids. */
uint64_t hunposeto_point(size_t points, size_t circles, size_t arcs, size_t stage, const double *values, size_t values_len, size_t i, uint64_t out[6]);
uint64_t hunposeto_circle(size_t points, size_t circles, size_t arcs, size_t stage, const double *values, size_t values_len, size_t i, uint64_t out[6]);
uint64_t hunposeto_arc(size_t points, size_t circles, size_t arcs, size_t stage, const double *values, size_t values_len, size_t i, uint64_t out[6]);

#ifdef __cplusplus
}
#endif

#endif
