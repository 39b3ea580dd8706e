/* Pozqaben: a router for rows, channels and boxes, and a checker of wirings.
 *
 * Link target/staticlib/libpozqaben.a, which `tools/build staticlib` builds at the top of the repository (x86-64 Linux).
 *
 * Each call writes its answer, number by number, into an array that the caller lends, and returns true. Where the array
 * has fewer than the entries named below, it returns false and alters nothing at all. Entries past those are untouched.
 * The first two entries are always number and place: 0 and 0, or a refusal, whose other entries are 0.
 *
 * The caller sees to it that a pointer is not null, also where its length is 0, and that it leads to as many elements as
 * the length says; that no buffer which a call writes overlaps another of its arguments; and that a bool is 0 or 1.
 *
 *    number   refused because                                              place
 *    1        the ticket ends before a byte that is needed                 the ticket's length
 *    2        byte 0, the kind, is none of 1 to 4                          0
 *    3        byte 1, the length n, is none of 1 to 90                     1
 *    4        byte 2 is none of 1 to 90 (box) or of 1 to 8 (row, channel), 2
 *             or is not 1 (two-layer channel)
 *    5        byte 3, the side map, has a side that the kind has not       3
 *    6        a position map has no bit, or a spare bit                    the map's first byte
 *    7        a net number is none of 1 to 180, nor 0 in a flat ticket     its byte
 *    8        bytes are left over                                          the first
 *    9        a net has one pin                                            the smallest such net
 *    10       the wiring buffer is shorter than n * w * k                  the length needed
 *    11       n is none of 1 to 90, w none of 1 to 90 (of 1 to 157 for a   0
 *             two-layer channel and in a layer view) or not the box's own,
 *             or k none of 1 to 255
 *    12       the wiring's length is not n * w * k                         the right length
 *    13       the scratch is shorter than n * w * k                        the length needed
 *    14       a point of the wiring holds no net of the ticket             the first such point, in buffer order
 *    15       a net is not in one piece                                    the smallest such net
 *    16       the layer is none of 1 to k                                  that layer
 *    17       a two-layer channel is solid: every place is filled, every   0
 *             net has one north and one south pin, and some net's are in
 *             different columns, so no width has a legal wiring
 *    18       a side of the box, n or w, is none of 1 to 90                0
 *    19       the buffer is shorter than what is to be written             the length needed
 *
 * A flat ticket is bytes 0 to 2 of a ticket, then a byte for every place of every side that the kind has, in the order
 * north, south, west, east: its net number, or 0 for an empty place. Of it 1 to 4 and 7 to 9 say the same, with the
 * places counted in its own bytes; it has neither 5 nor 6.
 */
#ifndef POZQABEN_H
#define POZQABEN_H

#include <stdbool.h>
#include <stddef.h>
#include <stdint.h>

#ifdef __cplusplus
extern "C" {
#endif

/* How many entries each call writes. */
enum {
    POZQABEN_READ_ENTRIES = 6,
    POZQABEN_SURVEY_ENTRIES = 11,
    POZQABEN_EDGE_FLOOR_ENTRIES = 4,
    POZQABEN_LAY_ENTRIES = 11,
    POZQABEN_CHECK_ENTRIES = 2,
    POZQABEN_LAYER_VIEW_ENTRIES = 4,
    POZQABEN_HARDEST_BOX_ENTRIES = 3,
    POZQABEN_FLATTEN_ENTRIES = 3,
    POZQABEN_UNFLATTEN_ENTRIES = 3
};

/* A ticket's kind. */
enum { POZQABEN_ROW = 1, POZQABEN_CHANNEL = 2, POZQABEN_BOX = 3, POZQABEN_TWO_LAYER = 4 };

/* A ticket that is not refused has no more bytes, and one byte more than this of any bytes tells how they are read. */
enum { POZQABEN_LONGEST_TICKET = 412 };

/* A flat ticket that is not refused has no more bytes. */
enum { POZQABEN_LONGEST_FLAT = 363 };

/* number, place, kind, n, byte 2, nets */
bool pozqaben_read(const uint8_t *ticket, size_t ticket_length, uint64_t *answer, size_t answer_length);

/* number, place, kind, n, w, nets, pins, across, up, layers, floor; w is the box's own, or the tracks that lay uses for
 * a row or channel, and 0 for a two-layer channel, whose layers are 2, also where it is solid; pins is how many places
 * hold a pin; up and floor are 0 but for boxes. Across and up of a box also count, at the first and the last column and
 * track, the nets whose pins are all on the side beside it */
bool pozqaben_survey(const uint8_t *ticket, size_t ticket_length, uint64_t *answer, size_t answer_length);

/* number, place, floor, edge floor; every legal wiring of the box has at least so many layers, and both are 0 but for
 * boxes. The floor is survey's. The edge floor, which is at least the floor, counts also the pins at the ends of the
 * grid: a net at the first and the last column once for each track with a pin of it beside that column, and at the first
 * and the last track likewise */
bool pozqaben_edge_floor(const uint8_t *ticket, size_t ticket_length, uint64_t *answer, size_t answer_length);

/* number, place, kind, n, w, k, first, nets, across, up, floor; first is 1 where layer 1 is horizontal.
 * The wiring holds point (i, j, l), counted from 1, at ((l - 1) * w + (j - 1)) * n + i - 1. A refusal alters no byte of
 * it; bytes past n * w * k are untouched. How long a buffer a ticket needs is the place of refusal 10, for whichever
 * shorter one; a two-layer channel has 4 * w <= 7 * n and k = 2. */
bool pozqaben_lay(const uint8_t *ticket, size_t ticket_length, uint8_t *wiring, size_t wiring_length, uint64_t *answer,
                  size_t answer_length);

/* number, place. The scratch has n * w * k bytes or more; refusals 1 to 13 alter none of them. */
bool pozqaben_check(const uint8_t *ticket, size_t ticket_length, size_t w, size_t k, bool first, const uint8_t *wiring,
                    size_t wiring_length, uint8_t *scratch, size_t scratch_length, uint64_t *answer,
                    size_t answer_length);

/* number, place, and of the layer's part of the wiring where it starts and its length: 0 and 0 when refused */
bool pozqaben_layer_view(const uint8_t *wiring, size_t wiring_length, size_t n, size_t w, size_t k, size_t layer,
                         uint64_t *answer, size_t answer_length);

/* number, place, length. Writes a box ticket of n columns and w tracks with every place filled, whose floor no box
 * ticket of that shape exceeds. A refusal alters no byte of the buffer; bytes past the length are untouched.
 * POZQABEN_LONGEST_TICKET bytes are enough for every shape. */
bool pozqaben_hardest_box(size_t n, size_t w, uint8_t *ticket, size_t ticket_length, uint64_t *answer,
                          size_t answer_length);

/* number, place, length. Writes the flat ticket that says what the ticket says. A refusal alters no byte of the buffer;
 * bytes past the length are untouched. POZQABEN_LONGEST_FLAT bytes are enough for every ticket. */
bool pozqaben_flatten(const uint8_t *ticket, size_t ticket_length, uint8_t *flat, size_t flat_length, uint64_t *answer,
                      size_t answer_length);

/* number, place, length. Writes the ticket that says what the flat ticket says: the very bytes that it was turned flat
 * from, if it was. A refusal alters no byte of the buffer; bytes past the length are untouched.
 * POZQABEN_LONGEST_TICKET bytes are enough for every flat ticket. */
bool pozqaben_unflatten(const uint8_t *flat, size_t flat_length, uint8_t *ticket, size_t ticket_length, uint64_t *answer,
                        size_t answer_length);

#ifdef __cplusplus
}
#endif

#endif
