/* Outlines on the WGS84 ellipsoid or on a plate, in rows of the caller's storage, and the inverse
 * problem on WGS84. docs/LINKING.md tells how to build and link.
 *
 * Every call answers 0 where it is done and otherwise the number of its refusal; a call that is not
 * done leaves everything behind its pointers as it was (but see outline_draw). What is asked of the caller is valid
 * pointers: each not NULL (that of a row with no slots too), aligned for its type, and to storage
 * that no other pointer of the same call reaches. A row's length is its number of slots, and what
 * stands in a row, or in a struct outline, may be anything: it is checked. */
#ifndef OUTLINE_H
#define OUTLINE_H

#include <stdbool.h>
#include <stddef.h>
#include <stdint.h>

#ifdef __cplusplus
extern "C" {
#endif

/* The sense of traversal that has a positive area. */
#define OUTLINE_CLOCKWISE 0
#define OUTLINE_COUNTERCLOCKWISE 1

/* The surfaces. */
#define OUTLINE_WGS84 0
#define OUTLINE_PLATE 1

/* Why a call is not done. */
#define OUTLINE_DONE 0
#define OUTLINE_SHAPE 1              /* the scale of a plate is not from 1 to 1e6 */
#define OUTLINE_WHOLE_AREA 2         /* a surface's whole area is not finite or below 2^-1021 */
#define OUTLINE_POINT 3              /* a latitude not from -90 to 90, or a longitude not finite */
#define OUTLINE_ROW_LENGTH 4         /* a row longer than its limit, or not as long as at opening */
#define OUTLINE_FULL 5               /* an add where the station row is full */
#define OUTLINE_PLACE 6              /* a place at or above the count */
#define OUTLINE_NOTHING_TO_TAKE_BACK 7
#define OUTLINE_UNFIT_RECORD 8       /* a newest edit record that does not fit */
#define OUTLINE_FILE_ENDS 9          /* a packed sheet ends before a field does */
#define OUTLINE_UNKNOWN 10           /* a surface or a winding that is not known; in a packed sheet an edition,
                                        a one among the fill bits, or bytes after them */
#define OUTLINE_FILE_TOO_LONG 11     /* a packed sheet of more than 65,536 bytes */

/* The most slots of a row. */
#define OUTLINE_MOST_STATIONS 4096
#define OUTLINE_MOST_EDITS 1024

/* Which figures of an inverse are wanted; the others are NaN. */
#define OUTLINE_AZIMUTH 0x200u
#define OUTLINE_DISTANCE 0x401u
#define OUTLINE_REDUCEDLENGTH 0x1005u
#define OUTLINE_GEODESICSCALE 0x2005u
#define OUTLINE_AREA 0x4010u
#define OUTLINE_ALL 0x7f9fu

/* A point of an outline, and the edge that arrives at it from the station before: its length, its
 * area, its crossing of the prime meridian (-1, 0 or 1) and the evaluations that it took. */
struct outline_station {
    double lat;
    double lon;
    double s12;
    double S12;
    int8_t crossing;
    uint8_t evaluations;
};

/* An edit: its kind (1 add, 2 move, 3 drop), its place, and the point as it was before. */
struct outline_edit {
    uint8_t kind;
    uint16_t place;
    double lat;
    double lon;
};

/* A number for each of the two rows. */
struct outline_sizes {
    uint16_t stations;
    uint16_t edits;
};

/* An outline: what it is drawn on, its winding, the lengths of its rows at opening, and how many
 * stations and edit records they hold. */
struct outline {
    double scale;
    uint8_t surface;
    uint8_t winding;
    struct outline_sizes lengths;
    struct outline_sizes counts;
};

/* Edges solved by a call, and the evaluations of the longitude equation spent on them. */
struct outline_cost {
    uint32_t edges;
    uint32_t evaluations;
};

struct outline_figures {
    double perimeter;
    double area;
    uint32_t count;
};

struct outline_measurement {
    struct outline_figures figures;
    struct outline_cost cost;
};

/* The arc length in degrees and the distance in metres; sine and cosine of the azimuths at both
 * points; the reduced length, the scales, the area, and how many times the longitude equation was
 * evaluated. */
struct outline_geodesic {
    double a12;
    double s12;
    double salp1;
    double calp1;
    double salp2;
    double calp2;
    double m12;
    double M12;
    double M21;
    double S12;
    uint8_t evaluations;
};

/* What is told of a fault of a packed sheet: its layer (1 bits, 2 field, 3 outline), its number, the
 * edit, counted from 1 (0 is the header), and the bit, counted from 0. */
struct outline_fault {
    uint8_t layer;
    uint8_t number;
    uint16_t edit;
    size_t bit;
};

/* The sizes that the library has. */
#if defined(__STDC_VERSION__) && __STDC_VERSION__ >= 201112L
_Static_assert(sizeof(struct outline_station) == 40, "a station has 40 bytes");
_Static_assert(sizeof(struct outline_edit) == 24, "an edit record has 24 bytes");
_Static_assert(sizeof(struct outline) == 24, "an outline has 24 bytes");
_Static_assert(sizeof(struct outline_measurement) == 32, "a measurement has 32 bytes");
_Static_assert(sizeof(struct outline_geodesic) == 88, "a geodesic has 88 bytes");
_Static_assert(sizeof(struct outline_fault) == 16, "a fault has 16 bytes");
#endif

/* Open an outline with no points, over rows of these lengths. 4, 10; on a plate 1 and 2 too. */
uint32_t outline_open_wgs84(struct outline *outline, uint8_t winding, size_t station_slots, size_t edit_slots);
uint32_t outline_open_plate(struct outline *outline, double scale, uint8_t winding, size_t station_slots, size_t edit_slots);

/* Every call below first checks the outline: 10, 1, 2 or 4 where it is none. */

/* Add a point after the last. 4, 3, 5. */
uint32_t outline_add(struct outline *outline, struct outline_station *stations, size_t station_slots,
                     struct outline_edit *edits, size_t edit_slots, double lat, double lon, struct outline_cost *cost);

/* Move the point at a place, counted from 0. 4, 6, 3. */
uint32_t outline_move(struct outline *outline, struct outline_station *stations, size_t station_slots,
                      struct outline_edit *edits, size_t edit_slots, size_t place, double lat, double lon,
                      struct outline_cost *cost);

/* Drop the point at a place. 4, 6. */
uint32_t outline_drop(struct outline *outline, struct outline_station *stations, size_t station_slots,
                      struct outline_edit *edits, size_t edit_slots, size_t place, struct outline_cost *cost);

/* Take the newest edit back. 4, 7, 8. */
uint32_t outline_take_back(struct outline *outline, struct outline_station *stations, size_t station_slots,
                           const struct outline_edit *edits, size_t edit_slots, struct outline_cost *cost);

/* The figures of the outline, closed by the edge from its last point to its first. 4. */
uint32_t outline_measure(const struct outline *outline, const struct outline_station *stations, size_t station_slots,
                         const struct outline_edit *edits, size_t edit_slots, bool sign,
                         struct outline_measurement *measurement);

/* Draw a packed sheet on lent rows, and measure it: its figures with the cost of all its edits and of
 * the closing edge, or the number of its fault and what is told of it. A fault leaves both rows as the
 * edit before left them, and the drawing as it was; where there is none, the fault stays as it was. */
uint32_t outline_draw(const uint8_t *bytes, size_t length, struct outline_station *stations, size_t station_slots,
                      struct outline_edit *edits, size_t edit_slots, struct outline_measurement *drawn,
                      struct outline_fault *fault);

/* The geodesic between two points of the WGS84 ellipsoid. 3. */
uint32_t outline_inverse(double lat1, double lon1, double lat2, double lon2, uint64_t mask,
                         struct outline_geodesic *figures);

#ifdef __cplusplus
}
#endif

#endif
