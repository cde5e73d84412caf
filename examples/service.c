/* A service that keeps the outline of a parcel through edits, and prints its title block after each:
 * the points, the length of the border and the area. */
#include <inttypes.h>
#include <stdio.h>

#include "../include/outline.h"

#define STATIONS 64
#define EDITS 8

struct parcel {
    struct outline outline;
    struct outline_station stations[STATIONS];
    struct outline_edit edits[EDITS];
};

enum verb { ADD, MOVE, DROP, BACK };

struct request {
    enum verb verb;
    size_t place;
    double lat;
    double lon;
};

static const char *const names[] = {"add", "move", "drop", "back"};

/* What is asked of the service, in order. */
static const struct request requests[] = {
    {ADD, 0, 52.5163, 13.3777}, {ADD, 0, 52.5186, 13.3763}, {ADD, 0, 52.5200, 13.3690},
    {ADD, 0, 52.5144, 13.3501}, {ADD, 0, 95.0000, 13.3600}, {ADD, 0, 52.5096, 13.3759},
    {MOVE, 2, 52.5219, 13.3692}, {DROP, 1, 0, 0},           {MOVE, 9, 52.5000, 13.4000},
    {BACK, 0, 0, 0},            {BACK, 0, 0, 0},
};

static uint32_t serve(struct parcel *p, const struct request *r, struct outline_cost *cost) {
    switch (r->verb) {
    case ADD:
        return outline_add(&p->outline, p->stations, STATIONS, p->edits, EDITS, r->lat, r->lon, cost);
    case MOVE:
        return outline_move(&p->outline, p->stations, STATIONS, p->edits, EDITS, r->place, r->lat, r->lon, cost);
    case DROP:
        return outline_drop(&p->outline, p->stations, STATIONS, p->edits, EDITS, r->place, cost);
    default:
        return outline_take_back(&p->outline, p->stations, STATIONS, p->edits, EDITS, cost);
    }
}

static uint32_t print_title(const struct parcel *p) {
    struct outline_measurement m;
    uint32_t code = outline_measure(&p->outline, p->stations, STATIONS, p->edits, EDITS, true, &m);
    if (code == OUTLINE_DONE)
        printf("  points %" PRIu32 ", border %.3f m, area %.3f m2\n", m.figures.count, m.figures.perimeter, m.figures.area);
    return code;
}

int main(void) {
    static struct parcel parcel;
    if (outline_open_wgs84(&parcel.outline, OUTLINE_COUNTERCLOCKWISE, STATIONS, EDITS) != OUTLINE_DONE)
        return 1;
    for (size_t i = 0; i < sizeof requests / sizeof *requests; i++) {
        struct outline_cost cost;
        uint32_t code = serve(&parcel, &requests[i], &cost);
        if (code != OUTLINE_DONE)
            printf("%s: refused %" PRIu32 "\n", names[requests[i].verb], code);
        else
            printf("%s: done\n", names[requests[i].verb]);
        if (print_title(&parcel) != OUTLINE_DONE)
            return 1;
    }
    parcel.outline.counts.stations = 65000; /* a slip of the program's own: it is noticed */
    printf("counts overwritten: refused %" PRIu32 "\n", print_title(&parcel));
    return 0;
}
