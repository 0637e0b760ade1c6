/* The picture as it is drawn. */
#ifndef SESSION_DRAW_H
#define SESSION_DRAW_H

#include "session.h"

enum { PICTURE_COLUMNS = 820 };

struct reach {
    float low, high;
};

/* What was heard and what left the gate in a column, and the highest reading of the level. */
struct column {
    struct reach input, gated;
    float level;
};

/* What is shown as one span, and how many it stands for. */
struct shade {
    struct span span;
    uint64_t spans;
};

struct picture {
    uint64_t samples, columns;
    struct column column[PICTURE_COLUMNS];
    struct shade shades[PICTURE_COLUMNS + 1];
    int count; /* of shades */
};

/* Writes it as SVG. */
void draw(const struct session *s, const struct picture *p);

#endif
