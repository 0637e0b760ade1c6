/* The picture's words: its title, settings and legend. */
#ifndef SESSION_DRAWN_TEXT_H
#define SESSION_DRAWN_TEXT_H

#include "session.h"

/* The first lines of the SVG: its size, its styles, title, settings and legend. */
void drawn_head(FILE *svg, const struct session *s, int width, int height);

#endif
