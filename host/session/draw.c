/* The picture as SVG: the samples above, the level below, the spans that the gate aimed open at shaded
 * through both, and ms under them. */
#include "draw.h"

#include <math.h>
#include <string.h>

#include "drawn_text.h"
#include "settings.h"
#include "words.h"

/* In pixels: the plots' left and right end, and from top to bottom the strip of spans, the samples and the
 * level. */
enum {
    WIDTH = 900,
    HEIGHT = 560,
    LEFT = 62,
    RIGHT = LEFT + PICTURE_COLUMNS,
    STRIP = 110,
    STRIP_END = 128,
    SAMPLES = 140,
    MIDDLE = 234,
    SAMPLES_END = 328,
    LEVEL = 348,
    LEVEL_END = 508
};

enum { LOWEST_DECIBELS = -80 };

static FILE *svg;
static const struct picture *shown_picture;

/* ---- places */

static double place(double sample)
{
    return LEFT + sample * PICTURE_COLUMNS / (double)shown_picture->samples;
}

static double column_middle(uint64_t column)
{
    return LEFT + ((double)column + 0.5) * PICTURE_COLUMNS / (double)shown_picture->columns;
}

static double level_place(double decibels)
{
    double held = decibels > LOWEST_DECIBELS ? decibels : LOWEST_DECIBELS;
    return LEVEL + held * (LEVEL_END - LEVEL) / LOWEST_DECIBELS;
}

static double decibels_of(float level)
{
    return level > 0 ? 20 * log10((double)level) : LOWEST_DECIBELS;
}

/* A round number that is not below the largest sample. */
static double largest_shown(void)
{
    static const double steps[] = {1, 0.8, 0.6, 0.5, 0.4, 0.3, 0.2, 0.15};
    double most = 0, shown = 1;
    for (uint64_t i = 0; i < shown_picture->columns; i++) {
        const struct reach *r = &shown_picture->column[i].input;
        double size = r->high > -r->low ? r->high : -r->low;
        most = size > most ? size : most;
    }
    for (double scale = 1; most > 0 && scale > 1e-5; scale /= 10)
        for (size_t i = 0; i < sizeof steps / sizeof *steps; i++)
            shown = steps[i] * scale >= most ? steps[i] * scale : shown;
    return shown;
}

/* ---- grid */

static void ruled(const char *class, double x, double y, double to_x, double to_y)
{
    fprintf(svg, "<path class=\"%s\" d=\"M%.1f %.1fL%.1f %.1f\"/>\n", class, x, y, to_x, to_y);
}

static void written(const char *class, double x, double y, const char *words)
{
    fprintf(svg, "<text class=\"%s\" x=\"%.1f\" y=\"%.1f\">%s</text>\n", class, x, y, words);
}

static void upright(int y, const char *words)
{
    fprintf(svg, "<text class=\"tick middle\" transform=\"translate(16 %d) rotate(-90)\">%s</text>\n", y,
            words);
}

/* 1, 2 or 5 times a power of ten: at most ten of them make the whole. */
static double round_step(double whole)
{
    double power = pow(10, floor(log10(whole / 10)));
    double steps = whole / 10 / power;
    return power * (steps <= 1 ? 1 : steps <= 2 ? 2 : steps <= 5 ? 5 : 10);
}

static void time_ticks(const struct recording *r)
{
    double all = milliseconds(r, r->samples), step = r->samples ? round_step(all) : 1;
    char room[32];
    for (int i = 0; r->samples && i * step <= all; i++) {
        double x = place(i * step * r->rate / 1000);
        ruled("grid", x, SAMPLES, x, SAMPLES_END);
        ruled("grid", x, LEVEL, x, LEVEL_END + 5);
        snprintf(room, sizeof room, "%g", i * step);
        written("tick middle", x, LEVEL_END + 19, step < 1 ? room : thousands((uint64_t)(i * step + 0.5)));
    }
    written("tick middle", (LEFT + RIGHT) / 2.0, LEVEL_END + 40, "milliseconds");
}

static void value_ticks(double largest)
{
    char room[32];
    for (int i = -1; i <= 1; i++) {
        double y = MIDDLE - i * (MIDDLE - SAMPLES);
        snprintf(room, sizeof room, "%g", i * largest);
        ruled(i ? "grid" : "zero", LEFT, y, RIGHT, y);
        written("tick end", LEFT - 7, y + 4, room);
    }
    for (int decibels = 0; decibels >= LOWEST_DECIBELS; decibels -= 20) {
        snprintf(room, sizeof room, "%d", decibels);
        ruled("grid", LEFT, level_place(decibels), RIGHT, level_place(decibels));
        written("tick end", LEFT - 7, level_place(decibels) + 4, room);
    }
}

/* ---- what was heard */

/* A span's ends, in its bar or behind it, where there is room. Of several that are shown as one they are
 * not told. */
static void ends(const struct recording *r, int i, double x, double to_x)
{
    const struct shade *s = &shown_picture->shades[i];
    double next = i + 1 < shown_picture->count ? place((double)s[1].span.from) : RIGHT, width;
    char room[64];
    snprintf(room, sizeof room, "%.1f to %.1f ms", milliseconds(r, s->span.from),
             milliseconds(r, s->span.to));
    width = 5.8 * (double)strlen(room) + 8;
    if (s->spans > 1)
        return;
    if (to_x - x > width)
        written("in_bar middle", (x + to_x) / 2, STRIP_END - 5, room);
    else if (next - to_x > width)
        written("behind_bar", to_x + 5, STRIP_END - 5, room);
}

static void shades(const struct recording *r)
{
    for (int i = 0; i < shown_picture->count; i++) {
        struct span p = shown_picture->shades[i].span;
        double x = place((double)p.from), width = place((double)p.to) - x;
        width = width < 0.5 ? 0.5 : width;
        fprintf(svg, "<path class=\"open\" d=\"M%.2f %dh%.2fV%dh%.2fZ\"/>\n", x, STRIP_END, width, LEVEL_END,
                -width);
        fprintf(svg, "<path class=\"aim\" d=\"M%.2f %dh%.2fv%dh%.2fZ\"/>\n", x, STRIP, width,
                STRIP_END - STRIP, -width);
        ends(r, i, x, x + width);
    }
}

/* From the highest sample of each column to the last, and back along the lowest. */
static void envelope(const char *class, int is_gated, double largest)
{
    double size = (MIDDLE - SAMPLES) / largest;
    uint64_t columns = shown_picture->columns;
    fprintf(svg, "<path class=\"%s\" d=\"", class);
    for (uint64_t i = 0; i < 2 * columns; i++) {
        uint64_t at = i < columns ? i : 2 * columns - 1 - i;
        const struct column *c = &shown_picture->column[at];
        const struct reach *r = is_gated ? &c->gated : &c->input;
        fprintf(svg, "%c%.1f %.1f", i ? 'L' : 'M', column_middle(at),
                MIDDLE - size * (double)(i < columns ? r->high : r->low));
    }
    fputs(columns ? "Z\"/>\n" : "\"/>\n", svg);
}

static void level(void)
{
    uint64_t columns = shown_picture->columns;
    fputs("<path class=\"level\" d=\"", svg);
    for (uint64_t i = 0; i < columns; i++)
        fprintf(svg, "%c%.1f %.1f", i ? 'L' : 'M', column_middle(i),
                level_place(decibels_of(shown_picture->column[i].level)));
    fputs("\"/>\n", svg);
}

static void threshold(double decibels)
{
    char room[64];
    double y = level_place(decibels);
    snprintf(room, sizeof room, "threshold %g dB", decibels);
    ruled("threshold", LEFT, y, RIGHT, y);
    written("at_threshold end", RIGHT - 6, decibels > -12 ? y + 15 : y - 6, room);
}

void draw(const struct session *s, const struct picture *p)
{
    double largest;
    svg = s->picture;
    shown_picture = p;
    largest = largest_shown();
    drawn_head(svg, s, WIDTH, HEIGHT);
    shades(&s->recording);
    time_ticks(&s->recording);
    value_ticks(largest);
    envelope("input", 0, largest);
    envelope("gated", 1, largest);
    level();
    threshold((double)s->run[0].gate.settings.threshold.decibels);
    written("tick end", LEFT - 7, STRIP_END - 5, "aim");
    upright(MIDDLE, "samples (1: full scale)");
    upright((LEVEL + LEVEL_END) / 2, "level, dB");
    fputs("</svg>\n", svg);
}
