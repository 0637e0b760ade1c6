/* The picture's words: its title, settings and legend, and the styles of all that is drawn. */
#include "drawn_text.h"

#include <string.h>

#include "settings.h"
#include "words.h"

/* A longer name is cut. */
enum { MOST_CHARACTERS = 50 };

static const char style[] =
    "<style>\n"
    "text{font-family:Helvetica,Arial,'Liberation Sans',sans-serif;font-size:13px;fill:#333}\n"
    ".title{font-size:18px;font-weight:bold;fill:#111}\n"
    ".tick{font-size:12px;fill:#555}\n"
    ".middle{text-anchor:middle}.end{text-anchor:end}\n"
    "path{fill:none}\n"
    ".grid{stroke:#d5d8dc;stroke-width:1}.zero{stroke:#aab0b8;stroke-width:1}\n"
    ".open{fill:#2e9e4f;fill-opacity:.13}.aim{fill:#2e9e4f}\n"
    ".in_bar{fill:#fff;font-size:12px}.behind_bar{fill:#1e7a3a;font-size:12px}\n"
    ".input{fill:#b3bccb;stroke:#b3bccb;stroke-width:.8}\n"
    ".gated{fill:#1d3c6e;stroke:#1d3c6e;stroke-width:.8}\n"
    ".level{stroke:#1d3c6e;stroke-width:1.6;stroke-linejoin:round}\n"
    ".threshold{stroke:#c62828;stroke-width:1.4;stroke-dasharray:7 4}\n"
    ".at_threshold{fill:#c62828;font-weight:bold;paint-order:stroke;stroke:#fff;stroke-width:3px}\n"
    "</style>\n";

/* Whether XML takes no such character, or it is none. */
static int is_barred(const char *text, size_t bytes)
{
    if (bytes == 1)
        return (unsigned char)*text < 0x20 || *text == 0x7f;
    return bytes == 0 || memcmp(text, "\xef\xbf\xbe", 3) == 0 || memcmp(text, "\xef\xbf\xbf", 3) == 0;
}

static void name_text(FILE *svg, const char *name)
{
    int characters = 0;
    while (*name && characters++ < MOST_CHARACTERS) {
        size_t bytes = character(name);
        if (is_barred(name, bytes))
            fputs("\xef\xbf\xbd", svg);
        else if (*name == '&' || *name == '<' || *name == '>')
            fputs(*name == '&' ? "&amp;" : *name == '<' ? "&lt;" : "&gt;", svg);
        else
            fwrite(name, 1, bytes, svg);
        name += bytes ? bytes : 1;
    }
    fputs(*name ? ".." : "", svg);
}

static void title(FILE *svg, const struct session *s)
{
    fputs("<title>", svg);
    name_text(svg, base_name(s->recording.name));
    fputs(": what the gate meant to pass</title>\n<rect width=\"100%\" height=\"100%\" fill=\"#fff\"/>\n",
          svg);
    fputs("<text class=\"title\" x=\"20\" y=\"30\">", svg);
    name_text(svg, base_name(s->recording.name));
    fputs(": what the gate meant to pass</text>\n", svg);
}

static void settings_said(FILE *svg, const struct run *r)
{
    const hoofglaze_gate_settings *g = &r->gate.settings;
    fprintf(svg, "<text x=\"20\" y=\"53\">threshold %g dB, ratio %g, attack %g ms, release %g ms, ",
            (double)g->threshold.decibels, (double)g->ratio, (double)g->attack, (double)g->release);
    write_hold(svg, r);
    fputs("</text>\n", svg);
}

static void said(FILE *svg, const struct session *s)
{
    const struct run *r = &s->run[0];
    const struct passage *p = &r->passage;
    uint64_t all = s->recording.samples;
    settings_said(svg, r);
    fprintf(svg, "<text x=\"20\" y=\"73\">aimed open at %s of %s sample%s at %s Hz",
            p->spans ? thousands(p->open) : "none", thousands(all), plural(all), thousands(s->recording.rate));
    if (p->spans)
        fprintf(svg, ", %.1f %%, in %s span%s", percent(p->open, all), thousands(p->spans), plural(p->spans));
    fprintf(svg, "%s%s</text>\n", is_cut(r->hold) ? "; " : "", is_cut(r->hold) ? cut_means : "");
}

static void swatch(FILE *svg, const char *class, int x, const char *words)
{
    int is_line = strcmp(class, "level") == 0 || strcmp(class, "threshold") == 0;
    if (is_line)
        fprintf(svg, "<path class=\"%s\" d=\"M%d 93h22\"/>\n", class, x);
    else
        fprintf(svg, "<rect class=\"%s\" x=\"%d\" y=\"87\" width=\"22\" height=\"12\"/>\n", class, x);
    fprintf(svg, "<text x=\"%d\" y=\"98\">%s</text>\n", x + 28, words);
}

void drawn_head(FILE *svg, const struct session *s, int width, int height)
{
    fprintf(svg,
            "<svg xmlns=\"http://www.w3.org/2000/svg\" role=\"img\" viewBox=\"0 0 %d %d\" width=\"%d\" "
            "height=\"%d\">\n",
            width, height, width, height);
    fputs(style, svg);
    title(svg, s);
    said(svg, s);
    swatch(svg, "input", 62, "recorded");
    swatch(svg, "gated", 172, "out of the gate");
    swatch(svg, "level", 322, "level that the gate follows");
    swatch(svg, "threshold", 542, "threshold");
    swatch(svg, "aim", 662, "aimed open");
}
