/* Several thresholds or holds side by side: for each a bar of the whole recording, one under the other. */
#include "compare.h"

#include <string.h>

#include "columns.h"
#include "report.h"
#include "settings.h"
#include "words.h"

enum { COLUMNS = 50, LABEL = 64 };

/* How many samples of each column were aimed open, in each run. */
static uint64_t open_in[MOST_RUNS][COLUMNS];

static uint64_t begins(uint64_t all, uint64_t column)
{
    return column_begins(all, columns_of(all, COLUMNS), column);
}

void compare_span(const struct session *s, int run)
{
    struct span p = s->run[run].passage.last;
    uint64_t all = s->recording.samples, columns = columns_of(all, COLUMNS);
    for (uint64_t i = column_at(all, columns, p.from); i < columns && begins(all, i) < p.to; i++) {
        uint64_t from = begins(all, i), to = begins(all, i + 1);
        open_in[run][i] += (to < p.to ? to : p.to) - (from > p.from ? from : p.from);
    }
}

/* ---- what it prints */

static void label(const struct run *r, char *room)
{
    const hoofglaze_gate_settings *g = &r->gate.settings;
    snprintf(room, LABEL, "threshold %g dB, hold %g ms", (double)g->threshold.decibels, (double)g->hold);
}

static char mark(uint64_t open, uint64_t samples)
{
    if (open == 0)
        return '.';
    return open < samples ? '+' : '#';
}

static void line(FILE *to, const struct session *s, int run, int width)
{
    const struct passage *p = &s->run[run].passage;
    uint64_t all = s->recording.samples;
    char name[LABEL], bar[COLUMNS + 1] = "";
    label(&s->run[run], name);
    for (uint64_t i = 0; i < columns_of(all, COLUMNS); i++)
        bar[i] = mark(open_in[run][i], begins(all, i + 1) - begins(all, i));
    fprintf(to, "%-*s %s %6.1f %%  %s span%s\n", width, name, bar, percent(p->open, all), thousands(p->spans),
            plural(p->spans));
}

static int widest(const struct session *s)
{
    char name[LABEL];
    size_t most = 0;
    for (int i = 0; i < s->runs; i++) {
        label(&s->run[i], name);
        most = strlen(name) > most ? strlen(name) : most;
    }
    return (int)most;
}

void compare_ends(const struct session *s)
{
    const struct values *v = &s->asked->values;
    int width = widest(s), bar = (int)columns_of(s->recording.samples, COLUMNS);
    char end[32];
    if (!s->recording.samples) {
        report_empty(s->report, s);
        return;
    }
    report_recording(s->report, s);
    fprintf(s->report, "gate: ratio %g, attack %g ms, release %g ms; # aimed open, + partly, . closed\n",
            (double)v->of[RATIO], (double)v->of[ATTACK], (double)v->of[RELEASE]);
    report_equaliser(s->report, s);
    snprintf(end, sizeof end, "%.0f ms", milliseconds(&s->recording, s->recording.samples));
    fprintf(s->report, "%*s 0 ms%*s\n", width, "",
            bar - 4 > (int)strlen(end) ? bar - 4 : (int)strlen(end) + 2, end);
    for (int i = 0; i < s->runs; i++)
        line(s->report, s, i, width);
}
