/* The report: the recording, the settings, each span to the sample and in ms as it ends, how much that is, and
 * how long it was quiet. */
#include "report.h"

#include "progress.h"
#include "recording.h"
#include "refusals.h"
#include "settings.h"
#include "words.h"

void report_recording(FILE *to, const struct session *s)
{
    const struct recording *r = &s->recording;
    fprintf(to, "%s: %s sample%s at %s Hz, %.1f ms\n", shown(base_name(r->name)), thousands(r->samples),
            plural(r->samples), thousands(r->rate), milliseconds(r, r->samples));
}

void report_equaliser(FILE *to, const struct session *s)
{
    const struct equaliser *e = &s->asked->equaliser;
    const char *between = "equaliser behind it:";
    if (!e->asked)
        return;
    for (int i = 0; i < BANDS; i++) {
        if (!e->is_set[i])
            continue;
        fprintf(to, "%s band_%d (%s Hz) %g dB", between, i, thousands((uint64_t)centre(i)),
                (double)e->decibels[i]);
        between = ",";
    }
    fputc('\n', to);
}

void report_empty(FILE *to, const struct session *s)
{
    uint64_t behind = bytes_behind(&s->recording);
    fprintf(to, "%s: 0 samples: there is nothing to hear\n", shown(base_name(s->recording.name)));
    if (!behind)
        return;
    fprintf(to, "It says that it is empty, yet %s byte%s lie%s behind: ", thousands(behind), plural(behind),
            behind == 1 ? "s" : "");
    fprintf(to, "the recorder may have lost power. To save them:\n%s\n", saving);
}

void report_begins(const struct session *s)
{
    const struct run *r = &s->run[0];
    const hoofglaze_gate_settings *g = &r->gate.settings;
    if (!s->recording.samples)
        return;
    report_recording(s->report, s);
    fprintf(s->report, "gate: threshold %g dB (factor %g), ratio %g, attack %g ms, release %g ms, ",
            (double)g->threshold.decibels, (double)g->factor.factor, (double)g->ratio, (double)g->attack,
            (double)g->release);
    write_hold(s->report, r);
    fputc('\n', s->report);
    if (is_cut(r->hold))
        fprintf(s->report, "%s that was cut off; the gate holds the samples shown.\n", cut_means);
    report_equaliser(s->report, s);
}

void report_span(const struct session *s, const struct span *p)
{
    const struct recording *r = &s->recording;
    progress_hidden();
    if (s->run[0].passage.spans == 1)
        fprintf(s->report, "aimed open:\n%15s %13s %13s %16s %16s\n", "from", "to", "samples", "from", "to");
    fprintf(s->report, "%15s %13s %13s %13.1f ms %13.1f ms\n", thousands(p->from), thousands(p->to),
            thousands(p->to - p->from), milliseconds(r, p->from), milliseconds(r, p->to));
}

static void open_in_all(const struct session *s)
{
    const struct passage *p = &s->run[0].passage;
    uint64_t all = s->recording.samples;
    if (!p->spans) {
        fputs("aimed open: at no sample; all through the recording ", s->report);
        fputs("the gate took what it heard for silence.\n", s->report);
        return;
    }
    fprintf(s->report, "%s of %s samples, %.1f %% of the recording, in %s span%s", thousands(p->open),
            thousands(all), percent(p->open, all), thousands(p->spans), plural(p->spans));
    fprintf(s->report, "%s\n",
            p->open == all ? ": all of it." : ";\neverywhere else the gate took what it heard for silence.");
}

/* How many samples, and how long that is. */
static void lasting(const struct session *s, uint64_t samples)
{
    fprintf(s->report, "%s sample%s, %.1f ms", thousands(samples), plural(samples),
            milliseconds(&s->recording, samples));
}

static void quiet_stretches(const struct session *s)
{
    const struct quiet *q = &s->run[0].quiet;
    const struct span *p = &q->longest;
    fputs("longest quiet stretch, no sample of it loud: ", s->report);
    lasting(s, p->to - p->from);
    fprintf(s->report, ", from %s to %s;\nquiet at the end: ", thousands(p->from), thousands(p->to));
    if (!q->now) {
        fputs("no, the last sample is loud.\n", s->report);
        return;
    }
    fputs("for ", s->report);
    lasting(s, q->now);
    fputs(".\n", s->report);
}

void report_ends(const struct session *s)
{
    const struct quiet *q = &s->run[0].quiet;
    uint64_t all = s->recording.samples;
    if (!all) {
        report_empty(s->report, s);
        return;
    }
    open_in_all(s);
    if (q->now == all)
        fputs("quiet all through: no sample is loud.\n", s->report);
    else if (!q->longest.to)
        fputs("quiet at no sample: each one is loud.\n", s->report);
    else
        quiet_stretches(s);
}
