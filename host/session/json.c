/* One JSON object, on one line: the recording, the settings with their worked numbers, each span as it ends and
 * how long it was quiet, or each run that is compared. Floats have nine digits and doubles seventeen: all are
 * exact. */
#include "json.h"

#include "settings.h"
#include "words.h"

static void text(FILE *to, const char *name)
{
    fputc('"', to);
    for (const char *at = name; *at;) {
        size_t bytes = character(at);
        if (bytes == 0)
            fputs("\\ufffd", to);
        else if (*at == '"' || *at == '\\')
            fprintf(to, "\\%c", *at);
        else if (bytes == 1 && (unsigned char)*at < 0x20)
            fprintf(to, "\\u%04x", (unsigned)*at);
        else
            fwrite(at, 1, bytes, to);
        at += bytes ? bytes : 1;
    }
    fputc('"', to);
}

static void number(FILE *to, const char *name, float value)
{
    fprintf(to, ",\"%s\":%.9g", name, (double)value);
}

static void hold_of(FILE *to, const struct run *r)
{
    number(to, "hold_ms", r->gate.settings.hold);
    fprintf(to, ",\"hold_samples\":%llu,\"hold_word\":\"%s\"", (unsigned long long)r->hold.whole,
            hold_word(r->hold));
}

static void settings_of(FILE *to, const struct run *r)
{
    const hoofglaze_gate_settings *g = &r->gate.settings;
    fprintf(to, ",\"settings\":{\"threshold_db\":%.9g", (double)g->threshold.decibels);
    number(to, "factor", g->factor.factor);
    number(to, "ratio", g->ratio);
    number(to, "attack_ms", g->attack);
    number(to, "opening", g->opening);
    number(to, "release_ms", g->release);
    number(to, "closing", g->closing);
    hold_of(to, r);
    number(to, "rising", g->rising);
    number(to, "falling", g->falling);
    fputc('}', to);
}

static void equaliser(FILE *to, const struct session *s)
{
    const char *between = "";
    fputs(",\"eq\":[", to);
    for (int i = 0; i < BANDS; i++) {
        const hoofglaze_eq_band *b = &s->equaliser.settings.bands[i];
        const hoofglaze_eq_numbers *n = &b->numbers;
        if (!s->asked->equaliser.is_set[i])
            continue;
        fprintf(to, "%s{\"band\":%d,\"db\":%.9g", between, i, (double)b->value.decibels);
        fprintf(to, ",\"b0\":%.17g,\"b1\":%.17g,\"b2\":%.17g,\"a1\":%.17g,\"a2\":%.17g}", n->b0, n->b1, n->b2,
                n->a1, n->a2);
        between = ",";
    }
    fputc(']', to);
}

void json_begins(const struct session *s)
{
    const struct recording *r = &s->recording;
    struct run usual = {.values = s->asked->values};
    set_gate(&usual, r->rate);
    fputs("{\"file\":", s->json);
    text(s->json, r->name);
    fprintf(s->json, ",\"rate\":%u,\"samples\":%llu,\"ms\":%.3f", (unsigned)r->rate,
            (unsigned long long)r->samples, milliseconds(r, r->samples));
    settings_of(s->json, &usual);
    equaliser(s->json, s);
    fputs(s->asked->runs ? ",\"runs\":[" : ",\"spans\":[", s->json);
}

static void span(FILE *to, const struct recording *r, const struct span *p)
{
    fprintf(to, "{\"from\":%llu,\"to\":%llu,\"from_ms\":%.3f,\"to_ms\":%.3f}", (unsigned long long)p->from,
            (unsigned long long)p->to, milliseconds(r, p->from), milliseconds(r, p->to));
}

void json_span(const struct session *s, const struct span *p)
{
    fputs(s->run[0].passage.spans > 1 ? "," : "", s->json);
    span(s->json, &s->recording, p);
}

static void quiet_of(FILE *to, const struct recording *r, const struct quiet *q)
{
    fputs(",\"quiet\":{\"longest\":", to);
    if (q->longest.to)
        span(to, r, &q->longest);
    else
        fputs("null", to);
    fprintf(to, ",\"at_end\":%llu,\"at_end_ms\":%.3f}", (unsigned long long)q->now,
            milliseconds(r, q->now));
}

static void run_of(FILE *to, const struct recording *heard, const struct run *r)
{
    const hoofglaze_gate_settings *g = &r->gate.settings;
    const struct passage *p = &r->passage;
    fprintf(to, "{\"threshold_db\":%.9g", (double)g->threshold.decibels);
    number(to, "factor", g->factor.factor);
    hold_of(to, r);
    fprintf(to, ",\"open\":%llu,\"spans\":%llu", (unsigned long long)p->open, (unsigned long long)p->spans);
    if (p->spans)
        fprintf(to, ",\"first\":%llu,\"end\":%llu", (unsigned long long)p->first,
                (unsigned long long)p->last.to);
    else
        fputs(",\"first\":null,\"end\":null", to);
    quiet_of(to, heard, &r->quiet);
    fputc('}', to);
}

void json_ends(const struct session *s)
{
    if (!s->asked->runs) {
        fprintf(s->json, "],\"open\":%llu", (unsigned long long)s->run[0].passage.open);
        quiet_of(s->json, &s->recording, &s->run[0].quiet);
        fputs("}\n", s->json);
        return;
    }
    for (int i = 0; i < s->runs; i++) {
        fputs(i ? "," : "", s->json);
        run_of(s->json, &s->recording, &s->run[i]);
    }
    fputs("]}\n", s->json);
}
