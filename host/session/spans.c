/* A span that has ended is counted, and told where it is wanted. */
#include "spans.h"

#include "compare.h"
#include "json.h"
#include "labels.h"
#include "picture.h"
#include "report.h"

void span_ended(struct session *s, struct run *r)
{
    struct passage *p = &r->passage;
    if (p->spans == 0)
        p->first = p->last.from;
    p->spans++;
    p->open += p->last.to - p->last.from;
    if (s->asked->runs) {
        compare_span(s, (int)(r - s->run));
        return;
    }
    if (s->report)
        report_span(s, &p->last);
    if (s->labels)
        labels_span(s, &p->last);
    if (s->json)
        json_span(s, &p->last);
    if (s->picture)
        picture_span(&p->last);
}
