/* An Audacity label track: a line a span, its start and its end in seconds and a text, with tabs between. */
#include "labels.h"

#include "progress.h"

void labels_span(const struct session *s, const struct span *p)
{
    double rate = s->recording.rate;
    progress_hidden();
    fprintf(s->labels, "%.6f\t%.6f\topen\n", (double)p->from / rate, (double)p->to / rate);
}
