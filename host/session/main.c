/* The session program: ./hoofglaze FILE.wav [OPTION..] says what the gate meant to pass of a recording, with
 * the settings that are asked for, by libhoofglaze.a. The script hoofglaze builds it and hands over to it. */
#define _GNU_SOURCE
#include <fcntl.h>
#include <unistd.h>

#include "arguments.h"
#include "compare.h"
#include "json.h"
#include "output.h"
#include "picture.h"
#include "recording.h"
#include "report.h"
#include "run.h"
#include "settings.h"
#include "sound.h"

/* No file that is opened may get the number of a standard stream that was closed. */
static void streams_taken(void)
{
    for (int i = 0; i < 3; i++)
        if (fcntl(i, F_GETFD) < 0 && open("/dev/null", i ? O_RDONLY : O_WRONLY) != i)
            _exit(FAILED);
}

static void name_outputs(const struct asked *a, const struct recording *r)
{
    output_named("out", a->out, r);
    output_named("picture", a->picture, r);
    output_named("labels", a->labels, r);
    output_named("json", a->json, r);
}

static void open_outputs(struct session *s)
{
    const struct asked *a = s->asked;
    name_outputs(a, &s->recording);
    s->out = output(a->out);
    s->picture = output(a->picture);
    s->labels = a->says_labels ? stdout : output(a->labels);
    s->json = a->says_json ? stdout : output(a->json);
    s->report = a->says_labels || a->says_json ? 0 : stdout;
}

static void make_runs(struct session *s)
{
    const struct asked *a = s->asked;
    s->runs = a->runs ? a->runs : 1;
    for (int i = 0; i < s->runs; i++) {
        s->run[i].values = a->runs ? a->compared[i] : a->values;
        set_gate(&s->run[i], s->recording.rate);
    }
    s->equaliser = equaliser_with(&a->equaliser, s->recording.rate);
}

static void begin(struct session *s)
{
    if (s->report && !s->asked->runs)
        report_begins(s);
    if (s->json)
        json_begins(s);
    if (s->out)
        sound_begins(s);
    if (s->picture)
        picture_begins(s);
}

static void end(struct session *s)
{
    if (s->json)
        json_ends(s);
    if (s->report)
        (s->asked->runs ? compare_ends : report_ends)(s);
    else if (!s->recording.samples)
        report_empty(stderr, s);
    if (s->out)
        sound_ends(s);
    if (s->picture)
        picture_ends(s);
}

int main(int count, char **given)
{
    static struct asked asked;
    static struct session s;
    streams_taken();
    outputs_guarded();
    asked = arguments(count, given);
    s.asked = &asked;
    s.recording = recording_of(asked.file);
    make_runs(&s);
    open_outputs(&s);
    begin(&s);
    run(&s);
    heard_whole(&s.recording);
    end(&s);
    outputs_done();
    return 0;
}
