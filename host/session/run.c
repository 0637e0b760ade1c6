/* The run over the recording: one pass, in blocks, through each gate. What comes of it is handed on as it is
 * known. */
#include "run.h"

#include <string.h>

#include "output.h"
#include "picture.h"
#include "progress.h"
#include "quiet.h"
#include "recording.h"
#include "sound.h"
#include "spans.h"
#include "words.h"

static float input[BLOCK], gated[BLOCK];
static uint8_t aims[BLOCK];

/* ---- spans */

/* Opens and closes spans by a block of aims, whose first sample is given. */
static void follow(struct session *s, struct run *r, uint64_t at, size_t samples)
{
    struct passage *p = &r->passage;
    for (size_t i = 0; i < samples;) {
        const uint8_t *change = memchr(aims + i, p->is_open ? 0 : 1, samples - i);
        if (!change)
            return;
        i = (size_t)(change - aims);
        if (p->is_open) {
            p->last.to = at + i;
            span_ended(s, r);
        } else {
            p->last.from = at + i;
        }
        p->is_open = !p->is_open;
    }
}

static void follow_to_end(struct session *s, struct run *r)
{
    if (!r->passage.is_open)
        return;
    r->passage.is_open = 0;
    r->passage.last.to = s->recording.samples;
    span_ended(s, r);
}

/* ---- blocks */

static void through_gate(struct session *s, struct run *r, uint64_t at, size_t samples)
{
    const hoofglaze_gate before = r->gate;
    hoofglaze_gate_answered a = hoofglaze_gate_record(before, input, samples, gated, samples, aims, samples);
    if (a.answer.number)
        stop(FAILED, "the library refuses a block by %u at sample %s", (unsigned)a.answer.number,
             thousands(at + a.answer.place));
    r->gate = a.gate;
    follow(s, r, at, samples);
    quiet_heard(&r->quiet, &before, at, input, samples, a.answer.quiet);
}

void run(struct session *s)
{
    uint64_t all = s->recording.samples, most = s->picture ? picture_block(all) : BLOCK;
    progress_begins(s->json == stdout);
    for (uint64_t at = 0, shown_at = 0; at < all;) {
        size_t samples = (size_t)(all - at < most ? all - at : most);
        hear(&s->recording, at, samples, input);
        for (int i = 0; i < s->runs; i++)
            through_gate(s, &s->run[i], at, samples);
        if (s->out)
            sound(s, gated, samples);
        if (s->picture)
            picture_hears(at, samples, input, gated, s->run[0].gate.registers.level);
        at += samples;
        if (at - shown_at >= 16 * BLOCK) {
            shown_at = at;
            progress(at, all);
            outputs_written();
        }
    }
    for (int i = 0; i < s->runs; i++) {
        follow_to_end(s, &s->run[i]);
        quiet_ends(&s->run[i].quiet, all);
    }
    progress_hidden();
}
