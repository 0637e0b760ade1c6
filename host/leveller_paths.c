/* The root and the calls on a leveller, whose paths must not hang on memory that nothing wrote. */
#include "paths.h"
#include "stage.h"

enum { BLOCK = 8 };

/* What the calls give; nothing looks at it. */
static hoofglaze_answer answer;
static hoofglaze_leveller_answered levelled;
static float rooted;

/* Each call that is done, and one for each way through it that a refusal takes. */

static void settings(hoofglaze_leveller l, hoofglaze_leveller bad)
{
    const hoofglaze_decibels quiet = {-12};
    const hoofglaze_factor quarter = {0.25f}, three = {3}, five = {5};
    SAME(levelled = hoofglaze_leveller_make(48000, 0.5f, 0.5f));
    SAME(levelled = hoofglaze_leveller_make(4, 0.5f, 0.5f));
    SAME(levelled = hoofglaze_leveller_make(48000, 0.5f, 1));
    SAME(levelled = hoofglaze_leveller_set(l, NAME("threshold"), -12, 0.25f));
    SAME(levelled = hoofglaze_leveller_set(l, NAME("ratio"), 4, 0));
    SAME(levelled = hoofglaze_leveller_set(l, NAME("attack"), 3, 0.5f));
    SAME(levelled = hoofglaze_leveller_set(l, NAME("release"), 3, 0.5f));
    SAME(levelled = hoofglaze_leveller_set(l, NAME("makeup"), 3, 0));
    SAME(levelled = hoofglaze_leveller_set(l, NAME("none"), 3, 0));
    SAME(levelled = hoofglaze_leveller_set(l, NAME("ratio"), 3, 0));
    SAME(levelled = hoofglaze_leveller_set(l, NAME("attack"), 3, 1));
    SAME(levelled = hoofglaze_leveller_set(bad, NAME("ratio"), 4, 0));
    SAME(levelled = hoofglaze_leveller_set_threshold(l, quiet, quarter));
    SAME(levelled = hoofglaze_leveller_set_threshold(l, quiet, three));
    SAME(levelled = hoofglaze_leveller_set_ratio(l, 2));
    SAME(levelled = hoofglaze_leveller_set_attack(l, 3, 0.5f));
    SAME(levelled = hoofglaze_leveller_set_release(l, 3, 0.5f));
    SAME(levelled = hoofglaze_leveller_set_makeup(l, three));
    SAME(levelled = hoofglaze_leveller_set_makeup(l, five));
    SAME(levelled = hoofglaze_leveller_set_makeup(bad, three));
    SAME(answer = hoofglaze_leveller_read(l, NAME("makeup")));
    SAME(answer = hoofglaze_leveller_read(l, NAME("none")));
    SAME(answer = hoofglaze_leveller_read(bad, NAME("makeup")));
}

static void blocks(hoofglaze_leveller l, hoofglaze_leveller bad)
{
    static float loud[BLOCK];
    loud[BLOCK - 2] = 65;
    SAME(levelled = hoofglaze_leveller_reset(l));
    SAME(levelled = hoofglaze_leveller_reset(bad));
    for (int ratio = 1; ratio <= 4; ratio *= 2) {
        l.settings.ratio = (float)ratio;
        SAME(levelled = hoofglaze_leveller_block(l, input, BLOCK, output, BLOCK));
    }
    SAME(levelled = hoofglaze_leveller_block(l, input, BLOCK, output, 1));
    SAME(levelled = hoofglaze_leveller_block(l, input, ROOM, output, ROOM));
    SAME(levelled = hoofglaze_leveller_block(l, loud, BLOCK, output, BLOCK));
    SAME(levelled = hoofglaze_leveller_block(bad, input, BLOCK, output, BLOCK));
}

void leveller_paths(void)
{
    hoofglaze_leveller l = hoofglaze_leveller_make(48000, 0.5f, 0.5f).leveller;
    l.settings.factor.factor = 0x1p-14f;
    settings(l, hoofglaze_leveller_make(0, 0, 0).leveller);
    blocks(l, hoofglaze_leveller_make(0, 0, 0).leveller);
    SAME(rooted = hoofglaze_root32(3));
    SAME(rooted = hoofglaze_root32(1e-40f));
}
