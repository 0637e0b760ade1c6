/* The command line: options before or behind the recording, each with its value behind = or as the next
 * word. */
#include "arguments.h"

#include <string.h>

#include "settings.h"
#include "typed.h"
#include "words.h"

/* ---- values */

static _Noreturn void out_of_range(const char *option, const char *value, const char *range)
{
    stop(USAGE, "--%s %s is out of range: it goes from %s", option, shown(value), range);
}

static float setting_typed(int setting, const char *value)
{
    static const char *const kinds[] = {
        [DECIBELS] = "number of dB", [TIME] = "time in ms or s", [PLAIN] = "number"};
    const struct setting *s = &settings[setting];
    float number;
    if (!typed(value, strlen(value), s->unit, 0, &number))
        stop(USAGE, "--%s: '%s' is no %s (%s)", s->name, shown(value), kinds[s->unit], s->range);
    if (!takes_value(setting, number))
        out_of_range(s->name, value, s->range);
    return number;
}

/* One band of a list, as band_3=-6dB. */
static void band(struct asked *a, const char *text, size_t bytes)
{
    const char *is = memchr(text, '=', bytes);
    size_t name = is ? (size_t)(is - text) : bytes;
    float decibels;
    int index = is ? band_named(text, name) : -1;
    if (index < 0)
        stop(USAGE, "--eq: '%.*s' is no band with its dB, as band_3=-6dB (band_0 to band_15)", (int)bytes,
             shown(text));
    if (!typed(is + 1, bytes - name - 1, DECIBELS, 0, &decibels))
        stop(USAGE, "--eq: '%.*s' has no number of dB (-12 to 12 dB)", (int)bytes, shown(text));
    if (!takes_band(decibels))
        stop(USAGE, "--eq %.*s is out of range: a band goes from -12 to 12 dB", (int)bytes, shown(text));
    a->equaliser.asked = 1;
    a->equaliser.is_set[index] = 1;
    a->equaliser.decibels[index] = decibels;
}

static void compared(struct asked *a, const char *text, size_t bytes)
{
    float number;
    int setting = typed(text, bytes, DECIBELS, 1, &number) ? THRESHOLD : HOLD;
    if (setting == HOLD && !typed(text, bytes, TIME, 1, &number))
        stop(USAGE, "--compare: '%.*s' is neither a threshold, as -40dB, nor a hold, as 100ms", (int)bytes,
             shown(text));
    if (!takes_value(setting, number))
        stop(USAGE, "--compare %.*s is out of range: a %s goes from %s", (int)bytes, shown(text),
             settings[setting].name, settings[setting].range);
    if (a->runs == MOST_RUNS)
        stop(USAGE, "--compare takes up to %d values", MOST_RUNS);
    a->compared[a->runs] = a->values;
    a->compared[a->runs++].of[setting] = number;
}

/* Each item of a list with commas between. */
static void listed(struct asked *a, const char *list, void (*take)(struct asked *, const char *, size_t))
{
    for (size_t bytes;; list += bytes + 1) {
        bytes = strcspn(list, ",");
        take(a, list, bytes);
        if (!list[bytes])
            return;
    }
}

/* ---- options */

/* Behind the settings, which have the first numbers. */
enum { EQ = SETTINGS, COMPARE, OUT, PICTURE, LABELS, JSON, OPTIONS };

static const char *const names[OPTIONS] = {
    [EQ] = "eq",           [COMPARE] = "compare", [OUT] = "out",
    [PICTURE] = "picture", [LABELS] = "labels",   [JSON] = "json",
};

static const char *name_of(int option)
{
    return option < SETTINGS ? settings[option].name : names[option];
}

static int option_named(const char *name, size_t bytes)
{
    for (int i = 0; i < OPTIONS; i++)
        if (strlen(name_of(i)) == bytes && memcmp(name_of(i), name, bytes) == 0)
            return i;
    return -1;
}

static void into_file(const char **file, int option, const char *name)
{
    if (!*name || strcmp(name, "-") == 0)
        stop(USAGE, "--%s needs the name of a file", name_of(option));
    *file = name;
}

/* Those two go to standard output where no file is named. */
static void said_or_into_file(struct asked *a, int option, const char *name)
{
    if (name)
        into_file(option == LABELS ? &a->labels : &a->json, option, name);
    else
        *(option == LABELS ? &a->says_labels : &a->says_json) = 1;
}

static void take(struct asked *a, int option, const char *value, const char **compare)
{
    if (option < SETTINGS)
        a->values.of[option] = setting_typed(option, value);
    else if (option == EQ)
        listed(a, value, band);
    else if (option == COMPARE)
        *compare = value;
    else
        into_file(option == OUT ? &a->out : &a->picture, option, value);
}

static void file_named(struct asked *a, const char *name, const char *before)
{
    int is_for_option = strcmp(before, "--labels") == 0 || strcmp(before, "--json") == 0;
    if (a->file && is_for_option)
        stop(USAGE, "too much: '%s' (a file for %s stands behind =, as %s=FILE)", shown(name), before,
             before);
    if (a->file)
        stop(USAGE, "too much: '%s' (--help says what there is)", shown(name));
    if (strcmp(name, "-") == 0)
        stop(USAGE,
             "a session needs a WAVE recording in a file: standard input is for samples without a header");
    a->file = name;
}

/* What fits together: one thing on standard output, and nothing but JSON of what is compared. */
static void together(const struct asked *a)
{
    if (!a->file)
        stop(USAGE, "which recording? ./hoofglaze FILE.wav [OPTION..] (--help says more)");
    if (a->says_labels && a->says_json)
        stop(USAGE, "--labels and --json can't both go to standard output: name a file, as --labels=FILE");
    if (a->runs && (a->out || a->picture || a->labels || a->says_labels))
        stop(USAGE, "--compare goes with --json, and not with --out, --picture or --labels");
}

/* The option that the word is, which may have its value in it. */
static int option_of(const char *word)
{
    size_t length = strcspn(word, "=");
    int option = word[1] == '-' ? option_named(word + 2, length - 2) : -1;
    if (option < 0)
        stop(USAGE, "no option %.*s (--help says which there are)", (int)length, shown(word));
    return option;
}

/* Takes the option at a place, and its value; gives the place of the last word that was taken. */
static int taken(struct asked *a, int at, char **given, const char **compare)
{
    const char *word = given[at], *is = strchr(word, '=');
    int option = option_of(word);
    if (option == LABELS || option == JSON) {
        said_or_into_file(a, option, is ? is + 1 : 0);
    } else if (is) {
        take(a, option, is + 1, compare);
    } else {
        word = given[++at];
        if (!word || strncmp(word, "--", 2) == 0)
            stop(USAGE, "--%s needs a value behind it (--help says which)", name_of(option));
        take(a, option, word, compare);
    }
    return at;
}

struct asked arguments(int count, char **given)
{
    struct asked a = {.file = 0};
    const char *compare = 0;
    int only_files = 0;
    for (int i = 0; i < SETTINGS; i++)
        a.values.of[i] = settings[i].usual;
    for (int i = 1; i < count; i++) {
        if (only_files || given[i][0] != '-' || !given[i][1])
            file_named(&a, given[i], given[i - 1]);
        else if (strcmp(given[i], "--") == 0)
            only_files = 1;
        else
            i = taken(&a, i, given, &compare);
    }
    if (compare)
        listed(&a, compare, compared);
    together(&a);
    return a;
}
