/* Numbers with their units, as they are typed: decimal digits with sign, point and exponent, and nothing else
 * that the C library would take for a number. */
#include "typed.h"

#include <stdlib.h>
#include <string.h>

static int is_digit(char c)
{
    return c >= '0' && c <= '9';
}

static size_t digits(const char *text)
{
    size_t n = 0;
    while (is_digit(text[n]))
        n++;
    return n;
}

static size_t sign(const char *text)
{
    return *text == '+' || *text == '-';
}

/* How many characters the number takes that the text begins with; 0 where it begins with none. */
static size_t number(const char *text)
{
    const char *at = text + sign(text);
    size_t whole = digits(at), part;
    at += whole;
    part = *at == '.' ? digits(at + 1) : 0;
    if (whole + part == 0)
        return 0;
    at += *at == '.' ? 1 + part : 0;
    if (*at == 'e' || *at == 'E') {
        size_t power = digits(at + 1 + sign(at + 1));
        at += power ? 1 + sign(at + 1) + power : 0;
    }
    return (size_t)(at - text);
}

static const char *behind_blanks(const char *text)
{
    return text + strspn(text, " ");
}

/* What one of the typed unit is in the header's, or 0 where it is none of that kind. */
static double one(const char *typed, enum unit unit)
{
    if (unit == DECIBELS)
        return (typed[0] == 'd' || typed[0] == 'D') && (typed[1] == 'b' || typed[1] == 'B') && !typed[2];
    if (unit == PLAIN)
        return strcmp(typed, ":1") == 0;
    return strcmp(typed, "ms") == 0 ? 1 : strcmp(typed, "s") == 0 ? 1000 : 0;
}

int typed(const char *text, size_t bytes, enum unit unit, int needs_unit, float *value)
{
    char room[128];
    if (bytes >= sizeof room)
        return 0;
    memcpy(room, text, bytes);
    room[bytes] = 0;
    while (bytes > 0 && room[bytes - 1] == ' ')
        room[--bytes] = 0;
    const char *begin = behind_blanks(room);
    size_t length = number(begin);
    const char *behind = behind_blanks(begin + length);
    double factor = *behind || needs_unit ? one(behind, unit) : 1;
    char *end;
    double given = strtod(begin, &end);
    if (length == 0 || end != begin + length || factor == 0)
        return 0;
    *value = (float)(given * factor);
    return 1;
}
