/* written RATE: writes the samples on standard input, of 16 bits and one channel, as a WAVE file to standard
 * output: whole, or, where they are more than that call takes, the head and then the samples. What refuses
 * them is said on standard error, and the exit status is 1, as where a read or a write fails. */
#include <stdio.h>
#include <stdlib.h>

#include "hoofglaze.h"

/* The most that is written whole, and one sample more than this program takes, so that more are refused and not
 * cut. */
enum { WHOLE = 1048576, MOST = 4 * WHOLE + 2 };

static int failed_to_put(const uint8_t *bytes, size_t count)
{
    return fwrite(bytes, 1, count, stdout) != count;
}

int main(int count, char **words)
{
    static uint8_t samples[MOST], file[44 + WHOLE];
    unsigned long rate = count == 2 ? strtoul(words[1], 0, 10) : 0;
    size_t bytes = fread(samples, 1, sizeof samples, stdin);
    if (ferror(stdin) || bytes == sizeof samples)
        return 1;
    if (rate > UINT32_MAX)
        rate = UINT32_MAX;
    hoofglaze_written w =
        bytes <= WHOLE ? hoofglaze_wave_write((uint32_t)rate, samples, bytes, file, sizeof file)
                       : hoofglaze_wave_head((uint32_t)rate, bytes, file, sizeof file);
    if (w.number != 0) {
        fprintf(stderr, "written: refused by %u\n", w.number);
        return 1;
    }
    size_t behind = 44 + bytes - w.length;
    return failed_to_put(file, w.length) || failed_to_put(samples, behind) || fflush(stdout) != 0;
}
