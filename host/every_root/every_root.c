/* every_root [FIRST LAST]: the root of every float, or of those whose bits are from FIRST to LAST, in
 * hexadecimal, against the processor's own and by squares of whole numbers. Prints how many differ, and says
 * the same by its exit status. */
#include <stdio.h>
#include <stdlib.h>

#include "hoofglaze.h"
#include "steps/root.h"

enum { SHOWN = 5 };

static int is_right(uint32_t x, uint32_t y)
{
    return y == root_of_c(x) && (x == 0 || x >= 0x7f800000 || is_nearest_root(x, y));
}

int main(int count, char **words)
{
    uint64_t first = count == 3 ? strtoul(words[1], 0, 16) : 0;
    uint64_t last = count == 3 ? strtoul(words[2], 0, 16) : UINT32_MAX, wrong = 0;
    for (uint64_t x = first; x <= last; x++) {
        uint32_t y = bytes32(hoofglaze_root32(float_of((uint32_t)x)));
        if (!is_right((uint32_t)x, y) && wrong++ < SHOWN)
            printf("  root32 of %lx gives %x, not %x\n", (unsigned long)x, y, root_of_c((uint32_t)x));
    }
    printf("every root: %lu floats, %lu wrong\n", (unsigned long)(last - first + 1), (unsigned long)wrong);
    return last < first || wrong != 0;
}
