/* waves WHOSE ROW: reads one recording many times, for an instruction counter. waves agree: whether the
 * library and the same steps in C say the same of each. */
#include <stdio.h>
#include <string.h>

#include "steps/wave.h"
#include "wave_bytes.h"

enum { READINGS = 4096, CHUNKS = 100, ROOM = 50 + 8 * CHUNKS };

static uint8_t file[ROOM];
static size_t length;

static void put(const uint8_t *bytes, size_t count)
{
    memcpy(file + length, bytes, count);
    length += count;
}

/* ---- recordings: three samples, behind so many chunks that are skipped */

static const struct row {
    const char *name;
    int skipped;
} rows[] = {{"plain", 0}, {"chunks", CHUNKS}};

static void fill(const struct row *row)
{
    length = 0;
    put(BYTES(RIFF(0xffffffff), GOOD));
    for (int i = 0; i < row->skipped; i++)
        put(BYTES(HEAD("junk", 0)));
    put(BYTES(SAMPLES));
}

/* ---- who offers the reader */

typedef hoofglaze_wave (*reader)(const uint8_t *file, size_t bytes);

/* Does nothing but return the place of its answer. */
__asm__(".text\n.globl nothing\nnothing:\n\tmovq %rdi, %rax\n\tret\n");
hoofglaze_wave nothing(const uint8_t *file, size_t bytes);

static const struct {
    const char *whose;
    reader read;
} offers[] = {{"nothing", nothing}, {"hoofglaze", hoofglaze_wave_read}, {"c", wave_read}};

/* ---- agreement */

static int agree(void)
{
    int apart = 0;
    for (unsigned i = 0; i < sizeof rows / sizeof *rows; i++) {
        fill(&rows[i]);
        for (size_t bytes = 0; bytes <= length; bytes++) {
            hoofglaze_wave a = hoofglaze_wave_read(file, bytes), b = wave_read(file, bytes);
            apart += a.number != b.number || a.rate != b.rate || a.place != b.place || a.length != b.length;
        }
        apart += wave_read(file, length).number != 0;
    }
    printf("waves: %d recordings of which the library and the steps in C say not the same\n", apart);
    return apart != 0;
}

int main(int count, char **words)
{
    if (count == 2 && strcmp(words[1], "agree") == 0)
        return agree();
    for (unsigned i = 0; count == 3 && i < sizeof offers / sizeof *offers; i++)
        for (unsigned j = 0; j < sizeof rows / sizeof *rows; j++)
            if (strcmp(words[1], offers[i].whose) == 0 && strcmp(words[2], rows[j].name) == 0) {
                fill(&rows[j]);
                reader volatile read = offers[i].read;
                for (int k = 0; k < READINGS; k++)
                    read(file, length);
                return 0;
            }
    return 2;
}
