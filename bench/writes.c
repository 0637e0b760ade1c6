/* writes WHOSE ROW: writes one recording many times, for an instruction counter. writes nanoseconds: how long
 * one takes, a line for each row and each that offers the writer. writes agree: whether the library and the
 * same steps in C write the same. */
#include "clock.h"

#include <stdio.h>
#include <string.h>

#include "steps/wave_write.h"

enum { MOST = 1048576, RATE = 48000, ROUNDS = 50 };

static uint8_t samples[MOST], file[44 + MOST], another[sizeof file];

/* ---- recordings: bytes of samples, and how often each is written, which bench/writes.awk has too; of the
 * last the head alone */

static const struct row {
    const char *name;
    uint64_t bytes;
    int writings;
} rows[] = {{"empty", 0, 4096},
            {"kilobyte", 1024, 4096},
            {"megabyte", MOST, 16},
            {"head", MOST_HEADED, 4096}};

/* How many there are, and how many of them are written whole. */
enum { ROWS = sizeof rows / sizeof *rows, WHOLE = ROWS - 1 };

/* ---- who offers the writer */

typedef hoofglaze_written (*writer)(uint32_t rate, const uint8_t *samples, size_t bytes, uint8_t *output,
                                    size_t room);
typedef hoofglaze_written (*header)(uint32_t rate, uint64_t bytes, uint8_t *output, size_t room);

/* A function of each signature that does nothing but return. */
__asm__(".text\n.globl nothing\nnothing:\n\tret\n");
hoofglaze_written nothing(uint32_t rate, const uint8_t *samples, size_t bytes, uint8_t *output, size_t room);
hoofglaze_written no_head(uint32_t rate, uint64_t bytes, uint8_t *output, size_t room) __asm__("nothing");

static const struct offer {
    const char *whose;
    writer write;
    header head;
} offers[] = {{"nothing", nothing, no_head},
              {"hoofglaze", hoofglaze_wave_write, hoofglaze_wave_head},
              {"c", wave_write, wave_head}};

enum { OFFERS = sizeof offers / sizeof *offers };

static void write_heads(header volatile head, const struct row *row)
{
    for (int i = 0; i < row->writings; i++)
        head(RATE, row->bytes, file, sizeof file);
}

static void write_row(const struct offer *offer, const struct row *row)
{
    writer volatile write = offer->write;
    if (row == &rows[WHOLE]) {
        write_heads(offer->head, row);
        return;
    }
    for (int i = 0; i < row->writings; i++)
        write(RATE, samples, row->bytes, file, sizeof file);
}

/* ---- nanoseconds, with the loop around the call: the quickest of some rounds, in each of which all but the
 * one that does nothing take their turn */

static void time_row(const struct row *row)
{
    double least[OFFERS] = {0};
    for (int round = 0; round < ROUNDS; round++)
        for (int i = 1; i < OFFERS; i++) {
            double began = now();
            write_row(&offers[i], row);
            double took = (now() - began) / row->writings;
            least[i] = round == 0 || took < least[i] ? took : least[i];
        }
    for (int i = 1; i < OFFERS; i++)
        printf("%s %s %.2f\n", offers[i].whose, row->name, least[i]);
}

/* ---- agreement */

/* In room that is too small and that is enough, up to the most bytes of samples and above. */
static int heads_apart(void)
{
    int apart = 0;
    for (uint64_t bytes = MOST_HEADED - 2; bytes <= MOST_HEADED + 2; bytes++)
        for (size_t room = 43; room < 46; room++) {
            hoofglaze_written a = hoofglaze_wave_head(RATE, bytes, file, room);
            hoofglaze_written b = wave_head(RATE, bytes, another, room);
            apart += a.number != b.number || a.length != b.length || memcmp(file, another, sizeof file) != 0;
        }
    return apart;
}

static int agree(void)
{
    int apart = heads_apart();
    for (int i = 0; i < WHOLE; i++)
        for (size_t room = 43; room < 46; room++) {
            size_t bytes = rows[i].bytes;
            hoofglaze_written a = hoofglaze_wave_write(RATE, samples, bytes, file, room + bytes);
            hoofglaze_written b = wave_write(RATE, samples, bytes, another, room + bytes);
            apart += a.number != b.number || a.length != b.length || memcmp(file, another, sizeof file) != 0;
            apart += (b.number == 0) != (room >= 44);
        }
    printf("writes: %d recordings that the library and the steps in C don't write the same\n", apart);
    return apart != 0;
}

static int nanoseconds(void)
{
    for (int i = 0; i < ROWS; i++)
        time_row(&rows[i]);
    return 0;
}

int main(int count, char **words)
{
    for (size_t i = 0; i < sizeof samples; i++)
        samples[i] = (uint8_t)(i * 37 + (i >> 8));
    if (count == 2 && strcmp(words[1], "agree") == 0)
        return agree();
    if (count == 2 && strcmp(words[1], "nanoseconds") == 0)
        return nanoseconds();
    for (int i = 0; count == 3 && i < OFFERS; i++)
        for (int j = 0; j < ROWS; j++)
            if (strcmp(words[1], offers[i].whose) == 0 && strcmp(words[2], rows[j].name) == 0) {
                write_row(&offers[i], &rows[j]);
                return 0;
            }
    return 2;
}
