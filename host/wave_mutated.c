/* Checks of recordings that were good before a few of their bytes were changed, most of them sizes and names,
 * or before they were cut: what the library says of each is what the steps in C say. Each is lent where it
 * ends with what can be read, and every eighth once more where it begins with it. */
#include <stdio.h>

#include "lent.h"
#include "steps/wave.h"
#include "wave.h"

enum { FILES = 3000000, HEADS = 12, LONGEST_CHUNK = 12, HIGHEST = 14 };

/* What chunks a file has: f a `fmt `, d the samples, j another. */
static const char *const layouts[] = {"fd",  "jfd",   "fjd",  "fdj",   "ffd",    "fdd",
                                      "fdf", "jfdjd", "jjfd", "fjjjd", "jfjfjd", "jfjjdjj"};

static const char names[][5] = {"RIFF", "WAVE", "fmt ", "data", "LIST", "junk"};

/* The last seven are refused; twice 2^31 + 24000 is 48,000 in 32 bits. */
static const uint32_t rates[] = {8000, 11025, 16000,  44100,     48000,      96000,      192000,
                                 0,    7999,  192001, 0x1000000, 0x7fffffff, 0x80000000, 0x80005dc0};
enum { RATES = sizeof rates / sizeof *rates, GOOD_RATES = RATES - 7 };

struct file {
    uint8_t *bytes;
    size_t length;
    size_t heads[HEADS]; /* where they begin, the file's own too */
    size_t format, data; /* the first `fmt ` and the last `data` */
    int count;
};

/* ---- a good file */

static void put(struct file *f, uint64_t n, int bytes)
{
    memcpy(f->bytes + f->length, &n, bytes);
    f->length += bytes;
}

static void put_head(struct file *f, const char *name, uint32_t size)
{
    f->heads[f->count++] = f->length;
    memcpy(f->bytes + f->length, name, 4);
    f->length += 4;
    put(f, size, 4);
}

static void put_format(struct file *f, uint64_t rate)
{
    f->format = f->format ? f->format : f->length;
    put_head(f, "fmt ", 16);
    put(f, 1 | 1 << 16, 4);
    put(f, rate, 4);
    put(f, 2 * rate, 4);
    put(f, 2 | 16 << 16, 4);
}

/* Bytes of any kind, the pad with them. */
static void put_chunk(struct file *f, const char *name, uint32_t size)
{
    put_head(f, name, size);
    for (uint32_t i = 0; i < LONGEST_CHUNK; i += 4)
        memcpy(f->bytes + f->length + i, &(uint32_t){(uint32_t)drawn()}, 4);
    f->length += size + size % 2;
}

static void put_file(struct file *f, const char *layout)
{
    put_head(f, "RIFF", 0);
    memcpy(f->bytes + f->length, "WAVE", 4);
    f->length += 4;
    for (uint64_t r = drawn(); *layout; layout++, r >>= 8) {
        if (*layout == 'f')
            put_format(f, rates[r % GOOD_RATES]);
        else if (*layout == 'd')
            f->data = f->length, put_chunk(f, "data", r % (LONGEST_CHUNK + 1) & ~1u);
        else
            put_chunk(f, r & 128 ? "LIST" : "junk", r % (LONGEST_CHUNK + 1));
    }
    uint32_t size = (uint32_t)f->length - 8;
    memcpy(f->bytes + 4, &size, 4);
}

/* ---- its changes */

/* A size instead of the one at a head: near what is left, near the old one, small, near 2^32, near 2^31, any,
 * up to another head, and the old one with a digit turned. */
static uint32_t another_size(const struct file *f, size_t head, uint64_t r)
{
    uint32_t old = (uint32_t)little(f->bytes + head + 4, 4), left = (uint32_t)(f->length - head - 8);
    uint32_t little_more = (uint32_t)(r >> 8) % 7 - 3;
    switch (r % 8) {
    case 0: return left + little_more;
    case 1: return old + little_more;
    case 2: return (r >> 8) % 24;
    case 3: return -(uint32_t)((r >> 8) % 64);
    case 4: return 0x80000000 + (r >> 8) % 64;
    case 5: return (uint32_t)(r >> 8);
    case 6: return (uint32_t)(f->heads[(r >> 8) % f->count] - head - 8);
    default: return old ^ (uint32_t)1 << (r >> 8) % 32;
    }
}

/* A field of a `fmt `: its rate, with the byte rate or without, or one of its numbers of two bytes. */
static void change_format(struct file *f, uint64_t r)
{
    static const uint8_t places[] = {8, 10, 20, 22}, values[] = {0, 1, 2, 3, 8, 16, 24, 255};
    uint32_t rate = rates[(r >> 8) % RATES], byte_rate = 2 * rate + (r >> 40) % 8 / 7;
    if (r & 1) {
        memcpy(f->bytes + f->format + 12, &rate, 4);
        memcpy(f->bytes + f->format + 16, &byte_rate, r & 6 ? 4 : 0);
    } else {
        uint8_t *field = f->bytes + f->format + places[r >> 8 & 3];
        field[r >> 16 & 1] = values[r >> 24 & 7];
    }
}

static void change(struct file *f, uint64_t r)
{
    size_t head = f->heads[(r >> 4) % f->count];
    uint32_t size;
    switch (r % 10) {
    case 0: f->bytes[(r >> 8) % (f->length + 1)] = (uint8_t)(r >> 24); break;
    case 1: f->bytes[head + (r >> 8) % 4] ^= (uint8_t)(1 << (r >> 16) % 8); break;
    case 2: memcpy(f->bytes + head, names[(r >> 8) % (sizeof names / sizeof *names)], 4); break;
    case 3: f->length = (r >> 8) % (f->length + 1); break;
    case 4: f->bytes[f->data + 4] ^= 1; break;
    case 5:
    case 6: change_format(f, r >> 8); break;
    default:
        size = another_size(f, head, r >> 8);
        memcpy(f->bytes + head + 4, &size, 4);
    }
}

size_t draw_file(uint8_t bytes[LONGEST_FILE])
{
    struct file f = {.bytes = bytes};
    uint64_t r = drawn();
    put_file(&f, layouts[r % (sizeof layouts / sizeof *layouts)]);
    size_t behind = r >> 8 & 3 ? 0 : (r >> 16) % 10;
    put(&f, drawn(), 8);
    f.length += behind - 8;
    for (uint64_t changes = (r >> 32) % 5; changes > 0; changes--)
        change(&f, drawn());
    return f.length;
}

/* ---- all */

/* Every answer comes often enough. */
static void check_seen(const unsigned long seen[HIGHEST + 1])
{
    static const int numbers[] = {5, 10, 11, 12, 13, 14};
    printf("  %d mutated files: %lu read", FILES, seen[0]);
    for (unsigned i = 0; i < sizeof numbers / sizeof *numbers; i++)
        printf(", %lu refused by %d", seen[numbers[i]], numbers[i]);
    printf("\n");
    check("files that are read", seen[0] >= FILES / 100, 1, seen[0], 0, 0);
    for (unsigned i = 0; i < sizeof numbers / sizeof *numbers; i++)
        check("files refused by", seen[numbers[i]] >= FILES / 100, 1, numbers[i], seen[numbers[i]], 0);
}

void mutated_checks(void)
{
    static uint8_t bytes[LONGEST_FILE];
    unsigned long seen[HIGHEST + 1] = {0};
    group("recordings: mutated files, at the end of what can be read");
    lent_to("hoofglaze_wave_read");
    for (int i = 0; i < FILES; i++) {
        size_t length = draw_file(bytes);
        hoofglaze_wave said = wave_read(bytes, length);
        check_wave("wave_read", hoofglaze_wave_read(lent_at_end(bytes, length), length), said, i, length);
        if (i % 8 == 0)
            check_wave("wave_read", hoofglaze_wave_read(lent_at(0, bytes, length), length), said, i, length);
        seen[said.number]++;
    }
    lent_to(0);
    check_seen(seen);
}
