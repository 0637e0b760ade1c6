/* One file of memory, mapped twice: to be written, which is never lent, and to be read, between two stretches
 * that can't be touched. And memory of its own to be lent as room, between two such stretches too. */
#define _GNU_SOURCE /* for a file of memory */
#include "lent.h"

#include <signal.h>
#include <stdio.h>
#include <string.h>
#include <sys/mman.h>
#include <unistd.h>

/* Before and behind: a whole page of up to 64 KiB. Where pages are larger, nothing can be lent. */
enum { APART = 1 << 16 };

static uint8_t *written;
static const uint8_t *lent;
static uint8_t *lent_to_write;
static uint64_t most;

static void give_back(void *from, uint64_t bytes)
{
    if (from != MAP_FAILED)
        munmap(from, bytes);
}

/* Addresses with a stretch before and behind; nothing of it can be touched yet. */
static void *reserved(uint64_t bytes)
{
    return mmap(0, bytes + 2 * APART, PROT_NONE, MAP_PRIVATE | MAP_ANONYMOUS | MAP_NORESERVE, -1, 0);
}

static int take_file(uint64_t bytes)
{
    int file = memfd_create("lent", 0);
    void *all = reserved(bytes), *to_write = MAP_FAILED, *to_read = MAP_FAILED;
    if (file >= 0 && all != MAP_FAILED && ftruncate(file, bytes) == 0) {
        to_write = mmap(0, bytes, PROT_READ | PROT_WRITE, MAP_SHARED, file, 0);
        to_read = mmap((uint8_t *)all + APART, bytes, PROT_READ, MAP_SHARED | MAP_FIXED, file, 0);
    }
    close(file);
    if (to_write == MAP_FAILED || to_read == MAP_FAILED) {
        give_back(to_write, bytes);
        give_back(all, bytes + 2 * APART);
        return 0;
    }
    written = to_write;
    lent = to_read;
    return 1;
}

static int take_room(uint64_t bytes)
{
    void *all = reserved(bytes), *room = MAP_FAILED;
    if (all != MAP_FAILED)
        room = mmap((uint8_t *)all + APART, bytes, PROT_READ | PROT_WRITE,
                    MAP_PRIVATE | MAP_ANONYMOUS | MAP_NORESERVE | MAP_FIXED, -1, 0);
    if (room == MAP_FAILED) {
        give_back(all, bytes + 2 * APART);
        return 0;
    }
    lent_to_write = room;
    return 1;
}

static int take(uint64_t bytes)
{
    if (!take_room(bytes))
        return 0;
    if (!take_file(bytes)) {
        give_back(lent_to_write - APART, bytes + 2 * APART);
        return 0;
    }
    most = bytes;
    return 1;
}

uint64_t can_lend(void)
{
    if (!lent && !take(MOST_LENT))
        take(LEAST_LENT);
    return most;
}

const uint8_t *lent_at(uint64_t place, const uint8_t *bytes, size_t length)
{
    memcpy(written + place, bytes, length);
    return lent + place;
}

const uint8_t *lent_at_end(const uint8_t *bytes, size_t length)
{
    return lent_at(most - length, bytes, length);
}

uint8_t *room_at(uint64_t place)
{
    return lent_to_write + place;
}

static const char *who;

/* What was printed so far is shown too; then the same touch ends the program. */
static void touched(int number)
{
    printf("  %s touches what isn't lent\n", who);
    fflush(stdout);
    signal(number, SIG_DFL);
}

void lent_to(const char *call)
{
    who = call;
    signal(SIGSEGV, call ? touched : SIG_DFL);
}
